"""An operator's node with its central system, without OCPI, and a charge point that repeats what is not answered."""
import asyncio
import json
import time
from collections.abc import Awaitable
from decimal import Decimal
from pathlib import Path
from typing import Any, TypeVar, cast

import aiohttp
from aiohttp import web

from ocpi_bridge.clock import Clock, moment_of
from ocpi_bridge.configuration import ChargePointSettings, ConnectorSettings, NodeSettings, OcppSettings
from ocpi_bridge.events import Events, Outcome, Packet
from ocpi_bridge.json_text import Members
from ocpi_bridge.metrics import Metrics
from ocpi_bridge.node.feeder import NodeEnded, OutcomeLost
from ocpi_bridge.node.revocable import RevocableFeeder
from ocpi_bridge.ocpi.objects import Objects
from ocpi_bridge.ocpp.central_system import CentralSystem
from ocpi_bridge.records import Body
from ocpi_bridge.state import State

from .running import PROGRAM, operator, provider

Result = TypeVar("Result")
OPERATOR = operator("BE/BEC", ["E1", "E2", "E3", "E4"])
# The second EVSE has a second connector.
EVSE = OPERATOR["site"]["locations"][0]["evses"][1]
EVSE["connectors"] += [{**EVSE["connectors"][0], "id": "B"}]
SETUP = json.dumps({"nodes": [OPERATOR, provider("NL/TNM")]})
TOKEN: Members = {
    "country_code": "NL", "party_id": "TNM", "uid": "AA01", "type": "RFID", "contract_id": "NL-TNM-000001",
    "issuer": "TNM", "valid": True, "whitelist": "ALWAYS", "last_updated": "2025-01-01T09:00:00Z"}
START: Members = {"evse_uid": "E1", "connector_id": "1", "location_id": "LOC1", "token": TOKEN}
# Seconds of real time in which anything that is awaited has to come.
COMES_WITHIN = 60.0


async def within(awaited: Awaitable[Result]) -> Result:
    return await asyncio.wait_for(awaited, COMES_WITHIN)


class Operating:
    """BE/BEC with the EVSEs E1 and E2 at charge point CP1, E3 at CP2, and E4 at none. A new start finds its files."""

    def __init__(self, folder: Path, program: Path = PROGRAM, factor: float = 1.0, max_kw: int = 100_000) -> None:
        self.max_kw = Decimal(max_kw)
        self.settings = NodeSettings(program, "BE/BEC", SETUP, folder / "node.db", None)
        self.folder = folder
        self.clock = Clock(factor)
        self.outcomes: list[Outcome] = []
        self.port = 0
        self.stops: tuple[int, str] | None = None

    async def begin(self) -> None:
        """Starts all parts, and listens where it listened before."""
        self.state = State(self.folder / "state.db")
        self.events = Events("BE/BEC", self.clock)
        self.metrics = Metrics()
        self.feeder = RevocableFeeder(self.settings, self.events, self.state, self.metrics)
        self.objects = Objects(self.state)
        connectors = [ConnectorSettings(uid, "1", self.max_kw, {2: "B"} if uid == "E2" else {})
                      for uid in ("E1", "E2", "E3")]
        charge_points = {"CP1": ChargePointSettings("CP1", "secret", {1: connectors[0], 2: connectors[1]}),
                         "CP2": ChargePointSettings("CP2", None, {1: connectors[2]})}
        self.central_system = CentralSystem(OcppSettings("127.0.0.1:0", charge_points), self.events,
                                            self.state, self.feeder, self.objects, self.metrics.count)
        for listener in (self.objects.note, self._keep, self.central_system.note):
            self.feeder.before_commit.append(listener)
        self.feeder.after_commit.append(self.central_system.act)
        opened = asyncio.Event()
        for action in (self.central_system.opened, opened.set):
            self.feeder.after_opening.append(action)
        self.task = asyncio.create_task(self.feeder.run())
        await within(opened.wait())
        self.runner = web.AppRunner(self.central_system.application())
        await self.runner.setup()
        site = web.TCPSite(self.runner, "127.0.0.1", self.port)
        await site.start()
        self.port = self.runner.addresses[0][1]

    def _keep(self, outcome: Outcome) -> None:
        """Keeps an outcome. Behind so many events that are no ticks, has the program stop at the next one."""
        self.outcomes.append(outcome)
        if self.stops is not None and self.stops[0] == sum(each.event["event"] != "tick" for each in self.outcomes):
            (self.folder / "node.db.stop").write_text(self.stops[1])
            self.stops = None

    async def kill(self) -> None:
        """Ends all where it stands: what is not in the state is gone."""
        await self.runner.cleanup()
        self.task.cancel()
        await asyncio.wait([self.task])
        self.state.close()

    async def deliver(self, kind: str, body: Members, request: int) -> Outcome:
        """Delivers a packet of NL/TNM, and again where no answer comes, as that node does."""
        while True:
            packet = Packet("NL/TNM", "BE/BEC", request, request, kind, cast(Body, body))
            try:
                return await within(self.feeder.feed(self.events.deliver(packet)))
            except (OutcomeLost, NodeEnded):
                await asyncio.sleep(0.05)

    async def command(self, kind: str, request: int, **body: object) -> None:
        """Delivers a command, which the node accepts. Its number is in its `response_url`."""
        outcome = await self.deliver(kind, {"response_url": f"https://node.invalid/NL/TNM/{request}", **body}, request)
        answer = outcome.answer_to("NL/TNM", request)
        assert answer is not None and answer.body["data"]["result"] == "ACCEPTED", outcome

    async def start(self, request: int, **other: object) -> None:
        """Delivers a START_SESSION, with a reference of its own."""
        members: Members = {**START, "authorization_reference": f"R{request}"}
        members.update(other)
        await self.command("start_session", request, **{name: value for name, value in members.items() if value})

    def results(self) -> list[tuple[str, str]]:
        """The number and the result of each command that ended, once each."""
        found = [(packet.request, packet.body["response_url"].rpartition("/")[2], packet.body["result"])
                 for outcome in self.outcomes for packet in outcome.sent("command_result")]
        return [(number, result) for _, number, result in dict.fromkeys(found)]

    def sessions(self) -> list[tuple[str, str, str]]:
        """EVSE, status and energy of each session, by their ids."""
        found = sorted(self.objects.newest("sessions"), key=lambda session: str(session["id"]))
        return [(session["evse_uid"], session["status"], str(session["kwh"])) for session in found]

    def bills(self) -> list[str]:
        """The energy of each bill."""
        return [str(record["total_energy"]) for record in self.objects.newest("cdrs")]

    def fed(self, name: str) -> list[Outcome]:
        """What became of the events of a name."""
        return [outcome for outcome in self.outcomes if outcome.event["event"] == name]


class Station:
    """A charge point. It answers what it is asked by `answers`, and repeats its calls until they are answered."""

    subprotocol = "ocpp1.6"

    def __init__(self, operating: Operating, name: str = "CP1") -> None:
        self.operating = operating
        self.name = name
        self.answers: dict[str, str] = {"UnlockConnector": "Unlocked", "TriggerMessage": "NotImplemented"}
        # What it tells of the transaction that it is asked about, and how often it was asked.
        self.transaction_status: Members = {"ongoingIndicator": True, "messagesInQueue": False}
        self.asked_about = 0
        self.asked: "asyncio.Queue[tuple[str, Members]]" = asyncio.Queue()
        self.connected = asyncio.Event()
        self._calls: dict[str, tuple[str, "asyncio.Future[list[Any]]"]] = {}
        self._task = asyncio.create_task(self._run())
        self._count = 0

    async def close(self) -> None:
        self._task.cancel()
        await asyncio.wait([self._task])

    async def _run(self) -> None:
        async with aiohttp.ClientSession(auth=aiohttp.BasicAuth(self.name, "secret")) as session:
            while True:
                try:
                    url = f"http://127.0.0.1:{self.operating.port}/ocpp/{self.name}"
                    async with session.ws_connect(url, protocols=(self.subprotocol,)) as self.socket:
                        self.connected.set()
                        for text, _ in self._calls.values():
                            await self.socket.send_str(text)
                        async for message in self.socket:
                            await self._take(json.loads(message.data))
                except (aiohttp.ClientError, OSError):
                    pass
                self.connected.clear()
                await asyncio.sleep(0.02)

    async def _take(self, frame: list[Any]) -> None:
        if frame[0] != 2:
            if frame[1] in self._calls:
                self._calls.pop(frame[1])[1].set_result(frame)
            return
        status = self.answers.get(frame[2], "Accepted")
        if frame[2] == "GetTransactionStatus":
            await self.socket.send_str(json.dumps([3, frame[1], self.transaction_status]))
            self.asked_about += 1
            return
        if frame[2] != "TriggerMessage":
            self.asked.put_nowait((frame[2], frame[3]))
        if status != "silent":
            await self.socket.send_str(json.dumps([3, frame[1], {"status": status}]))

    async def call(self, action: str, **payload: object) -> Members:
        """Makes a call, and gives what it is answered in the end."""
        self._count += 1
        identifier = f"{self.name}-{self._count}"
        answer = asyncio.get_running_loop().create_future()
        text = json.dumps([2, identifier, action, payload])
        self._calls[identifier] = text, answer
        if self.connected.is_set() and not self.socket.closed:
            await self.socket.send_str(text)
        frame: list[Any] = await within(answer)
        assert frame[0] == 3, frame
        return dict(frame[2])

    async def was_asked(self, action: str) -> Members:
        """The next call of the other side, which is of this action."""
        name, payload = await within(self.asked.get())
        assert name == action, (name, payload)
        return payload

    async def status(self, status: str, connector: int = 1) -> None:
        code = "OtherError" if status == "Faulted" else "NoError"
        assert await self.call("StatusNotification", connectorId=connector, errorCode=code, status=status) == {}

    async def begin(self, second: int = 0, id_tag: str = "AA01", connector: int = 1, meter: int = 1000) -> Members:
        """Tells of a transaction that began in a second of this minute."""
        return await self.call("StartTransaction", connectorId=connector, idTag=id_tag, meterStart=meter,
                               timestamp=moment(second))

    async def meter(self, transaction: int, value: str, second: int = 1, **other: str) -> None:
        """Tells a reading of a transaction."""
        assert await self.call("MeterValues", connectorId=1, transactionId=transaction, meterValue=[
            {"timestamp": moment(second), "sampledValue": [{"value": value, **other}]}]) == {}

    async def end(self, transaction: int, meter: int, second: int = 2) -> None:
        assert await self.call("StopTransaction", transactionId=transaction, meterStop=meter,
                               timestamp=moment(second)) == {}


BEGUN = time.time() - 60


def moment(second: int) -> str:
    """A moment of the minute before the tests began."""
    return moment_of(BEGUN + second)
