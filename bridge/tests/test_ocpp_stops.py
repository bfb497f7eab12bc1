"""Charges with a stop of the node or of the bridge at each point of each of their lines."""
import asyncio
import sys
import tempfile
import unittest
from pathlib import Path

from .ocpp_cases import ROOM
from .ocpp_running import TOKEN, Operating, Station, moment, within
from .ocpp_station import ChargingStation, event, meter
from .running import PROGRAM

STOPPING = Path(__file__).parent / "stopping_node.py"
# A bridge that is started again remembers no packet of a line that it saw, so `begun` is as `silent` there.
POINTS = {"node": ("before", "silent", "begun", "after"), "bridge": ("before", "silent", "after")}


class Charge:
    """A charge by a command, by a token that is shown, or by one of which its provider is asked, at a charge point of
    either version of OCPP."""

    def __init__(self, folder: Path, way: str, station_of: type[Station]) -> None:
        program = folder / "program"
        program.write_text(f"#!/bin/sh\nOCPI_NODES='{PROGRAM}' exec '{sys.executable}' '{STOPPING}' \"$@\"\n")
        program.chmod(0o755)
        self.plan = folder / "node.db.stop"
        self.operating = Operating(folder, program)
        self.way, self.station_of = way, station_of

    async def run(self, number: int, point: str, stops: str) -> tuple[object, ...]:
        """Charges 2.5 kWh with a stop at a line. Gives the sessions, the bills' energies, and what else was asked."""
        await self.operating.begin()
        self.operating.stops = number - 1, f"{point} {stops}"
        tasks = [asyncio.create_task(work) for work in (self.stop_bridge(stops), self.answer_questions())]
        station = self.station_of(self.operating)
        try:
            await within(station.connected.wait())
            await self.operating.deliver("put_token", TOKEN | {
                "whitelist": "NEVER" if self.way == "question" else "ALWAYS"}, 1)
            if self.way == "command":
                await self.operating.start(2)
            await (self.tell(station) if isinstance(station, ChargingStation) else self.tell_in_16(station))
            await within(tasks[0])
            return self.operating.sessions(), self.operating.bills(), station.asked.qsize()
        finally:
            tasks[1].cancel()
            await station.close()
            await self.operating.kill()

    async def tell_in_16(self, station: Station) -> None:
        """Tells of the charge by OCPP 1.6: its start and its end twice."""
        if self.way == "command":
            await station.was_asked("RemoteStartTransaction")
        begun = await station.begin()
        assert begun["idTagInfo"]["status"] == "Accepted" and begun == await station.begin(), begun
        await station.meter(begun["transactionId"], "2000")
        for _ in range(2):
            await station.end(begun["transactionId"], 3500)

    async def tell(self, station: ChargingStation) -> None:
        """Likewise by OCPP 2.0.1."""
        asked = (await station.was_asked("RequestStartTransaction")) if self.way == "command" else {}
        shown = asked.get("idToken", {"idToken": "AA01", "type": "ISO14443"})
        started = event("Started", 0, "T", "Authorized", 0, "Charging", remote_start=asked.get("remoteStartId"),
                        evse={"id": 1, "connectorId": 1}, idToken=shown, meterValue=meter(1000, 0))
        for _ in range(2):
            assert await station.tell(started) == {"idTokenInfo": {"status": "Accepted"}}
        await station.tell(event("Updated", 1, "T", "MeterValuePeriodic", 1, meterValue=meter(2000, 1)))
        for _ in range(2):
            await station.tell(event("Ended", 2, "T", "EVDeparted", 2, meterValue=meter(3500, 2)))

    async def stop_bridge(self, stops: str) -> None:
        """Waits until the stop was there. Where the bridge is to stop, has it end where it stands, and begin again."""
        while self.operating.stops is not None or self.plan.exists():
            await asyncio.sleep(0.01)
        if stops == "bridge":
            await asyncio.sleep(0.05)
            await self.operating.kill()
            await self.operating.begin()

    async def answer_questions(self) -> None:
        """Answers each question about the token, under a new reference, as a provider does."""
        answered: set[int] = set()
        while True:
            for outcome in list(self.operating.outcomes):
                for question in outcome.sent("authorize"):
                    if question.request not in answered:
                        answered.add(question.request)
                        await self.operating.deliver("authorization", {
                            "status_code": 1000, "timestamp": moment(0), "data": {
                                "allowed": "ALLOWED", "token": TOKEN | {"whitelist": "NEVER"},
                                "authorization_reference": f"R{question.request}"}}, question.request)
            await asyncio.sleep(0.01)


class StopCase(unittest.IsolatedAsyncioTestCase):
    """Always there are one session and one bill, and the charge point was asked once to start."""

    station_of: type[Station] = Station

    async def each_stop(self, stops: str, way: str, lines: range) -> None:
        for number in lines:
            for point in POINTS[stops]:
                with self.subTest(number=number, point=point), tempfile.TemporaryDirectory(dir=ROOM) as folder:
                    charge = Charge(Path(folder), way, self.station_of)
                    self.assertEqual(([("E1", "COMPLETED", "2.5000")], ["2.5000"], 0),
                                     await charge.run(number, point, stops))


class CommandStopTest(StopCase):
    """A charge by a command: its start, `accepts`, `starts`, two `meter`, `stops`. The token is line 1."""

    async def test_a_stop_of_the_node(self) -> None:
        await self.each_stop("node", "command", range(2, 8))


class CommandBridgeStopTest(StopCase):
    """The same, where the bridge stops."""

    async def test_a_stop_of_the_bridge(self) -> None:
        await self.each_stop("bridge", "command", range(2, 8))


class SwipeStopTest(StopCase):
    """A charge by a token: `swipe`, and of one that is asked about its `authorization`. The rest is as above."""

    async def test_a_stop_of_the_node(self) -> None:
        await self.each_stop("node", "token", range(2, 4))
        await self.each_stop("node", "question", range(2, 5))


class SwipeBridgeStopTest(StopCase):
    """The same, where the bridge stops."""

    async def test_a_stop_of_the_bridge(self) -> None:
        await self.each_stop("bridge", "token", range(2, 4))
        await self.each_stop("bridge", "question", range(2, 5))


class StationCommandStopTest(CommandStopTest):
    """The same by OCPP 2.0.1."""

    station_of = ChargingStation


class StationCommandBridgeStopTest(CommandBridgeStopTest):
    station_of = ChargingStation


class StationSwipeStopTest(SwipeStopTest):
    station_of = ChargingStation


class StationSwipeBridgeStopTest(SwipeBridgeStopTest):
    station_of = ChargingStation
