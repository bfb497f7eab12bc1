"""What tests of the OCPI client begin with: a client without a node, whose partner is a stand-in."""
import tempfile
import unittest
from collections.abc import Sequence
from pathlib import Path

from aiohttp import web
from typing import cast

from ocpi_bridge.clock import Clock
from ocpi_bridge.configuration import Configuration, NodeSettings, OcpiSettings, PartnerSettings
from ocpi_bridge.events import Events, Outcome, Packet
from ocpi_bridge.metrics import Metrics
from ocpi_bridge.ocpi.client import Client
from ocpi_bridge.ocpi.exchange import Exchange
from ocpi_bridge.ocpi.objects import Objects
from ocpi_bridge.ocpi.orders import Orders
from ocpi_bridge.ocpi.partners import Partners
from ocpi_bridge.ocpi.requests import Requests
from ocpi_bridge.ocpi.tariffs import Tariffs
from ocpi_bridge.records import Body, Event, Setup
from ocpi_bridge.state import State

from .ocpi_party import Answer, OcpiParty, Received, answered
from .running import Members, operator, provider

BRIDGE_URL = "http://127.0.0.1:8101"


def configuration(folder: Path, is_operator: bool, partner: PartnerSettings) -> Configuration:
    """The configuration of NL/TNM or of BE/BEC, with one partner."""
    node = operator("BE/BEC", ["E1"]) if is_operator else provider("NL/TNM")
    settings = NodeSettings(folder / "program", node["party"], "", folder / "node.db", None)
    loopback = "127.0.0.1:0"
    return Configuration(settings, folder / "bridge.db", OcpiSettings(loopback, BRIDGE_URL, "Business"), None, loopback,
                         (partner,), 1.0, node.get("site"), cast(Setup, {"nodes": [node]}))


def with_serial(data: object = None, status_code: int = 1000, serial: int = 41) -> Answer:
    """The answer of a partner whose node sends it as the packet of a serial."""
    async def give(received: Received) -> web.StreamResponse:
        return answered(data, status_code, {"X-Serial": str(serial)})
    return give


def fails(http_status: int) -> Answer:
    """An answer of an HTTP status that is no success."""
    async def give(received: Received) -> web.StreamResponse:
        return web.json_response({"status_code": 3000, "timestamp": "2025-01-01T10:00:00Z"}, status=http_status)
    return give


class ClientCase(unittest.IsolatedAsyncioTestCase):
    """A client and its partner. What the client hands on is kept in `delivered`."""

    is_operator = False
    kind = "node"
    clock_factor = 5.0

    async def asyncSetUp(self) -> None:
        folder = tempfile.TemporaryDirectory()
        self.addCleanup(folder.cleanup)
        self.party = OcpiParty(*(("NL/TNM", "EMSP") if self.is_operator else ("BE/BEC", "CPO")), "their-token")
        await self.party.start()
        self.addAsyncCleanup(self.party.close)
        settings = PartnerSettings(self.party.party, self.kind, "our-token", "their-token", self.party.versions_url)
        self.configuration = configuration(Path(folder.name), self.is_operator, settings)
        self.metrics = Metrics()
        self.delivered: list[Packet] = []
        self.faults: list[Exception] = []
        self.begin()

    def begin(self) -> None:
        """Makes a client, as a bridge does that starts over the same state."""
        self.state = State(self.configuration.state)
        clock = Clock(self.clock_factor)
        self.requests = Requests(self.state)
        events = Events(self.configuration.node.party, clock)
        self.orders = Orders(self.configuration, self.state, events, Objects(self.state), self.requests, self.feed)
        self.client = Client(
            self.configuration, self.state, Partners(self.configuration, self.state), Exchange(clock, self.metrics),
            self.requests, events, self.feed, self.orders, self.tariffs(clock))
        self.addAsyncCleanup(self.client.exchange.close)
        self.addCleanup(self.state.close)

    def tariffs(self, clock: Clock) -> Tariffs | None:
        """Those that the client names in bills."""
        return None

    async def feed(self, event: Event) -> Outcome:
        """Takes an event, or fails in the ways that are named in `faults`, one after the other."""
        if self.faults:
            raise self.faults.pop(0)
        self.delivered.append(Packet.of(event["packet"]))
        return Outcome(event, {"done": "stepped", "line": 1, "packets": 0}, ())

    async def carry(self, *packets: Packet) -> None:
        """Has the client send packets, one after the other, whatever comes of each."""
        for packet in packets:
            await self.client._send(packet)

    def packet(self, kind: str, request: int, body: Members, serial: int = 0) -> Packet:
        """A request of the node to the partner."""
        node = self.configuration.node.party
        return Packet(node, self.party.party, serial or request, request, kind, cast(Body, body))

    def asked(self, *modules: str) -> Sequence[Received]:
        """The requests that came, without those about versions and details where no module is named."""
        return [received for received in self.party.requests if received.path not in ("/versions", "/2.2.1")
                and (not modules or received.module in modules)]


def unlock(request: int) -> Members:
    """The body of an `unlock_connector`."""
    return {"response_url": f"https://node.invalid/NL/TNM/{request}", "location_id": "LOC1", "evse_uid": "E1",
            "connector_id": "1"}


def stop(request: int) -> Members:
    """The body of a `stop_session`."""
    return {"response_url": f"https://node.invalid/NL/TNM/{request}", "session_id": "S1"}
