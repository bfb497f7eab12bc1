"""The OCPI server before a real node, in one process: what its tests begin with."""
import asyncio
import json
import tempfile
import unittest
from collections.abc import Awaitable, Callable, Mapping, Sequence
from dataclasses import dataclass
from pathlib import Path
from typing import cast

import aiohttp
from aiohttp.test_utils import TestServer
from yarl import URL

from ocpi_bridge.clock import Clock
from ocpi_bridge.configuration import Configuration, NodeSettings, OcpiSettings, PartnerSettings
from ocpi_bridge.events import Events, Outcome
from ocpi_bridge.json_text import write_json
from ocpi_bridge.metrics import Metrics
from ocpi_bridge.node.revocable import RevocableFeeder
from ocpi_bridge.ocpi.credentials import Credentials
from ocpi_bridge.ocpi.envelope import authorization
from ocpi_bridge.ocpi.exchange import Exchange
from ocpi_bridge.ocpi.interfaces import Interfaces
from ocpi_bridge.ocpi.locations import Locations
from ocpi_bridge.ocpi.objects import Objects
from ocpi_bridge.ocpi.orders import Orders
from ocpi_bridge.ocpi.partners import Partners
from ocpi_bridge.ocpi.places import Places
from ocpi_bridge.ocpi.receiving import Receiving
from ocpi_bridge.ocpi.requests import Requests
from ocpi_bridge.ocpi.server import Server
from ocpi_bridge.records import Body, Event, Setup
from ocpi_bridge.state import State

from .running import PROGRAM, Members, operator, provider

URL_OF_BRIDGE = "https://bridge.example"
WITHIN = 20.0


@dataclass(frozen=True)
class Answer:
    """A response: HTTP status, headers and the members of the body."""

    status: int
    headers: Mapping[str, str]
    body: Members

    @property
    def told(self) -> tuple[int, int]:
        """The HTTP status and OCPI's."""
        return self.status, self.body["status_code"]


class ServerCase(unittest.IsolatedAsyncioTestCase):
    """A node with a partner of each kind, which present the tokens `node` and `ocpi`, and one that is to register."""

    party = "BE/BEC"
    node_partner = "NL/TNM"
    ocpi_partner = "DE/EVC"
    takes_orders = True
    prices: Sequence[Members] = ()

    async def asyncSetUp(self) -> None:
        folder = Path(self.enterContext(tempfile.TemporaryDirectory()))
        nodes = [operator("BE/BEC", ["E1", "E2"]), operator("FR/CPX", ["F1"]), provider("NL/TNM"), provider("DE/EVC"),
                 provider("LU/NEW"), operator("AT/NEW", ["A1"])]
        nodes[0]["site"]["prices"] = list(self.prices)
        site = next(node.get("site") for node in nodes if node["party"] == self.party)
        new = "AT/NEW" if site is None else "LU/NEW"
        self.state = State(folder / "state.db")
        self.addCleanup(self.state.close)
        self.clock = Clock()
        self.metrics = Metrics()
        self.events = Events(self.party, self.clock)
        versions = "https://other.example/versions"
        settings = NodeSettings(PROGRAM, self.party, write_json({"nodes": nodes}), folder / "node.db", None)
        self.configuration = Configuration(
            settings, folder / "state.db", OcpiSettings("127.0.0.1:0", URL_OF_BRIDGE, "Ours"), None,
            "127.0.0.1:0",
            (PartnerSettings(self.node_partner, "node", "node token", "theirs", versions),
             PartnerSettings(self.ocpi_partner, "ocpi", "ocpi token", "theirs too", versions),
             PartnerSettings(new, "ocpi", "new token", None, None)), 1.0, site, cast(Setup, {"nodes": nodes}))
        await self._start()

    async def _start(self) -> None:
        self.feeder = RevocableFeeder(self.configuration.node, self.events, self.state, self.metrics)
        self.objects = Objects(self.state)
        self.requests = Requests(self.state)
        orders = Orders(self.configuration, self.state, self.events, self.objects, self.requests, self.feeder.feed)
        self.feeder.before_commit += [self.objects.note, orders.note]
        self.outcomes: list[Outcome] = []
        self.feeder.after_commit.append(self.outcomes.append)
        opened = asyncio.Event()
        self.feeder.after_opening.append(opened.set)
        running = asyncio.create_task(self.feeder.run())
        self.addAsyncCleanup(self._stop, running)
        await asyncio.wait_for(opened.wait(), WITHIN)
        exchange = Exchange(self.clock, self.metrics)
        self.addAsyncCleanup(exchange.close)
        partners = Partners(self.configuration, self.state)
        site = self.configuration.site
        self.unusable: dict[str, str] = {}
        locations = None if site is None else Locations(
            self.state, self.clock, self.objects, self.party, site, self.unusable.get)
        interfaces = Interfaces(URL_OF_BRIDGE, self.events, self.objects, self.requests, locations, self.feed,
                                lambda party: self.takes_orders, self.feeder.revoke,
                                operator_of=orders.operator_of)
        credentials = Credentials(self.configuration, partners, exchange)
        application = Server(self.events, partners, credentials, interfaces, self.metrics,
                             self.state, Receiving(self.clock, Places(self.state)) if site is None else None
                             ).application()
        # What the server feeds by: tests put another thing in its place.
        self.feeding: Callable[[Event], Awaitable[Outcome]] = self.feeder.feed
        self.server = TestServer(application)
        await self.server.start_server()
        self.addAsyncCleanup(self.server.close)
        self.session = aiohttp.ClientSession(timeout=aiohttp.ClientTimeout(total=WITHIN))
        self.addAsyncCleanup(self.session.close)

    async def _stop(self, running: "asyncio.Task[int]") -> None:
        await self.feeder.stop()
        await asyncio.wait_for(running, WITHIN)

    async def feed(self, event: Event) -> Outcome:
        return await self.feeding(event)

    async def tell(self, event: str, **members: object) -> Outcome:
        """Feeds an event that is no delivery."""
        return await asyncio.wait_for(self.feeder.feed(cast(Event, {**self.events.make(event), **members})), WITHIN)

    async def ask(self, token: str, method: str, path: str, body: object = None, number: int | None = None,
                  headers: Mapping[str, str] | None = None, text: bytes | None = None) -> Answer:
        """Asks under `/ocpi/2.2.1/` with a credentials token. A number gives the ids of a node's request."""
        sent = {"Authorization": authorization(f"{token} token"), **(headers or {})}
        if number is not None:
            sent |= {"X-Request-ID": f"{self.node_partner}/{number + 100}",
                     "X-Correlation-ID": f"{self.node_partner}/{number}"}
        data = text if text is not None else None if body is None else write_json(body).encode()
        url = URL(f"http://127.0.0.1:{self.server.port}/ocpi/2.2.1/{path}", encoded=True)
        async with self.session.request(method, url, data=data, headers=sent) as response:
            content = await response.read()
            return Answer(response.status, dict(response.headers), json.loads(content))

    def last_delivered(self) -> Body:
        """The body of the packet that was delivered last."""
        delivered = [outcome.event for outcome in self.outcomes if outcome.event["event"] == "deliver"]
        return delivered[-1]["packet"]["body"]
