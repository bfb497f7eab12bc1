"""What tests of a whole bridge begin with: an operator's or a provider's bridge, and parties that are no nodes."""
import asyncio
import subprocess
import tempfile
import unittest
from collections.abc import Sequence
from pathlib import Path

from . import ocpi_objects
from .charge_point_frames import ChargePoint
from .ocpi_party import OcpiParty, Received, Reply
from .running import PROGRAM, Members, RunningBridge, charge_point, operator, partner, provider

PASSWORD = "password-of-CP1-f5a1"
MOST_MEMORY = 300_000_000


class BridgeCase(unittest.IsolatedAsyncioTestCase):
    """One bridge and the parties around it. At its end no secret stands in the log of the bridge."""

    clock_factor: float | None = None
    words: Sequence[str] = ()
    bridge: RunningBridge

    def make_folder(self) -> Path:
        """A folder that goes with the test."""
        folder = tempfile.TemporaryDirectory()
        self.addCleanup(folder.cleanup)
        return Path(folder.name)

    async def begin_party(self, party: str, role: str) -> OcpiParty:
        """A party that listens, with tokens of its own."""
        begun = OcpiParty(party, role, f"token-for-{party}-3c9b", f"token-of-{party}-8d27")
        await begun.start()
        self.addAsyncCleanup(begun.close)
        return begun

    async def begin_bridge(self, bridge: RunningBridge, parties: Sequence[OcpiParty]) -> RunningBridge:
        """Starts a bridge, which is stopped at the end of the test."""
        # The loop of a test case is one for finding faults in it, which takes many times as long.
        asyncio.get_running_loop().set_debug(False)
        self.addCleanup(bridge.kill)
        self.addAsyncCleanup(self.end_bridge, bridge, [secret for party in parties
                                                       for secret in (party.token, party.bridge_token)])
        for party in parties:
            party.deals_with(bridge.party, bridge.ocpi_url + "/ocpi/versions")
        await bridge.start()
        return bridge

    async def end_bridge(self, bridge: RunningBridge, secrets: Sequence[str]) -> None:
        if bridge.runs():
            # 1 where a line was refused.
            self.assertIn(await bridge.stop(), (0, 1), bridge.log()[-2000:])
        log = bridge.log()
        for secret in (*secrets, PASSWORD):
            self.assertNotIn(secret, log)
        # What is no HTTP is told by the library.
        faults = [line for line in log.splitlines() if "Traceback" in line and "aiohttp.http_exceptions" not in line]
        self.assertEqual([], faults)

    def assert_status(self, reply: Reply, http_status: int, status_code: int) -> None:
        """Sees that a reply has this HTTP status and this status of OCPI."""
        self.assertEqual((http_status, status_code), (reply.http_status, reply.status_code), reply.members)

    def assert_refused(self, reply: Reply, status_code: int) -> None:
        """Sees that a reply has this status of OCPI, under an HTTP status that is no fault of the server."""
        self.assertEqual(status_code, reply.status_code, reply)
        self.assertLess(reply.http_status, 500)

    def assert_memory(self) -> None:
        """Sees that the bridge had at most 300 MB at once."""
        self.assertLess(self.bridge.peak_memory(), MOST_MEMORY)

    def settle(self, bridge: RunningBridge) -> str:
        """What the store of a bridge's node, which must have ended, says is owed."""
        return subprocess.run([PROGRAM, "settle", bridge.store], capture_output=True, text=True, timeout=30,
                              check=True).stdout


class OperatorCase(BridgeCase):
    """The bridge of BE/BEC with the EVSEs E1 and E2 (charge point CP1) and E3 (CP2), and two providers."""

    async def asyncSetUp(self) -> None:
        self.provider = await self.begin_party("NL/PLN", "EMSP")
        self.other = await self.begin_party("DE/OTR", "EMSP")
        parties = [self.provider, self.other]
        setup = [operator("BE/BEC", ["E1", "E2", "E3"]), *(provider(party.party) for party in parties)]
        partners = [partner(party.party, "ocpi", party.bridge_token, party.token, party.versions_url)
                    for party in parties]
        charge_points = [charge_point("CP1", ["E1", "E2"], PASSWORD), charge_point("CP2", ["E3"])]
        self.bridge = await self.begin_bridge(
            RunningBridge(self.make_folder(), setup, "BE/BEC", partners, charge_points, self.clock_factor,
                          words=self.words), parties)
        self.token = ocpi_objects.token(self.provider.party)

    async def begin_charge_point(self, identifier: str = "CP1", statuses: Sequence[str] = ("Available", "Available"),
                                 password: str | None = PASSWORD) -> ChargePoint:
        """A charge point that connected, booted, and told the status of each connector."""
        begun = ChargePoint(self.bridge.ocpp_url, identifier, password)
        self.addAsyncCleanup(begun.close)
        await begun.connect()
        await begun.call("BootNotification", {"chargePointVendor": "Vendor", "chargePointModel": "Model"})
        for number, status in enumerate(statuses, 1):
            await begun.call("StatusNotification", {"connectorId": number, "errorCode": "NoError", "status": status})
        return begun

    def response_url(self, name: str) -> str:
        """Where the provider wants a result posted."""
        return f"{self.provider.url}/results/{name}"

    async def result(self, name: str) -> str:
        """The result that was posted under a name."""
        received = await self.provider.came("results", lambda request: request.path == f"/results/{name}")
        self.assertEqual("POST", received.method)
        self.assertEqual(["result"], list(received.body))
        return str(received.body["result"])

    async def version(self, status: str, kwh: float | None = None) -> Members:
        """The next Session of a status, and of an energy where one is given, that is PUT to the provider."""
        def fits(request: Received) -> bool:
            return request.method == "PUT" and request.body["status"] == status and kwh in (None, request.body["kwh"])
        return dict((await self.provider.came("sessions", fits)).body)


class ProviderCase(BridgeCase):
    """The bridge of NL/TNM, which has a token AA01, and an operator BE/PLO that is no node."""

    async def asyncSetUp(self) -> None:
        self.operator = await self.begin_party("BE/PLO", "CPO")
        await self.prepare()
        setup = [provider("NL/TNM"), operator(self.operator.party, ["E1"])]
        partners = [partner(self.operator.party, "ocpi", self.operator.bridge_token, self.operator.token,
                            self.operator.versions_url)]
        self.bridge = await self.begin_bridge(
            RunningBridge(self.make_folder(), setup, "NL/TNM", partners, clock_factor=self.clock_factor,
                          words=self.words), [self.operator])
        self.token = ocpi_objects.token("NL/TNM")
        await self.add_token(self.token)

    async def prepare(self) -> None:
        """What the operator has before the bridge starts."""

    async def add_token(self, token: Members) -> Members:
        """Gives the provider a token of its own, and awaits that it is PUT to the operator."""
        added = await self.bridge.admin_post("/tokens", token)
        self.assertEqual("stepped", added["answer"]["done"]["done"], added)
        received = await self.operator.came("tokens", lambda request: bool(request.body["uid"] == token["uid"]))
        return dict(received.body)

    async def order(self, name: str, **members: object) -> Members:
        """Gives an order to the operator, and gives the packet that the node sent for it."""
        ordered = await self.bridge.admin_post("/orders", {"operator": self.operator.party, "order": name, **members})
        self.assertEqual("stepped", ordered["answer"]["done"]["done"], ordered)
        return dict(ordered["answer"]["packets"][0])
