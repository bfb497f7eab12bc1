"""Moments that cannot be, of charge points and of the bridge's own clock."""
import tempfile
import time
import unittest
from pathlib import Path

from ocpi_bridge.clock import moment_of, seconds_of
from ocpi_bridge.events import Outcome
from ocpi_bridge.ocpi.objects import Objects
from ocpi_bridge.state import State
from ocpi_bridge.warnings import Warnings

from . import ocpi_objects
from .cases import OperatorCase
from .ocpp_cases import OcppCase
from .ocpp_running import Station, moment, within
from .running import eventually


class MessageTest(OcppCase):
    """What a charge point dates as it cannot be is dated by the bridge's clock."""

    def assert_bill(self, start: float, end: float) -> None:
        """Sees that the one bill has 1 kWh, and is of these moments, give or take some seconds."""
        record = self.operating.objects.newest("cdrs")[0]
        self.assertEqual("1.0000", record["total_energy"])
        self.assertAlmostEqual(start, seconds_of(record["start_date_time"]), delta=20)
        self.assertAlmostEqual(end, seconds_of(record["end_date_time"]), delta=20)

    async def test_a_moment_before_2020(self) -> None:
        for told in ("2000-01-01T00:00:00Z", "0001-01-01T00:00:00Z", "1970-01-01T00:00:00"):
            begun = await self.station.call("StartTransaction", connectorId=1, idTag="AA01", meterStart=1000,
                                            timestamp=told)
            await self.station.call("MeterValues", connectorId=1, transactionId=begun["transactionId"], meterValue=[
                {"timestamp": told, "sampledValue": [{"value": "2000"}]}])
            await self.station.call("StopTransaction", transactionId=begun["transactionId"], meterStop=2000,
                                    timestamp=told)
            self.assert_bill(time.time(), time.time())

    async def test_a_moment_before_the_start(self) -> None:
        begun = await self.station.begin(5)
        start = seconds_of(self.operating.objects.newest("sessions")[0]["start_date_time"])
        self.assertEqual(moment(5), moment_of(start))
        await self.station.meter(begun["transactionId"], "2000", -3600)
        await self.station.end(begun["transactionId"], 2000, -3600)
        self.assert_bill(start, time.time())

    async def test_a_token_that_is_shown_at_one_of_several_connectors_is_soon_forgotten(self) -> None:
        for statuses in ((), ("Preparing",)):
            for status in statuses:
                await self.station.status(status)
            told = (await self.station.call("Authorize", idTag="AA01"))["idTagInfo"]
            self.assertEqual("Accepted", told["status"])
            self.assertAlmostEqual(time.time() + 60, seconds_of(told["expiryDate"]), delta=20)
        other = Station(self.operating, "CP2")
        self.addAsyncCleanup(other.close)
        await within(other.connected.wait())
        self.assertEqual({"status": "Accepted"}, (await other.call("Authorize", idTag="AA01"))["idTagInfo"])


class ClockTest(unittest.TestCase):
    """The bridge's own clock, which is behind what it fed before."""

    def setUp(self) -> None:
        folder = tempfile.TemporaryDirectory()
        self.addCleanup(folder.cleanup)
        self.state = State(Path(folder.name) / "state.db")
        self.addCleanup(self.state.close)

    def begin(self, now: float) -> Warnings:
        return Warnings(self.state, Objects(self.state), now)

    def test_a_clock_that_was_set_back_is_warned_of_once_a_minute(self) -> None:
        warnings = self.begin(1_700_000_000)
        fed = Outcome({"event": "tick", "at": moment_of(1_700_000_500)}, {"done": "idle"}, ())
        warnings.note(fed)
        with self.assertNoLogs("bridge"):
            warnings.act(fed)
            warnings.look(1_700_000_441)
        with self.assertLogs("bridge", "WARNING") as logged:
            for now in (1_700_000_439, 1_700_000_438):
                warnings.look(now)
        self.assertEqual(1, len(logged.output))
        self.assertIn("the clock tells 2023-11-14T22:20:39.000Z, and the node was fed 2023-11-14T22:21:40.000Z",
                      logged.output[0])

    def test_a_new_start_knows_what_was_fed_before(self) -> None:
        self.begin(1_700_000_000).note(
            Outcome({"event": "tick", "at": moment_of(1_700_000_500)}, {"done": "idle"}, ()))
        with self.assertLogs("bridge", "WARNING"):
            self.begin(1_700_000_000)


class WarningTest(OperatorCase):
    """What stands in the log of a bridge."""

    async def logged(self, words: str) -> None:
        async def look() -> bool:
            return words in self.bridge.log()
        await eventually(look, words)

    async def test_a_clock_that_was_set_back(self) -> None:
        await self.bridge.stop()
        state = State(self.bridge.folder / "bridge.db")
        state.set_value("node.fed", repr(time.time() + 3600))
        state.close()
        await self.bridge.start()
        await self.logged("Set this machine's clock")

    async def test_a_token_that_is_blocked_by_an_older_version(self) -> None:
        """It is answered with success, and stays valid."""
        self.assertEqual(1000, (await self.provider.put_token(self.token)).status_code)
        older = {**self.token, "valid": False, "last_updated": "2020-01-01T10:00:00Z"}
        self.assertEqual(1000, (await self.provider.put_token(older)).status_code)
        await self.logged("NL/PLN blocks a token as of 2020-01-01T10:00:00Z, which is older than what is held")
        held = (await self.bridge.admin_get("/tokens"))[0]
        self.assertTrue(held["valid"])
        newer = ocpi_objects.token(self.provider.party, valid=False, last_updated="2026-01-01T10:00:00Z")
        self.assertEqual(1000, (await self.provider.put_token(newer)).status_code)
        self.assertEqual(1, self.bridge.log().count("blocks a token"))
