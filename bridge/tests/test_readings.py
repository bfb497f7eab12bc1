"""Readings of a charge point that cannot be true, and what a bill has then."""
from .ocpp_cases import OcppCase
from .ocpp_running import moment


class ReadingTest(OcppCase):
    """A connector of 400 kW, and a transaction that begins at 1,000 Wh in second 0."""

    max_kw = 400

    async def asyncSetUp(self) -> None:
        await super().asyncSetUp()
        self.transaction = (await self.station.begin())["transactionId"]

    def dropped(self) -> tuple[int, int]:
        """How many readings were dropped, as the metric tells and as the page shows."""
        line = next(line for line in self.operating.metrics.text().splitlines()
                    if line.startswith("ocpi_readings_dropped_total "))
        return int(float(line.split()[1])), len(self.operating.central_system.warnings(50))

    async def end_by(self, **members: object) -> None:
        self.assertEqual({}, await self.station.call("StopTransaction", transactionId=self.transaction, **members))

    async def test_what_rises_faster_than_the_connector_gives_is_not_billed(self) -> None:
        """In 36 s 400 kW give 4 kWh, and 1 kWh more is let pass, always since the last reading that was taken."""
        with self.assertLogs("ocpp", "WARNING") as logged:
            await self.station.meter(self.transaction, "900000000", 1)
        self.assertIn("CP1: E1: not taken: a reading of 899999.0000 kWh, which cannot be true behind one of 0.0000 kWh "
                      "at 400 kW", logged.output[0])
        self.assertEqual((1, 1), self.dropped())
        self.assertEqual(("E1", moment(1)), tuple(self.operating.central_system.warnings(50)[0][name]
                                                  for name in ("evse_uid", "at")))
        await self.station.meter(self.transaction, "6100", 36)
        self.assertEqual([("E1", "ACTIVE", "0.0000")], self.operating.sessions())
        await self.station.meter(self.transaction, "5999", 36)
        await self.station.meter(self.transaction, "7100", 36)
        self.assertEqual([("E1", "ACTIVE", "4.9990")], self.operating.sessions())
        await self.station.meter(self.transaction, "7999", 45)
        self.assertEqual([("E1", "ACTIVE", "6.9990")], self.operating.sessions())
        self.assertEqual((3, 3), self.dropped())
        await self.station.end(self.transaction, 8500, 46)
        self.assertEqual(["7.5000"], self.operating.bills())

    async def test_a_last_reading_that_cannot_be_true_ends_the_session_by_the_one_before(self) -> None:
        await self.station.meter(self.transaction, "2000", 36)
        await self.end_by(meterStop=2**53, timestamp=moment(37))
        self.assertEqual(([("E1", "COMPLETED", "1.0000")], ["1.0000"]), (
            self.operating.sessions(), self.operating.bills()))
        self.assertEqual((1, 1), self.dropped())

    async def test_a_last_reading_that_cannot_be_read_likewise(self) -> None:
        wrong: list[object] = ["much", None, True, {}, -10**17, 10**18 - 1]
        for second, meter_stop in enumerate(wrong, 1):
            await self.station.meter(self.transaction, "2000", 36)
            await self.end_by(meterStop=meter_stop, timestamp="yesterday")
            self.assertEqual(["1.0000"] * second, self.operating.bills(), meter_stop)
            self.transaction = (await self.station.begin(second))["transactionId"]

    async def test_a_last_reading_below_another_bills_the_highest(self) -> None:
        await self.station.meter(self.transaction, "5000", 36)
        with self.assertLogs("ocpp", "WARNING") as logged:
            await self.station.end(self.transaction, 4000, 40)
        self.assertIn("its last reading is below another one, which is billed: 4.0000 kWh", logged.output[0])
        self.assertEqual(["4.0000"], self.operating.bills())

    async def test_a_reading_that_is_not_at_the_outlet_is_read_past(self) -> None:
        for location in ("Inlet", "Body", "EV", "Cable"):
            await self.station.meter(self.transaction, "3000", 36, location=location)
        await self.station.meter(self.transaction, "2000", 36, location="Outlet")
        self.assertEqual([("E1", "ACTIVE", "1.0000")], self.operating.sessions())
        self.assertEqual((0, 0), self.dropped())
