"""Sessions of which no message comes any more."""
from .ocpp_cases import OcppCase
from .ocpp_running import within


class SilenceTest(OcppCase):
    """The clock goes 600 times as fast: an hour takes six seconds."""

    factor = 600.0

    def warnings(self) -> list[str]:
        """The EVSEs of the sessions that the page warns of."""
        return [warning["evse_uid"] for warning in self.operating.central_system.warnings(50)]

    async def test_a_session_without_a_message_for_an_hour_is_warned_of(self) -> None:
        central_system = self.operating.central_system
        number = (await self.station.begin())["transactionId"]
        await self.station.meter(number, "2000")
        self.assertEqual([], self.warnings())
        with self.assertLogs("ocpp", "WARNING") as logged:
            await self.eventually(["E1"], self.warnings)
            self.assertEqual(1, central_system.silent_count())
            await self.eventually(True, lambda: bool(logged.output))
        session = self.operating.objects.newest("sessions")[0]
        words = (f"no message of session {session['id']} since. Look whether a car charges there: if its charge point "
                 "will never tell of the end, POST /faults ends it, by 1.0000 kWh")
        self.assertEqual(words, central_system.warnings(50)[0]["text"])
        self.assertIn(words, logged.output[0])
        await self.station.meter(number, "2000")
        self.assertEqual(([], 0), (self.warnings(), central_system.silent_count()))
        await within(self.operating.feeder.feed(self.operating.events.make("fault", evse_uid="E1")))
        self.assertEqual([("E1", "COMPLETED", "1.0000")], self.operating.sessions())
