"""Transactions whose end a charge point does not tell, and such as go on without a session."""
import asyncio

from .ocpp_cases import OcppCase
from .ocpp_running import within


class NewTransactionTest(OcppCase):
    """What a StartTransaction tells of others."""

    async def test_one_that_equals_one_that_has_stopped_is_another(self) -> None:
        """As at a charge point whose clock begins anew. Else the second driver charges for nothing."""
        numbers = []
        for _ in range(3):
            begun = await self.station.begin()
            self.assertEqual(begun, await self.station.begin())
            numbers.append(begun["transactionId"])
            self.assertEqual("Accepted", begun["idTagInfo"]["status"])
            self.assertEqual(("E1", "ACTIVE", "0.0000"), self.operating.sessions()[-1])
            for _ in range(2):
                await self.station.end(numbers[-1], 3000)
        self.assertEqual((3, ["2.0000"] * 3), (len(set(numbers)), self.operating.bills()))

    async def test_one_that_comes_again_without_the_answer_to_its_end_is_the_same_and_is_asked_to_stop(self) -> None:
        begun = await self.station.begin()
        await self.station.end(begun["transactionId"], 3000)
        await self.station.socket.close()
        await asyncio.sleep(0.2)
        await within(self.station.connected.wait())
        self.assertEqual(begun, await self.station.begin())
        self.assertEqual({"transactionId": begun["transactionId"]},
                         await self.station.was_asked("RemoteStopTransaction"))
        await self.station.end(begun["transactionId"], 3000)
        self.assertEqual((["2.0000"], 1), (self.operating.bills(), len(self.operating.sessions())))

    async def test_another_one_ends_the_session_whose_end_was_lost(self) -> None:
        first = (await self.station.begin())["transactionId"]
        await self.station.meter(first, "2000")
        with self.assertLogs("ocpp", "WARNING") as logged:
            second = await self.station.begin(5, meter=2500)
        self.assertIn("its end did not come, and session", logged.output[0])
        self.assertEqual("Accepted", second["idTagInfo"]["status"])
        self.assertEqual([("E1", "COMPLETED", "1.0000"), ("E1", "ACTIVE", "0.0000")], self.operating.sessions())
        self.assertEqual("Invalid", (await self.station.begin())["idTagInfo"]["status"])
        with self.assertLogs("ocpp", "WARNING") as logged:
            await self.station.end(first, 2500)
        self.assertIn(f"transaction {first}: 1.5000 kWh, and its session had ended before, by 1.0000 kWh",
                      logged.output[0])
        self.assertEqual(["1.0000"], self.operating.bills())
        await self.station.end(second["transactionId"], 3000, 7)
        self.assertEqual(["0.5000", "1.0000"], sorted(self.operating.bills()))

    async def test_an_end_of_an_unknown_transaction_is_logged(self) -> None:
        with self.assertLogs("ocpp", "WARNING") as logged:
            await self.station.end(4711, 2500)
        self.assertIn("CP1: StopTransaction of an unknown transaction 4711", logged.output[0])


class StopTest(OcppCase):
    """The clock goes ten times as fast."""

    factor = 10.0

    async def asked_to_stop(self, number: int) -> float:
        """Waits until a transaction is asked to stop, and gives the moment of the clock."""
        self.assertEqual({"transactionId": number}, await self.station.was_asked("RemoteStopTransaction"))
        return self.operating.clock.seconds()

    async def test_what_charges_without_a_session_is_asked_to_stop_until_it_has_stopped(self) -> None:
        number = (await self.station.begin(id_tag="unknown"))["transactionId"]
        first = await self.asked_to_stop(number)
        second = await self.asked_to_stop(number)
        self.assertLess(second - first, 100)
        await self.station.socket.close()
        self.assertLess(await self.asked_to_stop(number) - second, 50)
        await self.station.end(number, 1000)
        await asyncio.sleep(70 / self.factor)
        self.assertTrue(self.station.asked.empty())

    async def test_what_goes_on_behind_a_fault_is_asked_to_stop_at_once(self) -> None:
        number = (await self.station.begin())["transactionId"]
        begun = self.operating.clock.seconds()
        await within(self.operating.feeder.feed(self.operating.events.make("fault", evse_uid="E1")))
        self.assertLess(await self.asked_to_stop(number) - begun, 40)


class AvailableTest(OcppCase):
    """The clock goes 20 times as fast."""

    factor = 20.0

    async def test_a_connector_that_stays_available_has_no_session(self) -> None:
        number = (await self.station.begin())["transactionId"]
        await self.station.meter(number, "2000")
        await self.station.status("Available")
        await self.eventually([("E1", "COMPLETED", "1.0000")], self.operating.sessions)
        await asyncio.sleep(120 / self.factor)
        self.assertTrue(self.station.asked.empty())
        self.assertEqual("Accepted", (await self.station.begin(5))["idTagInfo"]["status"])

    async def test_one_of_which_readings_come_has_a_session(self) -> None:
        number = (await self.station.begin())["transactionId"]
        await self.station.status("Available")
        await self.station.meter(number, "2000")
        await asyncio.sleep(180 / self.factor)
        self.assertEqual([("E1", "ACTIVE", "1.0000")], self.operating.sessions())

    async def test_one_whose_charge_point_is_away_has_a_session(self) -> None:
        await self.station.begin()
        await self.station.status("Available")
        await self.station.close()
        await asyncio.sleep(180 / self.factor)
        self.assertEqual([("E1", "ACTIVE", "0.0000")], self.operating.sessions())
