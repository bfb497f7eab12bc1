"""Commands that wait for the turn of their charge point, or lose its connection before, and EVSEs whose charge point is
away."""
import asyncio

from .ocpp_cases import OcppCase
from .ocpp_running import Station, within


class LateTest(OcppCase):
    """The clock goes 20 times as fast: a charge point that does not answer is waited for 1.5 s of real time."""

    factor = 20.0

    async def test_a_command_whose_time_is_over_when_its_turn_comes_is_not_asked_for(self) -> None:
        self.station.answers["ChangeAvailability"] = "silent"
        waiting = [asyncio.create_task(self.operating.central_system.change_availability(uid, False))
                   for uid in ("E2", "E2", "E2")]
        await self.station.was_asked("ChangeAvailability")
        await self.operating.start(2)
        await self.eventually([("2", "TIMEOUT")], self.operating.results)
        self.assertEqual(["Unreachable"] * 3, await asyncio.gather(*waiting))
        await asyncio.sleep(5 / self.factor)
        for _ in range(2):
            await self.station.was_asked("ChangeAvailability")
        self.assertTrue(self.station.asked.empty())
        self.assertEqual([], self.operating.sessions())


class AwayTest(OcppCase):
    """The clock goes as fast as the machine's: 30 s of a command are not over."""

    async def test_a_start_and_an_unlock_whose_charge_point_is_away_fail_at_once(self) -> None:
        """One that was there is away at once, one of a new bridge behind ten seconds, where there is one at all."""
        place = {"location_id": "LOC1", "connector_id": "1"}
        await self.operating.start(2, evse_uid="E3")
        await self.operating.command("unlock_connector", 3, evse_uid="E3", **place)
        # No charge point has this one.
        await self.operating.start(4, evse_uid="E4")
        await self.operating.command("unlock_connector", 5, evse_uid="E4", **place)
        await self.eventually([(str(number), "FAILED") for number in range(2, 6)],
                              lambda: sorted(self.operating.results()))
        self.assertEqual(([], []), (self.operating.sessions(), self.operating.fed("accepts")))

    async def test_a_command_that_was_not_sent_before_its_connection_ended_fails_at_once(self) -> None:
        """The one that was sent may have been carried out: it has its 30 s."""
        self.station.answers["UnlockConnector"] = "silent"
        await self.operating.command("unlock_connector", 2, location_id="LOC1", evse_uid="E1", connector_id="1")
        await self.station.was_asked("UnlockConnector")
        await self.operating.start(3)
        await self.station.close()
        await self.eventually([("3", "FAILED")], self.operating.results)
        self.assertTrue(self.station.asked.empty())

    async def test_a_stop_is_asked_for_when_its_charge_point_is_back(self) -> None:
        await self.operating.start(2)
        number = (await self.station.begin())["transactionId"]
        await self.station.close()
        session = self.operating.objects.newest("sessions")[0]
        await self.operating.command("stop_session", 3, session_id=session["id"])
        station = Station(self.operating)
        self.addAsyncCleanup(station.close)
        self.assertEqual({"transactionId": number}, await station.was_asked("RemoteStopTransaction"))
        await self.eventually(("3", "ACCEPTED"), lambda: self.operating.results()[-1])


class AbsenceTest(OcppCase):
    """The clock goes 20 times as fast: 60 s take three."""

    factor = 20.0

    def services(self, evse_uid: str) -> list[bool]:
        """What the node was told of an EVSE: that it is in service, or is not."""
        return [outcome.event["in_service"] for outcome in self.operating.fed("service")
                if outcome.event["evse_uid"] == evse_uid]

    async def test_the_evses_of_a_charge_point_that_is_away_are_out_of_service_until_it_is_back(self) -> None:
        """A start that names no EVSE, and a reservation, go elsewhere."""
        await self.eventually([False], lambda: self.services("E3"))
        self.assertEqual(([], []), (self.services("E1"), self.services("E2")))
        for request in (2, 3):
            await self.operating.start(request, evse_uid=None, connector_id=None)
        await self.eventually(["E1", "E2"], lambda: sorted(uid for uid, _, _ in self.operating.sessions()))
        other = Station(self.operating, "CP2")
        self.addAsyncCleanup(other.close)
        await self.eventually([False, True], lambda: self.services("E3"))
        await self.operating.start(4, evse_uid="E3")
        await other.was_asked("RemoteStartTransaction")

    async def test_what_the_owner_took_out_of_service_stays_so_and_so_does_what_its_charge_point_did(self) -> None:
        await self.station.status("Unavailable", 2)
        await within(self.operating.feeder.feed(
            self.operating.events.make("service", evse_uid="E1", in_service=False, owner=True)))
        await self.station.close()
        await self.eventually([False], lambda: self.services("E3"))
        station = Station(self.operating)
        self.addAsyncCleanup(station.close)
        await within(station.connected.wait())
        await station.status("Available", 1)
        await self.eventually(False, lambda: any(self.operating.central_system.charge_points()[0]["connectors"][number]
                                                 ["in_service"] for number in (0, 1)))
        self.assertEqual(([False], [False]), (self.services("E1"), self.services("E2")))
        await station.status("Available", 2)
        self.assertEqual([False, True], self.services("E2"))

    async def test_a_bridge_that_is_started_again_knows_whose_charge_point_was_away(self) -> None:
        """It is back with that, whichever bridge runs."""
        await self.eventually([False], lambda: self.services("E3"))
        await self.station.close()
        await self.operating.kill()
        self.operating.outcomes.clear()
        await self.operating.begin()
        other = Station(self.operating, "CP2")
        self.addAsyncCleanup(other.close)
        await self.eventually([True], lambda: self.services("E3"))
        await self.eventually([False], lambda: self.services("E1"))
