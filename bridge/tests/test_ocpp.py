"""The central system of OCPP 1.6 before a real node: which call is which event, and what is answered."""
import asyncio

from .ocpp_cases import OcppCase
from .ocpp_running import TOKEN, moment, within


class CommandTest(OcppCase):
    """What partners want of a charge point, and what follows from each of its answers."""

    async def test_a_start_and_a_stop(self) -> None:
        await self.operating.start(2)
        self.assertEqual({"connectorId": 1, "idTag": "AA01"}, await self.station.was_asked("RemoteStartTransaction"))
        begun = await self.station.begin()
        self.assertEqual("Accepted", begun["idTagInfo"]["status"])
        await self.station.meter(begun["transactionId"], "2500")
        session = self.operating.objects.newest("sessions")[0]
        self.assertEqual(("ACTIVE", "COMMAND", moment(0), "1.5000"), (
            session["status"], session["auth_method"], session["start_date_time"], session["kwh"]))
        await self.operating.command("stop_session", 3, session_id=session["id"])
        self.assertEqual({"transactionId": begun["transactionId"]},
                         await self.station.was_asked("RemoteStopTransaction"))
        await self.eventually([("2", "ACCEPTED"), ("3", "ACCEPTED")], self.operating.results)
        self.assertEqual([("E1", "ACTIVE", "1.5000")], self.operating.sessions())
        await self.station.end(begun["transactionId"], 3500)
        self.assertEqual([("E1", "COMPLETED", "2.5000")], self.operating.sessions())
        self.assertEqual(["2.5000"], self.operating.bills())

    async def test_a_command_that_comes_again_is_asked_for_once(self) -> None:
        for _ in range(3):
            await self.operating.start(2)
        await self.station.was_asked("RemoteStartTransaction")
        await self.station.begin()
        await self.operating.start(2)
        await self.operating.command("unlock_connector", 3, location_id="LOC1", evse_uid="E1", connector_id="1")
        self.assertEqual({"connectorId": 1}, await self.station.was_asked("UnlockConnector"))

    async def test_what_is_rejected_fails(self) -> None:
        self.station.answers |= {"RemoteStartTransaction": "Rejected", "UnlockConnector": "UnlockFailed"}
        await self.operating.start(2)
        await self.operating.command("unlock_connector", 3, location_id="LOC1", evse_uid="E1", connector_id="1")
        await self.eventually([("2", "FAILED"), ("3", "FAILED")], lambda: sorted(self.operating.results()))
        begun = await self.station.begin()
        self.assertEqual("WHITELIST", self.operating.objects.newest("sessions")[0]["auth_method"])
        self.station.answers |= {"RemoteStopTransaction": "Rejected"}
        session = self.operating.objects.newest("sessions")[0]
        await self.operating.command("stop_session", 4, session_id=session["id"])
        await self.eventually(("4", "FAILED"), lambda: self.operating.results()[-1])
        await self.station.end(begun["transactionId"], 1000)

    async def test_a_start_that_names_no_evse_is_accepted_before_a_charge_point_is_asked(self) -> None:
        self.station.answers["RemoteStartTransaction"] = "Rejected"
        await self.operating.start(2, evse_uid=None, connector_id=None)
        await self.station.was_asked("RemoteStartTransaction")
        await self.eventually(["INVALID"], lambda: [status for _, status, _ in self.operating.sessions()])
        self.assertEqual([("2", "ACCEPTED")], self.operating.results())

    async def test_a_start_that_takes_an_evse_without_a_charge_point_ends(self) -> None:
        for evse_uid in ("E1", "E2", "E3"):
            await within(self.operating.feeder.feed(
                self.operating.events.make("service", evse_uid=evse_uid, in_service=False)))
        await self.operating.start(2, evse_uid=None, connector_id=None)
        await self.eventually([("E4", "INVALID", "0.0000")], self.operating.sessions)

    async def test_a_stop_before_a_car_is_plugged_in(self) -> None:
        await self.operating.start(2)
        await self.eventually([("2", "ACCEPTED")], self.operating.results)
        session = self.operating.objects.newest("sessions")[0]
        await self.operating.command("stop_session", 3, session_id=session["id"])
        await self.eventually([("E1", "INVALID", "0.0000")], self.operating.sessions)
        begun = await self.station.begin()
        self.assertEqual("Invalid", begun["idTagInfo"]["status"])
        self.assertEqual(1, len(self.operating.sessions()))

    async def test_an_answer_that_was_lost(self) -> None:
        """The transaction tells that the charge point accepted, where its answer did not come in time."""
        self.station.answers["RemoteStartTransaction"] = "silent"
        await self.operating.start(2)
        await self.station.was_asked("RemoteStartTransaction")
        self.assertEqual("Accepted", (await self.station.begin())["idTagInfo"]["status"])
        self.assertEqual([("2", "ACCEPTED")], self.operating.results())

    async def test_a_long_uid_has_a_text_in_its_place(self) -> None:
        long = {**TOKEN, "uid": "0123456789-0123456789-0123456789"}
        await self.operating.deliver("put_token", long, 2)
        await self.operating.start(3, token=long)
        id_tag = (await self.station.was_asked("RemoteStartTransaction"))["idTag"]
        self.assertLessEqual(len(id_tag), 20)
        self.assertEqual("Accepted", (await self.station.begin(id_tag=id_tag))["idTagInfo"]["status"])
        self.assertEqual([("E1", "ACTIVE", "0.0000")], self.operating.sessions())

    async def test_service(self) -> None:
        self.station.answers["ChangeAvailability"] = "Scheduled"
        self.assertEqual("Scheduled", await self.operating.central_system.change_availability("E2", False))
        self.assertEqual({"connectorId": 2, "type": "Inoperative"}, await self.station.was_asked("ChangeAvailability"))
        self.assertEqual("Unreachable", await self.operating.central_system.change_availability("E3", True))


class ReportTest(OcppCase):
    """What charge points report."""

    async def test_a_token_that_is_shown(self) -> None:
        """Where no connector is Preparing, the transaction decides; else it is a swipe at the one that is."""
        authorize = {"idTag": "AA01"}
        self.assertEqual("Accepted", (await self.station.call("Authorize", idTag="ZZ"))["idTagInfo"]["status"])
        self.assertEqual([], self.operating.sessions())
        await self.station.status("Preparing", 2)
        self.assertEqual("Invalid", (await self.station.call("Authorize", idTag="ZZ"))["idTagInfo"]["status"])
        for _ in range(2):
            self.assertEqual("Accepted", (await self.station.call("Authorize", **authorize))["idTagInfo"]["status"])
        self.assertEqual([("E2", "PENDING", "0.0000")], self.operating.sessions())
        self.assertEqual("Accepted", (await self.station.begin(connector=2))["idTagInfo"]["status"])
        self.assertEqual([("E2", "ACTIVE", "0.0000")], self.operating.sessions())

    async def test_a_provider_is_asked(self) -> None:
        await self.operating.deliver("put_token", {**TOKEN, "uid": "AA02", "whitelist": "NEVER"}, 2)
        for allowed, status in (("BLOCKED", "Invalid"), ("ALLOWED", "Accepted")):
            begun = asyncio.create_task(self.station.begin(len(status), id_tag="AA02"))
            await self.eventually(True, lambda: bool(self.operating.fed("swipe"))
                                  and bool(self.operating.fed("swipe")[-1].packets))
            question = self.operating.fed("swipe")[-1].packets[0]
            await self.operating.deliver("authorization", {
                "status_code": 1000, "timestamp": moment(0), "data": {
                    "allowed": allowed, "token": {**TOKEN, "uid": "AA02", "whitelist": "NEVER"},
                    "authorization_reference": allowed}}, question.request)
            self.assertEqual(status, (await begun)["idTagInfo"]["status"])
            self.operating.outcomes.clear()
        self.assertEqual([("E1", "ACTIVE", "0.0000")], self.operating.sessions())

    async def test_a_transaction_that_may_not_charge_is_stopped_and_no_session(self) -> None:
        begun = await self.station.begin(id_tag="unknown")
        self.assertEqual("Invalid", begun["idTagInfo"]["status"])
        self.assertEqual({"transactionId": begun["transactionId"]},
                         await self.station.was_asked("RemoteStopTransaction"))
        await self.station.meter(begun["transactionId"], "9000")
        await self.station.was_asked("RemoteStopTransaction")
        await self.station.end(begun["transactionId"], 9000)
        self.assertEqual(([], []), (self.operating.sessions(), self.operating.fed("meter")))

    async def test_reports_of_one_transaction_never_touch_another_session(self) -> None:
        first = (await self.station.begin(0))["transactionId"]
        await self.station.end(first, 2000, 1)
        second = (await self.station.begin(2, meter=2000))["transactionId"]
        await self.station.meter(first, "9000", 3)
        await self.station.end(first, 9000, 3)
        self.assertEqual(second, (await self.station.begin(2, meter=2000))["transactionId"])
        self.assertEqual([("E1", "COMPLETED", "1.0000"), ("E1", "ACTIVE", "0.0000")], self.operating.sessions())
        await self.station.end(second, 2500, 6)
        self.assertEqual(["0.5000", "1.0000"], sorted(self.operating.bills()))

    async def test_a_transaction_of_a_clock_that_began_anew_is_another(self) -> None:
        for meter in (1000, 2000):
            begun = await self.station.begin(0, meter=meter)
            await self.station.end(begun["transactionId"], meter + 1000, 1)
        self.assertEqual(["1.0000", "1.0000"], self.operating.bills())

    async def test_statuses(self) -> None:
        """Faulted and Unavailable are out of service, another status behind them is in service, 0 is each connector."""
        cases: list[tuple[str, int, list[tuple[str, bool]], list[str]]] = [
            ("Available", 1, [], []), ("Faulted", 1, [("E1", False)], ["E1"]), ("Preparing", 1, [("E1", True)], []),
            ("Unavailable", 0, [("E1", False), ("E2", False)], []), ("Available", 2, [("E2", True)], []),
            ("Available", 0, [("E1", True)], []), ("Available", 0, [], [])]
        for status, connector, services, faults in cases:
            self.operating.outcomes.clear()
            await self.station.status(status, connector)
            self.assertEqual((services, faults), (
                [(outcome.event["evse_uid"], outcome.event["in_service"]) for outcome in self.operating.fed("service")],
                [outcome.event["evse_uid"] for outcome in self.operating.fed("fault")]), (status, connector))

    async def test_a_fault_while_a_transaction_runs_leaves_its_end_to_the_charge_point(self) -> None:
        begun = await self.station.begin()
        await self.station.status("Faulted")
        self.assertEqual([("E1", "ACTIVE", "0.0000")], self.operating.sessions())
        self.assertEqual("OUTOFORDER", self.operating.central_system.evse_status("E1"))
        await self.station.end(begun["transactionId"], 3500)
        self.assertEqual(["2.5000"], self.operating.bills())

    async def test_what_others_are_told(self) -> None:
        central_system = self.operating.central_system
        self.assertEqual((None, "OUTOFORDER", 1), (
            central_system.evse_status("E1"), central_system.evse_status("E3"), central_system.connected_count()))
        await self.station.status("Unavailable")
        self.assertEqual("INOPERATIVE", central_system.evse_status("E1"))
        self.assertEqual([("CP1", True, ["Unavailable", None]), ("CP2", False, [None])], [
            (point["id"], point["connected"], [connector["status"] for connector in point["connectors"]])
            for point in central_system.charge_points()])

    async def test_the_owner_is_told_of_errors_and_of_the_last_message(self) -> None:
        """Only of connectors that the charge point has."""
        begun = self.operating.clock.moment()
        for connector, code in ((0, "InternalError"), (1, "GroundFailure"), (2, None), (77, "OtherError")):
            await self.station.call("StatusNotification", connectorId=connector, errorCode=code, status="Available")
        told, _ = self.operating.central_system.charge_points()
        self.assertEqual(("InternalError", ["GroundFailure", "NoError"], [True, True]), (
            told["error"], [connector["error"] for connector in told["connectors"]],
            [connector["in_service"] for connector in told["connectors"]]))
        self.assertLessEqual(begun, told["last_message"])
        self.assertNotIn("OtherError", str(told))


class TimeTest(OcppCase):
    """What happens where a charge point does not answer, or nothing is plugged in. The clock goes faster."""

    factor = 20.0

    async def test_a_late_start_is_stopped(self) -> None:
        self.station.answers["RemoteStartTransaction"] = "silent"
        await self.operating.start(2)
        await self.station.was_asked("RemoteStartTransaction")
        await self.eventually([("2", "TIMEOUT")], self.operating.results)
        begun = await self.station.begin()
        self.assertEqual("Invalid", begun["idTagInfo"]["status"])
        self.assertEqual({"transactionId": begun["transactionId"]},
                         await self.station.was_asked("RemoteStopTransaction"))
        self.assertEqual([], self.operating.sessions())
        await self.station.end(begun["transactionId"], 1000)
        self.assertEqual("Accepted", (await self.station.begin(5))["idTagInfo"]["status"])

    async def test_a_session_ends_for_which_nobody_plugs_in(self) -> None:
        await self.station.status("Preparing")
        self.assertEqual("Accepted", (await self.station.call("Authorize", idTag="AA01"))["idTagInfo"]["status"])
        await self.eventually([("E1", "INVALID", "0.0000")], self.operating.sessions)

    async def test_a_provider_that_does_not_answer(self) -> None:
        """Behind ten seconds and a tick a token that may be used offline begins a session, and no other."""
        for uid, whitelist, status in (("AA02", "NEVER", "Invalid"), ("AA03", "ALLOWED_OFFLINE", "Accepted")):
            await self.operating.deliver("put_token", {**TOKEN, "uid": uid, "whitelist": whitelist}, int(uid[-1]))
            self.assertEqual(status, (await self.station.begin(int(uid[-1]), uid))["idTagInfo"]["status"])
