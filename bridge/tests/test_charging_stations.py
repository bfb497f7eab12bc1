"""Messages of OCPP 2.0.1 that are of no transaction, what its charging stations are asked, and that a charge is the
same in both versions."""
import re
import tempfile
from pathlib import Path

from ocpi_bridge.json_text import Members

from .ocpp_cases import ROOM
from .ocpp_running import TOKEN, Operating, Station, moment, within
from .ocpp_station import ChargingStation, StationCase, event, meter, token
from .trial.records import Records


class RequestTest(StationCase):
    """What a station is asked."""

    async def test_what_is_asked_of_a_station(self) -> None:
        long = "0123456789-0123456789-0123456789"
        for kind, uid, asked in (("RFID", "AA01", "ISO14443"), ("APP_USER", long, "Central")):
            owner = {**TOKEN, "uid": uid, "type": kind}
            request = 10 if kind == "RFID" else 20
            await self.operating.deliver("put_token", owner, request)
            await self.operating.start(request + 1, token=owner)
            started = await self.station.was_asked("RequestStartTransaction")
            self.assertEqual({"evseId": 1, "idToken": {"idToken": uid, "type": asked}},
                             {name: started[name] for name in ("evseId", "idToken")})
            name = next(self.names)
            await self.started(name, idToken=started["idToken"], remote_start=started["remoteStartId"])
            session = self.operating.objects.newest("sessions")[0]
            self.assertEqual(("ACTIVE", "COMMAND", uid), (
                session["status"], session["auth_method"], session["cdr_token"]["uid"]))
            await self.operating.command("stop_session", request + 2, session_id=session["id"])
            self.assertEqual({"transactionId": name}, await self.station.was_asked("RequestStopTransaction"))
            await self.ended(name, 2000)
        await self.operating.command("unlock_connector", 30, location_id="LOC1", evse_uid="E2", connector_id="1")
        self.assertEqual({"evseId": 2, "connectorId": 1}, await self.station.was_asked("UnlockConnector"))
        await self.eventually([(str(number), "ACCEPTED") for number in (11, 12, 21, 22, 30)], self.operating.results)
        for in_service, status in ((False, "Inoperative"), (True, "Operative")):
            await self.operating.central_system.change_availability("E2", in_service)
            self.assertEqual({"operationalStatus": status, "evse": {"id": 2}},
                             await self.station.was_asked("ChangeAvailability"))

    async def test_a_start_that_is_rejected_or_not_answered(self) -> None:
        self.station.answers |= {
            "RequestStartTransaction": "Rejected", "UnlockConnector": "OngoingAuthorizedTransaction"}
        await self.operating.start(2)
        await self.operating.command("unlock_connector", 3, location_id="LOC1", evse_uid="E2", connector_id="1")
        await self.eventually([("2", "FAILED"), ("3", "FAILED")], lambda: sorted(self.operating.results()))
        self.station.answers["RequestStartTransaction"] = "silent"
        rejected = await self.station.was_asked("RequestStartTransaction")
        await self.station.was_asked("UnlockConnector")
        await self.operating.start(4)
        asked = await self.station.was_asked("RequestStartTransaction")
        cases: list[tuple[Members, str]] = [
            # Another start, one at another EVSE, one by another token, and one that is not known.
            ({"remote_start": rejected["remoteStartId"]}, "Invalid"),
            ({"remote_start": asked["remoteStartId"], "evse": {"id": 2}}, "Invalid"),
            ({"remote_start": asked["remoteStartId"], "idToken": token("ZZ99", "Central")}, "Invalid"),
            ({"remote_start": 4711}, "Invalid"), ({"remote_start": asked["remoteStartId"]}, "Accepted")]
        for other, status in cases:
            with self.subTest(other=other):
                name = next(self.names)
                members: Members = {"idToken": token("AA01", "Central")} | other
                answer = await self.started(name, **members)
                self.assertEqual({"idTokenInfo": {"status": status}}, answer)
                if status == "Invalid":
                    await self.ended(name, 1000)
        self.assertEqual(([("E1", "ACTIVE", "0.0000")], ("4", "ACCEPTED")), (
            self.operating.sessions(), self.operating.results()[-1]))

    async def test_what_began_offline_is_no_start_that_was_asked_for(self) -> None:
        """But by the token: it was shown at the station, before anybody ordered."""
        self.station.answers["RequestStartTransaction"] = "Rejected"
        first, second = next(self.names), next(self.names)
        await self.started(first, offline=True)
        await self.ended(first, 2000, offline=True)
        await self.operating.start(2)
        await self.eventually([("2", "FAILED")], self.operating.results)
        await self.started(second, 5, offline=True)
        self.assertEqual(["WHITELIST"] * 2, [session["auth_method"]
                                             for session in self.operating.objects.newest("sessions")])
        self.assertEqual(["1.0000"], self.operating.bills())


class ReportTest(StationCase):
    """What a station reports beside transactions."""

    async def test_what_is_answered(self) -> None:
        now = r"\d{4}-\d\d-\d\dT\d\d:\d\d:\d\d\.\d{3}Z"
        cases: list[tuple[str, Members, str]] = [
            ("BootNotification", {"reason": "PowerUp", "chargingStation": {"model": "One", "vendorName": "Vendor"}},
             rf"{{'status': 'Accepted', 'interval': 60, 'currentTime': '{now}'}}"),
            ("Heartbeat", {}, rf"{{'currentTime': '{now}'}}"),
            ("MeterValues", {"evseId": 1, "meterValue": meter(9000, 1)}, "{}"),
            ("DataTransfer", {"vendorId": "vendor.example"}, "{'status': 'UnknownVendorId'}"),
            ("SecurityEventNotification", {"type": "SettingSystemTime", "timestamp": moment(0)}, "{}"),
            ("NotifyEvent", {"generatedAt": moment(0), "seqNo": 0, "eventData": [{}, 7, {"component": "E"}]}, "{}")]
        for action, payload, answer in cases:
            for _ in range(2):
                self.assertRegex(str(await self.station.call(action, **payload)), rf"\A{answer}\Z")

    async def test_a_security_event_is_logged(self) -> None:
        with self.assertLogs("ocpp", "WARNING") as logged:
            await self.station.call("SecurityEventNotification", type="InvalidFirmwareSignature", timestamp=moment(0))
        self.assertIn("CP1: security event 'InvalidFirmwareSignature'", logged.output[0])

    async def test_a_token_that_is_shown(self) -> None:
        """Where no car is plugged in the transaction decides; else it is a swipe at the EVSE where one is."""
        async def shown(uid: str, kind: str = "ISO14443") -> Members:
            info: Members = (await self.station.call("Authorize", idToken=token(uid, kind)))["idTokenInfo"]
            return info
        told = await shown("ZZ99")
        self.assertEqual(["Accepted", True], [told["status"], moment(100) < told["cacheExpiryDateTime"]])
        self.assertEqual({"status": "Invalid"}, await shown("AA01", "Central"))
        self.assertEqual([], self.operating.sessions())
        await self.station.status("Occupied", 2)
        self.assertEqual({"status": "Invalid"}, await shown("ZZ99"))
        for _ in range(2):
            self.assertEqual("Accepted", (await shown("AA01"))["status"])
        self.assertEqual([("E2", "PENDING", "0.0000")], self.operating.sessions())
        await self.started(next(self.names), evse={"id": 2})
        self.assertEqual([("E2", "ACTIVE", "0.0000")], self.operating.sessions())
        # A car charges there now: a token that is shown is for another EVSE.
        self.assertEqual("Accepted", (await shown("ZZ99"))["status"])

    async def test_statuses_and_events(self) -> None:
        """What the node is told of service and faults, and the error that the owner sees."""
        def notified(component: str, variable: str, value: str, **other: object) -> Members:
            return {"generatedAt": moment(0), "seqNo": 0, "eventData": [{
                "eventId": 1, "timestamp": moment(0), "trigger": "Delta", "actualValue": value, **other,
                "component": {"name": component, "evse": {"id": 1}}, "variable": {"name": variable}}]}

        def told(status: str) -> Members:
            return {"timestamp": moment(0), "connectorStatus": status, "evseId": 1, "connectorId": 1}
        status, notify = "StatusNotification", "NotifyEvent"
        cases: list[tuple[str, Members, list[bool], int, str]] = [
            (status, told("Available"), [], 0, "NoError"), (status, told("Faulted"), [False], 1, "OtherError"),
            (status, told("Occupied"), [True], 0, "NoError"), (status, told("Unavailable"), [False], 0, "NoError"),
            (notify, notified("Connector", "AvailabilityState", "Available"), [True], 0, "NoError"),
            (notify, notified("EVSE", "AvailabilityState", "Faulted"), [False], 1, "OtherError"),
            (notify, notified("EVSE", "AvailabilityState", "Available"), [True], 0, "NoError"),
            (notify, notified("EVSE", "Problem", "true", techInfo="Relay"), [], 1, "Relay"),
            (notify, notified("EVSE", "Problem", "true", cleared=True), [], 0, "Relay"),
            (notify, notified("Connector", "Problem", "false"), [], 0, "Relay"),
            (notify, notified("FiscalMetering", "Problem", "true"), [], 0, "Relay"),
            (status, {**told("Unavailable"), "connectorId": 9}, [], 0, "NoError")]
        for action, payload, services, faults, error in cases:
            with self.subTest(action=action, payload=payload):
                self.operating.outcomes.clear()
                self.assertEqual({}, await self.station.call(action, **payload))
                self.assertEqual((services, faults, error), (
                    [outcome.event["in_service"] for outcome in self.operating.fed("service")],
                    len(self.operating.fed("fault")),
                    self.operating.central_system.charge_points()[0]["connectors"][0]["error"]))


class ConnectorsTest(StationCase):
    """E2 is an EVSE with two connectors: it is out of service where both are."""

    async def test_statuses_of_several_connectors(self) -> None:
        for connector, status, services, shown in (
                (1, "Available", [], "Available"), (2, "Available", [], "Available"),
                (1, "Faulted", [], "Available"), (2, "Occupied", [], "Occupied"),
                (2, "Unavailable", [False], "Unavailable"), (1, "Unavailable", [False], "Unavailable"),
                (2, "Available", [True], "Available"), (3, "Faulted", [], "Available")):
            with self.subTest(connector=connector, status=status):
                self.operating.outcomes.clear()
                await self.station.call("StatusNotification", timestamp=moment(0), connectorStatus=status, evseId=2,
                                        connectorId=connector)
                self.assertEqual((services, shown), (
                    [outcome.event["in_service"] for outcome in self.operating.fed("service")],
                    self.operating.central_system.charge_points()[0]["connectors"][1]["status"]))

    async def test_the_connector_is_told_to_the_node_and_by_it(self) -> None:
        await self.started(next(self.names), evse={"id": 2, "connectorId": 2})
        self.assertEqual("B", self.operating.objects.newest("sessions")[0]["connector_id"])
        await self.operating.command("unlock_connector", 2, location_id="LOC1", evse_uid="E2", connector_id="b")
        self.assertEqual({"evseId": 2, "connectorId": 2}, await self.station.was_asked("UnlockConnector"))


class AfterConnectionTest(StationCase):
    """What a station is asked about its transactions once it is connected again. The clock goes 20 times as fast."""

    factor = 20.0

    async def asyncSetUp(self) -> None:
        await super().asyncSetUp()
        self.name = next(self.names)
        await self.started(self.name)
        await self.metered(self.name, 1, 2000)

    async def connect_again(self, **told: bool) -> None:
        """Connects again, and waits until it is asked."""
        self.station.transaction_status = dict(told)
        self.station.asked_about = 0
        await self.station.socket.close()
        await self.eventually(True, lambda: self.station.asked_about > 0)

    async def test_one_that_is_over_ends_by_its_last_reading(self) -> None:
        await self.connect_again(ongoingIndicator=False, messagesInQueue=False)
        await self.eventually([("E1", "COMPLETED", "1.0000")], self.operating.sessions)
        await self.ended(self.name, 5000)
        self.assertEqual(["1.0000"], self.operating.bills())

    async def test_one_of_which_messages_wait_ends_by_them(self) -> None:
        await self.connect_again(ongoingIndicator=False, messagesInQueue=True)
        await self.ended(self.name, 5000)
        self.assertEqual(["4.0000"], self.operating.bills())

    async def test_one_that_goes_on_and_a_station_that_cannot_tell(self) -> None:
        for told in ({"ongoingIndicator": True, "messagesInQueue": False}, {"messagesInQueue": False}):
            await self.connect_again(**told)
            self.assertEqual([("E1", "ACTIVE", "1.0000")], self.operating.sessions())

    async def test_what_has_no_session_is_asked_to_stop(self) -> None:
        name = next(self.names)
        await self.started(name, evse={"id": 2}, idToken=token("ZZ99"))
        for _ in range(2):
            self.assertEqual({"transactionId": name}, await self.station.was_asked("RequestStopTransaction"))

    async def test_a_session_of_a_car_that_waits_stays(self) -> None:
        """A car that is plugged in, and may charge, may wait for hours."""
        name = next(self.names)
        await self.started(name, evse={"id": 2}, state="SuspendedEV")
        await self.operating.clock.sleep(200)
        self.assertEqual(("E2", "PENDING", "0.0000"), self.last())


class SameTest(StationCase):
    """The same charge by each version of OCPP, at an operator of its own."""

    async def test_a_charge_leaves_the_same_rows_whatever_version_tells_of_it(self) -> None:
        rows = []
        for station_of in (Station, ChargingStation):
            folder = tempfile.TemporaryDirectory(dir=ROOM)
            self.addCleanup(folder.cleanup)
            operating = Operating(Path(folder.name))
            await operating.begin()
            await operating.deliver("put_token", TOKEN, 1)
            station = station_of(operating)
            await within(station.connected.wait())
            await operating.start(2)
            await self.charge(station)
            await station.close()
            await operating.kill()
            rows.append(self.rows_of(Path(folder.name) / "node.db"))
        self.assertEqual(rows[0], rows[1])
        self.assertEqual({"session", "cdr"}, {kind for kind, _ in rows[0]} & {"session", "cdr"})

    async def charge(self, station: Station) -> None:
        """Charges 2.5 kWh, by a start that was asked for."""
        if not isinstance(station, ChargingStation):
            await station.was_asked("RemoteStartTransaction")
            number = (await station.begin())["transactionId"]
            await station.meter(number, "2000")
            return await station.end(number, 3500)
        asked = await station.was_asked("RequestStartTransaction")
        await station.tell(event("Started", 0, "T", "RemoteStart", 0, "Charging", remote_start=asked["remoteStartId"],
                                 evse={"id": 1}, idToken=asked["idToken"], meterValue=meter(1000, 0)))
        await station.tell(event("Updated", 1, "T", "MeterValuePeriodic", 1, meterValue=meter(2000, 1)))
        await station.tell(event("Ended", 2, "T", "RemoteStop", 2, meterValue=meter(3500, 2)))

    def rows_of(self, store: Path) -> dict[tuple[str, str], str]:
        """All rows of a store but for those that count, without moments."""
        moments = re.compile(r"\d{4}-\d\d-\d\dT\d\d:\d\d:\d\d(\.\d+)?Z")
        records = Records.of(store)
        return {(kind, key): moments.sub("MOMENT", text) for kind, texts in records.rows.items()
                for key, text in texts.items() if kind != "count"}
