"""Charges by OCPP 2.0.1, with each way in which their messages may be lost, come again, or come in another order."""
import itertools

from ocpi_bridge.json_text import Members

from .ocpp_station import ChargingStation, StationCase, event, meter, token
from .ocpp_running import TOKEN, moment, within

EVSE: Members = {"id": 1, "connectorId": 1}
# A charge of 2.5 kWh in each of the ways in which stations tell of one: the messages by letters, in their order. A car
# is plugged in before a token is shown, or behind that; a start that was asked for has a number.
WAYS: dict[str, dict[str, Members]] = {
    "a token first": {
        "S": {"kind": "Started", "trigger": "Authorized", "second": 0, "evse": EVSE, "idToken": token(),
              "state": "EVConnected", "meterValue": meter(1000, 0, context="Transaction.Begin")},
        "C": {"kind": "Updated", "trigger": "ChargingStateChanged", "second": 1, "state": "Charging"},
        "M": {"kind": "Updated", "trigger": "MeterValuePeriodic", "second": 2, "meterValue": meter(2000, 2)},
        "E": {"kind": "Ended", "trigger": "EVDeparted", "second": 3, "meterValue": meter(3500, 3)}},
    "a car first": {
        "S": {"kind": "Started", "trigger": "CablePluggedIn", "second": 0, "evse": EVSE, "state": "EVConnected",
              "meterValue": meter(1000, 0)},
        "C": {"kind": "Updated", "trigger": "Authorized", "second": 1, "idToken": token(), "state": "Charging"},
        "M": {"kind": "Updated", "trigger": "MeterValueClock", "second": 2, "meterValue": meter(
            "2.0", 2, measurand="Energy.Active.Import.Register", unitOfMeasure={"unit": "kWh"})},
        "E": {"kind": "Ended", "trigger": "StopAuthorized", "second": 3, "idToken": token("ZZ99"),
              "meterValue": meter(35, 3, unitOfMeasure={"multiplier": 2})}},
    "a start that was asked for": {
        "S": {"kind": "Started", "trigger": "RemoteStart", "second": 0, "evse": EVSE, "state": "Charging",
              "idToken": token("AA01", "Central"), "meterValue": meter(1000, 0)},
        "C": {"kind": "Updated", "trigger": "ChargingStateChanged", "second": 1, "state": "SuspendedEV"},
        "M": {"kind": "Updated", "trigger": "MeterValuePeriodic", "second": 2, "meterValue": meter(2000, 2)},
        "E": {"kind": "Ended", "trigger": "RemoteStop", "second": 3, "offline": True, "meterValue": meter(3500, 3)}}}
CHARGED, NOT_CHARGED = [("COMPLETED", "2.5000")], list[tuple[str, str]]()
# What comes, and the sessions that there are then, each with its bill. A space is a new connection.
TELLINGS: list[tuple[str, list[tuple[str, str]]]] = [
    *(("".join(order), CHARGED) for order in itertools.permutations("SCME")),
    ("SSCCMMEE", CHARGED), ("SCMESCME", CHARGED), ("EMCSSCME", CHARGED), ("S SC CM ME E", CHARGED), ("SCE", CHARGED),
    ("CME", NOT_CHARGED)]
# Where the token is in the first message, each between that and the last one may be lost.
SHORTER = {"a token first": ["SE", "ES", "SME", "E S E"], "a start that was asked for": ["SE", "ES", "E S E"]}


class TellingTest(StationCase):
    """Whatever the order, and however often: there is one session with one bill, or none."""

    async def each_telling(self, way: str) -> None:
        tellings = TELLINGS + [(order, CHARGED) for order in SHORTER.get(way, [])]
        for number, (order, wanted) in enumerate(tellings):
            with self.subTest(way=way, order=order):
                sessions, bills = self.operating.sessions(), len(self.operating.bills())
                more: Members = {}
                if way == "a start that was asked for":
                    await self.operating.start(number + 2)
                    asked = await self.station.was_asked("RequestStartTransaction")
                    more = {"remote_start": asked["remoteStartId"]}
                name = next(self.names)
                for letter in order:
                    await self.tell(name, way, order, letter, more)
                found = self.operating.sessions()[len(sessions):]
                self.assertEqual(wanted, [(status, kwh) for _, status, kwh in found if status != "PENDING"])
                self.assertEqual([kwh for _, kwh in wanted], self.operating.bills()[:len(wanted)])
                self.assertEqual(bills + len(wanted), len(self.operating.bills()))
                await self.end_all()

    async def tell(self, name: str, way: str, order: str, letter: str, more: Members) -> None:
        """Tells one message of a way, or connects again."""
        if letter == " ":
            await self.station.socket.close()
            await self.eventually(True, lambda: self.station.connected.is_set() and not self.station.socket.closed)
            return
        members = WAYS[way][letter] | (more if letter == "S" else {})
        answer = await self.station.tell(event(sequence="SCME".index(letter), transaction=name, **members))
        # What has a token is answered of it, and is accepted.
        self.assertEqual({"idTokenInfo": {"status": "Accepted"}} if "idToken" in members else {}, answer)

    async def end_all(self) -> None:
        """Ends what a start without a transaction left."""
        for uid, status, _ in self.operating.sessions():
            if status == "PENDING":
                await within(self.operating.feeder.feed(self.operating.events.make("stops", evse_uid=uid)))

    async def test_a_token_first(self) -> None:
        await self.each_telling("a token first")

    async def test_a_car_first(self) -> None:
        await self.each_telling("a car first")

    async def test_a_start_that_was_asked_for(self) -> None:
        await self.each_telling("a start that was asked for")


class EventTest(StationCase):
    """What single messages tell."""

    async def test_a_session_is_pending_until_the_car_charges(self) -> None:
        name = next(self.names)
        await self.started(name, state="EVConnected")
        self.assertEqual(("E1", "PENDING", "0.0000"), self.last())
        await self.station.tell(event("Updated", 1, name, "ChargingStateChanged", 5, "Charging"))
        session = self.operating.objects.newest("sessions")[0]
        self.assertEqual(("ACTIVE", "WHITELIST", moment(5)), (
            session["status"], session["auth_method"], session["start_date_time"]))

    async def test_what_ends_before_it_charges_has_no_bill(self) -> None:
        for trigger in ("EVConnectTimeout", "EVDeparted"):
            name = next(self.names)
            await self.started(name, state="EVConnected")
            await self.station.tell(event("Ended", 1, name, trigger, 5, meterValue=meter(1000, 5)))
            self.assertEqual(("E1", "INVALID", "0.0000"), self.last())
        self.assertEqual([], self.operating.bills())

    async def test_readings(self) -> None:
        """The register is read in its unit and with its multiplier, without a phase and at the outlet, and no more."""
        register = {"measurand": "Energy.Active.Import.Register"}
        cases: list[tuple[object, Members, str]] = [
            (2000, {}, "1.0000"), (2100, register, "1.1000"), (2.2, {"unitOfMeasure": {"unit": "kWh"}}, "1.2000"),
            (23, {"unitOfMeasure": {"multiplier": 2}}, "1.3000"), (24e2, {"location": "Outlet"}, "1.4000"),
            (25, {"unitOfMeasure": {"unit": "kWh", "multiplier": -1}}, "1.5000"), (2600.05, {}, "1.6000"),
            ("2700", {"unitOfMeasure": {"unit": "Wh", "multiplier": 0}}, "1.7000"),
            (9000, {**register, "phase": "L1"}, "1.7000"), (9000, {"location": "Inlet"}, "1.7000"),
            (9000, {"measurand": "Power.Active.Import"}, "1.7000"), (9000, {"unitOfMeasure": {"unit": "J"}}, "1.7000"),
            (9000, {"unitOfMeasure": {"multiplier": 99}}, "1.7000"), ("much", {}, "1.7000"), (None, {}, "1.7000"),
            (1500, {}, "1.7000")]
        name = next(self.names)
        await self.started(name)
        for sequence, (value, sample, kwh) in enumerate(cases, 1):
            with self.subTest(value=value, sample=sample):
                await self.metered(name, sequence, value, **sample)
                self.assertEqual(("E1", "ACTIVE", kwh), self.last())
        await self.station.tell(event("Ended", 20, name, "EVDeparted", 3))
        self.assertEqual(["1.7000"], self.operating.bills())

    async def test_samples_of_one_message_and_its_start_in_the_last_one(self) -> None:
        """A station that tells of the beginning at the end alone."""
        name = next(self.names)
        await self.started(name, meterValue=None)
        both = meter(1234.5, 0, context="Transaction.Begin") + meter(3234.5, 2, context="Transaction.End")
        await self.ended(name, 0, meterValue=[*both, 7, {"sampledValue": [None, {}]}])
        self.assertEqual((("E1", "COMPLETED", "2.0000"), ["2.0000"]), (self.last(), self.operating.bills()))

    async def test_tokens(self) -> None:
        """Those that no driver shows begin no session, and what they begin is asked to stop."""
        for kind, uid, is_accepted in (
                ("ISO14443", "AA01", True), ("ISO15693", "aa01", True), ("ISO14443", "ZZ99", False),
                ("eMAID", "AA01", False), ("Central", "AA01", False), ("Local", "AA01", False),
                ("NoAuthorization", "", False)):
            with self.subTest(kind=kind, uid=uid):
                name, status = next(self.names), "Accepted" if is_accepted else "Invalid"
                answer = await self.started(name, idToken=token(uid, kind))
                self.assertEqual({"idTokenInfo": {"status": status}}, answer)
                if not is_accepted:
                    self.assertEqual({"transactionId": name}, await self.station.was_asked("RequestStopTransaction"))
                await self.ended(name, 1000)
        self.assertEqual((2, ["0.0000", "0.0000"]), (len(self.operating.sessions()), self.operating.bills()))

    async def test_a_token_of_the_type_other_is_one_of_ocpi(self) -> None:
        await self.operating.deliver("put_token", {**TOKEN, "uid": "NL-TNM-1", "type": "OTHER"}, 2)
        self.assertEqual({"idTokenInfo": {"status": "Accepted"}}, await self.started(
            next(self.names), idToken=token("NL-TNM-1", "eMAID")))

    async def test_a_lost_end(self) -> None:
        """The next transaction at the EVSE ends it by its last reading. One that began before ends none."""
        first, second, older = (next(self.names) for _ in range(3))
        await self.started(first)
        await self.metered(first, 1, 2000)
        with self.assertLogs("ocpp", "WARNING") as logged:
            await self.started(second, 5, 2500)
        self.assertIn("its end did not come, and session", logged.output[0])
        self.assertEqual([("E1", "COMPLETED", "1.0000"), ("E1", "ACTIVE", "0.0000")], self.operating.sessions())
        await self.started(older, 3, 500)
        await self.ended(older, 900)
        await self.ended(first, 2500)
        await self.ended(second, 3000, 8)
        self.assertEqual(["0.5000", "1.0000"], sorted(self.operating.bills()))

    async def test_an_end_that_comes_before_all_of_another_transaction(self) -> None:
        first, second = next(self.names), next(self.names)
        await self.ended(first, 2000, 2)
        await self.started(second, 5, 2000)
        await self.ended(second, 2500, 7)
        await self.started(first)
        self.assertEqual(["0.5000", "1.0000"], sorted(self.operating.bills()))

    async def test_a_start_that_is_told_with_another_moment_is_the_same(self) -> None:
        """As of a station whose clock was set meanwhile."""
        name = next(self.names)
        for second in (-10_000_000, 5):
            self.assertEqual({"idTokenInfo": {"status": "Accepted"}}, await self.started(name, second))
        await self.ended(name, 3000, 9)
        self.assertEqual(([("E1", "COMPLETED", "2.0000")], ["2.0000"]), (
            self.operating.sessions(), self.operating.bills()))

    async def test_a_station_that_uses_an_id_again_tells_of_another_transaction(self) -> None:
        await self.operating.deliver("put_token", {**TOKEN, "uid": "AA02"}, 2)
        await self.started("0")
        await self.metered("0", 1, 2000)
        await self.started("0", 5, 2500, idToken=token("AA02"))
        await self.ended("0", 3000, 6)
        self.assertEqual(["0.5000", "1.0000"], sorted(self.operating.bills()))

    async def test_a_station_that_uses_an_id_behind_its_end_tells_of_another_transaction(self) -> None:
        for second in (0, 10):
            for _ in range(2):
                self.assertEqual({"idTokenInfo": {"status": "Accepted"}}, await self.started("1", second))
            await self.ended("1", 2000, second + 5)
            await self.started("1", second)
        self.assertEqual(["1.0000", "1.0000"], self.operating.bills())

    async def test_a_reading_that_cannot_be_true_is_not_billed(self) -> None:
        """Also where it comes before it is known who charges."""
        for order in ("SM", "MS"):
            name = next(self.names)
            for letter in order:
                await (self.started(name) if letter == "S" else self.metered(name, 1, 10**12))
            await self.metered(name, 2, 2000, 2)
            await self.ended(name, 10**12, 3)
            self.assertEqual(("E1", "COMPLETED", "1.0000"), self.last(), order)

    async def test_what_charges_for_a_minute_without_a_token_is_asked_to_stop(self) -> None:
        name = next(self.names)
        await self.started(name, -10, idToken=None)
        self.assertEqual({"transactionId": name}, await self.station.was_asked("RequestStopTransaction"))
        await self.ended(name, 2000)
        self.assertEqual(([], []), (self.operating.sessions(), self.operating.bills()))

    async def test_an_evse_that_is_told_later_or_is_the_only_one(self) -> None:
        name = next(self.names)
        self.assertEqual({"idTokenInfo": {"status": "Accepted"}}, await self.started(name, evse=None))
        self.assertEqual([], self.operating.sessions())
        await self.station.tell(event("Updated", 1, name, "CablePluggedIn", 1, "Charging", evse={"id": 2}))
        self.assertEqual(("E2", "ACTIVE", "0.0000"), self.last())
        other = ChargingStation(self.operating, "CP2")
        self.addAsyncCleanup(other.close)
        await other.tell(event("Started", 0, name, "Authorized", 0, "Charging", idToken=token(),
                               meterValue=meter(0, 0)))
        self.assertEqual(("E3", "ACTIVE", "0.0000"), self.last())

    async def test_an_evse_that_is_not_configured(self) -> None:
        name = next(self.names)
        answer = await self.started(name, evse={"id": 7, "connectorId": 1})
        self.assertEqual({"idTokenInfo": {"status": "Invalid"}}, answer)
        self.assertEqual({"transactionId": name}, await self.station.was_asked("RequestStopTransaction"))
        self.assertEqual([], self.operating.sessions())
