"""Frames of a charge point that are no calls, or none that fit, and connections that are refused."""
import json

import aiohttp

from .cases import PASSWORD
from .charge_point_cases import MOMENT, START, STATUS, FramesCase
from .charge_point_frames import ChargePoint
from .running import Members


class WrongFrames(FramesCase):
    """What is no call, or none that fits."""

    async def assert_error(self, text: str, identifier: str, code: str) -> None:
        """Sends a text twice: each time it is answered by a CALLERROR with this id and this code, and a description."""
        for _ in range(2):
            answer = await self.charge_point.frame(text)
            self.assertEqual([4, identifier, code], answer[:3], text)
            self.assertEqual((5, str, dict), (len(answer), type(answer[3]), type(answer[4])), text)

    async def test_frames_that_are_none(self) -> None:
        for text, identifier in (
                ("hello", "-1"), ("", "-1"), ("{}", "-1"), ("[]", "-1"), ("7", "-1"), ("null", "-1"), ("[2]", "-1"),
                ('[2,"a"]', "a"), ('[2,"a","Heartbeat"]', "a"), ('[2,"a",7,{}]', "a"), ('[2,"a","Heartbeat",[]]', "a"),
                ('[2,17,"Heartbeat",{}]', "-1"), ('[9,"a","Heartbeat",{}]', "a"), ('["2","a","Heartbeat",{}]', "a"),
                ("[" * 100_000, "-1")):
            with self.subTest(text=text[:40]):
                await self.assert_error(text, identifier, "FormationViolation")
        self.assertEqual({}, await self.twice("Heartbeat", {}))

    async def test_answers_to_no_call_are_passed_over(self) -> None:
        for text in ('[3,"nothing",{}]', '[4,"nothing","GenericError","",{}]', '[3,"nothing"]', "[3]"):
            await self.charge_point.send(text)
        await self.charge_point.send_bytes(b"\x00\xff")
        await self.charge_point.send('[2,"after","Heartbeat",{}]')
        answer = await self.charge_point.answer()
        while answer[0] == 4:
            answer = await self.charge_point.answer()
        self.assertEqual([3, "after"], answer[:2])

    async def test_actions_that_are_not_there(self) -> None:
        for action in ("FirmwareStatusNotification", "DiagnosticsStatusNotification", "RemoteStartTransaction", "Fly"):
            await self.assert_error(json.dumps([2, "a", action, {"status": "Idle"}]), "a", "NotImplemented")

    async def test_payloads_that_do_not_fit(self) -> None:
        occurrence, constraint = "OccurenceConstraintViolation", "PropertyConstraintViolation"
        cases: list[tuple[str, Members, str]] = [
            ("Authorize", {}, occurrence), ("Authorize", {"idTag": "x" * 21}, constraint),
            ("Authorize", {"idTag": 7}, constraint),
            ("StatusNotification", {"connectorId": 1, "errorCode": "NoError"}, occurrence),
            ("StatusNotification", {**STATUS, "status": "Occupied"}, constraint),
            ("StatusNotification", {**STATUS, "connectorId": -1}, constraint),
            ("StatusNotification", {**STATUS, "connectorId": "1"}, constraint),
            ("StartTransaction", {"connectorId": 1, "idTag": "AA01", "meterStart": 0}, occurrence),
            ("StartTransaction", {**START, "connectorId": 0}, constraint),
            ("StartTransaction", {**START, "meterStart": "0"}, constraint),
            ("StartTransaction", {**START, "meterStart": 1.5}, constraint),
            ("StartTransaction", {**START, "timestamp": "yesterday"}, constraint),
            ("MeterValues", {"connectorId": 1}, occurrence),
            ("MeterValues", {"connectorId": 1, "transactionId": "1", "meterValue": []}, constraint),
            ("MeterValues", {"connectorId": 1, "meterValue": {}}, constraint),
            ("StopTransaction", {"meterStop": 5, "timestamp": MOMENT}, occurrence),
            ("StopTransaction", {"transactionId": True, "meterStop": 5, "timestamp": MOMENT}, constraint)]
        for action, payload, code in cases:
            with self.subTest(action=action, payload=payload):
                await self.assert_error(json.dumps([2, "a", action, payload]), "a", code)
        self.assertEqual(([], []), await self.counted())


class Connections(FramesCase):
    """Who may connect, and how often."""

    async def test_who_may_not_connect(self) -> None:
        for identifier, password, status in (("CP1", "wrong", 401), ("CP1", None, 401), ("CP9", None, 404),
                                             ("..", None, 404), ("CP1%00", PASSWORD, 404)):
            with self.subTest(identifier=identifier, password=password):
                with self.assertRaises(aiohttp.WSServerHandshakeError) as raised:
                    await ChargePoint(self.bridge.ocpp_url, identifier, password).connect()
                self.assertEqual(status, raised.exception.status)

    async def test_the_first_subprotocol_that_both_know_is_spoken(self) -> None:
        for offered, chosen in ((("ocpp2.0.1", "ocpp1.6"), "ocpp2.0.1"), (("ocpp1.6", "ocpp2.0.1"), "ocpp1.6"),
                                (("ocpp2.1", "ocpp1.5", "ocpp2.0.1"), "ocpp2.0.1"), (("ocpp2.1",), None), ((), None)):
            with self.subTest(offered=offered):
                charge_point = ChargePoint(self.bridge.ocpp_url, "CP2", protocols=offered)
                self.addAsyncCleanup(charge_point.close)
                if chosen is None:
                    with self.assertRaises(aiohttp.WSServerHandshakeError) as raised:
                        await charge_point.connect()
                    self.assertEqual(400, raised.exception.status)
                else:
                    await charge_point.connect()
                    self.assertEqual(chosen, charge_point.protocol)
                    self.assertEqual(["currentTime"], list(await charge_point.call("Heartbeat", {})))
        self.assertIn("CP2: offers no subprotocol of ocpp2.0.1, ocpp1.6", self.bridge.log())

    async def test_errors_are_spelled_as_the_version_has_them(self) -> None:
        charge_point = ChargePoint(self.bridge.ocpp_url, "CP2", protocols=("ocpp2.0.1",))
        self.addAsyncCleanup(charge_point.close)
        await charge_point.connect()
        event = {"eventType": "Ended", "timestamp": MOMENT, "seqNo": 1, "transactionInfo": {"transactionId": "T"}}
        cases: list[tuple[str, Members, str]] = [
            ("StartTransaction", START, "NotImplemented"), ("NotifyReport", {}, "NotImplemented"),
            ("Authorize", {}, "OccurrenceConstraintViolation"),
            ("Authorize", {"idToken": "AA01"}, "PropertyConstraintViolation"),
            ("Authorize", {"idToken": {"idToken": "AA01"}}, "OccurrenceConstraintViolation"),
            ("Authorize", {"idToken": {"idToken": "x" * 37, "type": "Local"}}, "PropertyConstraintViolation"),
            ("StatusNotification", {"connectorStatus": "Preparing", "evseId": 1, "connectorId": 1},
             "PropertyConstraintViolation"),
            ("TransactionEvent", {**event, "transactionInfo": {}}, "OccurrenceConstraintViolation"),
            ("TransactionEvent", {**event, "eventType": "Going"}, "PropertyConstraintViolation"),
            ("TransactionEvent", {**event, "seqNo": "1"}, "PropertyConstraintViolation"),
            ("TransactionEvent", {**event, "timestamp": "now"}, "PropertyConstraintViolation"),
            ("TransactionEvent", {**event, "evse": {}}, "OccurrenceConstraintViolation")]
        for action, payload, code in cases:
            with self.subTest(action=action, payload=payload):
                self.assertEqual([4, "a", code], (await charge_point.frame(json.dumps([2, "a", action, payload])))[:3])
        self.assertEqual([4, "-1", "RpcFrameworkError"], (await charge_point.frame("hello"))[:3])
        self.assertEqual([3, "a", {}], await charge_point.frame(json.dumps([2, "a", "TransactionEvent", event])))

    async def test_a_new_connection_closes_the_old_one(self) -> None:
        newer = await self.connected("CP1", PASSWORD)
        await self.charge_point.was_closed()
        self.assertEqual(["currentTime"], list(await newer.call("Heartbeat", {})))
