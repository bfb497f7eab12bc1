"""Members of a charge point's calls: those that are used are checked, and what stands in all others is read past."""
import json

from .charge_point_cases import MOMENT, START, STATUS, FramesCase, meter_value, sampled
from .running import Members

# What a table of OCPP 1.6 does not have, or has in another form.
ODD_SAMPLES: list[object] = [
    sampled("50.01", measurand="Frequency", unit="Hertz"), sampled("x" * 9000, format="SignedData", encoding="EDL"),
    sampled("1", unit="Joule"), sampled("1", context="Now", phase="L1"), sampled("1", measurand="Vendor.Power"),
    {"measurand": "Energy.Active.Import.Register"}, {"value": None}, {"value": {}}, {"value": "1e999999999"}, 7, None]


class OddMembers(FramesCase):
    """Each call is answered, and what is used of it counts."""

    async def readings(self, identifier: int, *meter_values: object) -> list[float]:
        """Sends readings of a transaction, and gives the energy of each session."""
        payload: Members = {"connectorId": 1, "transactionId": identifier, "meterValue": list(meter_values)}
        self.assertEqual({}, await self.twice("MeterValues", payload))
        return [each["kwh"] for each in (await self.counted())[0]]

    async def test_a_reading_counts_beside_samples_that_cannot_be_read(self) -> None:
        identifier = (await self.twice("StartTransaction", START))["transactionId"]
        self.assertEqual([1.0], await self.readings(identifier, {
            "timestamp": "2025-01-01T10:10:00Z", "sampledValue": [*ODD_SAMPLES, sampled("2000"), *ODD_SAMPLES]}))
        odd: list[object] = [{"timestamp": MOMENT, "sampledValue": []}, {"timestamp": MOMENT}, {"sampledValue": "1"},
                             7, None, []]
        self.assertEqual([2.0], await self.readings(
            identifier, *odd, meter_value(sampled("3000"), timestamp="2025-01-01T10:20:00Z"), *odd))
        self.assertEqual([2.0], await self.readings(identifier))

    async def test_a_transaction_ends_whatever_its_data_and_its_reason_are(self) -> None:
        identifier = (await self.twice("StartTransaction", {**START, "reservationId": "none"}))["transactionId"]
        await self.twice("StopTransaction", {
            "transactionId": identifier, "meterStop": 13500, "timestamp": "2025-01-01T10:30:00Z", "reason": "Boredom",
            "transactionData": [{"timestamp": MOMENT, "sampledValue": ODD_SAMPLES}, "none"]})
        sessions, bills = await self.counted()
        self.assertEqual((["COMPLETED"], [12.5]), (
            [each["status"] for each in sessions], [each["total_energy"] for each in bills]))

    async def test_calls_of_which_nothing_odd_is_used(self) -> None:
        cases: list[tuple[str, Members]] = [
            ("BootNotification", {"chargePointModel": "m" * 200, "firmwareVersion": 7}),
            ("BootNotification", {}), ("StatusNotification", {**STATUS, "errorCode": "Boredom", "info": "i" * 999}),
            ("StatusNotification", {"connectorId": 1, "status": "Available", "timestamp": "yesterday"}),
            ("DataTransfer", {"vendorId": "v" * 999, "data": {}}), ("DataTransfer", {})]
        for action, payload in cases:
            with self.subTest(action=action, payload=payload):
                await self.twice(action, payload)

    async def test_each_error_that_is_sent_is_logged_with_its_cause(self) -> None:
        for text, cause in (
                ("hello", "CP1: a frame is refused: FormationViolation, no JSON list of a message type and"),
                (json.dumps([2, "a", "Fly", {}]), "CP1: Fly is refused: NotImplemented, Fly: unknown"),
                (json.dumps([2, "a", "Authorize", {"idTag": "x" * 21}]),
                 "CP1: Authorize is refused: PropertyConstraintViolation, Authorize.idTag: no IdToken"),
                (json.dumps([2, "a", "MeterValues", {}]),
                 "CP1: MeterValues is refused: OccurenceConstraintViolation, MeterValues.meterValue: missing")):
            self.assertEqual(4, (await self.charge_point.frame(text))[0])
            self.assertIn(cause, self.bridge.log())
