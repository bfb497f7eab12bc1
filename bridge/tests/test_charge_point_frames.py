"""Frames of a charge point, written from OCPP 1.6's tables of fields, each sent twice: answered alike, counted once."""
from .charge_point_cases import BOOT, MOMENT, START, STATUS, FramesCase, meter_value, sampled
from .ocpi_objects import token


class Messages(FramesCase):
    """Each message of a charge point."""

    async def test_boot_and_heartbeat(self) -> None:
        self.assertEqual("ocpp1.6", self.charge_point.protocol)
        self.assertEqual({"status": "Accepted", "interval": 60}, await self.twice("BootNotification", BOOT))
        least = {name: BOOT[name] for name in ("chargePointVendor", "chargePointModel")}
        answer = await self.charge_point.call("BootNotification", least)
        self.assertEqual({"currentTime", "interval", "status"}, set(answer))
        self.assertEqual({}, await self.twice("Heartbeat", {}))
        self.assertEqual(["currentTime"], list(await self.charge_point.call("Heartbeat", {})))

    async def test_statuses(self) -> None:
        for status in ("Available", "Preparing", "Charging", "SuspendedEVSE", "SuspendedEV", "Finishing", "Reserved",
                       "Unavailable", "Faulted", "Available"):
            self.assertEqual({}, await self.twice("StatusNotification", {**STATUS, "status": status}))
        for error in ("ConnectorLockFailure", "EVCommunicationError", "GroundFailure", "HighTemperature",
                      "InternalError", "LocalListConflict", "OtherError", "OverCurrentFailure", "OverVoltage",
                      "PowerMeterFailure", "PowerSwitchFailure", "ReaderFailure", "ResetFailure", "UnderVoltage",
                      "WeakSignal"):
            payload = {"connectorId": 0, "errorCode": error, "status": "Available"}
            self.assertEqual({}, await self.twice("StatusNotification", payload))

    async def test_a_charge_by_a_token_that_is_shown(self) -> None:
        await self.twice("StatusNotification", {**STATUS, "status": "Preparing"})
        self.assertEqual("Accepted", (await self.twice("Authorize", {"idTag": "AA01"}))["idTagInfo"]["status"])
        begun = await self.twice("StartTransaction", START)
        self.assertEqual("Accepted", begun["idTagInfo"]["status"])
        identifier = begun["transactionId"]
        self.assertIsInstance(identifier, int)
        await self.twice("MeterValues", {"connectorId": 1, "transactionId": identifier, "meterValue": [
            meter_value(sampled("2500"))]})
        ended = {"transactionId": identifier, "idTag": "AA01", "meterStop": 13500, "reason": "EVDisconnected",
                 "timestamp": "2025-01-01T10:30:00Z",
                 "transactionData": [meter_value(sampled("1000", context="Transaction.Begin"), timestamp=MOMENT),
                                     meter_value(sampled("13500", context="Transaction.End"))]}
        answer = await self.twice("StopTransaction", ended)
        self.assertEqual("Accepted", answer.get("idTagInfo", {"status": "Accepted"})["status"])
        sessions, bills = await self.counted()
        self.assertEqual((1, 1), (len(sessions), len(bills)))
        self.assertEqual(("COMPLETED", 12.5, "WHITELIST"), (
            sessions[0]["status"], sessions[0]["kwh"], sessions[0]["auth_method"]))
        self.assertEqual(("2025-01-01T10:00:00Z", "2025-01-01T10:30:00Z", 12.5, 3.125, 0.5), (
            bills[0]["start_date_time"], bills[0]["end_date_time"], bills[0]["total_energy"],
            bills[0]["total_cost"]["excl_vat"], bills[0]["total_time"]))

    async def test_a_token_that_may_not_be_used(self) -> None:
        await self.provider.put_token(token(self.provider.party, "AA02", valid=False))
        for id_tag in ("AA02", "unknown"):
            begun = await self.twice("StartTransaction", {**START, "idTag": id_tag})
            self.assertEqual("Invalid", begun["idTagInfo"]["status"], id_tag)
            ended = {"transactionId": begun["transactionId"], "meterStop": 1100, "timestamp": MOMENT}
            await self.twice("StopTransaction", ended)
        self.assertEqual(([], []), await self.counted())

    async def test_energy_of_each_unit_phase_and_measurand(self) -> None:
        """The register is in Wh where no unit is named, and is that of no phase; all else is no reading."""
        identifier = (await self.twice("StartTransaction", START))["transactionId"]
        register = "Energy.Active.Import.Register"
        no_reading = [
            sampled("99000", phase="L1"), sampled("99000", measurand=register, phase="L1-N"),
            sampled("99000", measurand="Energy.Active.Export.Register"),
            sampled("99000", measurand="Energy.Active.Import.Interval"),
            sampled("11000", measurand="Power.Active.Import", unit="W"),
            sampled("16.1", measurand="Current.Import", unit="A", phase="L2"),
            sampled("99.5", measurand="SoC", unit="Percent"),
            sampled("20.0", measurand="Temperature", unit="Celsius", location="Body")]
        cases = [([sampled("2000")], 1.0), ([sampled("3.5", unit="kWh")], 2.5),
                 ([sampled("4250.5", measurand=register, unit="Wh", context="Sample.Periodic", format="Raw",
                           location="Outlet")], 3.2505),
                 (no_reading, 3.2505), ([*no_reading, sampled("5000", measurand=register)], 4.0),
                 ([sampled("6.12345", unit="kWh", measurand=register)], 5.1234), ([sampled("2000")], 5.1234),
                 ([sampled("7.5e3")], 6.5)]
        for minute, (values, wanted) in enumerate(cases, 10):
            with self.subTest(values=values):
                payload = {"connectorId": 1, "transactionId": identifier, "meterValue": [
                    meter_value(*values, timestamp=f"2025-01-01T10:{minute}:00Z")]}
                self.assertEqual({}, await self.twice("MeterValues", payload))
                sessions, _ = await self.counted()
                self.assertEqual(wanted, sessions[0]["kwh"])
        several = [meter_value(sampled("8000"), timestamp="2025-01-01T10:20:00Z"),
                   meter_value(sampled("9000"), timestamp="2025-01-01T10:21:00Z")]
        await self.twice("MeterValues", {"connectorId": 1, "transactionId": identifier, "meterValue": several})
        self.assertEqual(8.0, (await self.counted())[0][0]["kwh"])

    async def test_readings_of_no_transaction(self) -> None:
        identifier = (await self.twice("StartTransaction", START))["transactionId"]
        for payload in ({"connectorId": 1, "transactionId": identifier + 1000, "meterValue": [
                            meter_value(sampled("9000"))]},
                        {"connectorId": 2, "meterValue": [meter_value(sampled("9000"))]},
                        {"connectorId": 0, "meterValue": [meter_value(sampled("9000"))]}):
            self.assertEqual({}, await self.twice("MeterValues", payload))
        self.assertEqual([0], [each["kwh"] for each in (await self.counted())[0]])

    async def test_a_late_report_of_an_older_transaction(self) -> None:
        older = (await self.twice("StartTransaction", START))["transactionId"]
        ended = {"transactionId": older, "meterStop": 2000, "timestamp": "2025-01-01T10:30:00Z"}
        await self.twice("StopTransaction", ended)
        newer = (await self.twice("StartTransaction", {
            **START, "meterStart": 2000, "timestamp": "2025-01-01T11:00:00Z"}))["transactionId"]
        self.assertNotEqual(older, newer)
        await self.twice("MeterValues", {"connectorId": 1, "transactionId": older, "meterValue": [
            meter_value(sampled("9000"))]})
        await self.twice("StopTransaction", ended)
        sessions, bills = await self.counted()
        self.assertEqual([0, 1], sorted(each["kwh"] for each in sessions))
        self.assertEqual(["ACTIVE", "COMPLETED"], sorted(each["status"] for each in sessions))
        self.assertEqual(1, len(bills))

    async def test_a_transaction_that_the_owner_ends(self) -> None:
        """Its charge point may have been replaced. What that still tells is billed no more."""
        identifier = (await self.twice("StartTransaction", START))["transactionId"]
        await self.twice("MeterValues", {"connectorId": 1, "transactionId": identifier, "meterValue": [
            meter_value(sampled("2000"))]})
        told = await self.bridge.admin_post("/faults", {"evse_uid": "E1"})
        self.assertEqual((200, "stepped"), (told["status"], told["answer"]["done"]["done"]))
        ended = {"transactionId": identifier, "meterStop": 9000, "timestamp": "2025-01-01T10:30:00Z"}
        await self.twice("StopTransaction", ended)
        sessions, bills = await self.counted()
        self.assertEqual([("COMPLETED", 1)], [(each["status"], each["kwh"]) for each in sessions])
        self.assertEqual([1], [each["total_energy"] for each in bills])

    async def test_data_transfer(self) -> None:
        payload = {"vendorId": "vendor.example", "messageId": "m", "data": "text"}
        self.assertEqual({"status": "UnknownVendorId"}, await self.twice("DataTransfer", payload))
        self.assertEqual({"status": "UnknownVendorId"}, await self.twice("DataTransfer", {"vendorId": "v"}))

    async def test_the_same_message_id_again(self) -> None:
        """A charge point that lost its connection may send the very frame again, on a new one."""
        first = await self.charge_point.call("StartTransaction", START, "the-same")
        await self.charge_point.connect()
        self.assertEqual(first, await self.charge_point.call("StartTransaction", START, "the-same"))
        ended = {"transactionId": first["transactionId"], "meterStop": 3000, "timestamp": "2025-01-01T10:30:00Z"}
        await self.charge_point.begin_call("StopTransaction", ended, "its-end")
        await self.charge_point.connect()
        await self.charge_point.call("StopTransaction", ended, "its-end")
        sessions, bills = await self.counted()
        self.assertEqual(([2.0], [2.0]), (
            [each["kwh"] for each in sessions], [each["total_energy"] for each in bills]))

    async def test_calls_behind_one_another(self) -> None:
        """Two calls before the first was answered are answered in their order."""
        first = await self.charge_point.begin_call("StartTransaction", START)
        second = await self.charge_point.begin_call("Heartbeat", {})
        self.assertEqual([first, second], [(await self.charge_point.answer())[1] for _ in range(2)])
