"""Messages of a charge point with each field that OCPP 1.6 lists, and the case in which one is connected."""
import itertools
from typing import Any

from .cases import PASSWORD, OperatorCase
from .charge_point_frames import ChargePoint
from .running import Members

MOMENT = "2025-01-01T10:00:00Z"

# Each field that OCPP 1.6 lists for a message of a charge point.
BOOT = {"chargePointVendor": "Vendor", "chargePointModel": "Model", "chargePointSerialNumber": "CP-0001",
        "chargeBoxSerialNumber": "CB-0001", "firmwareVersion": "1.2.3", "iccid": "8931000000000000000",
        "imsi": "204040000000000", "meterSerialNumber": "M-0001", "meterType": "Meter"}
STATUS = {"connectorId": 1, "errorCode": "NoError", "info": "none", "status": "Available", "timestamp": MOMENT,
          "vendorId": "vendor.example", "vendorErrorCode": "0"}
START = {"connectorId": 1, "idTag": "AA01", "meterStart": 1000, "timestamp": MOMENT}


def sampled(value: str, **other: str) -> Members:
    """A SampledValue: all of its fields but the value have defaults."""
    return {"value": value, **other}


def meter_value(*values: Members, timestamp: str = "2025-01-01T10:10:00Z") -> Members:
    return {"timestamp": timestamp, "sampledValue": list(values)}


class FramesCase(OperatorCase):
    """A charge point that is connected, and a token that may be used."""

    async def asyncSetUp(self) -> None:
        await super().asyncSetUp()
        self.assertEqual(1000, (await self.provider.put_token(self.token)).status_code)
        self.numbers = itertools.count(1)
        self.charge_point = await self.connected("CP1", PASSWORD)

    async def connected(self, identifier: str, password: str | None) -> ChargePoint:
        charge_point = ChargePoint(self.bridge.ocpp_url, identifier, password)
        self.addAsyncCleanup(charge_point.close)
        await charge_point.connect()
        return charge_point

    async def twice(self, action: str, payload: Members) -> Members:
        """Sends a call, and then the same under another id: both are answered alike, but for what the time tells."""
        answers = []
        for _ in range(2):
            answer = await self.charge_point.call(action, payload, f"twice-{next(self.numbers)}")
            answer.get("idTagInfo", {}).pop("expiryDate", None)
            answers.append({name: member for name, member in answer.items() if name != "currentTime"})
        self.assertEqual(answers[0], answers[1], action)
        return answers[0]

    async def counted(self) -> tuple[list[Any], list[Any]]:
        """The sessions and the bills that there are."""
        return await self.bridge.admin_get("/sessions"), await self.bridge.admin_get("/cdrs")
