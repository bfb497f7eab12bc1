"""A charging station of OCPP 2.0.1, and its messages, written from OCPP's words alone."""
import itertools
from typing import Any

from ocpi_bridge.json_text import Members

from .ocpp_cases import OcppCase
from .ocpp_running import Station, moment


def token(uid: str = "AA01", kind: str = "ISO14443") -> Members:
    return {"idToken": uid, "type": kind}


def meter(value: object, second: int, **sample: Any) -> list[Members]:
    """A `meterValue` with one sample."""
    return [{"timestamp": moment(second), "sampledValue": [{"value": value, **sample}]}]


def event(kind: str, sequence: int, transaction: str, trigger: str, second: int, state: str | None = None,
          **other: object) -> Members:
    """A TransactionEvent. A member that is None is left out, and `remote_start` is one of `transactionInfo`."""
    remote_start = other.pop("remote_start", None)
    info: Members = {"transactionId": transaction, "chargingState": state, "remoteStartId": remote_start}
    members: Members = {
        "eventType": kind, "timestamp": moment(second), "triggerReason": trigger, "seqNo": sequence,
        "transactionInfo": {name: member for name, member in info.items() if member is not None}, **other}
    return {name: member for name, member in members.items() if member is not None}


class ChargingStation(Station):
    """It has two EVSEs, each with a connector."""

    subprotocol = "ocpp2.0.1"

    async def status(self, status: str, connector: int = 1) -> None:
        """Tells the status of the connector of an EVSE."""
        assert await self.call("StatusNotification", timestamp=moment(0), connectorStatus=status, evseId=connector,
                               connectorId=1) == {}

    async def tell(self, payload: Members) -> Members:
        return await self.call("TransactionEvent", **payload)


class StationCase(OcppCase):
    """An operator, a token that may be used, and a charging station of OCPP 2.0.1 with two EVSEs."""

    station: ChargingStation
    station_of = ChargingStation

    async def asyncSetUp(self) -> None:
        await super().asyncSetUp()
        self.names = (f"transaction-{number}" for number in itertools.count(1))

    async def started(self, name: str, second: int = 0, register: object = 1000, **other: object) -> Members:
        """Tells that a transaction began, and charges."""
        members: Members = {"evse": {"id": 1, "connectorId": 1}, "idToken": token(), "state": "Charging",
                            "meterValue": meter(register, second, context="Transaction.Begin")} | other
        return await self.station.tell(event("Started", 0, name, "Authorized", second, **members))

    async def metered(self, name: str, sequence: int, register: object, second: int = 1, **sample: Any) -> Members:
        return await self.station.tell(event("Updated", sequence, name, "MeterValuePeriodic", second, "Charging",
                                             meterValue=meter(register, second, **sample)))

    async def ended(self, name: str, register: object, second: int = 2, **other: object) -> Members:
        members: Members = {"meterValue": meter(register, second, context="Transaction.End")} | other
        return await self.station.tell(event("Ended", 9, name, "EVDeparted", second, **members))

    def last(self) -> tuple[str, str, str] | None:
        """The newest session."""
        return next(iter(self.operating.sessions()[-1:]), None)


