"""What the charge point for trials says in each version of OCPP: it has one EVSE with one connector."""
from itertools import count
from typing import Protocol
from uuid import uuid4

from .json_text import Members
from .ocpp.messages import Request, Version
from .ocpp.version_16 import Version16
from .ocpp.version_201 import Version201

# What ended a transaction, as a trigger and a reason of OCPP 2.0.1. Each other reason stands in both versions.
ENDS = {"Local": ("StopAuthorized", "Local"), "Remote": ("RemoteStop", "Remote"),
        "EVDisconnected": ("EVCommunicationLost", "EVDisconnected"), "UnlockCommand": ("UnlockCommand", "Other"),
        "DeAuthorized": ("Deauthorized", "DeAuthorized"), "Other": ("AbnormalCondition", "Other")}
STATUSES = {"Preparing": "Occupied", "Charging": "Occupied", "Finishing": "Occupied"}


class Messages(Protocol):
    """The calls of a charge point. A transaction is known by a number or a text, in 1.6 once the answer told it."""

    version: Version
    subprotocol: str
    transaction: int | str | None

    def boot(self) -> Request: ...

    def status(self, status: str, moment: str) -> Request: ...

    def authorize(self, token: str) -> Request: ...

    def begin(self, token: str, register: int, moment: str) -> Request:
        """A transaction that charges."""

    def meter(self, register: int, moment: str) -> Request: ...

    def end(self, register: int, moment: str, reason: str) -> Request: ...

    def ordered(self, payload: Members) -> str:
        """The token of a start that is asked for."""

    def took(self, request: Request, answer: Members) -> tuple[str | None, bool]:
        """The token of a call, where it has one, and whether the answer accepts it."""

    def begins(self, request: Request) -> bool:
        """Whether a call tells that a transaction began."""


class Messages16:
    version: Version = Version16()
    subprotocol = "ocpp1.6"
    transaction: int | str | None = None

    def boot(self) -> Request:
        return "BootNotification", {"chargePointVendor": "Trial", "chargePointModel": "One"}

    def status(self, status: str, moment: str) -> Request:
        code = "OtherError" if status == "Faulted" else "NoError"
        return "StatusNotification", {"connectorId": 1, "errorCode": code, "status": status, "timestamp": moment}

    def authorize(self, token: str) -> Request:
        return "Authorize", {"idTag": token}

    def begin(self, token: str, register: int, moment: str) -> Request:
        return "StartTransaction", {"connectorId": 1, "idTag": token, "meterStart": register, "timestamp": moment}

    def meter(self, register: int, moment: str) -> Request:
        return "MeterValues", {"connectorId": 1, "transactionId": self.transaction, "meterValue": [
            {"timestamp": moment, "sampledValue": [{"value": str(register)}]}]}

    def end(self, register: int, moment: str, reason: str) -> Request:
        return "StopTransaction", {"transactionId": self.transaction, "meterStop": register, "timestamp": moment,
                                   "reason": reason}

    def ordered(self, payload: Members) -> str:
        return str(payload["idTag"])

    def took(self, request: Request, answer: Members) -> tuple[str | None, bool]:
        if self.begins(request):
            self.transaction = answer.get("transactionId")
        return request[1].get("idTag"), answer.get("idTagInfo", {}).get("status") == "Accepted"

    def begins(self, request: Request) -> bool:
        return request[0] == "StartTransaction"


class Messages201:
    version: Version = Version201()
    subprotocol = "ocpp2.0.1"
    transaction: int | str | None = None
    remote_start: int | None = None

    def boot(self) -> Request:
        return "BootNotification", {"reason": "PowerUp", "chargingStation": {"vendorName": "Trial", "model": "One"}}

    def status(self, status: str, moment: str) -> Request:
        return "StatusNotification", {"timestamp": moment, "connectorStatus": STATUSES.get(status, status),
                                      "evseId": 1, "connectorId": 1}

    def authorize(self, token: str) -> Request:
        return "Authorize", {"idToken": {"idToken": token, "type": "ISO14443"}}

    def begin(self, token: str, register: int, moment: str) -> Request:
        self.transaction, self.numbers = str(uuid4()), count()
        remote_start, self.remote_start = self.remote_start, None
        by = {} if remote_start is None else {"remoteStartId": remote_start}
        return self._event("Started", "Authorized" if remote_start is None else "RemoteStart", register, moment,
                           info={"chargingState": "Charging", **by}, context="Transaction.Begin",
                           idToken={"idToken": token, "type": "ISO14443" if remote_start is None else "Central"})

    def meter(self, register: int, moment: str) -> Request:
        return self._event("Updated", "MeterValuePeriodic", register, moment, {"chargingState": "Charging"})

    def end(self, register: int, moment: str, reason: str) -> Request:
        trigger, stopped = ENDS[reason]
        return self._event("Ended", trigger, register, moment, {"stoppedReason": stopped}, "Transaction.End")

    def _event(self, kind: str, trigger: str, register: int, moment: str, info: Members,
               context: str = "Sample.Periodic", **others: object) -> Request:
        return "TransactionEvent", {
            "eventType": kind, "timestamp": moment, "triggerReason": trigger, "seqNo": next(self.numbers),
            "transactionInfo": {"transactionId": self.transaction, **info}, "evse": {"id": 1, "connectorId": 1},
            "meterValue": [{"timestamp": moment, "sampledValue": [{"value": register, "context": context}]}], **others}

    def ordered(self, payload: Members) -> str:
        self.remote_start = payload["remoteStartId"]
        return str(payload["idToken"]["idToken"])

    def took(self, request: Request, answer: Members) -> tuple[str | None, bool]:
        return (request[1].get("idToken", {}).get("idToken"),
                answer.get("idTokenInfo", {}).get("status") == "Accepted")

    def begins(self, request: Request) -> bool:
        return request[1].get("eventType") == "Started"


VERSIONS: dict[str, type[Messages16] | type[Messages201]] = {"1.6": Messages16, "2.0.1": Messages201}
