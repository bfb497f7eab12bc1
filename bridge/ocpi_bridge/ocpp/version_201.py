"""OCPP 2.0.1: what a charging station is asked, and what its messages tell."""
from collections.abc import Iterator
from dataclasses import dataclass
from decimal import Decimal

from ..clock import milliseconds_of
from ..json_text import Members
from .frames import TABLES, is_text
from .messages import NO_ERROR, IdToken, MeterReading, Request, StatusReport
from .readings import meter_readings
from .transactions import Transaction

# OCPI's types of tokens by OCPP's: no driver has shown one of any other type. And OCPP's type of what is to start.
TOKEN_TYPES = {"ISO14443": "RFID", "ISO15693": "RFID", "eMAID": "OTHER", "KeyCode": "OTHER", "MacAddress": "OTHER"}
ASKED_TYPES = {"RFID": "ISO14443"}
CONNECTOR_STATUSES = TABLES["2.0.1"]["words"]["ConnectorStatusEnumType"]
COMPONENTS = ("ChargingStation", "EVSE", "Connector")
STARTED, ENDED = "Started", "Ended"
LONGEST_ERROR = 50
# Before all numbers of events.
BEFORE_ALL = -1


@dataclass(frozen=True)
class TransactionEvent:
    """A TransactionEvent, its moment in milliseconds since 1970. Its token is one that may have begun the transaction.

    `begins` is what the register may have been at the beginning, behind a number: the lowest one counts.
    """

    kind: str
    transaction_id: str
    at: int
    is_offline: bool
    is_charging: bool
    evse: int
    connector: int
    token: IdToken | None
    has_token: bool
    remote_start: int | None
    readings: tuple[MeterReading, ...]
    begins: tuple[int, Decimal] | None


class Version201:
    """Its charging stations have EVSEs, each with connectors of its own."""

    name = "2.0.1"
    longest_token = 36

    def start(self, evse: int, token: IdToken, remote_start: int) -> Request:
        return "RequestStartTransaction", {
            "evseId": evse, "remoteStartId": remote_start,
            "idToken": {"idToken": token.uid, "type": ASKED_TYPES.get(token.type or "", "Central")}}

    def stop(self, transaction: Transaction) -> Request:
        return "RequestStopTransaction", {"transactionId": transaction.identifier}

    def unlock(self, evse: int, connector: int) -> Request:
        return "UnlockConnector", {"evseId": evse, "connectorId": connector}

    def availability(self, evse: int, in_service: bool) -> Request:
        return "ChangeAvailability", {"operationalStatus": "Operative" if in_service else "Inoperative",
                                      "evse": {"id": evse}}

    def status(self, evse: int, connector: int) -> Request:
        return "TriggerMessage", {"requestedMessage": "StatusNotification",
                                  "evse": {"id": evse, "connectorId": connector}}

    def transaction_status(self, transaction: Transaction) -> Request | None:
        return "GetTransactionStatus", {"transactionId": transaction.identifier}

    def read_token(self, payload: Members) -> IdToken:
        return _token(payload["idToken"])

    def read_status(self, payload: Members) -> StatusReport:
        return _status(payload["evseId"], payload["connectorId"], payload["connectorStatus"])

    def token_answer(self, is_accepted: bool, expires: str | None = None) -> Members:
        expiry = {} if expires is None or not is_accepted else {"cacheExpiryDateTime": expires}
        return {"idTokenInfo": {"status": "Accepted" if is_accepted else "Invalid", **expiry}}


def _token(members: Members) -> IdToken:
    return IdToken(members["idToken"], TOKEN_TYPES.get(members["type"]) if members["idToken"] else None)


def _status(evse: int, connector: int, status: str) -> StatusReport:
    return StatusReport(evse, connector, status, "OtherError" if status == "Faulted" else NO_ERROR)


def read_event(payload: Members) -> TransactionEvent:
    """What a TransactionEvent tells."""
    kind, info, at = payload["eventType"], payload["transactionInfo"], payload["timestamp"]
    evse, shown = payload.get("evse") or {}, payload.get("idToken")
    readings = meter_readings(payload.get("meterValue"), at)
    first = meter_readings(payload.get("meterValue"), at, "Transaction.Begin")
    begins = first or readings
    # A token that ends a transaction may be another than the one that began it.
    is_end = kind == ENDED or payload.get("triggerReason") == "StopAuthorized"
    return TransactionEvent(
        kind=kind, transaction_id=info["transactionId"], at=milliseconds_of(at),
        is_offline=payload.get("offline") is True, is_charging=info.get("chargingState") == "Charging",
        evse=evse.get("id") or 0, connector=evse.get("connectorId") or 0,
        token=_token(shown) if shown is not None and not is_end else None, has_token=shown is not None,
        remote_start=info.get("remoteStartId"), readings=readings,
        begins=(BEFORE_ALL if first else payload["seqNo"], begins[0].register) if begins else None)


def read_notify_event(payload: Members) -> Iterator[tuple[StatusReport, bool]]:
    """What a NotifyEvent tells of the station, its EVSEs and their connectors: with true a status, else a problem."""
    for event in payload["eventData"]:
        try:
            component, variable, value = event["component"], event["variable"]["name"], event["actualValue"]
            evse = component.get("evse") or {}
            number, connector = evse.get("id", 0), evse.get("connectorId", 0)
            is_told = component["name"] in COMPONENTS and not event.get("cleared")
        except (AttributeError, KeyError, TypeError):
            continue
        if not is_told or type(number) is not int or type(connector) is not int:
            continue
        if variable == "AvailabilityState" and value in CONNECTOR_STATUSES:
            yield _status(number, connector, value), True
        elif variable == "Problem" and is_text(value) and value.lower() == "true":
            words = event.get("techInfo") or event.get("techCode") or "Problem"
            yield StatusReport(number, connector, "Faulted", str(words)[:LONGEST_ERROR]), False
