"""OCPP 1.6: what a charge point is asked, and what its messages tell."""
from ..json_text import Members
from .messages import NO_ERROR, IdToken, Request, StatusReport
from .transactions import Transaction

LONGEST_ERROR = 50


class Version16:
    """Its charge points have connectors alone: each stands for an EVSE with one connector."""

    name = "1.6"
    longest_token = 20

    def start(self, evse: int, token: IdToken, remote_start: int) -> Request:
        return "RemoteStartTransaction", {"connectorId": evse, "idTag": token.uid}

    def stop(self, transaction: Transaction) -> Request:
        return "RemoteStopTransaction", {"transactionId": transaction.number}

    def unlock(self, evse: int, connector: int) -> Request:
        return "UnlockConnector", {"connectorId": evse}

    def availability(self, evse: int, in_service: bool) -> Request:
        return "ChangeAvailability", {"connectorId": evse, "type": "Operative" if in_service else "Inoperative"}

    def status(self, evse: int, connector: int) -> Request:
        return "TriggerMessage", {"requestedMessage": "StatusNotification", "connectorId": evse}

    def transaction_status(self, transaction: Transaction) -> Request | None:
        return None

    def read_token(self, payload: Members) -> IdToken:
        return IdToken(payload["idTag"])

    def read_status(self, payload: Members) -> StatusReport:
        error = str(payload.get("errorCode") or NO_ERROR)[:LONGEST_ERROR]
        return StatusReport(payload["connectorId"], 0, payload["status"], error)

    def token_answer(self, is_accepted: bool, expires: str | None = None) -> Members:
        expiry = {} if expires is None or not is_accepted else {"expiryDate": expires}
        return {"idTagInfo": {"status": "Accepted" if is_accepted else "Invalid", **expiry}}
