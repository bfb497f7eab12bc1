"""What charge points report, as it is in both versions of OCPP: each has a module that reads it out of its messages,
and writes what they are asked and answered."""
from dataclasses import dataclass
from decimal import Decimal
from typing import Protocol

from ..json_text import Members
from .transactions import Transaction

# An action and its payload.
Request = tuple[str, Members]
NO_ERROR = "NoError"


@dataclass(frozen=True)
class IdToken:
    """A token that a charge point tells of. Its type is OCPI's, or None where no driver has shown it."""

    uid: str
    type: str | None = "RFID"


@dataclass(frozen=True)
class StatusReport:
    """The status of an EVSE, and of a connector there. 0 stands for each of them."""

    evse: int
    connector: int
    status: str
    error: str = NO_ERROR


@dataclass(frozen=True)
class MeterReading:
    """A register in Wh. The moment is as it came."""

    timestamp: object
    register: Decimal


class Version(Protocol):
    """A version of OCPP. An EVSE is told by its number in the configuration, which is that of a connector in 1.6."""

    name: str
    longest_token: int

    def start(self, evse: int, token: IdToken, remote_start: int) -> Request:
        """Asks to let a token charge."""

    def stop(self, transaction: Transaction) -> Request:
        """Asks to stop a transaction."""

    def unlock(self, evse: int, connector: int) -> Request:
        """Asks to unlock a connector."""

    def availability(self, evse: int, in_service: bool) -> Request:
        """Asks to take an EVSE out of service or back."""

    def status(self, evse: int, connector: int) -> Request:
        """Asks to tell the status of a connector."""

    def transaction_status(self, transaction: Transaction) -> Request | None:
        """Asks whether a transaction goes on. None where the version has no such call."""

    def read_token(self, payload: Members) -> IdToken:
        """The token of an Authorize."""

    def read_status(self, payload: Members) -> StatusReport:
        """What a StatusNotification tells."""

    def token_answer(self, is_accepted: bool, expires: str | None = None) -> Members:
        """What is answered of a token, until a moment."""
