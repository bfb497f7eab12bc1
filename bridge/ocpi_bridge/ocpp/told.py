"""What the TransactionEvents of OCPP 2.0.1 told so far of each transaction, in whatever order and however often they
came: it is the same for each order."""
from dataclasses import astuple, dataclass, fields, replace
from decimal import Decimal

from ..state import State
from .messages import IdToken, MeterReading
from .transactions import LOST, NEW, OVER, STOPPED, Transaction, Transactions
from .version_201 import STARTED, ENDED, TransactionEvent


@dataclass(frozen=True)
class Told:
    """What is known of a transaction. Moments are milliseconds since 1970, and None is what was not told.

    `begun_by` is the number of the event whose register is that of the beginning. The last two are a reading that
    waits until it is known whether the transaction may charge.
    """

    number: int
    started_at: int | None = None
    connector: int = 0
    token_uid: str | None = None
    token_type: str | None = None
    remote_start: int | None = None
    begun_by: int | None = None
    charging_at: int | None = None
    ended_at: int | None = None
    register: str | None = None
    register_at: str | None = None

    @property
    def token(self) -> IdToken | None:
        return None if self.token_uid is None else IdToken(self.token_uid, self.token_type)

    @property
    def waiting(self) -> list[MeterReading]:
        """The reading that waits, if there is one."""
        return [] if self.register is None else [MeterReading(self.register_at, Decimal(self.register))]

    def begins_by(self, event: TransactionEvent, is_new: bool) -> bool:
        """Whether the beginning has the register of an event, as far as is known: at last until it may charge."""
        return event.begins is not None and (
            self.begun_by is None or is_new and event.begins[0] < self.begun_by)

    def behind(self, event: TransactionEvent, is_new: bool) -> "Told":
        """What is known behind an event."""
        token = self.token or event.token
        charging = [at for at in (self.charging_at, event.at if event.is_charging else None) if at is not None]
        return replace(
            self, started_at=event.at if event.kind == STARTED else self.started_at,
            connector=self.connector or event.connector,
            token_uid=token and token.uid, token_type=token and token.type,
            remote_start=event.remote_start if self.remote_start is None else self.remote_start,
            begun_by=event.begins[0] if event.begins and self.begins_by(event, is_new) else self.begun_by,
            charging_at=min(charging, default=None), ended_at=event.at if event.kind == ENDED else self.ended_at)


def _is_another(event: TransactionEvent, transaction: Transaction, told: Told) -> bool:
    """Whether an event tells that another transaction began than one of that id: at another moment, behind the end of
    that, or by another token. (A station whose clock was set may tell another moment of the same.)"""
    is_by_another = event.token is not None and told.token_uid not in (None, event.token.uid)
    return (event.kind == STARTED and told.started_at not in (None, event.at)
            and (is_by_another or transaction.state in (STOPPED, OVER, LOST)))


COLUMNS = ", ".join(field.name for field in fields(Told))


class ToldTransactions:
    """Keeps that of each transaction."""

    def __init__(self, state: State, transactions: Transactions) -> None:
        self._state, self._transactions = state, transactions

    def take(self, charge_point: str, event: TransactionEvent) -> tuple[Transaction, Told]:
        """Keeps what an event tells. Gives the transaction, and all that is known of it then."""
        with self._state.transaction():
            transaction, told = self._find(charge_point, event)
            is_new = transaction.state == NEW
            begins = event.begins[1] if event.begins and told.begins_by(event, is_new) else transaction.meter_start
            transaction = self._transactions.complete(
                transaction, transaction.connector or event.evse, min(transaction.started, event.at), begins)
            return transaction, self._keep(charge_point, event.transaction_id, told.behind(event, is_new))

    def _find(self, charge_point: str, event: TransactionEvent) -> tuple[Transaction, Told]:
        """What is known of a transaction. The next one may have its id, where a station counts anew."""
        for row in self._state.query(
                f"SELECT {COLUMNS} FROM ocpp_told WHERE charge_point = ? AND transaction_id = ?", charge_point,
                event.transaction_id):
            told = Told(*row)
            transaction = self._transactions.find(charge_point, told.number)
            if transaction is not None and not _is_another(event, transaction, told):
                return transaction, told
        transaction = self._transactions.name(charge_point, event.transaction_id, event.at)
        return transaction, Told(transaction.number)

    def _keep(self, charge_point: str, transaction_id: str, told: Told) -> Told:
        values = astuple(told)
        self._state.query(
            f"INSERT OR REPLACE INTO ocpp_told (charge_point, transaction_id, {COLUMNS})"
            f" VALUES (?, ?{', ?' * len(values)})", charge_point, transaction_id, *values)
        return told

    def wait(self, charge_point: str, transaction: Transaction, told: Told, reading: MeterReading | None) -> Told:
        """Has a reading wait in place of the one that did, or none."""
        register, at = (None, None) if reading is None else (str(reading.register), str(reading.timestamp))
        if (register, at) == (told.register, told.register_at):
            return told
        return self._keep(charge_point, transaction.identifier, replace(told, register=register, register_at=at))
