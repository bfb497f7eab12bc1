"""The transactions of charge points: which there are, which session of the node each is, and what energy it took."""
from dataclasses import dataclass
from decimal import ROUND_DOWN, Decimal
from typing import Any

from ..clock import milliseconds_of
from ..json_text import Members, Number
from ..state import State

# A transaction is new until it is known whether its driver may charge. Then it charges, or is refused, until it stops.
# It is over once its charge point has the answer to that, and lost where it will not tell that it stopped.
NEW, CHARGING, REFUSED, STOPPED, OVER, LOST = "new", "charging", "refused", "stopped", "over", "lost"
# Milliseconds before all moments.
LONG_AGO = -10**15
COLUMNS = "number, charge_point, connector, started, id_tag, meter_start, session_id, state"


@dataclass(frozen=True)
class Transaction:
    """A transaction, as its row is. `session_id` is None where it has no session: then its answer is Invalid.

    In 1.6 the identifier is the idTag that began it. In 2.0.1 it is the transactionId, and `connector` the number of
    the EVSE, or 0 where that was not told so far.
    """

    number: int
    charge_point: str
    connector: int
    started: int
    identifier: str
    meter_start: Decimal
    session_id: str | None
    state: str

    @staticmethod
    def of(row: tuple[Any, ...]) -> "Transaction":
        """The transaction of a row."""
        number, charge_point, connector, started, identifier, meter_start, session_id, state = row
        return Transaction(number, charge_point, connector, started, identifier, Decimal(str(meter_start)), session_id,
                           state)

    def energy(self, register: Decimal) -> Number:
        """What it took until its register, in Wh, was so high: in kWh with four decimals, as a node reads it."""
        energy = (max(register - self.meter_start, Decimal(0)) / 1000).quantize(Decimal("0.0001"), rounding=ROUND_DOWN)
        return Number(f"{energy:f}")


class Transactions:
    """Keeps them. Each is known by what its StartTransaction says, or by its transactionId, and by a number."""

    def __init__(self, state: State) -> None:
        self._state = state

    def begin(self, charge_point: str, payload: Members) -> Transaction:
        """The transaction of a StartTransaction: a new one, or the one that it told of before.

        One that is over was another: the clock of a charge point may begin anew. Its moment gives way.
        """
        told = (charge_point, payload["connectorId"], milliseconds_of(payload["timestamp"]), payload["idTag"],
                payload["meterStart"])
        with self._state.transaction():
            self._state.query(
                """UPDATE ocpp_transaction SET started = ? - number WHERE charge_point = ? AND connector = ?
                AND started = ? AND id_tag = ? AND meter_start = ? AND state = ?""", LONG_AGO, *told, OVER)
            return self._add(*told)

    def _add(self, *told: object) -> Transaction:
        return Transaction.of(self._state.query(
            f"""INSERT INTO ocpp_transaction (charge_point, connector, started, id_tag, meter_start, state)
            VALUES (?, ?, ?, ?, ?, ?) ON CONFLICT DO UPDATE SET started = started RETURNING {COLUMNS}""",
            *told, NEW)[0])

    def name(self, charge_point: str, transaction_id: str, started: int) -> Transaction:
        """A new transaction of 2.0.1, of which no more is known."""
        return self._add(charge_point, 0, started, transaction_id, 0)

    def complete(self, transaction: Transaction, connector: int, started: int, meter_start: Decimal) -> Transaction:
        """Keeps more of a transaction of 2.0.1."""
        return Transaction.of(self._state.query(
            f"""UPDATE ocpp_transaction SET connector = ?, started = ?, meter_start = ? WHERE number = ?
            RETURNING {COLUMNS}""", connector, started, str(meter_start), transaction.number)[0])

    def find(self, charge_point: str, number: int | None) -> Transaction | None:
        """The transaction of a charge point that has a number."""
        return self._one("number = ? AND charge_point = ?", number, charge_point)

    def of_session(self, session_id: str | None) -> Transaction | None:
        return self._one("session_id = ?", session_id)

    def end(self, charge_point: str, number: int) -> None:
        """A transaction that has stopped is over."""
        self._state.query("UPDATE ocpp_transaction SET state = ? WHERE number = ? AND charge_point = ? AND state = ?",
                          OVER, number, charge_point, STOPPED)

    def running(self, charge_point: str, connector: int | None = None) -> list[Transaction]:
        """Those of a charge point, or of one of its connectors, that have not ended."""
        return [Transaction.of(row) for row in self._state.query(
            f"SELECT {COLUMNS} FROM ocpp_transaction WHERE charge_point = ? AND state IN ('new', 'charging', 'refused')"
            " AND connector = ifnull(?, connector) ORDER BY number", charge_point, connector)]

    def _one(self, where: str, *values: object) -> Transaction | None:
        rows = self._state.query(f"SELECT {COLUMNS} FROM ocpp_transaction WHERE {where}", *values)
        return Transaction.of(rows[0]) if rows else None

    def update(self, transaction: Transaction, word: str, session_id: str | None) -> Transaction:
        """Keeps the state of a transaction, and which session it is. Gives it as it is then."""
        return Transaction.of(self._state.query(
            f"UPDATE ocpp_transaction SET state = ?, session_id = ? WHERE number = ? RETURNING {COLUMNS}", word,
            session_id, transaction.number)[0])
