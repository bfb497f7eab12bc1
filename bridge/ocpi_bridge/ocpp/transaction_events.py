"""Answers TransactionEvents of OCPP 2.0.1: what each tells is kept first, and then done as far as is known by then.

So they may come again, in another order, or the end before all else. A transaction that has ended before it is known
who charged is billed once that is told.
"""
from collections.abc import Callable
from dataclasses import replace

from ..json_text import Members
from ..state import State
from .charges import Charges
from .commands import Command
from .messages import IdToken, MeterReading, Version
from .readings import Readings
from .site import EARLIEST, ChargePoint, Place, Site
from .told import Told, ToldTransactions
from .transactions import CHARGING, LOST, NEW, OVER, STOPPED, Transaction
from .version_201 import ENDED, TransactionEvent, read_event
from .watch import Watch

# After how many seconds a transaction is stopped that charges, and of which no token was told.
TOKEN_WITHIN = 60.0


class TransactionEvents:
    """`stop` is called with each transaction that goes on without a session."""

    def __init__(self, site: Site, state: State, readings: Readings, watch: Watch, charges: Charges,
                 stop: Callable[[Transaction], None]) -> None:
        self._site, self._transactions, self._stop = site, site.transactions, stop
        self._readings, self._watch, self._charges = readings, watch, charges
        self._told = ToldTransactions(state, site.transactions)

    async def take(self, charge_point: ChargePoint, version: Version, payload: Members) -> Members:
        """What an event is answered."""
        event = read_event(payload)
        if not event.evse and len(charge_point.places) == 1:
            event = replace(event, evse=next(iter(charge_point.places)))
        transaction, told = self._told.take(charge_point.settings.id, event)
        place = charge_point.places.get(transaction.connector)
        self._watch.note_transaction(place)
        is_shown = told.token is not None or told.remote_start is not None
        if transaction.state == NEW and transaction.connector and is_shown:
            transaction = await self._decide(charge_point, place, transaction, told, event)
        readings = [*told.waiting, *event.readings]
        if transaction.state == NEW:
            highest = max(readings, key=lambda reading: reading.register, default=None)
            self._told.wait(charge_point.settings.id, transaction, told, highest)
            charging = None if told.ended_at is not None else told.charging_at
            if charging is not None and charging / 1000 + TOKEN_WITHIN < self._site.clock.seconds():
                self._stop(transaction)
        elif transaction.state not in (STOPPED, OVER):
            transaction = await self._go_on(transaction, told, readings)
            self._told.wait(charge_point.settings.id, transaction, told, None)
        if not event.has_token:
            return {}
        is_accepted = event.kind == ENDED or transaction.state == NEW or (
            transaction.session_id is not None and transaction.state != LOST)
        return version.token_answer(is_accepted)

    async def _decide(self, charge_point: ChargePoint, place: Place | None, transaction: Transaction, told: Told,
                      event: TransactionEvent) -> Transaction:
        """Finds out whether a transaction may charge. One at the same EVSE that began before it has ended by then."""
        others = self._transactions.running(charge_point.settings.id, transaction.connector)
        if not any(other.started > transaction.started >= EARLIEST * 1000 for other in others):
            moment = transaction.started / 1000
            await self._watch.end_lost(charge_point, transaction.connector, moment, transaction.number)
        token, command = told.token, None
        if token is not None:
            token = IdToken(self._site.uid_of(token.uid), token.type if told.remote_start is None else None)
        if place is not None:
            command = self._command_of(place, told, token, event)
        return await self._charges.decide(transaction, place, token, command, told.connector)

    def _command_of(self, place: Place, told: Told, token: IdToken | None, event: TransactionEvent) -> Command | None:
        """The start that a transaction is: that of its number, or of its token where it has none. What began while
        the station was offline was not asked for."""
        if told.remote_start is None:
            return None if event.is_offline or token is None else self._site.commands.start_for(
                place.settings.evse_uid, token.uid)
        command = self._site.commands.of_remote_start(told.remote_start)
        if command is None or str(command.evse_uid).upper() != place.settings.evse_uid.upper():
            return None
        return command if token is None or token.uid.upper() == str(command.token_uid).upper() else None

    async def _go_on(self, transaction: Transaction, told: Told, readings: list[MeterReading]) -> Transaction:
        """Feeds what is known of a transaction of which it is known whether it may charge."""
        has_ended = told.ended_at is not None
        last = max(readings, key=lambda reading: reading.register, default=None) if has_ended else None
        if transaction.state == CHARGING:
            # What it had at its beginning is no energy.
            risen = [reading for reading in readings if reading.register > transaction.meter_start]
            if told.charging_at is not None or risen:
                at = transaction.started if told.charging_at is None else told.charging_at
                await self._charges.begin(transaction, at / 1000)
            for reading in risen:
                if reading is not last:
                    await self._readings.take(transaction, reading.timestamp, reading.register)
        if told.ended_at is not None:
            return await self._charges.end(transaction, told.ended_at / 1000, last)
        if self._site.living(transaction.session_id) is None:
            self._stop(transaction)
        return transaction
