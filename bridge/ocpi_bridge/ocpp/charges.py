"""What transactions are to the node, whatever version of OCPP tells of them: which session each is, that it starts,
what it took, and that it stops.

A charge point reports again what was not answered. So each point at which bridge, node or connection may stop leaves
the next report of the same to go on from there. A stop

- before a transaction is kept, or behind that: its report comes again, and is known by what it says;
- behind `accepts` or `swipe`: the session that began is at the EVSE, is PENDING and is of that token;
- once it is kept which session the transaction is: while that is PENDING, `starts` is fed, and else it was;
- behind `starts`, before the answer: the transaction charges, and is answered alike;
- behind a `meter`: it is fed once more, and changes no energy;
- behind `stops`, before the answer: no living session is that of the transaction, and nothing is fed.
"""
import logging
from decimal import Decimal

from ..records import Session
from .commands import Command
from .messages import IdToken, MeterReading
from .readings import Readings
from .site import Place, Site
from .transactions import CHARGING, REFUSED, STOPPED, Transaction
from .watch import Watch

LOG = logging.getLogger("ocpp")


class Charges:
    """Feeds them. Each step may be taken again."""

    def __init__(self, site: Site, readings: Readings, watch: Watch) -> None:
        self._site, self._transactions, self._commands = site, site.transactions, site.commands
        self._readings, self._watch = readings, watch

    async def decide(self, transaction: Transaction, place: Place | None, token: IdToken | None,
                     command: Command | None, connector: int = 1) -> Transaction:
        """Whether a new transaction may charge, by its token, or by the start that it is: then it has a session."""
        session = None if place is None else await self._session_of(place, transaction, token, command, connector)
        word, session_id = (REFUSED, None) if session is None else (CHARGING, session["id"])
        transaction = self._transactions.update(transaction, word, session_id)
        if place is not None:
            self._commands.forget_asked(place.settings.evse_uid)
        return transaction

    async def _session_of(self, place: Place, transaction: Transaction, token: IdToken | None,
                          command: Command | None, connector: int) -> Session | None:
        """The session of a new transaction: one that it is known to be, or that waits for its token, or of a swipe."""
        if transaction.session_id is not None:
            return self._site.living(transaction.session_id)
        uid = str(command.token_uid) if command is not None else token.uid if token is not None else ""
        if self._site.at(place) is None:
            if command is not None:
                await self._site.accept(command)
            elif token is not None and token.type is not None:
                await self._site.swipe(place, token, connector)
        session = self._site.at(place)
        if session is None or session["status"] != "PENDING" or session["cdr_token"]["uid"].upper() != uid.upper():
            return None
        return session if self._transactions.of_session(session["id"]) is None else None

    async def begin(self, transaction: Transaction, moment: object) -> None:
        """Its session starts, where that is PENDING."""
        session = self._site.living(transaction.session_id)
        if session is not None and session["status"] == "PENDING":
            await self._site.report("starts", self._site.seconds_at(moment), evse_uid=session["evse_uid"])

    async def end(self, transaction: Transaction, moment: object, last_reading: MeterReading | None) -> Transaction:
        """Takes its last reading, and stops its session, whatever that reading is."""
        if last_reading is not None:
            await self._take_last(transaction, last_reading)
        session = self._site.living(transaction.session_id)
        if session is not None:
            await self._site.report("stops", self._site.seconds_at(moment, session), evse_uid=session["evse_uid"])
        return self._transactions.update(transaction, STOPPED, transaction.session_id)

    async def _take_last(self, transaction: Transaction, reading: MeterReading) -> None:
        """Takes a last reading, and warns where something else is billed."""
        last = await self._readings.take(transaction, reading.timestamp, reading.register)
        session, energy = self._site.session(transaction.session_id), transaction.energy(reading.register)
        if last is None and session is not None and Decimal(energy) > Decimal(str(session["kwh"])):
            LOG.warning("%s: transaction %d: %s kWh, and its session had ended before, by %s kWh",
                        transaction.charge_point, transaction.number, energy, session["kwh"])
        elif last is not None and reading.register < last.register:
            LOG.warning("%s: transaction %d: its last reading is below another one, which is billed: %s kWh",
                        transaction.charge_point, transaction.number, transaction.energy(last.register))
