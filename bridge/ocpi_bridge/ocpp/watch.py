"""Looks after what charge points do not tell: transactions that go on without a session, ends that were lost, and
sessions of which no message comes any more."""
import logging
from collections.abc import Callable
from functools import partial

from ..clock import moment_of, seconds_of
from ..json_text import Members
from ..records import Session
from .connection import Connection
from .readings import Readings
from .site import ChargePoint, Place, Site
from .transactions import LOST, NEW, Transaction

LOG = logging.getLogger("ocpp")
# In seconds: between two looks at all transactions, and for how long a connector has to be Available until its
# charge point will not tell of the end of a transaction there any more.
LOOK_EACH, AVAILABLE_FOR = 60.0, 120.0
# After how many seconds without a connection the EVSEs of a charge point are out of service.
AWAY_FOR = 60.0
# After so many seconds without any message a session is silent, which is warned of as often.
SILENT_BEHIND = 3600.0


class Watch:
    """`stop` has a transaction stopped, and `spawn` has something done in a task of its own."""

    def __init__(self, site: Site, readings: Readings, stop: Callable[[Transaction], None],
                 spawn: Callable[..., object]) -> None:
        self._site, self._transactions, self._stop, self._spawn = site, site.transactions, stop, spawn
        self._readings, self._looked = readings, site.clock.passed()
        # When the last message about each EVSE came since the start, and when its silence was warned of.
        self._heard: dict[str, float] = {}
        self._warned: dict[str, float] = {}
        # Since when each connector is Available, as its connection told, behind all messages of transactions there: by
        # the seconds that passed, and since 1970.
        self._available: dict[Place, tuple[float, float]] = {}

    def connected(self, charge_point: ChargePoint) -> None:
        """Called when a connection begins."""
        for place in charge_point.places.values():
            self._available.pop(place, None)
        self._look_for_absence()

    def note_status(self, place: Place, status: str) -> None:
        """Called with each status that a connector reports."""
        self._heard[place.settings.evse_uid] = self._site.clock.seconds()
        if status == "Available":
            self._available.setdefault(place, (self._site.clock.passed(), self._site.clock.seconds()))
        else:
            self._available.pop(place, None)

    def note_transaction(self, place: Place | None) -> None:
        """Called with each message of a transaction, and where that is."""
        if place is not None:
            self._heard[place.settings.evse_uid] = self._site.clock.seconds()
            self._available.pop(place, None)

    def tick(self) -> None:
        """Called each second or so, while the node is open."""
        now = self._site.clock.passed()
        for place, (since, _) in self._available.items():
            if place.charge_point.connection is not None and now >= since + AVAILABLE_FOR:
                self._spawn(self._end_all, place)
        self._look_for_absence()
        if now >= self._looked + LOOK_EACH:
            self._looked = now
            for charge_point in self._site.by_id.values():
                self.stop_all(charge_point)
            self._warn_of_silence()

    def _look_for_absence(self) -> None:
        """Has the EVSEs out of service whose charge point is away for some time, and puts back those of one that is
        not away any more. What the owner said of one, or its charge point, stands."""
        words = self._site.out_of_service()
        for charge_point in self._site.by_id.values():
            for place in charge_point.places.values():
                if self._absence(place, words) is not None:
                    self._spawn(self._change_service, place)

    def _absence(self, place: Place, words: dict[str, str]) -> bool | None:
        """Whether the charge point of an EVSE is away, where the EVSE has to go out of service for that, or back."""
        word = words.get(place.settings.evse_uid.upper())
        if place.charge_point.connection is not None:
            return False if word == "away" else None
        return True if word is None and self._site.is_away(place.charge_point, AWAY_FOR) else None

    async def _change_service(self, place: Place) -> None:
        async def change() -> None:
            is_away = self._absence(place, self._site.out_of_service())
            if is_away is not None:
                await self._site.report("service", evse_uid=place.settings.evse_uid, in_service=not is_away,
                                        **({"away": True} if is_away else {}))

        await place.charge_point.alone(change)

    def stop_all(self, charge_point: ChargePoint) -> None:
        """Has each transaction stopped that goes on without a session."""
        for transaction in self._transactions.running(charge_point.settings.id):
            if transaction.state != NEW and self._site.living(transaction.session_id) is None:
                self._stop(transaction)

    async def _end_all(self, place: Place) -> None:
        """Ends what runs at a connector, where that is still Available."""
        async def end() -> None:
            if place in self._available:
                await self.end_lost(place.charge_point, place.connector, self._available[place][1])
                self._available.pop(place, None)

        await place.charge_point.alone(end)

    async def end_lost(self, charge_point: ChargePoint, connector: int, timestamp: object, before: int = 2**62) -> None:
        """Ends the transactions of a connector, those with numbers below one that is given: it was told of no end, and
        will not be told. Their sessions end by their last readings, at a moment in seconds or as a message tells it.
        One of which it is not known who charges has none."""
        for transaction in self._transactions.running(charge_point.settings.id, connector):
            is_undecided = transaction.state == NEW and transaction.session_id is None
            if transaction.number < before and not is_undecided:
                await self._end_one(transaction, timestamp)

    async def _end_one(self, transaction: Transaction, timestamp: object) -> None:
        session = self._site.living(transaction.session_id)
        if session is not None:
            LOG.warning("%s: transaction %d: its end did not come, and session %s ends by its last reading",
                        transaction.charge_point, transaction.number, session["id"])
            await self._site.report("stops", self._site.seconds_at(timestamp, session), evse_uid=session["evse_uid"])
        self._transactions.update(transaction, LOST, transaction.session_id)

    async def ask_of_transactions(self, charge_point: ChargePoint, connection: Connection) -> bool:
        """Asks whether what runs goes on, and ends what does not. Whether messages about it are still on their way.

        What came before the answer is told first.
        """
        has_more = False
        for transaction in self._transactions.running(charge_point.settings.id):
            if (request := connection.version.transaction_status(transaction)) is None:
                return False
            async with connection.asking(*request) as answer:
                told = answer or {}
                has_more = has_more or told.get("messagesInQueue") is True or connection.has_waiting
                if (told.get("ongoingIndicator"), told.get("messagesInQueue"), connection.has_waiting) == (
                        False, False, False):
                    await charge_point.alone(partial(self._end_over, transaction.charge_point, transaction.number))
        return has_more

    async def _end_over(self, charge_point: str, number: int) -> None:
        for transaction in self._transactions.running(charge_point):
            if transaction.number == number:
                await self._end_one(transaction, self._site.clock.seconds())

    def silent(self) -> list[Members]:
        """The sessions of which no message came for an hour: since when (`at`), `evse_uid`, and what to do."""
        found, now = [], self._site.clock.seconds()
        for session in self._site.all_living():
            since = self._last_message(session)
            if now >= since + SILENT_BEHIND:
                found.append({"at": moment_of(since), "evse_uid": session["evse_uid"], "text": (
                    f"no message of session {session['id']} since. Look whether a car charges there: if its charge "
                    f"point will never tell of the end, POST /faults ends it, by {session['kwh']} kWh")})
        return sorted(found, key=lambda warning: str(warning["at"]), reverse=True)

    def _last_message(self, session: Session) -> float:
        """When the last message of a session came, as far as it is known."""
        transaction = self._transactions.of_session(session["id"])
        read = 0.0 if transaction is None else self._readings.last(transaction, session).at / 1000
        return max(self._heard.get(session["evse_uid"], 0.0), read, seconds_of(session["last_updated"]))

    def _warn_of_silence(self) -> None:
        now = self._site.clock.seconds()
        for warning in self.silent():
            if now >= self._warned.get(warning["evse_uid"], 0.0) + SILENT_BEHIND:
                self._warned[warning["evse_uid"]] = now
                LOG.warning("%s: since %s: %s", warning["evse_uid"], warning["at"], warning["text"])
