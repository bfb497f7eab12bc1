"""The site of a node: its EVSEs with their charge points, what is kept of these, and how the node is told of them."""
import asyncio
import hashlib
from collections.abc import Awaitable, Callable
from dataclasses import dataclass, field
from typing import TypeVar

from ..clock import moment_of, seconds_in, seconds_of
from ..configuration import ChargePointSettings, ConnectorSettings, OcppSettings
from ..events import Events, Outcome
from ..json_text import Members
from ..node.feeder import Feeder, OutcomeLost, repeated
from ..ocpi.objects import Objects
from ..parties import party_key
from ..records import Event, Session
from ..state import State
from .commands import Command, Commands
from .connection import Connection
from .messages import IdToken, StatusReport
from .transactions import Transactions

OUT_OF_SERVICE = {"Unavailable", "Faulted"}
# 2020 in seconds since 1970. What a charge point dates earlier was told without a clock.
EARLIEST = 1_577_836_800.0
# The seconds in which a charge point is awaited behind the start of the bridge.
CONNECTS_WITHIN = 10.0
# The seconds for which a node awaits what a provider says of a token.
QUESTION_WITHIN = 10.0
Result = TypeVar("Result")


class EventRefused(Exception):
    """The node refused an event: the charge point has to report again."""


@dataclass(eq=False)
class ChargePoint:
    """A charge point. Whoever feeds the node what it reports, or looks at what stands at its EVSEs, has its lock."""

    settings: ChargePointSettings
    places: "dict[int, Place]" = field(default_factory=dict)
    connection: Connection | None = None
    # When its last call came since the bridge was started, and the errors that it told, by connector (0: its own).
    heard: float | None = None
    errors: dict[int, str] = field(default_factory=dict)
    # Since when it is away if it has no connection, as the clock counts what passed, and what connectors told, by EVSE.
    away_since: float = 0.0
    statuses: dict[tuple[int, int], str] = field(default_factory=dict)
    lock: asyncio.Lock = field(default_factory=asyncio.Lock)

    async def alone(self, action: Callable[[], Awaitable[Result]]) -> Result:
        """Carries an action out under its lock, and is `repeated`."""
        async with self.lock:
            return await repeated(action)


@dataclass(frozen=True)
class Place:
    """Where an EVSE is: a connector of a charge point of OCPP 1.6, or an EVSE of one of 2.0.1. It is the same whatever
    its settings are."""

    charge_point: ChargePoint
    connector: int
    settings: ConnectorSettings = field(compare=False)


class Site:
    """All charge points by their ids, all EVSEs by their uids, and the sessions there. Feeds the node."""

    def __init__(self, settings: OcppSettings, events: Events, state: State, feeder: Feeder, objects: Objects) -> None:
        self.transactions, self.commands, self.clock = Transactions(state), Commands(state, events.clock), events.clock
        self.by_id: dict[str, ChargePoint] = {}
        self.take(settings)
        self._state, self._events, self._feeder, self._objects = state, events, feeder, objects
        self.all_living = objects.living_sessions
        # Until when each question awaits its answer, and whether a stop of the node ended that.
        self._questions: dict[tuple[str, int], tuple[float, asyncio.Future[bool]]] = {}
        self._was_open = False

    def take(self, settings: OcppSettings) -> list[ChargePoint]:
        """Takes charge points in place of those of before, whose connections stay. Gives those that are no more."""
        before, self.by_id, self._places = self.by_id, {}, dict[str, Place]()
        for name, of_point in settings.charge_points.items():
            point = self.by_id[name] = before.get(name) or ChargePoint(
                of_point, away_since=self.clock.passed() + CONNECTS_WITHIN)
            point.settings, point.places = of_point, {}
            for number, connector in of_point.connectors.items():
                point.places[number] = self._places[connector.evse_uid.upper()] = Place(point, number, connector)
        return [point for name, point in before.items() if name not in self.by_id]

    def is_away(self, charge_point: ChargePoint, seconds: float = 0) -> bool:
        """Whether a charge point is away for so long. One that a new bridge has not seen so far may come at once."""
        return charge_point.connection is None and self.clock.passed() >= charge_point.away_since + seconds

    def place(self, evse_uid: str | None) -> Place | None:
        """Where an EVSE is. None where no charge point has it."""
        return self._places.get((evse_uid or "").upper())

    def status(self, place: Place) -> str | None:
        """The last status that a connector reported."""
        return self._kept(place.settings.evse_uid)[0]

    def status_behind(self, place: Place, report: StatusReport) -> str:
        """The status of an EVSE behind a report about it, or about one of its connectors: it is out of service where
        all of these are, and has the status of one that is not Available before others."""
        connectors = place.settings.connector_ids
        if report.connector and report.connector not in connectors:
            return self.status(place) or report.status
        statuses = place.charge_point.statuses
        for connector in [report.connector] if report.connector else connectors:
            statuses[place.connector, connector] = report.status
        told = [statuses.get((place.connector, connector), self.status(place)) for connector in connectors]
        usable = [status for status in told if status is not None and status not in OUT_OF_SERVICE]
        return next((status for status in usable if status != "Available"), usable[0] if usable else report.status)

    def set_status(self, place: Place, status: str) -> None:
        if status != self.status(place):
            self._keep(place.settings.evse_uid, "status", status)

    def _kept(self, evse_uid: str) -> tuple[str | None, str | None]:
        """What is kept of an EVSE: its last status, and whether it is in service."""
        for status, service in self._state.query("SELECT status, service FROM ocpp_evse WHERE evse_uid = ?",
                                                 evse_uid.upper()):
            return status, service
        return None, None

    def _keep(self, evse_uid: str, column: str, word: str) -> None:
        self._state.query(f"INSERT INTO ocpp_evse (evse_uid, {column}) VALUES (?, ?) ON CONFLICT DO UPDATE"
                          f" SET {column} = excluded.{column}", evse_uid.upper(), word)

    def note_service(self, event: Event) -> None:
        """Keeps what an event `service` said, and whether the owner takes the EVSE out of service by it, or the bridge
        since the charge point is away."""
        word = "owner" if event.get("owner") else "away" if event.get("away") else "out"
        self._keep(event["evse_uid"], "service", "in" if event["in_service"] else word)

    def out_of_service(self) -> dict[str, str]:
        """The EVSEs of which the node was told last that they are out of service, by their uids in upper case: whether
        by the `owner`, since their charge point is `away`, or by it (`out`)."""
        return dict(self._state.query("SELECT evse_uid, service FROM ocpp_evse WHERE service <> 'in'"))

    def is_in_service(self, place: Place) -> bool:
        """Whether the node was told last that an EVSE is in service, or nothing."""
        return self._kept(place.settings.evse_uid)[1] in (None, "in")

    def is_kept_out(self, place: Place) -> bool:
        """Whether the owner took an EVSE out of service: then it stays so until the owner puts it back."""
        return self._kept(place.settings.evse_uid)[1] == "owner"

    def evse_status(self, evse_uid: str) -> str | None:
        """`OUTOFORDER` where nothing can be charged, `INOPERATIVE` where the EVSE is out of service, `BLOCKED` where a
        car is plugged in, else None."""
        place, (status, service) = self.place(evse_uid), self._kept(evse_uid)
        if place is None or place.charge_point.connection is None or status == "Faulted":
            return "OUTOFORDER"
        if service in ("out", "owner"):
            return "INOPERATIVE"
        return None if status in (None, "Available", "Unavailable", "Reserved") else "BLOCKED"

    def id_tag_of(self, uid: str, longest: int) -> str:
        """What a token is called at a charge point: its uid, or a text of the bridge where that is too long there."""
        if len(uid) <= longest:
            return uid
        id_tag = hashlib.sha256(uid.upper().encode()).hexdigest()[:longest].upper()
        self._state.query("INSERT INTO ocpp_id_tag (id_tag, token_uid) VALUES (?, ?) ON CONFLICT DO UPDATE"
                          " SET token_uid = excluded.token_uid WHERE token_uid <> excluded.token_uid", id_tag, uid)
        return id_tag

    def uid_of(self, id_tag: str) -> str:
        """The uid of the token that a charge point calls so."""
        return next((uid for uid, in self._state.query("SELECT token_uid FROM ocpp_id_tag WHERE id_tag = ?",
                                                       id_tag.upper())), id_tag)

    def seconds_at(self, timestamp: object, session: Session | None = None) -> float:
        """When a message says that something was, in seconds since 1970. It may tell these.

        It is the clock's moment where that cannot be: before 2020, before the start of its session, or later than now.
        """
        now, told = self.clock.seconds(), timestamp if isinstance(timestamp, float) else seconds_in(timestamp)
        start = EARLIEST if session is None else max(EARLIEST, seconds_of(session["start_date_time"]))
        return told if told is not None and round(start, 3) <= round(told, 3) <= now else now

    async def report(self, event: str, seconds: float | None = None, **members: object) -> Outcome:
        """Feeds an event of a name, at a moment in seconds since 1970, or the clock's.

        Raises EventRefused, OutcomeLost and NodeEnded.
        """
        at = None if seconds is None else moment_of(seconds)
        outcome = await self._feeder.feed(self._events.make(event, at, **members))
        if outcome.word not in ("stepped", "idle"):
            raise EventRefused(f"{event}: {outcome.word}")
        return outcome

    def at(self, place: Place) -> Session | None:
        """The session at a connector that is PENDING or ACTIVE."""
        return self._objects.living_session(place.settings.evse_uid)

    def session(self, session_id: str | None) -> Session | None:
        """The session of an id."""
        return self._objects.find("sessions", self._events.node, session_id or "")

    def living(self, session_id: str | None) -> Session | None:
        """The session of an id, where it is PENDING or ACTIVE."""
        session = self.session(session_id)
        return session if session is not None and session["status"] in ("PENDING", "ACTIVE") else None

    async def accept(self, command: Command) -> Command:
        """Feeds that a command is carried out, and gives it as it stands then: a start has a session, or had ended."""
        command = self.commands.find(command.provider, command.number)
        if command.session_id is None or command.kind == "stop_session":
            await self.report("accepts", provider=command.provider, number=command.number)
        return self.commands.find(command.provider, command.number)

    async def withdraw(self, session_id: str | None) -> None:
        """Ends a session for which no transaction came so far."""
        session = self.living(session_id)
        if session is not None and session["status"] == "PENDING" and self.transactions.of_session(session_id) is None:
            await self.report("stops", evse_uid=session["evse_uid"])

    async def swipe(self, place: Place, token: IdToken, connector: int = 1) -> None:
        """Feeds that a token was shown, and waits until it is decided. A session that began of it then stands there."""
        outcome = await self.report(
            "swipe", evse_uid=place.settings.evse_uid, token_uid=token.uid, token_type=token.type,
            connector_id=place.settings.connector_ids.get(connector, place.settings.connector_id))
        for question in outcome.sent("authorize"):
            waiting = self._questions.get((party_key(question.receiver), question.request))
            if waiting is not None and await waiting[1]:
                raise OutcomeLost()

    def act(self, outcome: Outcome) -> None:
        """Takes in a question about a token, and what decides it: an answer, or a tick behind its time.

        A node that was started again awaits no answer to a question from before, as its first outcome tells.
        """
        was_stopped = self._was_open and not self._feeder.is_open
        self._was_open = self._was_open and not was_stopped
        event, packet = outcome.event, outcome.event.get("packet", {})
        answered = (party_key(packet["from"]), packet["request"]) if packet.get("kind") == "authorization" else None
        for key, (until, decided) in list(self._questions.items()):
            if was_stopped or key == answered or event["event"] == "tick" and until <= seconds_of(event["at"]):
                del self._questions[key]
                decided.set_result(was_stopped)
        for question in outcome.sent("authorize"):
            key = party_key(question.receiver), question.request
            decided = asyncio.get_running_loop().create_future()
            self._questions[key] = seconds_of(event["at"]) + QUESTION_WITHIN, decided

    def opened(self) -> None:
        """Called each time that the node has opened its store."""
        self._was_open = True
