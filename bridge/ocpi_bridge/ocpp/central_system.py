"""The central system of OCPP 1.6 and 2.0.1 over JSON: charge points connect to it, and it stands between them and the
node."""
import asyncio
import base64
import hmac
import logging
from collections.abc import Callable
from dataclasses import asdict
from functools import partial

from aiohttp import web

from ..clock import moment_of, seconds_of
from ..configuration import ChargePointSettings, OcppSettings
from ..events import Events, Outcome
from ..json_text import Members
from ..node.feeder import Feeder, NodeEnded
from ..ocpi.objects import Objects
from ..room import when_there_is_room
from ..state import State
from ..tasks import Tasks
from .connection import Connection
from .messages import Version
from .orders import Orders
from .readings import Readings
from .reports import Reports
from .site import ChargePoint, Site
from .version_16 import Version16
from .version_201 import Version201
from .watch import Watch

LOG = logging.getLogger("ocpp")
# The versions of OCPP by the subprotocols that stand for them.
VERSIONS: dict[str, Version] = {"ocpp2.0.1": Version201(), "ocpp1.6": Version16()}
LARGEST_FRAME = 1_048_576
# Seconds of real time: between pings, so that a connection that is gone is seen, and for a charge point to close one.
PING_EACH, CLOSED_WITHIN = 30.0, 2.0
# After how many seconds a session ends for which nobody plugs in. A charge point that was away may have to tell of a
# transaction first: for that it has so many seconds from its connection on.
PLUGGED_IN_WITHIN, TOLD_WITHIN = 120.0, 10.0
# After how many seconds of its connection a charge point is asked for the status of each of its connectors.
STATUS_WITHIN = 30.0


class CentralSystem:
    """Serves the charge points of an operator's node."""

    def __init__(self, settings: OcppSettings, events: Events, state: State, feeder: Feeder, objects: Objects,
                 count: Callable[[str], None]) -> None:
        """`count` adds to a metric."""
        self._clock, self._objects, self._synced = events.clock, objects, state.synced
        self._site = Site(settings, events, state, feeder, objects)
        # What a node that ended leaves is taken up at the next start.
        self._tasks = Tasks(NodeEnded)
        self._spawn = self._tasks.begin
        self._orders = Orders(self._site, self._spawn)
        self.expect_late, self.evse_status = self._site.commands.expect_late, self._site.evse_status
        self._readings = Readings(self._site, state, count)
        self._watch = Watch(self._site, self._readings, self._orders.stop, self._spawn)
        self._reports = Reports(self._site, state, self._readings, self._watch, self._orders.stop)

    def take(self, settings: OcppSettings) -> None:
        """Takes charge points in place of those of before. Connections go on, but those of charge points that are no
        more."""
        for charge_point in self._site.take(settings):
            if charge_point.connection is not None:
                self._spawn(charge_point.connection.close)
        for charge_point in self._site.by_id.values():
            if charge_point.connection is not None:
                self._spawn(self._look_after, charge_point, charge_point.connection)

    def application(self) -> web.Application:
        """The web application at `/ocpp/{id}`. Its shutdown closes all connections."""
        application = web.Application()
        application.router.add_get("/ocpp/{id}", self._connect)
        application.on_shutdown.append(self._close)
        return application

    async def _close(self, application: web.Application) -> None:
        points = self._site.by_id.values()
        await asyncio.gather(*(point.connection.close() for point in points if point.connection is not None))
        self._tasks.cancel()

    async def _connect(self, request: web.Request) -> web.WebSocketResponse:
        charge_point = self._site.by_id.get(request.match_info["id"])
        if charge_point is None:
            raise web.HTTPNotFound()
        if not _is_authentic(charge_point.settings, request.headers.get("Authorization", "")):
            raise web.HTTPUnauthorized(headers={"WWW-Authenticate": 'Basic realm="OCPP"'})
        offered = ",".join(request.headers.getall("Sec-WebSocket-Protocol", ())).split(",")
        chosen = next((name.strip() for name in offered if name.strip() in VERSIONS), None)
        if chosen is None:
            LOG.warning("%s: offers no subprotocol of %s", charge_point.settings.id, ", ".join(VERSIONS))
            raise web.HTTPBadRequest(text=f"the subprotocols are {', '.join(VERSIONS)}")
        socket = web.WebSocketResponse(protocols=(chosen,), timeout=CLOSED_WITHIN, heartbeat=PING_EACH,
                                       max_msg_size=LARGEST_FRAME)
        await socket.prepare(request)
        if request.transport is not None:
            await self._serve(charge_point, VERSIONS[chosen], socket, request.transport.abort)
        return socket

    async def _serve(self, charge_point: ChargePoint, version: Version, socket: web.WebSocketResponse,
                     abort: Callable[[], None]) -> None:
        """Serves a connection until it ends. It takes the place of one that the charge point has."""
        async def answer(action: str, payload: Members) -> Members:
            return await when_there_is_room(
                partial(self._reports.answer, charge_point, socket, version, action, payload))

        connection = Connection(socket, version, self._clock, answer, abort, charge_point.settings.id, self._synced)
        if charge_point.connection is not None:
            self._spawn(charge_point.connection.close)
        charge_point.connection = connection
        LOG.info("%s: connected by OCPP %s", charge_point.settings.id, version.name)
        self._watch.connected(charge_point)
        self._spawn(connection.work)
        self._spawn(self._look_after, charge_point, connection)
        self._orders.begin()
        try:
            await connection.read()
        finally:
            if charge_point.connection is connection:
                charge_point.connection, charge_point.away_since = None, self._clock.passed()
                self._orders.begin()
                LOG.info("%s: connection ended", charge_point.settings.id)

    async def _look_after(self, charge_point: ChargePoint, connection: Connection) -> None:
        """Stops what it did not tell to have ended, and asks for what it, or a bridge that was stopped, may have
        missed."""
        await self._clock.sleep(TOLD_WITHIN)
        if charge_point.connection is connection:
            self._watch.stop_all(charge_point)
        self._spawn(self._ask_of_transactions, charge_point, connection)
        await self._clock.sleep(STATUS_WITHIN - TOLD_WITHIN)
        for place in list(charge_point.places.values()):
            for connector in place.settings.connector_ids:
                async with connection.asking(*connection.version.status(place.connector, connector)) as answer:
                    if answer is None:
                        return

    async def _ask_of_transactions(self, charge_point: ChargePoint, connection: Connection) -> None:
        """Asks whether transactions go on, until it has told of all."""
        while charge_point.connection is connection and await self._watch.ask_of_transactions(charge_point, connection):
            await self._clock.sleep(STATUS_WITHIN)

    def note(self, outcome: Outcome) -> None:
        """Keeps what an outcome opens and ends. Called inside of the transaction that forgets its line."""
        self._site.commands.note(outcome)
        if outcome.event["event"] == "service" and outcome.word in ("stepped", "idle"):
            self._site.note_service(outcome.event)

    def act(self, outcome: Outcome) -> None:
        """Begins what an outcome asks of charge points. Called behind that transaction."""
        self._site.act(outcome)
        if outcome.event["event"] == "tick":
            self._end_unused()
            self._watch.tick()
            self._orders.begin()
        if outcome.event["event"] == "fault" and outcome.word in ("stepped", "idle") and (
                place := self._site.place(outcome.event["evse_uid"])) is not None:
            self._watch.stop_all(place.charge_point)
        if outcome.sent("command_response"):
            self._orders.begin()

    def opened(self) -> None:
        """Takes up again what waited for the node. Called each time that the node has opened its store."""
        self._site.opened()
        self._orders.begin()

    def _end_unused(self) -> None:
        """Ends each PENDING session for which nobody plugged in."""
        for session in self._objects.pending_sessions():
            place = self._site.place(session["evse_uid"])
            if (place is not None and place.charge_point.connection is not None
                    and self._site.transactions.of_session(session["id"]) is None):
                until = seconds_of(session["last_updated"]) + PLUGGED_IN_WITHIN
                if self._clock.seconds() > max(until, place.charge_point.connection.since + TOLD_WITHIN):
                    self._spawn(self._end_session, place.charge_point, session["id"])

    async def _end_session(self, charge_point: ChargePoint, session_id: str) -> None:
        await charge_point.alone(lambda: self._site.withdraw(session_id))

    def charge_points(self) -> list[Members]:
        """Each charge point: its `id`, whether it is `connected`, when its `last_message` came since the bridge was
        started, and its own `error` of OCPP. Its `connectors` have their `status` and `error`, and their EVSE."""
        return [{"id": point.settings.id, "connected": point.connection is not None,
                 "last_message": None if point.heard is None else moment_of(point.heard),
                 "error": point.errors.get(0), "connectors": [
                     {"connector": place.connector, "evse_uid": place.settings.evse_uid,
                      "connector_id": place.settings.connector_id, "status": self._site.status(place),
                      "error": point.errors.get(place.connector), "in_service": self._site.is_in_service(place)}
                     for place in point.places.values()]} for point in self._site.by_id.values()]

    def warnings(self, most: int) -> list[Members]:
        """What the owner has to look at: `at`, `evse_uid` and words. First come sessions that are silent, then the
        newest readings that were dropped."""
        return [*self._watch.silent(), *self._readings.dropped(most)][:most]

    def silent_count(self) -> int:
        """How many sessions are silent."""
        return len(self._watch.silent())

    def commands(self) -> list[Members]:
        """The commands that are open, with their `provider`, `number`, `kind`, and what they are about."""
        return [asdict(command) for command in self._site.commands.opened()]

    async def change_availability(self, evse_uid: str, in_service: bool) -> str:
        """Asks a charge point to take an EVSE out of service or back. The caller feeds `service`.

        Gives OCPP's status, or `Unreachable` where the charge point is away or does not answer.
        """
        place = self._site.place(evse_uid)
        if place is None or place.charge_point.connection is None:
            return "Unreachable"
        connection = place.charge_point.connection
        async with connection.asking(*connection.version.availability(place.connector, in_service)) as answer:
            return "Unreachable" if answer is None else str(answer.get("status"))

    def connected_count(self) -> int:
        """How many charge points have a connection."""
        return sum(point.connection is not None for point in self._site.by_id.values())


def _is_authentic(settings: ChargePointSettings, header: str) -> bool:
    """Whether a request shows the id and the password of a charge point, where it has one."""
    if settings.password is None:
        return True
    wanted = base64.b64encode(f"{settings.id}:{settings.password}".encode())
    scheme, _, shown = header.partition(" ")
    return scheme.lower() == "basic" and hmac.compare_digest(shown.strip().encode(errors="replace"), wanted)
