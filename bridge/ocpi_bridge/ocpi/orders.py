"""When a provider's orders were given, and what becomes of those that a partner of kind `ocpi` answers too late.

No driver waits for minutes. What such a partner has not answered within a minute of the order is not sent any more, and
the node is told REJECTED. Where a session of that start comes all the same, it is stopped. A command that was accepted,
and whose result does not come, gets the result TIMEOUT.
"""
import logging
from collections.abc import Awaitable, Callable

from ..clock import milliseconds_of
from ..configuration import Configuration
from ..events import Events, Outcome, Packet
from ..node.feeder import NodeEnded, OutcomeLost
from ..parties import party_key, same_party
from ..records import Body, Data, Event, Session
from ..state import State
from ..tasks import Tasks
from .objects import Objects
from .packets import COMMANDS
from .requests import NODES_URL, Requests, number_of

# In milliseconds: the age from which on an order is late, how long a result may come behind the `timeout` of its
# response, and how long until a session that still goes on is ordered to stop once more.
LATE, RESULT_WITHIN, STOPPED_WITHIN = 60_000, 30_000, 60_000
USUAL_TIMEOUT, LONGEST_TIMEOUT = 30, 86_400

log = logging.getLogger(__name__)


class Orders:
    """Keeps in the state what it knows of each order. To be made before the feeder runs, which tells it of outcomes."""

    def __init__(self, configuration: Configuration, state: State, events: Events, objects: Objects,
                 requests: Requests, feed: Callable[[Event], Awaitable[Outcome]]) -> None:
        self._state, self._events, self._objects, self._requests, self._feed = state, events, objects, requests, feed
        self._configuration, self._tasks = configuration, Tasks(NodeEnded, OutcomeLost)
        # When the orders were given that a stop left in the line that was under way.
        self._left: list[int] = []

    def note_left(self, events: list[Event]) -> None:
        """Takes in the events of the line that a stop left, before the node is opened anew."""
        self._left = [milliseconds_of(event["at"]) for event in events if event["event"] == "submit"]

    def note(self, outcome: Outcome) -> None:
        """Keeps what an outcome tells, in the transaction that ends its line."""
        event = outcome.event
        for packet in outcome.packets:
            if packet.kind in COMMANDS:
                # The first tick behind a stop has commands whose own outcome that lost.
                moments = [milliseconds_of(event["at"]), *(self._left if event["event"] != "submit" else ())]
                self._state.query("INSERT OR IGNORE INTO order_given (request, operator, reference, at, state)"
                                  " VALUES (?, ?, ?, ?, 'open')", packet.request, party_key(packet.receiver),
                                  packet.body.get("authorization_reference"), min(moments))
        if event["event"] == "deliver" and self._is_of_other(event["packet"]["from"]):
            self._note_delivered(outcome, Packet.of(event["packet"]))

    def _is_of_other(self, party: str) -> bool:
        """Whether an operator is one of kind `ocpi`."""
        return not self._configuration.is_operator and any(
            partner.kind == "ocpi" and same_party(partner.party, party) for partner in self._configuration.partners)

    def _note_delivered(self, outcome: Outcome, packet: Packet) -> None:
        operator, body = party_key(packet.sender), packet.body
        if packet.kind == "command_response":
            data: Data = body["data"] if isinstance(body.get("data"), dict) else {}
            until = None
            if data.get("result") == "ACCEPTED":
                timeout = number_of(str(data.get("timeout"))) or USUAL_TIMEOUT
                until = self._now() + min(timeout, LONGEST_TIMEOUT) * 1000 + RESULT_WITHIN
            self._state.query("UPDATE order_given SET state = ?, result_until = ? WHERE request = ? AND operator = ?"
                              " AND state = 'open'", "ended" if until is None else "accepted", until, packet.request,
                              operator)
        elif packet.kind == "command_result":
            self._state.query("UPDATE order_given SET state = 'ended', result_until = NULL WHERE request = ?"
                              " AND operator = ? AND state = 'accepted'",
                              number_of(str(body.get("response_url")).rpartition("/")[2]), operator)
        elif packet.kind == "put_session":
            answer = outcome.answer_to(packet.sender, packet.request)
            if answer is not None and answer.body["status_code"] == 1000:
                self._note_session(operator, body)

    def _note_session(self, operator: str, session: Session) -> None:
        """Keeps that a session has to be stopped whose start was given up, or that it is over."""
        if session["status"] not in ("PENDING", "ACTIVE"):
            self._state.query("DELETE FROM session_to_stop WHERE operator = ? AND session_id = ?", operator,
                              session["id"])
        elif self._state.query("SELECT 1 FROM order_given WHERE operator = ? AND reference = ? AND state = 'late'",
                               operator, session.get("authorization_reference")):
            self._state.query("INSERT OR IGNORE INTO session_to_stop (operator, session_id, ordered_at)"
                              " VALUES (?, ?, 0)", operator, session["id"])

    def _now(self) -> int:
        return int(self._events.clock.seconds() * 1000)

    def operator_of(self, request: int | None) -> str | None:
        """The operator to whom the command of a number was given, if there is one."""
        rows = self._state.query("SELECT operator FROM order_given WHERE request = ?", request)
        return rows[0][0] if rows else None

    def age(self, command: Packet) -> int:
        """The milliseconds since a command was ordered."""
        rows = self._state.query("SELECT at FROM order_given WHERE request = ?", command.request)
        return max(0, self._now() - int(rows[0][0])) if rows else 0

    def is_late(self, command: Packet) -> bool:
        """Whether a command without an answer was ordered too long ago."""
        return self.age(command) > LATE and bool(self._state.query(
            "SELECT 1 FROM order_given WHERE request = ? AND state IN ('open', 'late')", command.request))

    def give_up(self, command: Packet) -> Packet:
        """Gives up a command that is late, and gives the answer that stands for its partner's silence."""
        log.warning("%s %d to %s: not answered within %d s of the order: it is not sent any more, but REJECTED",
                    command.kind, command.request, command.receiver, LATE // 1000)
        with self._state.transaction():
            self._state.query("UPDATE order_given SET state = 'late' WHERE request = ?", command.request)
            for session in self._objects.living_of(command.receiver, command.body.get("authorization_reference")):
                self._note_session(party_key(command.receiver), session)
        return Packet(command.receiver, command.sender, 0, command.request, "command_response", {
            "status_code": 1000, "timestamp": self._events.clock.moment(),
            "data": {"result": "REJECTED", "timeout": 0}})

    def act(self, outcome: Outcome) -> None:
        """Begins with each tick what is due then. Called behind the transaction that ends its line."""
        if outcome.event["event"] == "tick" and not self._configuration.is_operator:
            self._tasks.begin(self._do_what_is_due)

    async def _do_what_is_due(self) -> None:
        now, node = self._now(), self._events.node
        for request, operator in self._state.query(
                "SELECT request, operator FROM order_given WHERE result_until < ?", now):
            log.warning("command %d to %s: its result did not come in time: TIMEOUT", request, operator)
            result: Body = {"result": "TIMEOUT", "response_url": f"{NODES_URL}{node}/{request}"}
            await self._feed(self._events.deliver(Packet(
                operator, node, 0, self._requests.number(operator), "command_result", result)))
        for operator, session_id in self._state.query("SELECT operator, session_id FROM session_to_stop"
                                                      " WHERE ordered_at < ?", now - STOPPED_WITHIN):
            log.warning("session %s of %s: its start was given up, so STOP_SESSION is ordered", session_id, operator)
            self._state.query("UPDATE session_to_stop SET ordered_at = ? WHERE operator = ? AND session_id = ?", now,
                              operator, session_id)
            await self._feed(self._events.make("submit", operator=operator, order="stop_session",
                                               session_id=session_id))
