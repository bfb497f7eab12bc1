"""What is outstanding: commands without a result, pushes without an acknowledgement, and what a provider owes."""
from collections.abc import Callable
from decimal import Decimal

from ..clock import moment_of
from ..events import Outcome, Packet
from ..json_text import JsonObject, read_json, write_json
from ..ocpi.objects import Objects, ten_thousandths
from ..ocpi.packets import COMMANDS
from ..parties import party_key
from ..records import Body
from ..state import State

PUSHES = ("command_result", "put_session", "post_cdr", "put_token")


class Outstanding:
    """Follows the packets of a node. A bill counts once for what is owed, however often it comes."""

    def __init__(self, state: State, objects: Objects, is_open: Callable[[], bool] = lambda: True) -> None:
        """`objects` take note of each outcome before this does. The node `is_open` behind its first tick."""
        self._state, self._objects, self._is_open = state, objects, is_open

    def note(self, outcome: Outcome) -> None:
        """Keeps what an event and its packets change. Called in the transaction in which its line is forgotten."""
        if outcome.event["event"] == "tick" and not self._is_open():
            self._forget_answered(outcome)
        for packet in outcome.packets:
            if packet.kind in PUSHES:
                self._state.query("INSERT OR REPLACE INTO push_that_waits (receiver, subject, request)"
                                  " VALUES (?, ?, ?)", party_key(packet.receiver), _subject(packet), packet.request)
            elif packet.kind in COMMANDS:
                self._state.query("INSERT OR IGNORE INTO command_given (request, operator, kind, body)"
                                  " VALUES (?, ?, ?, ?)", packet.request, party_key(packet.receiver), packet.kind,
                                  write_json(packet.body))
        if outcome.event["event"] == "deliver" and outcome.word in ("stepped", "idle"):
            packet = Packet.of(outcome.event["packet"])
            answer = outcome.answer_to(packet.sender, packet.request)
            if packet.is_answer or (answer is not None and answer.body["status_code"] == 1000):
                self._take(packet, party_key(packet.sender), packet.body)

    def _forget_answered(self, outcome: Outcome) -> None:
        """A node's first tick sends all that waits for an answer. A stop lost the answers to what it leaves out."""
        self._state.query("DELETE FROM push_that_waits")
        sent = ", ".join(str(packet.request) for packet in outcome.packets)
        self._state.query("UPDATE command_given SET response = 'LOST' WHERE response IS NULL AND result IS NULL"
                          f" AND request NOT IN ({sent})")

    def _take(self, packet: Packet, sender: str, body: Body) -> None:
        """Keeps what an answer says, or a request that was answered with success."""
        if packet.kind == "ack" and body["status_code"] == 1000:
            self._state.query("DELETE FROM push_that_waits WHERE receiver = ? AND request = ?", sender, packet.request)
        elif packet.kind == "command_response":
            response = body["data"]["result"] if body["status_code"] == 1000 else str(body["status_code"])
            self._state.query("UPDATE command_given SET response = ? WHERE request = ? AND operator = ?"
                              " AND response IS NULL", response, packet.request, sender)
        elif packet.kind == "command_result":
            self._state.query("UPDATE command_given SET result = ? WHERE request = ? AND operator = ?"
                              " AND result IS NULL", body["result"], body["response_url"].rpartition("/")[2], sender)
        elif packet.kind == "post_cdr" and self._objects.find("cdrs", sender, body["id"]) == body:
            amount = int(Decimal(str(body["total_cost"]["excl_vat"])).scaleb(4))
            self._state.query("INSERT OR IGNORE INTO owed_for (operator, record, currency, amount) VALUES (?, ?, ?, ?)",
                              sender, party_key(body["id"]), body["currency"], amount)

    def commands(self, most: int = 1000) -> list[JsonObject]:
        """The newest commands that a provider gave, the newest first, with when (`at`), what was answered and what came
        of each."""
        return [{"number": number, "at": None if at is None else moment_of(at / 1000), "operator": operator,
                 "kind": kind, "response": response, "result": result, "body": read_json(body)}
                for number, at, operator, kind, body, response, result in self._state.query(
                    "SELECT request, at, command_given.operator, kind, body, response, result FROM command_given"
                    " LEFT JOIN order_given USING (request) ORDER BY request DESC LIMIT ?", most)]

    def open_commands(self) -> int:
        """How many commands of a provider wait for a response or a result."""
        return int(self._state.query("SELECT COUNT(*) FROM command_given WHERE result IS NULL"
                                     " AND (response IS NULL OR response = 'ACCEPTED')")[0][0])

    def pushes(self) -> int:
        """How many pushes wait for an acknowledgement."""
        return int(self._state.query("SELECT COUNT(*) FROM push_that_waits")[0][0])

    def owed(self) -> list[JsonObject]:
        """What a provider owes each operator in each currency, to four decimals."""
        return [{"operator": operator, "currency": currency, "amount": ten_thousandths(amount)}
                for operator, currency, amount in self._state.query(
                    "SELECT operator, currency, SUM(amount) FROM owed_for GROUP BY operator, currency ORDER BY 1, 2")]


def _subject(push: Packet) -> str:
    """What a push is about. A newer one about the same, to the same party, takes its place."""
    body = push.body
    about = (body["response_url"] if push.kind == "command_result" else
             f"{body['type']} {body['uid']}" if push.kind == "put_token" else body["id"])
    return f"{push.kind} {about.upper()}"
