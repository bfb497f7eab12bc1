"""The commands that partners gave and the node accepted: which are open, and which a charge point was asked for."""
from dataclasses import dataclass

from ..clock import Clock, seconds_of
from ..events import Outcome, Packet
from ..json_text import Members
from ..state import State

# Commands that a charge point carries out. The node ends each by itself after this time, in seconds.
KINDS = ("start_session", "stop_session", "unlock_connector")
OPEN_FOR = 30.0
OPEN, LATE, ASKED, REFUSED, PAST = "open", "late", "asked", "refused", "past"


@dataclass(frozen=True)
class Command:
    """A command. EVSE and session of a start are those of its session, once that has begun."""

    provider: str
    number: int
    kind: str
    evse_uid: str | None
    connector_id: str | None
    token_uid: str | None
    session_id: str | None
    has_ended: bool


class Commands:
    """Keeps them for good, so that a charge point is asked once for each, however often a command comes."""

    def __init__(self, state: State, clock: Clock) -> None:
        self._state, self._clock = state, clock

    def expect_late(self, provider: str, number: int) -> None:
        """Keeps that a command which is about to be fed was ordered too long ago: no charge point is asked for it."""
        self._state.query("INSERT OR IGNORE INTO late_command (provider, number) VALUES (?, ?)", provider, number)

    def note(self, outcome: Outcome) -> None:
        """Keeps what an outcome opens, ends and begins. Called inside of the transaction that forgets its line."""
        event = outcome.event
        if event["event"] == "deliver":
            command = Packet.of(event["packet"])
            self._note_accepted(outcome, command)
            self._note_late(command.sender, command.request)
        for packet in outcome.sent("command_result"):
            self._end(packet, event["packet"]["request"] if event["event"] == "deliver" else event.get("number"))
        for packet in outcome.sent("put_session"):
            if packet.body["status"] == "PENDING" and packet.body["auth_method"] == "COMMAND":
                self._note_session(packet)

    def _note_accepted(self, outcome: Outcome, command: Packet) -> None:
        """Keeps a command that is open. A repeat of an old one, of which a stop lost the first answer, is not."""
        answer = outcome.answer_to(command.sender, command.request)
        if (command.kind in KINDS and answer is not None and answer.body.get("data", {}).get("result") == "ACCEPTED"
                and seconds_of(answer.body["timestamp"]) + OPEN_FOR > self._clock.seconds()):
            body = command.body
            self._state.query(
                """INSERT OR IGNORE INTO ocpp_command (provider, number, kind, evse_uid, connector_id, token_uid,
                reference, session_id, response_url, until) VALUES (?, ?, ?, ?, ?, ?, ?, ?, ?, ?)""",
                command.sender, command.request, command.kind, body.get("evse_uid"), body.get("connector_id"),
                body.get("token", {}).get("uid"), body.get("authorization_reference"), body.get("session_id"),
                body["response_url"], seconds_of(answer.body["timestamp"]) + OPEN_FOR)
            if command.kind == "start_session":
                self._number(command.sender, command.request, body["token"].get("type", "RFID"))

    def _number(self, provider: str, number: int, token_type: str) -> None:
        self._state.query("INSERT OR IGNORE INTO ocpp_remote_start (provider, number, token_type) VALUES (?, ?, ?)",
                          provider, number, token_type)

    def remote_start(self, command: Command) -> tuple[int, str]:
        """The number by which a charge point of OCPP 2.0.1 tells of a start, and the type of its token."""
        # One that was kept by an earlier bridge has none.
        self._number(command.provider, command.number, "RFID")
        rows = self._state.query("SELECT remote_start, token_type FROM ocpp_remote_start WHERE provider = ?"
                                 " AND number = ?", command.provider, command.number)
        return rows[0][0], rows[0][1]

    def of_remote_start(self, remote_start: int) -> Command | None:
        """The start that has a number. None where it is not known."""
        return next(iter(self._where(
            "(provider, number) = (SELECT provider, number FROM ocpp_remote_start WHERE remote_start = ?)",
            remote_start)), None)

    def _note_late(self, *key: object) -> None:
        """A command that came late is so, where no charge point was asked for it before."""
        if self._state.query("DELETE FROM late_command WHERE provider = ? AND number = ? RETURNING number", *key):
            self._state.query("UPDATE ocpp_command SET state = ? WHERE provider = ? AND number = ? AND state = ?"
                              " AND ended_by IS NULL", LATE, *key, OPEN)

    def _end(self, result: Packet, number: int | None) -> None:
        """Ends the command of a result: that of a number, or behind a tick that of its `response_url`.

        A result that is sent again ends no other command: its number is that of the one that it ended.
        """
        self._state.query(
            """UPDATE OR IGNORE ocpp_command SET ended_by = ? WHERE rowid = (SELECT rowid FROM ocpp_command
            WHERE ended_by IS NULL AND provider = ? AND response_url = ? AND number = ifnull(?, number)
            ORDER BY number LIMIT 1)""", result.request, result.receiver, result.body["response_url"], number)

    def _note_session(self, session: Packet) -> None:
        """Keeps which session a start began, and where."""
        body = session.body
        self._state.query(
            """UPDATE ocpp_command SET session_id = ?1, evse_uid = ?2 WHERE rowid = (SELECT rowid FROM ocpp_command
            WHERE kind = 'start_session' AND provider = ?3 AND reference IS ?4 AND token_uid = ?5
            AND ifnull(session_id, ?1) = ?1 AND ifnull(evse_uid, ?2) = ?2 ORDER BY session_id DESC, number LIMIT 1)""",
            body["id"], body["evse_uid"], session.receiver, body.get("authorization_reference"),
            body["cdr_token"]["uid"])

    def find(self, provider: str, number: int) -> Command:
        """A command that is kept. Raises IndexError."""
        return self._where("provider = ? AND number = ?", provider, number)[0]

    def opened(self) -> list[Command]:
        """The commands that are open."""
        return self._where("ended_by IS NULL ORDER BY number")

    def unasked(self, word: str = OPEN) -> list[Command]:
        """Those of them that no charge point was asked for: that may be asked for, or that are refused (LATE)."""
        return self._where("ended_by IS NULL AND state = ? ORDER BY number", word)

    def refuse(self, command: Command) -> None:
        """No charge point is asked for a command: it is as one that came late."""
        self._state.query("UPDATE ocpp_command SET state = ? WHERE provider = ? AND number = ? AND state = ?", LATE,
                          command.provider, command.number, OPEN)

    def begin(self, command: Command) -> bool:
        """Keeps that a charge point is asked for a command now. False where the command ended since it was found, or
        its time is over."""
        rows = self._state.query(
            f"UPDATE ocpp_command SET state = '{ASKED}' WHERE provider = ? AND number = ? AND ifnull(until, ?3) >= ?3"
            " AND (ended_by IS NULL OR ?) RETURNING number", command.provider, command.number, self._clock.seconds(),
            command.has_ended)
        return bool(rows)

    def start_for(self, evse_uid: str, token_uid: str) -> Command | None:
        """A start to which a transaction of a token belongs: one that is open, or that a charge point was asked for.

        Not one that the charge point refused, nor one of which a transaction came.
        """
        return next(iter(self._where(
            f"(state = '{ASKED}' OR state = '{OPEN}' AND ended_by IS NULL) AND kind = 'start_session' "
            "AND evse_uid = ? AND token_uid = ? ORDER BY number DESC", evse_uid, token_uid)), None)

    def forget_asked(self, evse_uid: str) -> None:
        """No later transaction at an EVSE is that of a start that has ended by now."""
        self._state.query(f"UPDATE ocpp_command SET state = '{PAST}' WHERE state = '{ASKED}' AND evse_uid = ? "
                          "AND ended_by IS NOT NULL", evse_uid)

    def set_state(self, command: Command, word: str) -> None:
        self._state.query("UPDATE ocpp_command SET state = ? WHERE provider = ? AND number = ?", word,
                          command.provider, command.number)

    def _where(self, where: str, *values: object) -> list[Command]:
        rows = self._state.query("SELECT provider, number, kind, evse_uid, connector_id, token_uid, session_id,"
                                 f" ended_by IS NOT NULL FROM ocpp_command WHERE {where}", *values)
        return [Command(*row) for row in rows]
