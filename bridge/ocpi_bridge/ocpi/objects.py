"""The sessions, CDRs and tokens that passed through the bridge: for GET and lists, and for who asks what stands where.

While a node runs nobody else can read its rows. So the bridge keeps the newest version of each object that its node
sent or accepted. Beside these stand the EVSEs that commands claim.
"""
import logging
from collections.abc import Sequence
from dataclasses import dataclass
from decimal import Decimal
from typing import TypeVar

from ..clock import milliseconds_of
from ..events import Outcome, Packet
from ..json_text import JsonObject, Number, read_json, write_json
from ..parties import party_key, party_of, same_party
from ..records import Body, Location, Tariff
from ..state import State

# The module of each packet that carries an object, and the member that identifies the object.
OBJECTS = {"put_session": ("sessions", "id"), "post_cdr": ("cdrs", "id"), "put_token": ("tokens", "uid")}
OBJECT_KINDS = {module: kind for kind, (module, _) in OBJECTS.items()}
ACCEPTED = 1000
LIVING = "module = 'sessions' AND status IN ('PENDING', 'ACTIVE')"
# Milliseconds behind all moments.
FOREVER = 2**62

Listed = TypeVar("Listed", Location, Tariff)

log = logging.getLogger(__name__)


@dataclass(frozen=True)
class Part:
    """The part of a list: from `date_from` on and before `date_to` (milliseconds since 1970), of that `limit` objects
    behind the first `offset`."""

    date_from: int
    date_to: int
    offset: int
    limit: int

    def of(self, objects: Sequence[Listed]) -> tuple[int, list[Listed]]:
        """How many of some objects there are by the dates, and those of the part."""
        found = [each for each in objects if self.date_from <= milliseconds_of(each["last_updated"]) < self.date_to]
        return len(found), found[self.offset:self.offset + self.limit]


class Objects:
    """Knows of each object the version whose `last_updated` is the latest. A session that is final stays as it is."""

    def __init__(self, state: State) -> None:
        self._state = state
        self.claims = Claims(state)

    def note(self, outcome: Outcome) -> None:
        """Keeps what the node sent, and accepted of who speaks for it, in the transaction that ends the line."""
        self.claims.note(outcome)
        for packet in outcome.packets:
            if packet.kind in OBJECTS:
                self._keep(packet, "" if packet.kind == "put_token" else packet.receiver)
        if outcome.event["event"] == "deliver":
            packet = Packet.of(outcome.event["packet"])
            answer = outcome.answer_to(packet.sender, packet.request)
            if packet.kind in OBJECTS and answer is not None and answer.body["status_code"] == ACCEPTED:
                self._accept(packet)

    def _accept(self, packet: Packet) -> None:
        """Keeps an object of a partner's own. A node answers a repeat unseen: so another object in one is none."""
        is_first = self._state.query("INSERT OR IGNORE INTO accepted_request (partner, number) VALUES (?, ?)"
                                     " RETURNING 1", party_key(packet.sender), packet.request)
        if is_first and same_party(_party(packet.body), packet.sender):
            self._keep(packet, packet.sender)

    def _keep(self, packet: Packet, partner: str) -> None:
        module, body = OBJECTS[packet.kind][0], packet.body
        status, evse_uid = (body["status"], body["evse_uid"].upper()) if module == "sessions" else ("", "")
        self._state.query(
            """INSERT INTO object_of (module, party, identifier, token_type, partner, last_updated, status, evse_uid,
                body) VALUES (?, ?, ?, ?, ?, ?, ?, ?, ?)
            ON CONFLICT DO UPDATE SET partner = excluded.partner, last_updated = excluded.last_updated,
                status = excluded.status, evse_uid = excluded.evse_uid, body = excluded.body
            WHERE excluded.last_updated > last_updated AND status NOT IN ('COMPLETED', 'INVALID')""",
            module, party_key(_party(body)), _identifier(module, body),
            body["type"] if module == "tokens" else "",
            party_key(partner), milliseconds_of(body["last_updated"]), status, evse_uid, write_json(body))

    def find(self, module: str, party: str, identifier: str, token_type: str = "RFID") -> Body | None:
        """The object of a party and an id (of a token also a type) in `sessions`, `cdrs` or `tokens`."""
        return next(iter(self._bodies("module = ? AND party = ? AND identifier = ? AND token_type = ?", module,
                                      party_key(party), identifier.upper(), token_type if module == "tokens" else "")),
                    None)

    def warn_of_bill(self, bill: Body) -> None:
        """Warns of a bill that the node did not take, where one is held that it contradicts: of its id or session."""
        bills = self._bodies("module = 'cdrs' AND party = ? AND (identifier = ? OR "
                             "upper(json_extract(body, '$.session_id')) = ?)", party_key(_party(bill)),
                             str(bill["id"]).upper(), str(bill.get("session_id")).upper())
        for held in [other for other in bills if other != bill][:1]:
            log.warning("bill %.80s of %s, session %s: refused, since it contradicts bill %s, which is held: "
                        "ask its operator", bill["id"], _party(bill), held.get("session_id"), held["id"])

    def refuse(self, module: str, body: Body) -> None:
        """Keeps that the node refused a version of an object."""
        self._state.query("INSERT OR REPLACE INTO refused_object (module, party, identifier, token_type, last_updated)"
                          " VALUES (?, ?, ?, ?, ?)", *_key(module, body), milliseconds_of(body["last_updated"]))

    def has(self, module: str, body: Body) -> bool:
        """Whether a version of an object, or a later one, is held, or whether just this one was refused.

        Raises what it does where a member that it needs is none: KeyError, TypeError, ValueError, OverflowError.
        """
        key, updated = _key(module, body), milliseconds_of(body["last_updated"])
        where = "module = ? AND party = ? AND identifier = ? AND token_type = ?"
        return bool(self._state.query(
            f"SELECT 1 FROM object_of WHERE {where} AND last_updated >= ? UNION ALL "
            f"SELECT 1 FROM refused_object WHERE {where} AND last_updated = ?", *key, updated, *key, updated))

    def page(self, module: str, partner: str, part: Part) -> tuple[int, list[Body]]:
        """How many objects a list has by its dates, and those of its part, by `last_updated` and then by id.

        The list is of the objects that concern one partner, or of a provider's tokens, which are for all ("").
        """
        where = "module = ? AND partner = ? AND last_updated >= ? AND last_updated < ?"
        values = (module, party_key(partner), part.date_from, part.date_to)
        count = self._state.query(f"SELECT count(*) FROM object_of WHERE {where}", *values)[0][0]
        return count, self._bodies(f"{where} ORDER BY last_updated, identifier, party, token_type LIMIT ? OFFSET ?",
                                   *values, part.limit, part.offset)

    def newest(self, module: str, most: int = -1) -> list[Body]:
        """The objects of a module, the newest first: all of them, or so many at most."""
        return self._bodies("module = ? ORDER BY last_updated DESC, identifier DESC LIMIT ?", module, most)

    def totals(self, date_from: int, date_to: int) -> list[JsonObject]:
        """Of the bills by their `last_updated`, in each currency: how many there are and how many were taken back, and
        their energy and price without those."""
        rows = self._state.query(
            """SELECT json_extract(body, '$.currency'), SUM(1 - credit), SUM(credit),
                SUM((1 - 2 * credit) * CAST(ROUND(10000 * json_extract(body, '$.total_energy')) AS INTEGER)),
                SUM(CAST(ROUND(10000 * json_extract(body, '$.total_cost.excl_vat')) AS INTEGER))
            FROM (SELECT body, coalesce(json_extract(body, '$.credit'), 0) AS credit FROM object_of
                WHERE module = 'cdrs' AND last_updated >= ? AND last_updated < ?) GROUP BY 1 ORDER BY 1""",
            date_from, date_to)
        return [{"currency": currency, "bills": bills, "credits": credits, "kwh": ten_thousandths(energy),
                 "excl_vat": ten_thousandths(price)} for currency, bills, credits, energy, price in rows]

    def living_session(self, evse_uid: str) -> Body | None:
        """The session at an EVSE of the node that is PENDING or ACTIVE."""
        found = self._bodies(f"evse_uid = ? AND {LIVING} ORDER BY last_updated DESC LIMIT 1", evse_uid.upper())
        return found[0] if found else None

    def living_of(self, party: str, reference: str | None) -> list[Body]:
        """The sessions of an operator and an authorization reference that are PENDING or ACTIVE."""
        return self._bodies(f"{LIVING} AND party = ? AND upper(json_extract(body, '$.authorization_reference')) = ?",
                            party_key(party), (reference or "").upper())

    def pending_sessions(self) -> list[Body]:
        """The sessions at EVSEs of the node in which nobody charges so far."""
        return self._bodies(f"{LIVING} AND status = 'PENDING'")

    def living_sessions(self) -> list[Body]:
        """Those in which somebody charges, too."""
        return self._bodies(LIVING)

    def _bodies(self, where: str, *values: object) -> list[Body]:
        return [read_json(body) for body, in self._state.query(f"SELECT body FROM object_of WHERE {where}", *values)]


def ten_thousandths(amount: int) -> Number:
    """An amount in ten thousandths, with its four decimals."""
    return Number(f"{Decimal(amount).scaleb(-4):.4f}")


def _key(module: str, body: Body) -> tuple[str, str, str, str]:
    """What an object of a module is known by."""
    return (module, party_key(_party(body)), _identifier(module, body),
            str(body.get("type", "RFID")) if module == "tokens" else "")


def _identifier(module: str, body: Body) -> str:
    return str(body["uid"] if module == "tokens" else body["id"]).upper()


def _party(body: Body) -> str:
    return party_of(body["country_code"], body["party_id"])


class Claims:
    """Which EVSEs an open start or a reservation claims, as far as packets tell it: each EVSE has one claim at most.

    Knows the claims of commands that name an EVSE. Which one the node took for another no packet tells.
    """

    def __init__(self, state: State) -> None:
        self._state = state

    def status(self, evse_uid: str, now: int) -> str | None:
        """BLOCKED by a start, RESERVED, or None, at a moment in milliseconds since 1970."""
        rows = self._state.query("SELECT status FROM claim WHERE evse_uid = ? AND until > ?", evse_uid.upper(), now)
        return rows[0][0] if rows else None

    def note(self, outcome: Outcome) -> None:
        """Takes in what became of an event, inside the transaction that ends its line."""
        for packet in outcome.sent("command_result"):
            self._end(packet.receiver, packet.body["response_url"])
        for packet in outcome.sent("put_session"):
            if packet.body["status"] in ("PENDING", "ACTIVE"):
                self._state.query("DELETE FROM claim WHERE evse_uid = ?", packet.body["evse_uid"].upper())
        if outcome.event["event"] == "deliver":
            self._note_command(outcome, Packet.of(outcome.event["packet"]))

    def _note_command(self, outcome: Outcome, command: Packet) -> None:
        """Takes in a command that is accepted now. A repeat is answered with the moment of the first answer."""
        answer, body = outcome.answer_to(command.sender, command.request), command.body
        if answer is None or answer.body.get("data", {}).get("result") != "ACCEPTED" or (
                milliseconds_of(answer.body["timestamp"]) != milliseconds_of(outcome.event["at"])):
            return
        results = [packet.body["result"] for packet in outcome.sent("command_result")]
        if command.kind == "start_session" and not results:
            self._begin(command, "BLOCKED", body["response_url"], FOREVER)
        elif command.kind in ("reserve_now", "cancel_reservation") and results == ["ACCEPTED"]:
            self._end(command.sender, body["reservation_id"].upper())
            if command.kind == "reserve_now":
                self._begin(command, "RESERVED", body["reservation_id"].upper(), milliseconds_of(body["expiry_date"]))

    def _begin(self, command: Packet, status: str, name: str, until: int) -> None:
        if command.body.get("evse_uid") is not None:
            self._state.query("INSERT OR REPLACE INTO claim (evse_uid, status, partner, name, until)"
                              " VALUES (?, ?, ?, ?, ?)", command.body["evse_uid"].upper(), status,
                              party_key(command.sender), name, until)

    def _end(self, partner: str, name: str) -> None:
        self._state.query("DELETE FROM claim WHERE partner = ? AND name = ?", party_key(partner), name)
