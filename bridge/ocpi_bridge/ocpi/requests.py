"""The numbers of requests, and the addresses to which results of commands are posted."""
import asyncio
import hashlib
import json
import logging
import re
import time
import uuid
from contextlib import suppress

from ..events import Packet
from ..parties import party_key, same_party
from ..room import NoRoom
from ..state import State

# What stands before such a text in the `response_url` that a node writes, and at a bridge before the number alone.
NODES_URL = "https://node.invalid/"
RESULTS_PATH = "/ocpi/2.2.1/sender/commands/results/"
# For how many seconds numbers and addresses are kept at least, and how many are forgotten at once.
KEPT_FOR, AT_ONCE = 30 * 86_400, 500
FORGET = (
    """DELETE FROM request_digest WHERE (partner, correlation, digest) IN (SELECT partner, correlation, digest
    FROM request_digest WHERE given_at < ? LIMIT ?) RETURNING number""",
    f"""DELETE FROM response_url WHERE (partner, number) IN (SELECT partner, number FROM response_url WHERE kept_at < ?
    AND NOT EXISTS (SELECT 1 FROM push_that_waits WHERE receiver = partner
    AND subject = 'command_result ' || upper('{NODES_URL}' || partner || '/' || number)) LIMIT ?) RETURNING number""")

log = logging.getLogger(__name__)


class Requests:
    """Kept in the state, so that a request that comes again after a stop has the number and the address of before."""

    def __init__(self, state: State) -> None:
        self._state = state

    def number(self, partner: str, correlation: str | None = None, digest: bytes = b"") -> int:
        """The number of a request of a partner that is no such node: a correlation id over a digest always has the
        same one.

        Another digest under the id is another request, which OCPI does not know: so that is warned of. Without a
        correlation id the number is new. Numbers rise. It is committed when this returns, or with the transaction in
        which it is called.
        """
        with self._state.transaction():
            if correlation is None:
                return self._new()
            key = party_key(partner), correlation
            given: dict[bytes, int] = dict(self._state.query(
                "SELECT digest, number FROM request_digest WHERE partner = ? AND correlation = ?", *key))
            # An earlier bridge kept numbers without digests.
            number = given.get(digest, given.get(b""))
            if number is None:
                number = self._new()
                if given:
                    log.warning("%s: X-Correlation-ID %.80s is that of another request too", partner, correlation)
            if digest not in given:
                self._state.query("DELETE FROM request_digest WHERE partner = ? AND correlation = ? AND digest = x''",
                                  *key)
                self._state.query("INSERT INTO request_digest (partner, correlation, digest, number, given_at)"
                                  " VALUES (?, ?, ?, ?, ?)", *key, digest, number, int(time.time()))
            return number

    def _new(self) -> int:
        """A number that was given to no request. A new state has none of those that were given before it, so it begins
        behind them all: with the milliseconds since 1970."""
        number = int(self._state.value("last_request") or time.time() * 1000) + 1
        self._state.set_value("last_request", str(number))
        return number

    def keep_url(self, partner: str, number: int, url: str) -> None:
        """Keeps the address that a partner of kind `node` gave for the result of its request of that number."""
        self._state.query("INSERT OR REPLACE INTO response_url (partner, number, url, kept_at) VALUES (?, ?, ?, ?)",
                          party_key(partner), number, url, int(time.time()))

    def url(self, partner: str, number: int | None) -> str | None:
        """The address that was kept."""
        rows = self._state.query("SELECT url FROM response_url WHERE partner = ? AND number = ?",
                                 party_key(partner), number)
        return rows[0][0] if rows else None

    def forget(self, seconds: float) -> bool:
        """Forgets some of what is settled, and was kept 30 days before a moment: numbers of requests, and addresses to
        which no result waits to be sent. Whether there may be more."""
        before, forgotten = int(seconds) - KEPT_FOR, 0
        with self._state.transaction():
            for statement in FORGET:
                forgotten += len(self._state.query(statement, before, AT_ONCE))
        return forgotten > 0

    async def run(self) -> None:
        """Forgets what is settled, until it is cancelled: a little each second, and then again in an hour."""
        while True:
            is_left = False
            with suppress(NoRoom):
                is_left = self.forget(time.time())
            await asyncio.sleep(1.0 if is_left else 3600.0)


class SentOnce:
    """The commands that a partner is sent once, since it knows no repeats, and what it answered."""

    def __init__(self, state: State) -> None:
        self._state = state

    def answer(self, command: Packet) -> str | None:
        """What was kept of a command: None where it was not sent, and "" where no answer came."""
        rows = self._state.query("SELECT answer FROM sent_once WHERE operator = ? AND request = ?", *_of(command))
        return rows[0][0] if rows else None

    def keep(self, command: Packet, answer: str) -> None:
        self._state.query("INSERT OR REPLACE INTO sent_once (operator, request, answer) VALUES (?, ?, ?)",
                          *_of(command), answer)

    def forget(self, command: Packet) -> None:
        """Called where it was surely not sent."""
        self._state.query("DELETE FROM sent_once WHERE operator = ? AND request = ?", *_of(command))


def _of(command: Packet) -> tuple[str, int]:
    return party_key(command.receiver), command.request


def reference_of(party: str, number: int) -> str:
    """The authorization reference of a start that comes without one: for each request of a party its own."""
    return str(uuid.uuid5(uuid.NAMESPACE_URL, f"{NODES_URL}{party_key(party)}/{number}"))


def digest_of(asked: str, body: bytes) -> bytes:
    """What tells a request from another: method, path and body, in whatever order its members stand."""
    with suppress(ValueError, RecursionError):
        body = json.dumps(json.loads(body), sort_keys=True).encode()
    return hashlib.blake2b(f"{asked}\n".encode() + body, digest_size=16).digest()


def number_of(text: str) -> int | None:
    """A whole number of at most 18 digits, where a text is one."""
    return int(text) if re.fullmatch("[0-9]{1,18}", text) else None


def number_in(text: str, party: str) -> int | None:
    """The number in such a text as `NL/TNM/7`, of a party: a serial or the number of a request in a header."""
    start, _, digits = text.rpartition("/")
    return number_of(digits) if same_party(start, party) else None
