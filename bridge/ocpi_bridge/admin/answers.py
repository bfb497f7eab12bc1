"""The answers to requests that had an `Idempotency-Key`: a repeat is given the first one, and feeds nothing."""
import asyncio
import hashlib
from collections.abc import Callable, Coroutine
from functools import partial
from typing import Any, Final, TypedDict

from aiohttp import web

from ..clock import Clock
from ..json_text import read_json, write_json
from ..records import Done, Event, PacketLine
from ..state import State


class Told(TypedDict, total=False):
    """The body of an answer: what came of an event, or why it was refused, and what a charge point says to it."""

    error: str
    done: Done
    packets: list[PacketLine]
    charge_point: str


# The status and the body of an answer.
Answer = tuple[int, Told]
LOST: Answer = 504, {"error": "carried out, but a stop of the node lost what came of it: see the lists"}
# The member of an event that has the address, the key and the digest of its request.
MARK: Final = "idempotency"
LONGEST_KEY = 255
SECONDS_KEPT = 30 * 86_400
COLUMNS = "path, key, digest, at, status, body"


class Answers:
    """Keeps each answer in the transaction in which the line of its event is forgotten, and for 30 days."""

    def __init__(self, state: State, clock: Clock) -> None:
        self._state, self._clock = state, clock
        self._begun: dict[tuple[str, str], tuple[str, asyncio.Task[Answer]]] = {}

    async def once(self, path: str, key: str, text: str,
                   feed: Callable[[Event], Coroutine[Any, Any, Answer]]) -> Answer:
        """The first answer to a key at an address: one that is kept or under way, or else what `feed` gives.

        `feed` gets what its event is marked by. Raises HTTPException where the key is none, or that of another text.
        """
        if not (key.isprintable() and 0 < len(key) <= LONGEST_KEY):
            raise web.HTTPBadRequest(text="Idempotency-Key: wanted are 1 to 255 printable characters")
        name, digest = (path, key), hashlib.sha256(text.encode()).hexdigest()
        if name not in self._begun:
            for kept, status, body in self._state.query(
                    "SELECT digest, status, body FROM answer_given WHERE path = ? AND key = ?", *name):
                _compare(kept, digest)
                return status, read_json(body)
            task = asyncio.create_task(feed({MARK: [*name, digest]}))
            self._begun[name] = digest, task
            task.add_done_callback(partial(self._end, name))
        begun, task = self._begun[name]
        _compare(begun, digest)
        return await asyncio.shield(task)

    def _end(self, name: tuple[str, str], task: asyncio.Task[Answer]) -> None:
        """Whoever awaits a task is told how it failed, and where nobody does, nobody has to be."""
        del self._begun[name]
        if not task.cancelled():
            task.exception()

    def keep(self, event: Event, told: Answer) -> None:
        """Keeps an answer, and forgets those that are old."""
        now = self._clock.seconds()
        self._state.query("DELETE FROM answer_given WHERE at < ?", now - SECONDS_KEPT)
        self._state.query(f"INSERT OR REPLACE INTO answer_given ({COLUMNS}) VALUES (?, ?, ?, ?, ?, ?)", *event[MARK],
                          now, told[0], write_json(told[1]))

    def keep_lost(self, event: Event) -> None:
        """Keeps that the answer is lost, where none is kept."""
        self._state.query(f"INSERT OR IGNORE INTO answer_given ({COLUMNS}) VALUES (?, ?, ?, ?, ?, ?)", *event[MARK],
                          self._clock.seconds(), LOST[0], write_json(LOST[1]))


def _compare(before: str, digest: str) -> None:
    if before != digest:
        raise web.HTTPUnprocessableEntity(text="Idempotency-Key: it is that of another request")
