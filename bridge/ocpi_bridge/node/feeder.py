"""Feeds a node, a few lines ahead of its answers, so that no stop of the node or of the bridge loses an event or has it
done twice.

Each line has a number, and is kept in `state` until its `done` came. After a stop those that are kept are fed again
under their numbers: of one that had taken hold the node says that it is known, and what it gave is lost, as links lose
packets.
"""
import asyncio
import logging
import sqlite3
import time
from collections import deque
from collections.abc import Awaitable, Callable, Iterable
from contextlib import suppress
from typing import TypeVar

from ..configuration import NodeSettings
from ..events import Events, Outcome, Packet
from ..json_text import write_json
from ..metrics import Metrics
from ..records import Event
from ..state import State
from .child import Child, ChildEnded, TranscriptLocked
from .kept import Kept
from .lines import Line, Waiting, next_line

LOG = logging.getLogger("node")
Result = TypeVar("Result")
Listener = Callable[[Outcome], None]
# How long a store is waited for that the node of a killed bridge still has: seconds of real time, until each new try.
LOCKED_DELAYS = (0.1, 0.2, 0.4, 0.8, 1.5, 2.0, 2.0, 3.0)
LONGEST_DELAY = 30.0
# How many lines may be under way. The more there are the fewer events share a line, which is one commit.
MOST_LINES = 4


class OutcomeLost(Exception):
    """The event was carried out, and a stop of the node lost what it gave. The node has had a tick since."""


class NodeEnded(Exception):
    """The bridge is stopping, and the event may be carried out at its next start, or never."""


async def repeated(action: Callable[[], Awaitable[Result]]) -> Result:
    """Carries an action out, and again from its beginning where a stop of the node lost what an event of it gave.

    The node then had a tick, which sent again each session that was lost. So what was done already is known by then.
    """
    while True:
        try:
            return await action()
        except OutcomeLost:
            continue


class Feeder:
    """The node of a bridge. `run` starts it, and again after each stop; `feed` has it carry out an event."""

    def __init__(self, settings: NodeSettings, events: Events, state: State, metrics: Metrics) -> None:
        # Called with each outcome: inside of the transaction of `state` that forgets its line, and in order behind it.
        self.before_commit: list[Listener] = []
        self.after_commit: list[Listener] = []
        # Called whenever the node was opened and had its first tick.
        self.after_opening: list[Callable[[], None]] = []
        self._settings, self._events, self._state, self._metrics = settings, events, state, metrics
        self._queue: deque[Waiting] = deque()
        self._kept = Kept(state)
        self._lost: list[Waiting] = []
        self._woken, self._stopping = asyncio.Event(), asyncio.Event()
        # Held while the node runs, and how many wait until it does not.
        self._running, self._closing = asyncio.Lock(), 0
        self._has_ended = self._found_lock = False
        # The file that the node could not write for want of room.
        self._lacks: str | None = None
        self._delay = 0.0
        self.is_open = False
        # When a tick was answered last, as time.monotonic tells it.
        self.ticked = float("-inf")

    async def feed(self, event: Event) -> Outcome:
        """Has an event carried out, behind those that wait. A caller that is cancelled does not take it back.

        Raises OutcomeLost and NodeEnded; NotJson where the event is nested deeper than a node reads.
        """
        if self._has_ended or self._stopping.is_set():
            raise NodeEnded()
        outcome: asyncio.Future[Outcome] = asyncio.get_running_loop().create_future()
        self._queue.append(Waiting(event, outcome))
        self._woken.set()
        return await outcome

    async def stop(self) -> None:
        """Ends the node behind the lines that are under way; `run` then returns."""
        self._stopping.set()
        self._woken.set()

    async def while_closed(self, action: Callable[[], Awaitable[Result]]) -> Result:
        """Ends the node, awaits an action, and starts the node again. Events wait meanwhile. Raises NodeEnded."""
        self._closing += 1
        self._woken.set()
        try:
            async with self._running:
                if self._has_ended:
                    raise NodeEnded()
                return await action()
        finally:
            self._closing -= 1

    async def run(self) -> int:
        """Runs the node until `stop`, or until it ends with a status that no new start mends. Gives its status."""
        ticks = asyncio.create_task(self._tick_each_second())
        status = 0
        try:
            while not self._stopping.is_set() and status not in (2, 3):
                async with self._running:
                    status = await self._run_until_closed(status)
        finally:
            ticks.cancel()
            self._has_ended = True
            under_way = [waiting for line in self._kept.lines for waiting in line.waiting]
            for waiting in (*under_way, *self._lost, *self._queue):
                waiting.fail(NodeEnded())
        return status

    async def _tick_each_second(self) -> None:
        while True:
            await self._events.clock.sleep(1)
            if self.is_open and not any(waiting.event["event"] == "tick" for waiting in self._queue):
                self._queue.append(Waiting(self._events.tick()))
                self._woken.set()

    async def _run_until_closed(self, status: int) -> int:
        """Runs the node, and again after each end that a new start mends, each time later until it could be opened.

        Ends where the bridge is stopping, or where somebody waits for the node to be closed. Gives the last status.
        """
        locked_delays = iter(LOCKED_DELAYS)
        while not self._stopping.is_set():
            if not self._kept.next_number:
                # Another bridge may have been ending until the node could be opened.
                self._kept = Kept(self._state)
            status = await self._run_once()
            if status == 3 and self._found_lock and (delay := next(locked_delays, None)):
                await asyncio.sleep(delay)
            elif status in (2, 3) or (self._closing and status in (0, 1)):
                break
            elif not self._stopping.is_set():
                LOG.error("the node ended with status %d, and is started again in %d s", status, self._delay)
                self._metrics.count("ocpi_node_restarts_total")
                with suppress(TimeoutError):
                    await self._events.clock.within(self._delay, self._stopping.wait())
                locked_delays = iter(LOCKED_DELAYS)
                self._delay = min(max(1.0, 2 * self._delay), LONGEST_DELAY)
        return status

    async def _run_once(self) -> int:
        """Starts the node, and feeds it until it ends or has to. Gives its status."""
        try:
            child = await Child.start(self._settings, self._kept.was_opened, self._state)
        except TranscriptLocked:
            LOG.warning("node.transcript: another program has it")
            self._found_lock = True
            return 3
        try:
            await self._open(child)
            await self._feed_and_read(child)
        except ChildEnded:
            pass
        finally:
            self.is_open = False
            status = await child.end()
            self._found_lock, self._lacks = child.found_lock, child.lacks_room()
        return status

    def _has_to_end(self) -> bool:
        return self._stopping.is_set() or self._closing > 0

    async def _open(self, child: Child) -> None:
        """Opens the node, has all carried out that a stop left, and then a tick: it sends again what was lost."""
        self._kept.open(await child.open(self._kept))
        for line in tuple(self._kept.lines):
            await self._feed(child, line)
            await self._read_answers(child)
        self._queue.appendleft(Waiting(self._events.tick(), alone=True))
        await self._feed_next(child)
        await self._read_answers(child)
        self._delay = 0.0
        self.is_open = True
        _tell(self.after_opening)
        for waiting in self._lost:
            waiting.fail(OutcomeLost())
        self._lost.clear()

    async def _feed_and_read(self, child: Child) -> None:
        """Feeds and reads side by side until the node ends. Raises what ended either."""
        feeding = asyncio.create_task(self._feed_ahead(child))
        try:
            while True:
                await self._read_answers(child)
        finally:
            feeding.cancel()
            await asyncio.wait([feeding])
            if not feeding.cancelled():
                feeding.result()

    async def _feed_ahead(self, child: Child) -> None:
        """Feeds what waits, until the node has to end, and then ends its input. Raises NoRoom."""
        try:
            while not self._has_to_end():
                if self._queue and len(self._kept.lines) < MOST_LINES:
                    await self._feed_next(child)
                else:
                    self._woken.clear()
                    await self._woken.wait()
        except ChildEnded:
            # Whoever reads its answers comes to their end, too.
            pass
        finally:
            child.end_input()

    async def _feed_next(self, child: Child) -> None:
        line = next_line(self._queue, self._kept.next_number)
        self._kept.keep(line)
        for _ in line.waiting:
            self._queue.popleft()
        await self._feed(child, line)

    async def _feed(self, child: Child, line: Line) -> None:
        line.fed = time.monotonic()
        await child.write(line.text)

    async def _read_answers(self, child: Child) -> None:
        """Reads all that the first line gives which is under way, and settles it. Raises ChildEnded."""
        outcomes: list[Outcome] = []
        packets: list[Packet] = []
        while True:
            output = await child.read()
            if isinstance(output, Packet):
                packets.append(output)
                continue
            line = self._kept.lines[0]
            assert output["line"] == line.number, output
            if output["done"] != "known" and ("event" in output or not line.is_array):
                outcomes.append(Outcome(line.waiting[output.get("event", 0)].event, output, tuple(packets)))
                packets = []
            if "event" not in output:
                break
        self._metrics.observe("ocpi_line_seconds", time.monotonic() - line.fed)
        self._settle(line, outcomes, output["done"] == "known")

    def _settle(self, line: Line, outcomes: list[Outcome], is_known: bool) -> None:
        """Forgets a line, keeps what it changed, and then tells who waits."""
        def keep() -> None:
            for outcome in outcomes:
                _tell(self.before_commit, outcome)
        self._kept.settle(outcomes, keep)
        self._woken.set()
        if is_known:
            self._metrics.count("ocpi_lines_total", done="known")
            self._lost += line.waiting
        elif len(outcomes) < len(line.waiting):
            # As a whole the array could not be read: one of its events is at fault, and is found by itself.
            for waiting in reversed(line.waiting):
                waiting.alone = True
                self._queue.appendleft(waiting)
        for waiting, outcome in zip(line.waiting, outcomes):
            self._count(outcome)
            _tell(self.after_commit, outcome)
            waiting.succeed(outcome)

    def _count(self, outcome: Outcome) -> None:
        self._metrics.count("ocpi_lines_total", done=outcome.word)
        if outcome.event["event"] == "deliver":
            self._metrics.count("ocpi_packets_total", kind=outcome.event["packet"]["kind"], direction="in")
        for packet in outcome.packets:
            self._metrics.count("ocpi_packets_total", kind=packet.kind, direction="out")
        if outcome.event["event"] == "tick":
            self.ticked = time.monotonic()
        if outcome.word not in ("stepped", "idle"):
            LOG.warning("%s: %s", outcome.event["event"], write_json(outcome.done))


def _tell(listeners: Iterable[Callable[..., None]], *arguments: Outcome) -> None:
    """Calls listeners. A fault of one is logged: if it ended the bridge, the same line might end each new start too."""
    for listener in listeners:
        try:
            listener(*arguments)
        except sqlite3.Error:
            raise
        except Exception:
            LOG.exception("what the node did was not taken in")
