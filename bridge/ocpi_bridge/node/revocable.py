"""A feeder whose events may be revoked while they wait. It tells what a stop left, and waits where a disk is full."""
import asyncio
from collections.abc import Callable
from contextlib import suppress
from dataclasses import replace

from ..configuration import NodeSettings, refuse
from ..events import Events
from ..metrics import Metrics
from ..records import Event
from ..room import NoRoom
from ..state import State
from .child import Child, ChildEnded
from .feeder import Feeder

# The status of a run that found a disk full: the node is started again, and its store may not be whole without its log.
WITHOUT_ROOM = 75


class RevocableFeeder(Feeder):
    """Feeds as a feeder does, but for what is revoked before it stands in a line."""

    def __init__(self, settings: NodeSettings, events: Events, state: State, metrics: Metrics) -> None:
        super().__init__(settings, events, state, metrics)
        # Called with the events of the lines that a stop left, before the node is opened anew.
        self.before_opening: list[Callable[[list[Event]], None]] = []

    async def reload(self, settings: NodeSettings, take: Callable[[], None]) -> None:
        """Starts the node again with another setup, where it takes that over its store, and calls `take` before.

        Raises WrongConfiguration where it does not, and NodeEnded.
        """
        async def change() -> None:
            child = await Child.start(replace(settings, transcript=None), True, self._state)
            with suppress(ChildEnded):
                await child.open(self._kept)
            if await child.end() != 0:
                refuse("node.setup", "; ".join(child.words) or "the node does not take it")
            self._settings = settings
            take()
        await self.while_closed(change)

    def revoke(self, event: Event) -> bool:
        """Takes back an event that nobody awaits any more. False where it stands in a line already, or is done."""
        for place, waiting in enumerate(self._queue):
            if waiting.event is event:
                del self._queue[place]
                if waiting.outcome is not None:
                    waiting.outcome.cancel()
                return True
        return False

    async def _open(self, child: Child) -> None:
        left = [waiting.event for line in self._kept.lines for waiting in line.waiting]
        for listener in self.before_opening:
            listener(left)
        await super()._open(child)

    async def run(self) -> int:
        status = await super().run()
        return 1 if status == WITHOUT_ROOM else status

    async def _run_once(self) -> int:
        """Feeds the node as a feeder does. Where a disk is full it ends, and is started again when there is room."""
        room, self._lacks = self._state.room, None
        try:
            status = await super()._run_once()
        except NoRoom:
            status = WITHOUT_ROOM
        if self._lacks is not None:
            status = WITHOUT_ROOM
            room.lacks(self._lacks, getattr(self._settings, self._lacks))
        if not room.is_there:
            waits = [asyncio.create_task(room.wait()), asyncio.create_task(self._stopping.wait())]
            await asyncio.wait(waits, return_when=asyncio.FIRST_COMPLETED)
            for wait in waits:
                wait.cancel()
            self._delay = 0.0
        return status
