"""Tasks beside the one that begins them."""
import asyncio
import logging
from collections.abc import Callable, Coroutine
from functools import partial
from typing import Any, TypeVar

LOG = logging.getLogger("bridge")
Result = TypeVar("Result")


class Tasks:
    """What is under way of some work. How any of it fails is logged, but by what is `expected`."""

    def __init__(self, *expected: type[Exception]) -> None:
        self._expected, self._tasks = expected, dict[object, asyncio.Task[Any]]()

    def begin(self, work: Callable[..., Coroutine[Any, Any, Result]], *arguments: object) -> asyncio.Task[Result]:
        """Has something done, unless just that is under way already. Gives its task."""
        key = (work, *arguments)
        if key not in self._tasks or self._tasks[key].done():
            task = self._tasks[key] = asyncio.create_task(work(*arguments))
            task.add_done_callback(partial(self._end, key))
        return self._tasks[key]

    def _end(self, key: object, task: asyncio.Task[Any]) -> None:
        if self._tasks[key] is task:
            del self._tasks[key]
        fault = None if task.cancelled() else task.exception()
        if fault is not None and not isinstance(fault, self._expected):
            LOG.error("something was not carried out", exc_info=fault)

    def cancel(self) -> None:
        """Ends all of them."""
        for task in self._tasks.values():
            task.cancel()
