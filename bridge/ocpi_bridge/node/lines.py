"""The lines that are fed to a node: one event, or several in an array, and who waits for what becomes of them."""
from asyncio import Future
from collections import deque
from dataclasses import dataclass
from itertools import islice

from ..events import Outcome
from ..json_text import read_json, write_json
from ..records import Event

# What a node takes in one line.
MOST_EVENTS = 256
MOST_BYTES = 1_048_576


@dataclass
class Waiting:
    """An event, with where its outcome is awaited. One that is `alone` is fed in a line of its own."""

    event: Event
    outcome: "Future[Outcome] | None" = None
    alone: bool = False

    def __post_init__(self) -> None:
        """Raises NotJson where the event is nested too deep."""
        self.text = write_json(self.event)

    def succeed(self, outcome: Outcome) -> None:
        if self.outcome is not None and not self.outcome.done():
            self.outcome.set_result(outcome)

    def fail(self, fault: Exception) -> None:
        if self.outcome is not None and not self.outcome.done():
            self.outcome.set_exception(fault)


@dataclass
class Line:
    """A line, which has its number for good. It `is_kept` where the state has it, and was fed at `fed`."""

    number: int
    text: str
    waiting: list[Waiting]
    is_kept: bool = False
    fed: float = 0.0

    @property
    def is_array(self) -> bool:
        return self.text.startswith("[")

    @property
    def has_ticks_alone(self) -> bool:
        return all(waiting.event["event"] == "tick" for waiting in self.waiting)


def kept_line(number: int, text: str) -> Line:
    """A line that an earlier run of the bridge kept, whose events nobody awaits any more."""
    kept = read_json(text)
    return Line(number, text, [Waiting(event) for event in (kept if isinstance(kept, list) else [kept])], True)


def next_line(queue: deque[Waiting], number: int) -> Line:
    """The next line of those that wait, which is not taken off: one event alone, or in an array as many as it takes."""
    taken = [queue[0]]
    size = len(taken[0].text) + 2
    for waiting in islice(queue, 1, MOST_EVENTS):
        size += len(waiting.text) + 1
        if size > MOST_BYTES or taken[-1].alone or waiting.alone:
            break
        taken.append(waiting)
    text = ",".join(waiting.text for waiting in taken)
    return Line(number, f"[{text}]" if len(taken) > 1 else text, taken)
