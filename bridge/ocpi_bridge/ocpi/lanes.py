"""What waits to be sent to one partner, and which of it goes next.

Commands, their results and questions about tokens are awaited by somebody. They have a lane of their own, whose
requests go first, and of the four requests at once to a partner one is for these alone. Requests about one object go
one after the other, and the newest version of it takes the place of an older one that waits.
"""
import asyncio
from collections import OrderedDict
from dataclasses import dataclass, field

from ..clock import Clock
from ..events import Packet
from .packets import COMMANDS

AT_ONCE = 4
# How many requests wait in a lane at most. The node sends again what finds no place.
MOST_WAITING = 10_000
URGENT = (*COMMANDS, "command_result", "authorize")

# What a request is about.
Subject = tuple[str, ...]


def subject_of(packet: Packet) -> Subject:
    """What requests go about one after the other: a session with its bill, a token, or the request alone."""
    if packet.kind in ("put_session", "post_cdr"):
        return "session", (packet.body["id"] if packet.kind == "put_session" else packet.body["session_id"]).upper()
    if packet.kind == "put_token":
        return "token", str(packet.body["type"]), str(packet.body["uid"]).upper()
    return "request", str(packet.request)


def place_of(packet: Packet) -> Subject:
    """What a newer request takes the place of an older one by: its subject, but that each bill is one of its own."""
    return (*subject_of(packet), str(packet.request) if packet.kind == "post_cdr" else "")


@dataclass
class Lane:
    """Requests in their order. `longest_pause` is that in seconds after one that failed, behind many that did."""

    longest_pause: float
    waiting: "OrderedDict[Subject, Packet]" = field(default_factory=OrderedDict)
    under_way: int = 0
    failures: int = 0

    def put(self, packet: Packet) -> bool:
        """Takes a request, in the place of an older one like it. False where too many wait."""
        place = place_of(packet)
        if place not in self.waiting and len(self.waiting) >= MOST_WAITING:
            return False
        self.waiting[place] = packet
        return True

    def drop(self, packet: Packet) -> None:
        """Drops a repeat of a request, where one waits."""
        waiting = self.waiting.get(place_of(packet))
        if waiting is not None and waiting.request == packet.request:
            del self.waiting[place_of(packet)]

    def take(self, busy: set[Subject]) -> Packet | None:
        """The next request whose subject is not busy. While requests fail there is one at a time."""
        if self.failures and self.under_way:
            return None
        for place, packet in self.waiting.items():
            if subject_of(packet) not in busy:
                del self.waiting[place]
                self.under_way += 1
                return packet
        return None


class Lanes:
    """Both lanes of a partner."""

    def __init__(self, clock: Clock) -> None:
        self._clock = clock
        self._urgent, self._others = Lane(longest_pause=5.0), Lane(longest_pause=60.0)
        self._busy: set[Subject] = set()
        self._changed = asyncio.Event()

    def _of(self, packet: Packet) -> Lane:
        return self._urgent if packet.kind in URGENT else self._others

    @property
    def is_full(self) -> bool:
        """Whether no command more may wait."""
        return len(self._urgent.waiting) >= MOST_WAITING

    @property
    def waiting(self) -> int:
        """How many requests wait, or are under way."""
        return sum(len(lane.waiting) + lane.under_way for lane in (self._urgent, self._others))

    @property
    def is_failing(self) -> bool:
        """Whether what was asked last got no answer."""
        return self._urgent.failures + self._others.failures > 0

    def put(self, packet: Packet) -> bool:
        """Takes a request to be sent. False where it is lost, since too many wait."""
        is_taken = self._of(packet).put(packet)
        self._changed.set()
        return is_taken

    async def take(self, urgent_alone: bool) -> tuple[Packet, int]:
        """Waits for the next request that may be sent, and gives it with what `finish` wants to know of it."""
        while True:
            for lane in (self._urgent,) if urgent_alone else (self._urgent, self._others):
                packet = lane.take(self._busy)
                if packet is not None:
                    self._busy.add(subject_of(packet))
                    return packet, lane.failures
            self._changed.clear()
            await self._changed.wait()

    async def finish(self, packet: Packet, failures: int, was_answered: bool) -> None:
        """Takes in what came of a request. Its lane pauses where one fails again and again: 1 s, doubling.

        What failed at once counts as one failure. A repeat of what was answered, which waits, is dropped.
        """
        lane = self._of(packet)
        self._busy.discard(subject_of(packet))
        try:
            if was_answered:
                lane.failures = 0
                lane.drop(packet)
            elif failures == lane.failures:
                lane.failures += 1
                if lane.failures > 1:
                    await self._clock.sleep(min(2.0 ** min(lane.failures - 2, 10), lane.longest_pause))
        finally:
            lane.under_way -= 1
            self._changed.set()
