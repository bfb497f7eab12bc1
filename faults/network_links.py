"""Links between the nodes of a network, which lose, repeat, reorder and delay packets, for faults/network_trial.py."""

import random
from typing import NamedTuple

from network_strangers import read_packet

LOST, REPEATED, OLD = 0.15, 0.15, 0.05


class Sent(NamedTuple):
    """A packet under way: to whom, when it may arrive, and its text."""

    to: str
    due: int
    text: bytes


class Links:
    """What is under way. Time is counted in steps of the trial."""

    def __init__(self, draw: random.Random, invent: float = 0.0) -> None:
        """`invent` is the part of all packets that links change, for trials of the trial."""
        self.draw, self.invent, self.is_bad = draw, invent, True
        self.under_way: list[Sent] = []
        self.old: list[Sent] = []
        self.lost = self.repeated = self.invented = 0

    def send(self, to: str, text: bytes, step: int) -> None:
        """Takes a packet to an honest party."""
        if self.draw.random() < self.invent:
            text = self.changed(text)
        if not self.is_bad:
            self.under_way.append(Sent(to, step, text))
            return
        self.old.append(Sent(to, step, text))
        copies = 0 if self.draw.random() < LOST else 1
        while copies and self.draw.random() < REPEATED:
            copies += 1
        self.lost, self.repeated = self.lost + (copies == 0), self.repeated + max(copies - 1, 0)
        for _ in range(copies):
            delay = self.draw.choice((0, 0, 1, 3, 10, 40)) if self.draw.random() < 0.95 else 300
            self.under_way.append(Sent(to, step + delay, text))

    def changed(self, text: bytes) -> bytes:
        """The packet with other energy, where it has any."""
        other = text.replace(b'"kwh":', b'"kwh":1').replace(b'"total_energy":', b'"total_energy":1')
        self.invented += other != text
        return other if read_packet(other) else text

    def next(self, step: int) -> Sent | None:
        """One that arrives now, if any does: in any order, or one of long ago."""
        if self.is_bad and self.old and self.draw.random() < OLD:
            return self.draw.choice(self.old)
        arriving = [place for place, sent in enumerate(self.under_way) if sent.due <= step or not self.is_bad]
        if not arriving:
            return None
        return self.under_way.pop(self.draw.choice(arriving[-12:] if self.is_bad else arriving[:1]))
