"""Chance, drawn from a seed: each part of a trial has a stream of its own, so that none changes what another draws."""
from random import Random

# What befalls a message on the links: each of these with this chance.
RATE = 0.3


def stream(seed: int, *names: object) -> Random:
    """The stream of a part, told by its names. The same seed and names give the same stream."""
    return Random("/".join(map(str, (seed, *names))))


def happens(chance: Random, rate: float = RATE) -> bool:
    """Draws whether something happens."""
    return chance.random() < rate
