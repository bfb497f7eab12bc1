"""The thirty charges of a trial, drawn from its seed: who charges where, how it begins, and how it ends."""
from dataclasses import dataclass
from random import Random

from .parties import PLACES, PROVIDERS, Place

CHARGES = 30
RESERVED = 5
STOPPED_BY_THE_PROVIDER = 3
# The whitelists of the tokens that are swiped. The last two have the operator ask the provider.
SWIPED = ("ALWAYS", "ALLOWED", "ALWAYS", "NEVER", "ALLOWED_OFFLINE")


@dataclass(frozen=True)
class Charge:
    """One charge. Its token is used at its place alone, and by no other charge where it is swiped.

    `begins` is `ordered`, `reserved` (and then ordered), or `swiped`. `ends` is the reason that the charge point gives
    in the end: `Local`, `Remote` (the provider stops it) or `UnlockCommand`.
    """

    number: int
    place: Place
    provider: str
    begins: str
    whitelist: str
    ends: str
    is_credited: bool

    @property
    def token_uid(self) -> str:
        """At most 20 characters, as `idTag` has."""
        tail = f"SWIPED-{self.number:02}" if self.begins == "swiped" else self.place.charge_point
        return f"{self.provider[3:]}-{tail}"


def drawn(chance: Random) -> list[Charge]:
    """The charges, in the order in which they are asked for at each place.

    The one that is unlocked is the last at its place: an order to unlock that comes late ends whatever charges there.
    """
    begins = ["reserved"] * RESERVED + ["swiped"] * len(SWIPED)
    begins += ["ordered"] * (CHARGES - len(begins))
    ends = ["Local"] * (RESERVED + len(SWIPED)) + ["Remote"] * STOPPED_BY_THE_PROVIDER + ["UnlockCommand"]
    ends += ["Local"] * (CHARGES - len(ends))
    whitelists = ["ALWAYS"] * RESERVED + list(SWIPED)
    whitelists += ["ALWAYS"] * (CHARGES - len(whitelists))
    credited = chance.randrange(CHARGES)
    kinds = list(zip(begins, whitelists, ends))
    order = chance.sample(range(CHARGES), CHARGES)
    charges = [Charge(number, PLACES[number % len(PLACES)], chance.choice(PROVIDERS), *kinds[kind], kind == credited)
               for number, kind in enumerate(order)]
    return sorted(charges, key=lambda charge: charge.ends == "UnlockCommand")
