"""The parties of a trial: two operators with three charge points each, and two providers, with what each is told."""
from base64 import b64encode
from dataclasses import dataclass
from pathlib import Path
from random import Random

from ..running import Members, RunningBridge, charge_point, operator, partner, provider

PRICES = {"BE/BEC": 0.25, "DE/ABC": 0.4321}
OPERATORS = tuple(PRICES)
PROVIDERS = ("NL/TNM", "FR/ZZZ")
PARTIES = OPERATORS + PROVIDERS
LOCATION = "LOC1"
CONNECTOR = "1"
CLOCK_FACTOR = 12.0


@dataclass(frozen=True)
class Place:
    """An EVSE with one connector, at a charge point of its own."""

    operator: str
    charge_point: str
    evse_uid: str
    version: str


def places_of(party: str) -> list[Place]:
    """Three places of an operator. Their names tell the operator, so that no two of a trial are the same. Each other
    one speaks OCPP 2.0.1."""
    first = OPERATORS.index(party)
    return [Place(party, f"{party[3:]}-CP{number}", f"{party[3:]}-E{number}",
                  ("1.6", "2.0.1")[(first + number) % 2]) for number in (1, 2, 3)]


def partners_of(party: str) -> tuple[str, ...]:
    """Whom a party deals with."""
    return PROVIDERS if party in OPERATORS else OPERATORS


PLACES = tuple(place for party in OPERATORS for place in places_of(party))


@dataclass(frozen=True)
class Secrets:
    """Credentials tokens by (who presents it, to whom), and passwords by charge point."""

    tokens: dict[tuple[str, str], str]
    passwords: dict[str, str]

    @staticmethod
    def drawn(chance: Random) -> "Secrets":
        """Secrets, so long that none stands in a log by chance."""
        tokens = {(one, other): f"{chance.getrandbits(160):040x}" for one in PARTIES for other in partners_of(one)}
        return Secrets(tokens, {place.charge_point: f"{chance.getrandbits(80):020x}" for place in PLACES})

    def spellings(self) -> list[str]:
        """Each secret as it may stand in a text: itself, and in Base64 as it goes over HTTP."""
        plain = [*self.tokens.values(), *self.passwords.values()]
        basic = [f"{identifier}:{password}" for identifier, password in self.passwords.items()]
        return plain + [b64encode(text.encode()).decode() for text in plain + basic]


def setup() -> list[Members]:
    """The nodes of the setup that all four have."""
    operators = [operator(party, [place.evse_uid for place in places_of(party)], price)
                 for party, price in PRICES.items()]
    return operators + [provider(party) for party in PROVIDERS]


def bridges(folder: Path, urls: dict[str, str], secrets: Secrets) -> dict[str, RunningBridge]:
    """A bridge for each party, not started. `urls` has the address at which partners reach each."""
    return {party: _bridge(folder, party, urls, secrets) for party in PARTIES}


def _bridge(folder: Path, party: str, urls: dict[str, str], secrets: Secrets) -> RunningBridge:
    partners = [partner(other, "node", secrets.tokens[other, party], secrets.tokens[party, other],
                        urls[other] + "/ocpi/versions") for other in partners_of(party)]
    charge_points = [charge_point(place.charge_point, [place.evse_uid], secrets.passwords[place.charge_point],
                                  max_kw=10_000_000) for place in places_of(party)] if party in OPERATORS else None
    return RunningBridge(folder / party.replace("/", "_"), setup(), party, partners, charge_points, CLOCK_FACTOR,
                         urls[party])
