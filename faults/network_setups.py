"""Setups of the nodes of a network, each its own, and how they change, for faults/network_trial.py."""

import copy
import datetime
import json
import random
from collections.abc import Callable
from dataclasses import dataclass, field
from typing import Any

Json = dict[str, Any]

OPERATORS, PROVIDERS = ("BE/BEC", "FR/FRC", "LU/LUX"), ("NL/TNM", "DE/EMP", "AT/PRV")
HONEST = OPERATORS + PROVIDERS
# They run no node. Operators have them as providers, and providers as operators; the last one stands in no setup.
STRANGERS = ("IT/STR", "ES/SPY", "PL/NOB")
LISTED = STRANGERS[:2]

EVSES, CONNECTORS, LOCATIONS = ("E1", "E2", "E3", "E4", "E5"), ("1", "2", "3"), ("LOC1", "LOC2", "LOC3")
CURRENCIES = ("EUR", "CHF", "GBP")
UNITS = 10_000
# The first moment of a trial, in milliseconds of 1970.
BEGINNING = int(datetime.datetime(2025, 1, 1, 10, tzinfo=datetime.timezone.utc).timestamp()) * 1000


def moment_of(milliseconds: int) -> str:
    """A moment as nodes write it."""
    at = datetime.datetime.fromtimestamp(milliseconds // 1000, datetime.timezone.utc).strftime("%Y-%m-%dT%H:%M:%S")
    return f"{at}.{milliseconds % 1000:03}Z" if milliseconds % 1000 else f"{at}Z"


def milliseconds_of(moment: str) -> int:
    """The other way round."""
    at = datetime.datetime.fromisoformat(moment.removesuffix("Z")).replace(tzinfo=datetime.timezone.utc)
    return round(at.timestamp() * 1000)


def is_operator(party: str) -> bool:
    return party in OPERATORS


def spelled(draw: random.Random, party: str) -> str:
    """A party, or another name that is compared without case, in one of its spellings."""
    return draw.choice((party, party, party.lower(), party.title()))


@dataclass
class Setup:
    """The setup of one node. Parties are in key form, and are written as `spellings` has them."""

    party: str
    site: Json
    # All other parties that stand there, in their order: those with a site are operators.
    others: list[str] = field(default_factory=list)
    spellings: dict[str, str] = field(default_factory=dict)

    def partners(self) -> list[str]:
        """The parties with which the node deals."""
        return [it for it in self.others if not self.has_site(it)] if is_operator(self.party) else [
            it for it in self.others if self.has_site(it)]

    def has_site(self, party: str) -> bool:
        """Whether that other party stands there as an operator."""
        return is_operator(party) or party in STRANGERS and not is_operator(self.party)

    def own_name(self) -> str:
        return self.spellings.get(self.party, self.party)

    def line(self, seen: int, number: int) -> bytes:
        """The setup line of a run behind that line. The node stands at a place of its own among the others."""
        nodes: list[Json] = []
        for party in self.others:
            nodes.append({"party": self.spellings.get(party, party)})
            if self.has_site(party):
                nodes[-1]["site"] = site_of_another(party)
        own: Json = {"party": self.own_name()}
        if is_operator(self.party):
            own["site"] = self.site
        nodes.insert(number % (len(nodes) + 1), own)
        return json.dumps({"nodes": nodes, "line": seen}, separators=(",", ":")).encode() + b"\n"

    def evses(self) -> list[tuple[Json, Json]]:
        """Each EVSE of the site, with its location."""
        return [(place, evse) for place in self.site["locations"] for evse in place["evses"]]

    def price_at(self, moment: str) -> int:
        """The price that holds at a moment, in ten-thousandths."""
        price: float = self.site["price"]
        at = milliseconds_of(moment)
        for entry in self.site["prices"]:
            if milliseconds_of(entry["start_date_time"]) <= at:
                price = entry["price"]
        return round(price * UNITS)


def evse_of(uid: str, connectors: list[str]) -> Json:
    form = {"format": "SOCKET", "power_type": "AC_3_PHASE", "standard": "IEC_62196_T2"}
    return {"uid": uid, "evse_id": f"XX*XXX*{uid}", "connectors": [{"id": it, **form} for it in connectors]}


def location_of(name: str, evses: list[Json]) -> Json:
    return {"id": name, "address": "Korenmarkt 1", "city": "Gent", "country": "BEL", "latitude": "51.05421",
            "longitude": "3.72180", "evses": evses}


def site_of_another(party: str) -> Json:
    """What a setup says of the site of another operator, which nobody asks for."""
    evses = [evse_of("X1", ["9"])]
    return {"currency": "XXX", "price": 0.5, "locations": [location_of(f"AT{party[:2]}", evses)]}


def draw_price(draw: random.Random) -> float:
    return draw.randint(500, 9_999) / UNITS


def draw_site(draw: random.Random) -> Json:
    """A site of two to four EVSEs at one or two locations."""
    uids = list(EVSES[:draw.randint(2, 4)])
    cut = draw.choice((len(uids), len(uids) // 2))
    parts = [part for part in (uids[:cut], uids[cut:]) if part]
    evses = [[evse_of(uid, list(CONNECTORS[:draw.randint(1, 2)])) for uid in part] for part in parts]
    return {"currency": draw.choice(CURRENCIES), "price": draw_price(draw), "prices": [],
            "locations": [location_of(name, part) for name, part in zip(LOCATIONS, evses)]}


def spell_and_order(draw: random.Random, setup: Setup) -> None:
    """Another order, and other spellings, also of its own party, and of what stands at its site."""
    draw.shuffle(setup.others)
    setup.spellings = {party: spelled(draw, party) for party in (setup.party, *setup.others)}
    for place, evse in setup.evses():
        evse["uid"], place["id"] = spelled(draw, evse["uid"].upper()), spelled(draw, place["id"].upper())


def draw_setup(draw: random.Random, party: str) -> Setup:
    """A setup of a party: most of its honest partners, some strangers, and some parties of its own role."""
    partners, peers = (PROVIDERS, OPERATORS) if is_operator(party) else (OPERATORS, PROVIDERS)
    listed = [it for it in partners if draw.random() < 0.9] or [draw.choice(partners)]
    listed += [it for it in LISTED if draw.random() < 0.6]
    listed += [it for it in peers if it != party and draw.random() < 0.3]
    setup = Setup(party, draw_site(draw), listed)
    spell_and_order(draw, setup)
    return setup


# ---- how a setup changes. Each function changes a copy, or returns False where that cannot be.

Change = Callable[[random.Random, Setup, int], bool]


def partner_more(draw: random.Random, setup: Setup, _: int) -> bool:
    partners = PROVIDERS if is_operator(setup.party) else OPERATORS
    candidates = [it for it in partners + LISTED if it not in setup.others]
    if not candidates:
        return False
    setup.others.insert(draw.randint(0, len(setup.others)), draw.choice(candidates))
    return True


def partner_less(draw: random.Random, setup: Setup, _: int) -> bool:
    if not setup.partners():
        return False
    setup.others.remove(draw.choice(setup.partners()))
    return True


def evse_more(draw: random.Random, setup: Setup, _: int) -> bool:
    free = [uid for uid in EVSES if uid not in [evse["uid"].upper() for _, evse in setup.evses()]]
    if not free:
        return False
    draw.choice(setup.site["locations"])["evses"].append(evse_of(draw.choice(free), ["1"]))
    return True


def evse_less(draw: random.Random, setup: Setup, _: int) -> bool:
    place, evse = draw.choice(setup.evses())
    if len(setup.evses()) == 1:
        return False
    place["evses"].remove(evse)
    setup.site["locations"] = [it for it in setup.site["locations"] if it["evses"]]
    return True


def other_connector(draw: random.Random, setup: Setup, _: int) -> bool:
    evse = draw.choice(setup.evses())[1]
    names = [it["id"] for it in evse["connectors"]]
    draw.choice(evse["connectors"])["id"] = draw.choice([it for it in CONNECTORS if it not in names])
    return True


def other_location(draw: random.Random, setup: Setup, _: int) -> bool:
    names = [it["id"].upper() for it in setup.site["locations"]]
    draw.choice(setup.site["locations"])["id"] = draw.choice([it for it in LOCATIONS if it not in names])
    return True


def price_to_come(draw: random.Random, setup: Setup, now: int) -> bool:
    entries = setup.site["prices"]
    last = milliseconds_of(entries[-1]["start_date_time"]) if entries else 0
    at = max(last, now) + draw.randint(20, 90) * 1000
    entries.append({"start_date_time": moment_of(at), "price": draw_price(draw)})
    return True


def price_less(draw: random.Random, setup: Setup, _: int) -> bool:
    """An entry of `prices` goes, by which bills may have been made."""
    if not setup.site["prices"]:
        return False
    setup.site["prices"].remove(draw.choice(setup.site["prices"]))
    return True


def other_price(draw: random.Random, setup: Setup, _: int) -> bool:
    """A price is another that may have made bills."""
    draw.choice([setup.site, *setup.site["prices"]])["price"] = draw_price(draw)
    return True


def other_currency(draw: random.Random, setup: Setup, _: int) -> bool:
    setup.site["currency"] = draw.choice([it for it in CURRENCIES if it != setup.site["currency"]])
    return True


def other_names(draw: random.Random, setup: Setup, _: int) -> bool:
    spell_and_order(draw, setup)
    return True


OF_BOTH: list[tuple[str, Change, int]] = [
    ("a partner more", partner_more, 4), ("a partner less", partner_less, 3),
    ("another order and spelling", other_names, 3)]
OF_OPERATORS: list[tuple[str, Change, int]] = [
    ("an EVSE more", evse_more, 3), ("an EVSE less", evse_less, 4), ("another connector", other_connector, 2),
    ("another location", other_location, 2), ("a price to come", price_to_come, 5), ("another price", other_price, 2),
    ("a price less", price_less, 1), ("another currency", other_currency, 3)]


def changed(draw: random.Random, setup: Setup, now: int, is_resting: bool) -> tuple[str, Setup]:
    """A setup that differs from that one, and how. Where no session lives the currency changes more often."""
    changes = OF_BOTH + (OF_OPERATORS if is_operator(setup.party) else [])
    weights = [weight * (4 if is_resting and name == "another currency" else 1) for name, _, weight in changes]
    while True:
        other = copy.deepcopy(setup)
        name, change, _ = draw.choices(changes, weights)[0]
        if change(draw, other, now):
            return name, other
