"""The locations and tariffs of operators, as the bridge of a provider holds them: what was pushed, and what was pulled.

No node reads them. Of each the newest version is held, as its `last_updated` tells. So a repeat changes nothing, nor
does what was overtaken.
"""
from collections.abc import Sequence
from itertools import accumulate
from typing import cast

from ..clock import milliseconds_of, seconds_in
from ..json_text import JsonObject, read_json, write_json
from ..parties import party_key, party_of
from ..records import Location, Tariff
from ..state import State
from .envelope import INVALID, Refusal

# Of each kind of object: the texts that are used of it, and the list of objects that stand in it.
TEXTS = {"locations": ("country_code", "party_id", "id", "address", "city"), "evses": ("uid", "status"),
         "connectors": ("id",), "tariffs": ("country_code", "party_id", "id", "currency"), "elements": (),
         "price_components": ("type",)}
PARTS = {"locations": "evses", "evses": "connectors", "tariffs": "elements", "elements": "price_components"}
# What a part of a location is in, and known by.
EVSE, CONNECTOR = ("evses", "uid"), ("connectors", "id")


def check(kind: str, body: object, path: str = "") -> JsonObject:
    """The object of a kind. Raises Refusal where a member that is used is missing or does not fit, and names it."""
    if not isinstance(body, dict):
        raise Refusal(200, INVALID, f"{path or 'body'}: wanted is an object")
    for name in TEXTS[kind]:
        if type(body.get(name)) is not str:
            raise Refusal(200, INVALID, f"{path}{name}: wanted is a text")
    if not path and seconds_in(body.get("last_updated")) is None:
        raise Refusal(200, INVALID, "last_updated: wanted is a moment")
    part = PARTS.get(kind)
    listed = body.get(part) or [] if part is not None else []
    if not isinstance(listed, list):
        raise Refusal(200, INVALID, f"{path}{part}: wanted is a list")
    for number, element in enumerate(listed):
        check(str(part), element, f"{path}{part}[{number}].")
    return body


class Places:
    """Holds them in the state. What is to be held was checked."""

    def __init__(self, state: State) -> None:
        self._state = state

    def find(self, module: str, party: str, identifier: str) -> JsonObject | None:
        """A location or a tariff of a party."""
        for body, in self._state.query("SELECT body FROM place_held WHERE module = ? AND party = ? AND identifier = ?",
                                       module, party_key(party), identifier.upper()):
            return cast(JsonObject, read_json(body))
        return None

    def part(self, party: str, names: Sequence[str]) -> JsonObject | None:
        """A location, or an EVSE of one, or a connector of that, by their ids."""
        location = self.find("locations", party, names[0])
        chain = [] if location is None else _chain(location, names)
        return chain[-1] if len(chain) == len(names) else None

    def take(self, module: str, body: JsonObject) -> None:
        """Holds an object, unless a newer version of it is held."""
        self._state.query(
            """INSERT INTO place_held (module, party, identifier, last_updated, body) VALUES (?, ?, ?, ?, ?)
            ON CONFLICT DO UPDATE SET last_updated = excluded.last_updated, body = excluded.body
            WHERE excluded.last_updated >= last_updated""", module,
            party_key(party_of(body["country_code"], body["party_id"])), str(body["id"]).upper(),
            milliseconds_of(str(body["last_updated"])), write_json(body))

    def change(self, party: str, names: Sequence[str], members: JsonObject, is_whole: bool) -> bool:
        """Puts members into a part of a location, or in its place where they are the whole, unless that is newer.

        False where what is changed is not held. Raises Refusal where it would be no such part any more.
        """
        with self._state.transaction():
            location = self.find("locations", party, names[0])
            chain = [] if location is None else _chain(location, names)
            if is_whole and len(chain) == len(names) - 1:
                listed = (EVSE, CONNECTOR)[len(chain) - 1][0]
                chain.append({})
                chain[-2][listed] = [*_listed(chain[-2], listed), chain[-1]]
            if len(chain) < len(names):
                return False
            changed = {**({} if is_whole else chain[-1]), **members}
            check(("locations", "evses", "connectors")[len(names) - 1], changed)
            if _updated(chain[-1]) <= _updated(members):
                chain[-1].clear()
                chain[-1].update(changed)
                for each in chain[:-1]:
                    each["last_updated"] = max(each, members, key=_updated)["last_updated"]
                self.take("locations", chain[0])
        return True

    def delete(self, party: str, identifier: str) -> None:
        """A tariff that is used no more."""
        self._state.query("DELETE FROM place_held WHERE module = 'tariffs' AND party = ? AND identifier = ?",
                          party_key(party), identifier.upper())

    def locations(self, most: int, most_bytes: int = 2**62) -> list[Location]:
        """The locations of all operators, those that changed last first: so many at most, of so many bytes in all."""
        return cast("list[Location]", self._newest("locations", most, most_bytes))

    def tariffs(self, most: int, most_bytes: int = 2**62) -> list[Tariff]:
        """Their tariffs, likewise."""
        return cast("list[Tariff]", self._newest("tariffs", most, most_bytes))

    def _newest(self, module: str, most: int, most_bytes: int) -> list[JsonObject]:
        where = "FROM place_held WHERE module = ? ORDER BY last_updated DESC, party, identifier LIMIT ?"
        sizes = accumulate(size for size, in self._state.query(f"SELECT length(body) {where}", module, most))
        count = sum(size <= most_bytes for size in sizes)
        return [read_json(body) for body, in self._state.query(f"SELECT body {where}", module, count)]


def _chain(location: JsonObject, names: Sequence[str]) -> list[JsonObject]:
    """A location, and in it the EVSE and the connector of these names, as far as they are there."""
    chain = [location]
    for name, (listed, identifier) in zip(names[1:], (EVSE, CONNECTOR)):
        found = [each for each in _listed(chain[-1], listed) if str(each[identifier]).upper() == name.upper()]
        if not found:
            break
        chain.append(found[0])
    return chain


def _listed(whole: JsonObject, name: str) -> list[JsonObject]:
    return cast("list[JsonObject]", whole.get(name) or [])


def _updated(held: JsonObject) -> float:
    """When something changed last. What does not tell it did so before all else."""
    return seconds_in(held.get("last_updated")) or 0.0
