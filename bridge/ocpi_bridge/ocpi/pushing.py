"""Pushes an operator's tariffs and locations to each provider that takes them.

What a provider was told is kept, once it said so. Whatever else holds by now is sent next, one request behind another.
So a push that was lost is made again, as what holds by then, and a push that comes twice says the same twice.
"""
import asyncio
import logging
import time
from collections.abc import Callable, Mapping
from contextlib import suppress
from dataclasses import dataclass
from urllib.parse import quote

from ..json_text import JsonObject
from ..parties import codes, party_key
from ..records import Evse, Location, Tariff
from ..room import NoRoom
from ..state import State
from ..tasks import Tasks
from .client import TRANSIENT, Client
from .envelope import SERVER_ERROR, SUCCESS, routing_headers
from .exchange import NoResponse, NotSent
from .first_seen import mark_of
from .locations import Locations
from .partners import Endpoints, Partner

# In seconds of real time: between two looks whether something changed, and after which one is taken in any case. The
# share of the time that looks may take.
LOOK_EACH, LOOK_AGAIN, MOST_OF_TIME = 0.25, 10.0, 0.05
# In seconds: the longest pause behind pushes that fail, and until a partner without these modules is asked anew.
LONGEST_PAUSE, LOOK_UP_EACH = 60.0, 3600.0
# The seconds behind a start in which no partner is told that a charge point is away.
CONNECTED_WITHIN = 60.0
MODULES = ("tariffs", "locations")
# The name under which it is kept at which address, and by which tokens, a partner was told all else.
CONTACT = ""

log = logging.getLogger(__name__)


@dataclass(frozen=True)
class Push:
    """A request to a module, and what its partner is told by that: of each name what holds, or None where nothing does.

    Where a part `of` something is refused, that is sent as a whole.
    """

    module: str
    method: str
    path: str
    body: object
    tells: Mapping[str, str | None]
    of: str | None = None


class Pushing:
    """`connected` tells how many charge points have a connection."""

    def __init__(self, client: Client, locations: Locations, state: State, connected: Callable[[], int]) -> None:
        self._client, self._locations, self._state, self._connected = client, locations, state, connected
        self._party, self._clock = client.events.node, client.events.clock
        self._tasks = Tasks()
        # What holds, by its names, and how often that has changed.
        self._tariffs: list[Tariff] = []
        self._places: list[Location] = []
        self._holds: dict[str, str] = {}
        self._version = 0
        # What each partner was told, and the version of which it was told all. When those were asked that take nothing.
        self._told: dict[str, dict[str, str]] = {}
        self._settled: dict[str, int] = {}
        self._asked: dict[str, float] = {}
        self._seen: object = None
        self._began = self._clock.passed()

    def tell_again(self) -> None:
        """Has all of it sent to each partner once more, as after the setup was read again."""
        self._told = {party_key(partner.party): {} for partner in self._client.partners.all()}
        self._settled, self._asked, self._seen = {}, {}, None

    async def run(self) -> None:
        """Pushes until it is cancelled."""
        looked_at_all, pause = float("-inf"), LOOK_EACH
        try:
            while True:
                began, seen = time.monotonic(), (self._state.changes, self._connected())
                is_due = began >= looked_at_all + LOOK_AGAIN
                if is_due or seen != self._seen:
                    with suppress(NoRoom):
                        self._look(is_due)
                    # Whoever keeps something meanwhile is seen at the next look.
                    self._seen, looked_at_all = seen, began if is_due else looked_at_all
                    pause = max(LOOK_EACH, (time.monotonic() - began) / MOST_OF_TIME)
                await asyncio.sleep(pause)
        finally:
            self._tasks.cancel()

    def _look(self, at_all: bool) -> None:
        """Looks what holds by now, and begins to push to each partner that was not told it, or at all of them."""
        offered, named = self._locations.tariffs.all(), self._locations.tariffs.named
        self._tariffs, self._places = [tariff for tariff in offered if tariff["id"] in named], self._locations.all()
        holds = {_name(tariff): mark_of(tariff) for tariff in offered}
        for location in self._places:
            holds.update(self._tells(location))
        if holds != self._holds:
            self._holds, self._version = holds, self._version + 1
        for partner in self._client.partners.all():
            if at_all or self._settled.get(party_key(partner.party)) != self._version:
                self._tasks.begin(self._push_all, party_key(partner.party))

    def _tells(self, location: Location) -> dict[str, str]:
        """What a location tells as a whole."""
        return {_place(location): self._locations.marks[location["id"].upper()],
                **{_place(location, evse): evse["status"] for evse in location["evses"]}}

    async def _push_all(self, party: str) -> None:
        """Tells a partner all that holds, one thing after another. What fails is tried again: in 1 s, doubling."""
        failures = 0
        while self._client.partners.has(party):
            partner, version, is_settled = self._client.partners.of(party), self._version, False
            if not partner.is_registered:
                # It is asked when it registers.
                self._asked[party] = self._clock.passed()
            if not partner.is_registered or not await self._client.exchange.may_ask(partner):
                return
            try:
                endpoints = await self._endpoints(partner)
                told = self._told_of(partner, endpoints)
                push = self._next(told, [module for module in MODULES if (module, "RECEIVER") in endpoints])
                if push is None:
                    self._settled[party] = version
                    return
                is_settled = await self._send(partner, endpoints[push.module, "RECEIVER"], push, told)
            except NoRoom:
                return
            except NoResponse as fault:
                log.warning("locations and tariffs to %s: %s", partner.party, fault)
                if isinstance(fault, NotSent):
                    with suppress(NoRoom):
                        self._client.partners.set_endpoints(partner.party, partner.versions_url, {})
            failures = 0 if is_settled else failures + 1
            if failures:
                await self._clock.sleep(min(2.0 ** min(failures - 1, 10), LONGEST_PAUSE))

    async def _endpoints(self, partner: Partner) -> Endpoints:
        """Where a partner's modules stand. One that takes nothing so far is asked anew now and then. Raises
        NoResponse."""
        listed, now = partner.endpoints, self._clock.passed()
        takes = any((module, "RECEIVER") in listed for module in MODULES)
        key = party_key(partner.party)
        if listed and (takes or now < self._asked.get(key, float("-inf")) + LOOK_UP_EACH):
            return listed
        listed = await self._client.look_up(partner)
        self._asked[key] = now
        return listed

    def _told_of(self, partner: Partner, endpoints: Endpoints) -> dict[str, str]:
        """What a partner was told so far: nothing at a new address, behind a new registration, or behind a restore."""
        key = party_key(partner.party)
        if key not in self._told:
            self._told[key] = dict(self._state.query("SELECT name, text FROM place_told WHERE party = ?", key))
        contact = mark_of([partner.their_token, self._state.value("restored"),
                           *(endpoints.get((module, "RECEIVER")) for module in MODULES)])
        if self._told[key].get(CONTACT) != contact:
            self._state.query("DELETE FROM place_told WHERE party = ?", key)
            self._told[key] = {}
            self._keep(key, self._told[key], {CONTACT: contact})
        return self._told[key]

    def _keep(self, key: str, told: dict[str, str], tells: Mapping[str, str | None]) -> None:
        """Keeps what a partner was told, unless all of it is to be told again since."""
        if self._told.get(key) is not told:
            return
        with suppress(NoRoom), self._state.transaction():
            for name, text in tells.items():
                told.pop(name, None)
                self._state.query("DELETE FROM place_told WHERE party = ? AND name = ?", key, name)
                if text is not None:
                    told[name] = text
                    self._state.query("INSERT INTO place_told (party, name, text) VALUES (?, ?, ?)", key, name, text)

    def _next(self, told: Mapping[str, str], modules: list[str]) -> Push | None:
        """What a partner is to be told next: what is no more, then tariffs, then the locations that name them."""
        for name in told:
            if name not in self._holds and _module(name) in modules:
                return self._end(name)
        for tariff in self._tariffs if "tariffs" in modules else ():
            name = _name(tariff)
            if told.get(name) != self._holds[name]:
                return Push("tariffs", "PUT", self._path(tariff["id"]), tariff, {name: self._holds[name]})
        for location in self._places if "locations" in modules else ():
            name = _place(location)
            if told.get(name) != self._holds[name]:
                return Push("locations", "PUT", self._path(location["id"]), location, self._tells(location))
            for evse in location["evses"]:
                if told.get(_place(location, evse)) != evse["status"] and not self._may_come_back(evse):
                    return Push("locations", "PATCH", self._path(location["id"], evse["uid"]),
                                {"status": evse["status"], "last_updated": evse["last_updated"]},
                                {_place(location, evse): evse["status"]}, name)
        return None

    def _may_come_back(self, evse: Evse) -> bool:
        """Whether an EVSE is out of order since its charge point did not connect again behind a start so far."""
        return evse["status"] == "OUTOFORDER" and self._clock.passed() < self._began + CONNECTED_WITHIN

    def _end(self, name: str) -> Push:
        """Tells that something is no more, as OCPI has it: a tariff is deleted, and a place is shown to nobody."""
        ids = name.partition(" ")[2].split("\n")
        if _module(name) == "tariffs":
            return Push("tariffs", "DELETE", self._path(*ids), None, {name: None})
        # It is not later than what holds of its location.
        updated = next((place["last_updated"] for place in self._places if place["id"] == ids[0]), self._clock.moment())
        changes: JsonObject = {"status": "REMOVED", "last_updated": updated}
        if len(ids) == 1:
            changes = {"publish": False, "last_updated": updated}
        return Push("locations", "PATCH", self._path(*ids), changes, {name: None})

    def _path(self, *ids: str) -> str:
        return "".join(f"/{quote(text, safe='')}" for text in (*codes(self._party), *ids))

    async def _send(self, partner: Partner, address: str, push: Push, told: dict[str, str]) -> bool:
        """Sends a request. Whether it need not be sent again: since it was taken, or refused for good. Raises
        NoResponse."""
        response = await self._client.exchange.ask(partner, push.method, address.rstrip("/") + push.path, push.body,
                                                   routing_headers(self._party, partner.party))
        code, tells = response.body.get("status_code"), push.tells
        is_taken = response.status < 300 and code == SUCCESS
        if not is_taken:
            log.warning("%s %s to %s: HTTP %d, status_code %s", push.method, push.path, partner.party, response.status,
                        code)
        if response.status >= 500 or response.status in TRANSIENT or response.status < 300 and not (
                isinstance(code, int) and code < SERVER_ERROR):
            return False
        if not is_taken and push.of is not None:
            tells = {push.of: None}
        self._keep(party_key(partner.party), told, tells)
        return True


def _name(tariff: Tariff) -> str:
    return f"tariff {tariff['id']}"


def _place(location: Location, evse: Evse | None = None) -> str:
    return f"location {location['id']}" + ("" if evse is None else f"\n{evse['uid']}")


def _module(name: str) -> str:
    return f"{name.partition(' ')[0]}s"
