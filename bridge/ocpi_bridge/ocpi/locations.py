"""The locations of an operator, as OCPI has them: read off the setup, with the status of each EVSE."""
from collections.abc import Callable
from typing import cast

from ..clock import Clock, milliseconds_of
from ..parties import codes
from ..records import Connector, Evse, Location, Site
from ..state import State
from .first_seen import FirstSeen, mark_of
from .objects import Objects
from .tariffs import Tariffs

# What `evse_status` tells of an EVSE that may be used all the same, by whoever has a car there.
PLUGGED_IN = "BLOCKED"


class Locations:
    """Makes what is asked for anew each time, and keeps since when each place is as it is."""

    def __init__(self, state: State, clock: Clock, objects: Objects, party: str, site: Site,
                 evse_status: Callable[[str], str | None]) -> None:
        """`evse_status` tells of the uid of an EVSE OUTOFORDER or INOPERATIVE, or BLOCKED where a car is plugged in, or
        None."""
        self._clock, self._objects = clock, objects
        self._party, self._evse_status, self._seen = party, evse_status, FirstSeen(state, clock)
        self.tariffs = Tariffs(self._seen, clock, party)
        self.take(site)

    def take(self, site: Site) -> None:
        """Takes a site in place of that of before."""
        self.tariffs.take(site)
        self._locations = {setup["id"].upper(): self._without_status(setup) for setup in site["locations"]}
        self._evses = {(name, evse["uid"].upper()): evse for name, location in self._locations.items()
                       for evse in location["evses"]}
        places = [(location, evse) for location in self._locations.values() for evse in location["evses"]]
        self._seen.keep_only({
            *self.tariffs.names(), *(location["id"] for location in self._locations.values()),
            *(_name(location, evse) for location, evse in places),
            *(_name(location, evse, connector) for location, evse in places for connector in evse["connectors"])})
        # What says how each location and each EVSE is without statuses and moments of EVSEs.
        self.marks = {name: mark_of(location) for name, location in self._locations.items()}
        self._evse_marks = {key: mark_of(evse) for key, evse in self._evses.items()}

    def _without_status(self, setup: Location) -> Location:
        """A location as it stands in the setup, with what no node reads, and what OCPI wants beside that."""
        country, identifier = codes(self._party)
        kept = {name: value for name, value in setup.items() if name not in ("latitude", "longitude")}
        evses = [evse.copy() for evse in setup["evses"]]
        for evse in evses:
            evse["connectors"] = [self._connector(setup, evse, connector) for connector in evse["connectors"]]
        return cast(Location, {
            "time_zone": "UTC", **kept, "country_code": country, "party_id": identifier, "publish": True,
            "coordinates": {"latitude": setup["latitude"], "longitude": setup["longitude"]}, "evses": evses})

    def _connector(self, location: Location, evse: Evse, setup: Connector) -> Connector:
        """A connector. OCPI wants `max_voltage` and `max_amperage` of it: 0 says that nobody knows them."""
        made = cast(Connector, {"max_voltage": 0, "max_amperage": 0, **setup, "tariff_ids": self.tariffs.named})
        made["last_updated"] = self._seen.moment(_name(location, evse, setup), mark_of(made))
        return made

    def has_evse(self, evse_uid: str) -> bool:
        """Whether the site has an EVSE of a uid."""
        return any(uid == evse_uid.upper() for _, uid in self._evses)

    def all(self) -> list[Location]:
        """All locations, by `last_updated` and then by id."""
        locations = [self._location(location) for location in self._locations.values()]
        return sorted(locations, key=lambda location: (location["last_updated"], location["id"].upper()))

    def find(self, *identifiers: str) -> Location | Evse | Connector | None:
        """A location, or an EVSE of one, or a connector of that, by their ids. No other is made."""
        names = [identifier.upper() for identifier in identifiers]
        location, evse = self._locations.get(names[0]), self._evses.get((names[0], (*names, "")[1]))
        if location is None or len(names) > 1 and evse is None:
            return None
        if len(names) == 1 or evse is None:
            return self._location(location)
        found = self._evse(location, evse)
        if len(names) == 2:
            return found
        return next((connector for connector in found["connectors"] if connector["id"].upper() == names[2]), None)

    def _location(self, location: Location) -> Location:
        """A location with the statuses of its EVSEs. It is another one, too, where EVSEs come and go."""
        since = self._seen.moment(location["id"], self.marks[location["id"].upper()])
        made = location.copy()
        made["evses"] = [self._evse(location, evse) for evse in location["evses"]]
        made["last_updated"] = max([since, *(evse["last_updated"] for evse in made["evses"])])
        return made

    def _evse(self, location: Location, evse: Evse) -> Evse:
        made = evse.copy()
        made["status"] = self._status(evse["uid"])
        mark = self._evse_marks[location["id"].upper(), evse["uid"].upper()]
        made["last_updated"] = self._seen.moment(_name(location, evse), f"{made['status']} {mark}")
        return made

    def _status(self, evse_uid: str) -> str:
        told, session = self._evse_status(evse_uid), self._objects.living_session(evse_uid)
        if told is not None and told != PLUGGED_IN:
            return told
        if session is not None:
            return "CHARGING" if session["status"] == "ACTIVE" else "BLOCKED"
        claim = self._objects.claims.status(evse_uid, milliseconds_of(self._clock.moment()))
        return claim or told or "AVAILABLE"


def _name(location: Location, evse: Evse, connector: Connector | None = None) -> str:
    return f"{location['id']}\n{evse['uid']}" + ("" if connector is None else f"\n{connector['id']}")
