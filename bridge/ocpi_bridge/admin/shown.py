"""What the page shows, and /events tells: all of it in one object."""
from ..clock import Clock
from ..configuration import Configuration
from ..json_text import JsonObject
from ..ocpi.client import Client
from ..ocpi.locations import Locations
from ..ocpi.objects import Objects
from ..ocpi.places import Places
from ..ocpp.central_system import CentralSystem
from .offers import Offers
from .outstanding import Outstanding

# How many of each list are shown at most: the newest.
MOST_SHOWN, MOST_TOKENS = 50, 500


class Shown:
    """`locations` are an operator's."""

    def __init__(self, configuration: Configuration, clock: Clock, objects: Objects, outstanding: Outstanding,
                 client: Client, locations: Locations | None, places: Places, central_system: CentralSystem) -> None:
        self._configuration, self._objects, self._outstanding = configuration, objects, outstanding
        self._offers = Offers(places, clock, client.partners.has)
        self._client, self._locations, self._central_system = client, locations, central_system

    def all(self) -> JsonObject:
        """Party, role, sessions, bills, partners; then an operator's EVSEs, charge points, warnings and open commands,
        or a provider's operators, offers, tokens, commands and debts."""
        configuration, objects = self._configuration, self._objects
        shown: JsonObject = {"party": configuration.node.party, "is_operator": configuration.is_operator,
                          **{module: objects.newest(module, MOST_SHOWN) for module in ("sessions", "cdrs")},
                          "partners": self._client.told()}
        if self._locations is not None:
            return {**shown, "evses": self._evses(self._locations),
                    "charge_points": self._central_system.charge_points(),
                    "warnings": self._central_system.warnings(MOST_SHOWN),
                    "commands": self._central_system.commands()[:MOST_SHOWN]}
        return {**shown, "operators": [node for node in configuration.setup["nodes"] if node.get("site")],
                "offers": self._offers.all(), "tokens": objects.newest("tokens", MOST_TOKENS),
                "commands": self._outstanding.commands(MOST_SHOWN), "owed": self._outstanding.owed()}

    def _evses(self, locations: Locations) -> list[JsonObject]:
        """The EVSEs with the sessions that stand there."""
        return [{"uid": evse["uid"], "location": f"{location['address']}, {location['city']}", "status": evse["status"],
                 "session": self._objects.living_session(evse["uid"])}
                for location in locations.all() for evse in location["evses"]]
