"""What a provider's page offers: connectors of operators, each with the status of its EVSE, its power and its price."""
from collections.abc import Callable, Iterator
from decimal import Decimal

from ..clock import Clock, seconds_in
from ..json_text import JsonObject, Number
from ..ocpi.places import Places
from ..parties import party_key, party_of
from ..records import Connector, Location, Tariff

# How many locations and how many tariffs are looked at, those that changed last, and of how many bytes: no operator
# keeps the bridge busy by these. How many connectors are shown at most.
MOST_HELD, MOST_BYTES, MOST_SHOWN = 500, 4_000_000, 500
PHASES = {"AC_3_PHASE": 3, "AC_2_PHASE": 2, "AC_2_PHASE_SPLIT": 2}


class Offers:
    """`is_partner` says of which operators they are: what others told before stays held."""

    def __init__(self, places: Places, clock: Clock, is_partner: Callable[[str], bool]) -> None:
        self._places, self._clock, self._is_partner = places, clock, is_partner

    def all(self) -> list[JsonObject]:
        """The offers, those that are free first."""
        now = self._clock.seconds()
        prices = {_key(tariff, tariff["id"]): tariff for tariff in self._places.tariffs(MOST_HELD, MOST_BYTES)
                  if _holds(tariff, now)}
        found = [offer for location in self._places.locations(MOST_HELD, MOST_BYTES)
                 if self._is_partner(party_of(location["country_code"], location["party_id"]))
                 for offer in _offers(location, prices)]
        return sorted(found, key=lambda offer: (offer["status"] != "AVAILABLE", *(
            str(offer[name]) for name in ("operator", "location_id", "evse_uid", "connector_id"))))[:MOST_SHOWN]


def _offers(location: Location, tariffs: dict[tuple[str, str], Tariff]) -> Iterator[JsonObject]:
    """The connectors of a location that is shown, but those that are no more."""
    for evse in location.get("evses") or [] if location.get("publish") is not False else []:
        for connector in evse.get("connectors") or [] if evse["status"] != "REMOVED" else []:
            named = [tariffs[key] for identifier in connector.get("tariff_ids") or []
                     if (key := _key(location, identifier)) in tariffs]
            yield {"operator": party_of(location["country_code"], location["party_id"]), "location_id": location["id"],
                   "location": f"{location['address']}, {location['city']}", "evse_uid": evse["uid"],
                   "status": evse["status"], "connector_id": connector["id"],
                   "standard": connector.get("standard"), "kw": _power(connector), **_price(named)}


def _key(of: Location | Tariff, tariff_id: str) -> tuple[str, str]:
    """What a tariff is known by, among those of the same operator."""
    return party_key(party_of(of["country_code"], of["party_id"])), str(tariff_id).upper()


def _holds(tariff: Tariff, now: float) -> bool:
    """Whether a tariff holds at a moment."""
    begins, ends = seconds_in(tariff.get("start_date_time")), seconds_in(tariff.get("end_date_time"))
    return (begins is None or begins <= now) and (ends is None or now < ends)


def _price(tariffs: list[Tariff]) -> JsonObject:
    """The price of a kWh, where it is known, and whether the tariffs have anything beside it."""
    parts = [(tariff["currency"], part) for tariff in tariffs for element in tariff.get("elements") or []
             for part in element.get("price_components") or []]
    energy = [(part.get("price"), currency) for currency, part in parts if part["type"] == "ENERGY"]
    price, currency = energy[0] if energy else (None, None)
    return {"price": price, "currency": currency, "has_more": len(parts) > len(energy[:1])}


def _power(connector: Connector) -> Number | None:
    """The most that a connector gives, in kW, as far as it is told. Its voltage is that between a line and neutral."""
    volts, amperes, watts = (Decimal(value if isinstance(value, (int, Number)) else 0) for value in (
        connector.get("max_voltage"), connector.get("max_amperage"), connector.get("max_electric_power")))
    most = watts or volts * amperes * PHASES.get(connector.get("power_type", ""), 1)
    return Number(f"{(most / 1000).normalize():f}") if most > 0 else None
