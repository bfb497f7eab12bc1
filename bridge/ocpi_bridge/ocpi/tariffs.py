"""The tariffs of an operator, as OCPI has them: each price of its site for a kWh, with when it holds."""
from ..clock import Clock, milliseconds_of, moment_of
from ..json_text import Number
from ..parties import codes
from ..records import Body, PriceFrom, Site, Tariff
from .first_seen import FirstSeen, mark_of

# Names of tariffs among all that is first seen: no place has three line ends in its own.
NAME = "\n\n\n{}"


class Tariffs:
    """A price that holds from no moment on is the tariff `ENERGY`, and each later one has its beginning in its id."""

    def __init__(self, seen: FirstSeen, clock: Clock, party: str) -> None:
        self._seen, self._clock, self._party = seen, clock, party
        self._tariffs: list[Tariff] = []
        # The ids of those that had not ended when the site was taken: connectors name these, and these are pushed.
        self.named: list[str] = []

    def take(self, site: Site) -> None:
        """Takes a site in place of that of before."""
        begins = [None, *(moment_of(milliseconds_of(price["start_date_time"]) / 1000) for price in _later(site))]
        prices = [site["price"], *(price["price"] for price in _later(site))]
        self._tariffs = [self._tariff(site["currency"], price, begin, end)
                         for price, begin, end in zip(prices, begins, [*begins[1:], None])]
        now = self._clock.moment()
        self.named = [tariff["id"] for tariff in self._tariffs if now < tariff.get("end_date_time", "9")]

    def _tariff(self, currency: str, price: int | Number, begin: str | None, end: str | None) -> Tariff:
        """A tariff without VAT, of which nobody knows here."""
        country, identifier = codes(self._party)
        tariff: Tariff = {
            "country_code": country, "party_id": identifier, "currency": currency,
            "id": "ENERGY" if begin is None else f"ENERGY-{begin.replace(':', '').replace('-', '')}",
            "elements": [{"price_components": [{"type": "ENERGY", "price": price, "step_size": 1}]}]}
        if begin is not None:
            tariff["start_date_time"] = begin
        if end is not None:
            tariff["end_date_time"] = end
        tariff["last_updated"] = self._seen.moment(NAME.format(tariff["id"]), mark_of(tariff))
        return tariff

    def names(self) -> list[str]:
        return [NAME.format(tariff["id"]) for tariff in self._tariffs]

    def all(self) -> list[Tariff]:
        """All of them, by `last_updated`, and then as they hold one behind the other."""
        return sorted(self._tariffs, key=lambda tariff: tariff["last_updated"])

    def at(self, moment: str, currency: str) -> list[Tariff]:
        """The tariff of a charge that began at a moment. None where the site had another currency then."""
        when = moment_of(milliseconds_of(moment) / 1000)
        held = [tariff for tariff in self._tariffs if tariff.get("start_date_time", "") <= when]
        return [tariff for tariff in held[-1:] if tariff["currency"] == currency]

    def in_bill(self, bill: Body) -> Body:
        """A bill that names the tariff by which it was made. (The node makes none for a start whose price changed.)"""
        tariffs, told = self.at(bill["start_date_time"], bill["currency"]), bill.copy()
        if tariffs:
            told["tariffs"] = tariffs
        return told


def _later(site: Site) -> list[PriceFrom]:
    return site.get("prices") or []
