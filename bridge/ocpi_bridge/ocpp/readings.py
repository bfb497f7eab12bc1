"""Readings of transactions: what register a charge point tells, whether that can be true, and which was taken last."""
import logging
from collections.abc import Callable
from contextlib import suppress
from dataclasses import dataclass
from decimal import Decimal, InvalidOperation

from ..clock import milliseconds_of, moment_of
from ..configuration import ConnectorSettings
from ..json_text import Members
from ..records import Session
from ..state import State
from .messages import MeterReading
from .site import EventRefused, Site
from .transactions import Transaction

LOG = logging.getLogger("ocpp")
# What the members of a sampled value say where it is the register. None: they are left out.
REGISTER: dict[str, tuple[str | None, ...]] = {
    "measurand": (None, "Energy.Active.Import.Register"), "phase": (None,), "format": (None, "Raw"),
    "location": (None, "Outlet")}
# The decimal places of a unit in Wh.
UNITS = {None: 0, "Wh": 0, "kWh": 3}
MOST_MULTIPLIER = 18
# The Wh by which a reading may always rise, and how many of those that were dropped are kept.
ALWAYS_MAY_RISE = 1000
MOST_DROPPED = 1000
MILLISECONDS_OF_HOUR = 3_600_000


@dataclass(frozen=True)
class Reading:
    """A register in Wh, at a moment in milliseconds since 1970."""

    at: int
    register: Decimal


class Readings:
    """Feeds them. One that rises faster than its connector can give is dropped: it is counted and kept for the page."""

    def __init__(self, site: Site, state: State, count: Callable[[str], None]) -> None:
        self._site, self._state, self._count = site, state, count

    async def take(self, transaction: Transaction, timestamp: object, register: Decimal | None) -> Reading | None:
        """Feeds a reading of a transaction, where its session is living and the reading can be true.

        Gives the highest that was taken by then, or None where no session is living. Without a register that could be
        read it is dropped.
        """
        session = self._site.living(transaction.session_id)
        if session is None:
            return None
        place, evse_uid = self._site.place(session["evse_uid"]), session["evse_uid"]
        connector = ConnectorSettings(evse_uid, "") if place is None else place.settings
        last = self.last(transaction, session)
        at = round(self._site.seconds_at(timestamp, session) * 1000)
        if register is None or register > last.register + _most_risen(connector, at - last.at):
            self._drop(transaction, connector, at, register, last)
            return last
        try:
            await self._site.report("meter", at / 1000, evse_uid=evse_uid, kwh=transaction.energy(register))
        except EventRefused:
            self._drop(transaction, connector, at, register, last)
            return last
        if register < last.register:
            return last
        self._state.query("INSERT OR REPLACE INTO ocpp_reading (number, at, register) VALUES (?, ?, ?)",
                          transaction.number, at, str(register))
        return Reading(at, register)

    def last(self, transaction: Transaction, session: Session) -> Reading:
        """The highest reading of a transaction that was taken: at first that of its start."""
        for at, register in self._state.query("SELECT at, register FROM ocpp_reading WHERE number = ?",
                                              transaction.number):
            return Reading(at, Decimal(register))
        return Reading(milliseconds_of(session["start_date_time"]), transaction.meter_start)

    def _drop(self, transaction: Transaction, connector: ConnectorSettings, at: int, register: Decimal | None,
              last: Reading) -> None:
        told = "a reading that cannot be read" if register is None else (
            f"a reading of {transaction.energy(register)} kWh, which cannot be true behind one of "
            f"{transaction.energy(last.register)} kWh at {connector.max_kw:g} kW")
        LOG.warning("%s: %s: not taken: %s", transaction.charge_point, connector.evse_uid, told)
        self._count("ocpi_readings_dropped_total")
        with self._state.transaction():
            self._state.query("INSERT INTO ocpp_dropped_reading (at, evse_uid, text) VALUES (?, ?, ?)",
                              moment_of(at / 1000), connector.evse_uid, told)
            self._state.query("DELETE FROM ocpp_dropped_reading WHERE rowid <= last_insert_rowid() - ?", MOST_DROPPED)

    def dropped(self, most: int) -> list[Members]:
        """The newest readings that were dropped: `at`, `evse_uid` and words, the newest first."""
        return [{"at": at, "evse_uid": evse_uid, "text": text} for at, evse_uid, text in self._state.query(
            "SELECT at, evse_uid, text FROM ocpp_dropped_reading ORDER BY rowid DESC LIMIT ?", most)]


def _most_risen(connector: ConnectorSettings, milliseconds: int) -> Decimal:
    """The Wh by which the register of a connector may rise in a time."""
    return ALWAYS_MAY_RISE + connector.max_kw * 1000 * max(0, milliseconds) / MILLISECONDS_OF_HOUR


def meter_readings(meter_values: object, timestamp: object, context: str | None = None) -> tuple[MeterReading, ...]:
    """The registers among meter values, those of a context where one is named. One without a moment has that of its
    message."""
    found = []
    for meter_value in meter_values if isinstance(meter_values, list) else []:
        register = _register_of(meter_value, context)
        if register is not None:
            found.append(MeterReading(meter_value.get("timestamp") or timestamp, register))
    return tuple(found)


def _register_of(meter_value: object, context: str | None) -> Decimal | None:
    """The register in Wh among the sampled values of one moment, and None where none is there that can be read."""
    samples = meter_value.get("sampledValue") if isinstance(meter_value, dict) else None
    for sample in samples if isinstance(samples, list) else []:
        if (isinstance(sample, dict) and all(sample.get(name) in words for name, words in REGISTER.items())
                and context in (None, sample.get("context"))):
            value, places = number_in(sample.get("value")), _places_of(sample)
            if value is not None and places is not None:
                return number_in(value.scaleb(places))
    return None


def _places_of(sample: Members) -> int | None:
    """By how many decimal places a value is behind that in Wh. None where it cannot be told.

    The unit stands in the sample in 1.6, and in 2.0.1 beside a multiplier in a member of it.
    """
    measure = sample.get("unitOfMeasure")
    members = measure if isinstance(measure, dict) else sample
    unit, multiplier = members.get("unit"), members.get("multiplier", 0)
    if not (unit is None or isinstance(unit, str)) or unit not in UNITS:
        return None
    return UNITS[unit] + multiplier if type(multiplier) is int and abs(multiplier) <= MOST_MULTIPLIER else None


def number_in(value: object) -> Decimal | None:
    """The number that a text or a JSON number is, of at most 18 digits before the point. None where it is none."""
    with suppress(InvalidOperation):
        number = Decimal(str(value).strip())
        if number.is_finite() and -10**18 < number < 10**18:
            return +number
    return None
