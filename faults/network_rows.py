"""The rows of a node's store, read by stock SQLite, and which of them a setup refuses, for faults/network_trial.py."""

import contextlib
import json
import os
import shutil
import sqlite3
import tempfile
from collections.abc import Iterator
from decimal import Decimal
from typing import NamedTuple

from network_setups import UNITS, Json, Setup, is_operator

# Why a setup refuses a row, by docs/NODE.md.
SETUP_OF_STORE = "give the setup of the store"
NO_PARTY = f"it is of or to a party that the setup has not: {SETUP_OF_STORE}"
NO_EVSE = f"the setup's site has no such EVSE: {SETUP_OF_STORE}"
NO_CONNECTOR = f"the setup's site has the EVSE, and no such connector of it: {SETUP_OF_STORE}"
OTHER_LOCATION = f"the setup's site has the EVSE, at another location than it names: {SETUP_OF_STORE}"
OTHER_CURRENCY = (
    "the session has not ended, and is in another currency than the setup's: give the currency of the store until all its "
    "sessions have ended"
)
# Where files lie that nobody needs for long.
QUICK = "/dev/shm" if os.path.isdir("/dev/shm") else None
LIVES = ("PENDING", "ACTIVE")


class Row(NamedTuple):
    """A row: its kind, its key and its text."""

    kind: str
    key: str
    body: Json

    def party(self) -> str:
        """The party with which its key begins."""
        return self.key[:6]

    def name(self) -> str:
        return f"{self.kind} {self.key}"


class Rows:
    """All rows of a store, but for the number of the last line, which is apart."""

    def __init__(self, rows: list[Row]) -> None:
        self.all = [row for row in rows if row[:2] != ("count", "line")]
        self.line = next((int(row.body["last"]) for row in rows if row[:2] == ("count", "line")), 1)
        self._of: dict[str, dict[str, Json]] = {}
        for row in self.all:
            self._of.setdefault(row.kind, {})[row.key] = row.body

    def of(self, kind: str) -> dict[str, Json]:
        """The rows of a kind, by their keys."""
        return self._of.get(kind, {})

    def living(self) -> list[Json]:
        return [body for body in self.of("session").values() if body["status"] in LIVES]


def read_json(text: str) -> Json:
    """An object whose numbers are kept as they stand."""
    value: Json = json.loads(text, parse_float=Decimal)
    return value


def rows_of(store: str) -> tuple[Rows, list[str]]:
    """The rows of a store that no program has open, read from a copy; and what is wrong with the file."""
    with tempfile.TemporaryDirectory(dir=QUICK) as room:
        for end in ("", "-wal"):
            if os.path.exists(store + end):
                shutil.copy(store + end, os.path.join(room, f"store.db{end}"))
        with contextlib.closing(sqlite3.connect(os.path.join(room, "store.db"))) as file:
            if not file.execute("SELECT 1 FROM sqlite_schema WHERE name = 'row_text'").fetchall():
                return Rows([]), []
            said = file.execute("PRAGMA integrity_check").fetchall()
            found = file.execute("SELECT kind, name, body FROM row_text ORDER BY kind, name").fetchall()
    rows = Rows([Row(kind, key, read_json(text)) for kind, key, text in found])
    return rows, [] if said == [("ok",)] else [f"{store}: integrity: {said}"]


def party_of(body: Json) -> str:
    """The party of an object that names one."""
    return f"{body['country_code']}/{body['party_id']}".upper()


def units(number: Decimal | int) -> int:
    return int(number * UNITS)


def cost_of(body: Json, setup: Setup) -> int:
    """What the energy of a session costs by a setup, cut, in ten-thousandths."""
    return units(body["kwh"]) * setup.price_at(body["start_date_time"]) // UNITS


def decimal(number: int) -> str:
    return f"{number // UNITS}.{number % UNITS:04}"


# ---- the table of docs/NODE.md: what a setup may change

def other_price(body: Json, setup: Setup) -> str:
    began = body["start_date_time"]
    return (f"it began at {began}, and its cost {body['total_cost']['excl_vat']} for {body['kwh']} kWh is not that of "
            f"the setup's price then, {decimal(setup.price_at(began))} a kWh: another price made it; {SETUP_OF_STORE}, "
            "and change a price by an entry of `prices` alone")


def bad_rows(rows: Rows, setup: Setup) -> dict[str, set[str]]:
    """The rows that no node of a setup has, each with all reasons; none where a run must be opened."""
    found: dict[str, set[str]] = {}
    told = bad_at_operator if is_operator(setup.party) else bad_at_provider
    for row in rows.all:
        for reason in told(row, setup):
            found.setdefault(row.name(), set()).add(reason)
    return found


def bad_at_provider(row: Row, setup: Setup) -> Iterator[str]:
    if row.kind in ("push", "command") and row.body["to"].upper() not in setup.partners():
        yield NO_PARTY


def bad_at_operator(row: Row, setup: Setup) -> Iterator[str]:
    lives = row.kind == "session" and row.body["status"] in LIVES
    party = row.body["to"].upper() if row.kind == "push" else party_of(row.body["cdr_token"]) if lives else row.party()
    if (row.kind in ("push", "token", "pending") or lives) and party not in setup.partners():
        yield NO_PARTY
    if row.kind == "service" or row.kind == "reservation" or lives or is_open_start(row):
        yield from misplaced(row, setup)
    if lives and row.body["currency"] != setup.site["currency"]:
        yield OTHER_CURRENCY
    if row.kind == "session" and units(row.body["total_cost"]["excl_vat"]) != cost_of(row.body, setup):
        yield other_price(row.body, setup)


def is_open_start(row: Row) -> bool:
    return row.kind == "pending" and row.body["kind"] == "start_session"


def misplaced(row: Row, setup: Setup) -> Iterator[str]:
    """What is wrong with the EVSE, the connector or the location on which a row stands."""
    uid = row.key if row.kind == "service" else row.body["evse_uid"]
    places = [(place, evse) for place, evse in setup.evses() if evse["uid"].upper() == uid.upper()]
    if not places:
        yield NO_EVSE
        return
    (place, evse), = places
    connectors = [it["id"] for it in evse["connectors"]]
    if row.kind in ("session", "pending") and row.body["connector_id"] not in connectors:
        yield NO_CONNECTOR
    if row.kind == "reservation" and row.body["location_id"].upper() != place["id"].upper():
        yield OTHER_LOCATION
