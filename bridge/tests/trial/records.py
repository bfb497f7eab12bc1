"""What the nodes stored, read by stock SQLite and by `settle` after all have ended."""
import json
import sqlite3
import subprocess
from collections.abc import Mapping
from dataclasses import dataclass
from decimal import Decimal
from pathlib import Path

from ..running import PROGRAM, Members, RunningBridge

READS_WITHIN = 120.0


def read_exactly(text: str) -> Members:
    """The members of a row, whose numbers with a point stay exact."""
    members: Members = json.loads(text, parse_float=Decimal)
    return members


@dataclass(frozen=True)
class Records:
    """The rows of one store: by kind, the texts by key."""

    rows: Mapping[str, Mapping[str, str]]

    @staticmethod
    def of(store: Path) -> "Records":
        """Reads a store that no program has open."""
        rows: dict[str, dict[str, str]] = {}
        connection = sqlite3.connect(f"file:{store}?mode=ro", uri=True)
        try:
            for kind, name, body in connection.execute("SELECT kind, name, body FROM row_text"):
                rows.setdefault(kind, {})[name] = body
        finally:
            connection.close()
        return Records(rows)

    def texts(self, kind: str) -> Mapping[str, str]:
        """The texts of a kind of rows, by key."""
        return self.rows.get(kind, {})

    def members(self, kind: str) -> list[Members]:
        """The rows of a kind, in the order of their keys."""
        return [read_exactly(text) for _, text in sorted(self.texts(kind).items())]


def records_of(bridges: Mapping[str, RunningBridge]) -> dict[str, Records]:
    """The rows of each party's store."""
    return {party: Records.of(bridge.store) for party, bridge in bridges.items()}


def run(*words: str | Path, text: str = "") -> tuple[int, str, str]:
    """Runs the program: its status, its output, and its standard error."""
    ended = subprocess.run([PROGRAM, *words], input=text, capture_output=True, text=True, timeout=READS_WITHIN)
    return ended.returncode, ended.stdout, ended.stderr
