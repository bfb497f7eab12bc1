"""What a bridge keeps in its own SQLite file, so that no stop of it loses what it promised to anybody.

A commit does not wait for the disk, which would stop all else of the bridge: that is done by one thread. So nothing
leaves the bridge before `synced` said that what was committed until then is on the disk: no line to the node, no
request, no answer. What a stop of the machine loses is then known to nobody.
"""
import asyncio
import os
import sqlite3
import time
from collections.abc import Callable, Iterator
from concurrent.futures import ThreadPoolExecutor
from contextlib import closing, contextmanager, suppress
from pathlib import Path
from typing import Any, TypeVar

from .room import Room, has_room

Result = TypeVar("Result")
FOLDER = Path(__file__).parent
VERSION = 2
# After how many changes the log is copied into the file.
CHANGES_IN_LOG = 500
# 2020 in seconds since 1970: from then on the numbers of transactions are counted that begin anew.
BEGINNING = 1_577_836_800
BACKUP = ("{}: this is a backup, made at {}. Start once with --restored, but only beside the store that was copied "
          "with it, and if no partner has seen a later packet of this node")
LATER = "{}: a later bridge made this file: its version is {}, and at most {} is read here"


class WrongState(Exception):
    """The file is not one with which a bridge goes on: why, and what to do."""


class State:
    """The file. Whoever keeps something in it has a table of its own (schema.sql), and changes it in a transaction.

    Where its disk is full NoRoom is raised, which `room` keeps, as of all files of the bridge.
    """

    def __init__(self, path: Path, is_restored: bool = False) -> None:
        """A backup is taken only where it `is_restored`. Raises WrongState."""
        self._path, self.room = path, Room()
        self._writer, self._syncing = ThreadPoolExecutor(1, "writer"), asyncio.Lock()
        # How many changes are on the disk, and in the file itself.
        self._on_disk = self._in_file = 0
        self._log: int | None = None
        path.touch(0o600)
        self._connection = sqlite3.connect(path, isolation_level=None, timeout=10)
        try:
            self._open(is_restored)
        except BaseException:
            self.close()
            raise

    def _open(self, is_restored: bool) -> None:
        # The disk is waited for only where the log begins anew, which its order needs.
        for statement in ("journal_mode = WAL", "synchronous = NORMAL", "wal_autocheckpoint = 0"):
            self.query(f"PRAGMA {statement}")
        with self.transaction():
            self._migrate()
        made = self.value("backup")
        if made is not None and not is_restored:
            raise WrongState(BACKUP.format(self._path, made))

    def _migrate(self) -> None:
        """Brings the file to the version of this bridge, step by step."""
        version = int(self.query("PRAGMA user_version")[0][0])
        if version > VERSION:
            raise WrongState(LATER.format(self._path, version, VERSION))
        is_new = not self.query("SELECT 1 FROM sqlite_master")
        columns = {row[1] for row in self.query("PRAGMA table_info(ocpp_command)")}
        if version == 0 and "number" in columns and "until" not in columns:
            self.query("ALTER TABLE ocpp_command ADD COLUMN until REAL")
        scripts = [] if is_new else [FOLDER / "migrations" / f"{step}.sql" for step in range(version + 1, VERSION + 1)]
        for script in (*scripts, FOLDER / "schema.sql"):
            for statement in script.read_text().split(";\n"):
                self.query(statement)
        self.query(f"PRAGMA user_version = {VERSION}")

    @property
    def is_backup(self) -> bool:
        """Whether it is one that no bridge has begun to use."""
        return self.value("backup") is not None

    def restore(self) -> None:
        """Takes the mark of a backup away, and keeps the number of this restore: the seconds since 1970."""
        with self.transaction():
            self.query("DELETE FROM value_of WHERE name = 'backup'")
            self.set_value("restored", str(int(time.time())))
            self.renumber_transactions()

    def renumber_transactions(self) -> None:
        """Has the next transaction, and the next remote start, numbered as none was that this file does not know: by
        the seconds since 2020."""
        for table in ("ocpp_transaction", "ocpp_remote_start"):
            self.query("DELETE FROM sqlite_sequence WHERE name = ?", table)
            self.query("INSERT INTO sqlite_sequence (name, seq) VALUES (?, ?)", table, int(time.time()) - BEGINNING)

    @contextmanager
    def transaction(self) -> Iterator[None]:
        """All that is changed inside is committed together, or not at all. One inside another belongs to it."""
        if self._connection.in_transaction:
            yield
            return
        self.query("BEGIN IMMEDIATE")
        with self._noting_room(), self._connection:
            yield

    @contextmanager
    def _noting_room(self) -> Iterator[None]:
        try:
            yield
        except sqlite3.OperationalError as fault:
            code = getattr(fault, "sqlite_errorcode", 0)
            # A file beside the log that cannot grow is told as a disk that fails.
            if code == sqlite3.SQLITE_FULL or code & 0xff == sqlite3.SQLITE_IOERR and not has_room(self._path.parent):
                raise self.room.lacks("state", self._path) from None
            raise

    def query(self, statement: str, *values: object) -> list[Any]:
        """Carries out a statement, and gives its rows."""
        with self._noting_room():
            return self._connection.execute(statement, values).fetchall()

    async def synced(self) -> None:
        """Waits until all that was committed is on the disk. Those who wait at once wait for one write."""
        wanted = self._connection.total_changes
        if self._on_disk >= wanted:
            return
        async with self._syncing:
            if self._on_disk < wanted:
                changes = self._connection.total_changes
                await self.in_writer(lambda: self._sync(changes))
                self._on_disk = changes

    async def in_writer(self, action: Callable[[], Result]) -> Result:
        """Has something done that waits for the disk, by the thread for that, behind what was given to it before."""
        return await asyncio.get_running_loop().run_in_executor(self._writer, action)

    def _sync(self, changes: int) -> None:
        """Has the log on the disk, and now and then in the file. Called by the thread."""
        if self._log is None:
            self._log = os.open(f"{self._path}-wal", os.O_RDONLY)
        os.fdatasync(self._log)
        if changes >= self._in_file + CHANGES_IN_LOG:
            self._in_file = changes
            # Where it fails it is tried again, and the log has all of it.
            with closing(sqlite3.connect(self._path, timeout=0)) as connection, suppress(sqlite3.OperationalError):
                connection.execute("PRAGMA wal_checkpoint(PASSIVE)").fetchall()

    @property
    def changes(self) -> int:
        """Another number once this process has changed the file."""
        return self._connection.total_changes

    def version(self) -> int:
        """Another number once another process has changed the file."""
        return int(self.query("PRAGMA data_version")[0][0])

    def value(self, name: str) -> str | None:
        """A single value that was kept under a name."""
        return next((value for value, in self.query("SELECT value FROM value_of WHERE name = ?", name)), None)

    def set_value(self, name: str, value: str) -> None:
        """Keeps a value under a name. Nothing is written where it stands there already."""
        self.query("INSERT INTO value_of (name, value) VALUES (?, ?) ON CONFLICT DO UPDATE SET value = excluded.value"
                   " WHERE value <> excluded.value", name, value)

    def close(self) -> None:
        """Ends it. All of it is on the disk then."""
        self._writer.shutdown()
        self._connection.close()
        if self._log is not None:
            os.close(self._log)
            self._log = None
