"""Copies of a node's store and of the state beside it, made together: one without the other is worth nothing."""
import os
import shutil
import sqlite3
import tempfile
from contextlib import closing
from pathlib import Path

from .clock import moment_of

STORE, STATE = "store.db", "state.db"


def copy_together(store: Path, state: Path, folder: Path, seconds: float) -> int:
    """Copies the store of a node that has ended, and the state, to a new folder. Gives the bytes of both.

    The copy of the state is marked as one, with the moment in `seconds`. The folder has its name once all of it is on
    the disk. Raises OSError and sqlite3.Error.
    """
    made = Path(tempfile.mkdtemp(prefix=f".{folder.name}.", dir=folder.parent))
    try:
        shutil.copyfile(store, made / STORE)
        _copy_state(state, made / STATE, moment_of(seconds))
        for file in (made / STORE, made / STATE):
            file.chmod(0o600)
            _sync(file)
        _sync(made)
        made.rename(folder)
    except BaseException:
        shutil.rmtree(made, ignore_errors=True)
        raise
    _sync(folder.parent)
    return sum(file.stat().st_size for file in folder.iterdir())


def _copy_state(state: Path, copy: Path, moment: str) -> None:
    """Copies the state as it was last committed, by a connection of its own, and marks the copy."""
    with closing(sqlite3.connect(state, timeout=10)) as connection:
        connection.execute("VACUUM INTO ?", (str(copy),))
    with closing(sqlite3.connect(copy, isolation_level=None)) as connection:
        connection.execute("INSERT INTO value_of (name, value) VALUES ('backup', ?)", (moment,))


def _sync(path: Path) -> None:
    """Has a file or a folder on the disk."""
    opened = os.open(path, os.O_RDONLY)
    try:
        os.fsync(opened)
    finally:
        os.close(opened)
