"""Disks that are full: which files of a bridge could not be written, and when there is room for them again.

What fails for want of room is as if it had not begun. So nobody is told that it was done, and who can repeats it.
"""
import asyncio
import errno
import logging
import os
import sqlite3
import tempfile
from collections.abc import Awaitable, Callable
from pathlib import Path
from typing import TypeVar

LOG = logging.getLogger("bridge")
Result = TypeVar("Result")
FULL = (errno.ENOSPC, errno.EDQUOT)
# The bytes that have to be free for the bridge to go on, and how often it looks: in seconds of real time.
LEAST_ROOM = 1 << 20
LOOK_EACH = 1.0


class NoRoom(sqlite3.OperationalError):
    """A disk is full, and what was to be kept is not. (Mostly SQLite tells of it, so it is a fault of that.)"""


class Room:
    """The files that could not be written. Until there is room for them again the bridge takes nothing on."""

    def __init__(self) -> None:
        self._lacking: dict[str, Path] = {}

    @property
    def is_there(self) -> bool:
        return not self._lacking

    def lacks(self, name: str, file: Path) -> NoRoom:
        """Notes that a file could not be written, and says so once. Gives what is to be raised."""
        if name not in self._lacking:
            LOG.error("%s: the disk is full: make room for %s. The bridge waits for it", name, file)
            self._lacking[name] = file
        return NoRoom(f"{name}: the disk is full")

    async def run(self) -> None:
        """Looks whether there is room again, until it is cancelled."""
        while True:
            await self.wait()
            await asyncio.sleep(LOOK_EACH)

    async def wait(self) -> None:
        """Waits until there is room for each file."""
        while self._lacking:
            for name, file in list(self._lacking.items()):
                if await asyncio.to_thread(has_room, file.parent) and name in self._lacking:
                    del self._lacking[name]
                    LOG.warning("%s: there is room again", name)
            if self._lacking:
                await asyncio.sleep(LOOK_EACH)


def has_room(folder: Path) -> bool:
    """Whether a file of some size can be written there."""
    try:
        with tempfile.TemporaryFile(dir=folder) as tried:
            os.posix_fallocate(tried.fileno(), 0, LEAST_ROOM)
        return True
    except OSError as fault:
        return fault.errno not in FULL


async def when_there_is_room(action: Callable[[], Awaitable[Result]]) -> Result:
    """Carries an action out, and again from its beginning where it had no room."""
    while True:
        try:
            return await action()
        except NoRoom:
            await asyncio.sleep(LOOK_EACH)
