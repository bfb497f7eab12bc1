"""A small disk for one file of one party, which is full for a while."""
import asyncio
import errno
import subprocess
import time
from pathlib import Path
from random import Random

from ..running import RunningBridge
from .parties import PARTIES

FILES = ("store", "state", "transcript")
USUAL = {"store": "node.db", "state": "bridge.db", "transcript": "node.transcript"}
SIZE = "size=48m"
# In seconds of the machine: until the bridge says that the disk is full, and how long it stays so from then on.
TOLD_WITHIN = 20.0
LONGEST = 2.0


class Disk:
    """Where none can be mounted, as without the rights of root, nothing becomes full, and `told` says so."""

    def __init__(self, chance: Random) -> None:
        self.party, self._file = chance.choice(PARTIES), chance.choice(FILES)
        self._chance = chance
        self._folder: Path | None = None
        self.told = "no full disk, since none can be mounted"
        self.faults: list[str] = []

    def mount(self, bridge: RunningBridge) -> None:
        """Puts the file of a bridge that was not started on a disk of its own. In its usual place is a link to it."""
        folder = bridge.folder / "disk"
        folder.mkdir()
        if subprocess.run(["mount", "-t", "tmpfs", "-o", SIZE, "none", folder], capture_output=True).returncode != 0:
            return
        self._folder, file = folder, folder / "file"
        members = bridge.configuration if self._file == "state" else bridge.configuration["node"]
        members[self._file] = str(file)
        (bridge.folder / USUAL[self._file]).symlink_to(file)

    def unmount(self) -> None:
        """To be called when all that is there has ended."""
        if self._folder is not None:
            subprocess.run(["umount", "--lazy", self._folder], capture_output=True)

    async def become_full(self, bridge: RunningBridge) -> None:
        """Is full until the bridge says so, which it does where it needs room, and some time longer. Then the bridge
        has to go on by itself."""
        if self._folder is None:
            return
        self.told = f"a full disk at the {self._file} of {self.party}"
        self._fill(self._folder / "other")
        is_told = await self._says(bridge, f"{self._file}: the disk is full", TOLD_WITHIN)
        await asyncio.sleep(self._chance.uniform(0.0, LONGEST))
        (self._folder / "other").unlink()
        if not is_told:
            # SQLite may have room left in a log that it begins anew.
            self.told += ", which nothing needed"
        elif not await self._says(bridge, f"{self._file}: there is room again", TOLD_WITHIN):
            self.faults.append(f"{self.told}: the bridge does not go on")

    async def _says(self, bridge: RunningBridge, words: str, within: float) -> bool:
        end = time.monotonic() + within
        while words not in bridge.log():
            if time.monotonic() > end:
                return False
            await asyncio.sleep(0.05)
        return True

    def _fill(self, other: Path) -> None:
        """Fills the disk to its last byte."""
        with open(other, "ab", buffering=0) as opened:
            for size in (1 << 20, 4096, 1):
                try:
                    while opened.write(b"x" * size):
                        pass
                except OSError as fault:
                    if fault.errno != errno.ENOSPC:
                        raise
