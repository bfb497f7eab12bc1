"""Kills bridges and nodes at moments that are drawn by chance, and starts the bridges again. Once a disk is full."""
import asyncio
import os
import signal
from collections.abc import Mapping
from random import Random

from ..running import RunningBridge
from .disk import Disk

KILLS = 10
VICTIMS = ("bridge", "node", "both")
# In seconds of the machine: between kills, and until a bridge is started again.
LONGEST_PAUSE = 3.0
LONGEST_ABSENCE = 1.0


class Kills:
    """Who was killed, and the most memory that a bridge had by then."""

    def __init__(self, bridges: Mapping[str, RunningBridge], disk: Disk, chance: Random) -> None:
        self._bridges, self._disk = bridges, disk
        self._chance = chance
        self.told: list[str] = []
        self.most_memory = 0

    async def carry_out(self) -> None:
        """Kills ten times, one after another, and in between has the disk full. Ends with all bridges up."""
        full_before = self._chance.randrange(KILLS)
        for number in range(KILLS):
            if number == full_before:
                await self._disk.become_full(self._bridges[self._disk.party])
            await asyncio.sleep(self._chance.uniform(0.3, LONGEST_PAUSE))
            party = self._chance.choice(sorted(self._bridges))
            victim = self._chance.choice(VICTIMS)
            self.note_memory(party)
            await self._kill(self._bridges[party], victim)
            self.told.append(f"{victim} of {party}")

    def note_memory(self, party: str) -> None:
        """Notes what a bridge used so far. Raises AssertionError where it ended by itself."""
        try:
            self.most_memory = max(self.most_memory, self._bridges[party].peak_memory())
        except OSError:
            raise AssertionError(f"{party} ended by itself: {self._bridges[party].log()[-2000:]}") from None

    async def _kill(self, bridge: RunningBridge, victim: str) -> None:
        node = None if victim == "bridge" else await self._node_of(bridge)
        if victim != "node":
            bridge.kill_bridge()
        if node is not None:
            os.kill(node, signal.SIGKILL)
        if victim == "node":
            return
        bridge.addresses = {}
        await asyncio.sleep(self._chance.uniform(0.0, LONGEST_ABSENCE))
        await bridge.start()

    async def _node_of(self, bridge: RunningBridge) -> int:
        """The process of a bridge's node. Where it was killed just before, it is about to be started again."""
        for _ in range(100):
            try:
                return bridge.node_pid()
            except (AssertionError, OSError):
                await asyncio.sleep(0.05)
        return bridge.node_pid()
