"""The case of an operator's central system with a charge point, before a real node."""
import asyncio
import tempfile
import time
import unittest
from collections.abc import Callable
from pathlib import Path

from .ocpp_running import TOKEN, Operating, Station, within


# Where there is a folder in memory, the disk is not waited for.
ROOM = "/dev/shm" if Path("/dev/shm").is_dir() else None


class OcppCase(unittest.IsolatedAsyncioTestCase):
    """An operator, a token that may be used, and a charge point with two connectors."""

    factor = 1.0
    max_kw = 100_000
    station_of: type[Station] = Station

    async def asyncSetUp(self) -> None:
        # The loop of a test case is one for finding faults in it, which takes many times as long.
        asyncio.get_running_loop().set_debug(False)
        folder = tempfile.TemporaryDirectory(dir=ROOM)
        self.addCleanup(folder.cleanup)
        self.operating = Operating(Path(folder.name), factor=self.factor, max_kw=self.max_kw)
        await self.operating.begin()
        self.addAsyncCleanup(self.operating.kill)
        await self.operating.deliver("put_token", TOKEN, 1)
        self.station = self.station_of(self.operating)
        self.addAsyncCleanup(self.station.close)
        await within(self.station.connected.wait())

    async def eventually(self, wanted: object, look: Callable[[], object]) -> None:
        """Waits until something is as it is wanted."""
        end = time.monotonic() + 60
        while look() != wanted and time.monotonic() < end:
            await asyncio.sleep(0.02)
        self.assertEqual(wanted, look())
