"""The promise, tried over bad links, through kills, with charge points that lose their connections: three seeds."""
import asyncio
import sys
import unittest
from pathlib import Path

BRIDGE = Path(__file__).resolve().parents[1]
SEEDS = (2, 3, 4)
ENDS_WITHIN = 700.0


class Promise(unittest.IsolatedAsyncioTestCase):
    """A lost or repeated message never starts two sessions, holds one EVSE twice, or bills twice."""

    async def test_the_promise_is_kept(self) -> None:
        """Trials run side by side, each as a process of its own, and each ends by itself."""
        for seed, told in zip(SEEDS, await asyncio.gather(*map(self._trial, SEEDS))):
            with self.subTest(seed=seed):
                self.assertEqual(told[0], 0, told[1])

    async def _trial(self, seed: int) -> tuple[int | None, str]:
        """The status of the trial of a seed, and what it says."""
        process = await asyncio.create_subprocess_exec(
            sys.executable, "-m", "tests.trial", str(seed), cwd=BRIDGE, stdout=asyncio.subprocess.PIPE,
            stderr=asyncio.subprocess.STDOUT)
        try:
            output, _ = await asyncio.wait_for(process.communicate(), ENDS_WITHIN)
        finally:
            if process.returncode is None:
                process.terminate()
        return process.returncode, output.decode()
