"""The transcript, which the node writes: nobody else may read it, and no two nodes write to it."""
import asyncio
import dataclasses
from unittest import mock

from ocpi_bridge.json_text import write_json
from ocpi_bridge.node import feeder as feeder_module
from ocpi_bridge.node.child import Child
from ocpi_bridge.node.kept import Kept
from ocpi_bridge.state import State

from .running import PROGRAM
from .test_feeder import FeederCase, Running, charge_of_a_car, within, woven


class TranscriptTest(FeederCase):
    """One in which a token was delivered."""

    async def asyncSetUp(self) -> None:
        self.running = Running(self.folder(), PROGRAM)
        self.transcript = self.running.folder / "node.transcript"
        await within(self.running.feeder.feed(charge_of_a_car()[0]))
        await self.running.end()

    async def orphan(self) -> Child:
        """A node over the same files, whose bridge is not there any more."""
        state = State(self.running.folder / "other.db")
        self.addCleanup(state.close)
        settings = dataclasses.replace(self.running.settings, takes_new_state=True)
        child = await Child.start(settings, True, state)
        await child.open(Kept(state))
        return child

    async def test_it_is_for_its_owner_alone(self) -> None:
        self.assertEqual(0o600, self.transcript.stat().st_mode & 0o777)

    async def test_a_node_that_outlives_its_bridge_is_waited_for_before_anything_is_written(self) -> None:
        """A run writes there before it finds that another has the store."""
        running, orphan = self.running, await self.orphan()
        written = self.transcript.read_bytes()
        with mock.patch.object(feeder_module, "LOCKED_DELAYS", (0.1, 0.2)), self.assertLogs("node") as logged:
            running.begin()
            self.assertEqual(3, await within(running.task))
        running.state.close()
        self.assertIn("node.transcript: another program has it", logged.output[0])
        self.assertEqual(written, self.transcript.read_bytes())
        running.begin()
        await asyncio.sleep(0.3)
        await orphan.write(write_json(charge_of_a_car()[1]))
        self.assertEqual(0, await within(orphan.end()))
        await within(running.opened.wait())
        self.assertEqual(0, await running.end())
        self.assertEqual(3, self.transcript.read_text().count('{"done":"opened"'))
        self.assertIn('"kind":"command_response"', self.transcript.read_text())
        self.assertEqual(0, woven(running))
