"""A disk that is full: at the store, at the state or at the transcript. All goes on by itself when there is room."""
import asyncio
import errno
import subprocess
import tempfile
import unittest
from collections.abc import Sequence
from pathlib import Path
from unittest import mock

from ocpi_bridge import room
from ocpi_bridge.events import Outcome
from ocpi_bridge.node.feeder import OutcomeLost
from ocpi_bridge.room import NoRoom, when_there_is_room
from ocpi_bridge.state import State

from .cases import OperatorCase
from .ocpi_objects import start_session, token
from .ocpi_party import OcpiParty, now
from .running import PROGRAM, RunningBridge, eventually
from .test_feeder import FeederCase, Running, charge_of_a_car, within, woven

DISK = "size=8m"


class FullDisk(OperatorCase):
    """One of the files is on a small disk of its own."""

    name = "store"

    async def begin_bridge(self, bridge: RunningBridge, parties: Sequence[OcpiParty]) -> RunningBridge:
        self.disk = self.make_folder()
        mounted = subprocess.run(["mount", "-t", "tmpfs", "-o", DISK, "none", self.disk], capture_output=True)
        if mounted.returncode != 0:
            self.skipTest("no disk can be mounted here")
        self.addCleanup(subprocess.call, ["umount", "--lazy", self.disk])
        members = bridge.configuration if self.name == "state" else bridge.configuration["node"]
        members[self.name] = str(self.disk / "file.db")
        return await super().begin_bridge(bridge, parties)

    def fill(self) -> None:
        """Fills the disk to its last byte."""
        with open(self.disk / "other", "ab", buffering=0) as other:
            for size in (1 << 20, 4096, 1):
                try:
                    while other.write(b"x" * size):
                        pass
                except OSError as fault:
                    self.assertEqual(errno.ENOSPC, fault.errno)

    async def health(self) -> int:
        """The status of /health."""
        asked = self.provider.ask("GET", self.bridge.admin_url + "/health", headers={"Authorization": None})
        return (await asked).http_status

    async def test_partners_are_told_and_all_goes_on_when_there_is_room(self) -> None:
        charge_point = await self.begin_charge_point()
        self.assert_status(await self.provider.put_token(self.token), 200, 1000)
        self.fill()
        taken = ["AA01"]

        async def put_next() -> bool:
            uid = f"U{len(taken)}"
            reply = await self.provider.put_token(token(self.provider.party, uid))
            if reply.http_status == 200:
                taken.append(uid)
            return reply.http_status == 503
        await eventually(put_next, "a partner is told 503")
        self.assert_status(await self.provider.put_token(token(self.provider.party, "LAST")), 503, 3000)
        self.assertEqual(503, await self.health())
        self.assertIn(f"{self.name}: the disk is full: make room for {self.disk}/file.db", self.bridge.log())
        credit = {"session_id": "none"}, "key"
        for refused in (await self.bridge.admin_post("/service", {"evse_uid": "E3", "in_service": False}),
                        await self.bridge.admin_post("/credits", *credit)):
            self.assertEqual(503, refused["status"])
        starting = asyncio.create_task(charge_point.call("StartTransaction", {
            "connectorId": 1, "idTag": "AA01", "meterStart": 0, "timestamp": now()}))
        await asyncio.sleep(2)
        self.assertFalse(starting.done())
        (self.disk / "other").unlink()

        async def is_healthy() -> bool:
            return await self.health() == 200
        await eventually(is_healthy, "the bridge goes on")
        self.assertEqual("Accepted", (await starting)["idTagInfo"]["status"])
        self.assertIn(f"{self.name}: there is room again", self.bridge.log())
        # That there was no room is not what the key stands for.
        self.assertEqual(404, (await self.bridge.admin_post("/credits", *credit))["status"])
        for uid in (*taken, "LAST"):
            self.assert_status(await self.provider.put_token(token(self.provider.party, uid)), 200, 1000)
        self.assertLessEqual({*taken, "LAST"}, {each["uid"] for each in await self.bridge.admin_get("/tokens")})
        await self.provider.command("START_SESSION", start_session(self.token, self.response_url("1"), "E3"))
        self.assertNotIn("Traceback", self.bridge.log())


class FullDiskOfState(FullDisk):
    name = "state"


class FullDiskOfTranscript(FullDisk):
    name = "transcript"


class SettlingWithoutRoom(FeederCase):
    """The state has no room for what came of a line."""

    async def test_that_is_lost_and_no_line_is_carried_out_twice(self) -> None:
        running, fails = Running(self.folder(), PROGRAM), [True]
        await within(running.opened.wait())
        state, (first, second) = running.state, charge_of_a_car()[:2]
        keep = state.set_value

        def set_value(name: str, value: str) -> None:
            keep(name, value)
            # (The tick of the opening was line 2.)
            if (name, value) == ("node.number", "3") and fails:
                fails.clear()
                raise state.room.lacks("state", running.folder / "state.db")

        with mock.patch.object(state, "set_value", set_value):
            feeding = [asyncio.create_task(running.feeder.feed(first))]
            while fails:
                await asyncio.sleep(0)
            feeding.append(asyncio.create_task(running.feeder.feed(second)))
            lost, outcome = await within(asyncio.gather(*feeding, return_exceptions=True))
        self.assertIsInstance(lost, OutcomeLost)
        assert isinstance(outcome, Outcome)
        self.assertEqual("stepped", outcome.word)
        self.assertEqual(0, await running.end())
        lines = (running.folder / "node.transcript").read_text().splitlines()
        for line, times in (('{"done":"stepped","line":3,"packets":1}', 1), ('{"done":"known","line":3}', 1)):
            self.assertEqual(times, lines.count(line))
        self.assertEqual(1, len([line for line in lines if '"event":"deliver"' in line and '"start_session"' in line]))
        self.assertEqual(0, woven(running))


class StateRoom(unittest.IsolatedAsyncioTestCase):
    async def test_a_state_without_room_says_so_and_is_as_it_was(self) -> None:
        with tempfile.TemporaryDirectory() as folder:
            state = State(Path(folder) / "state.db")
            self.addCleanup(state.close)
            pages = state.query("PRAGMA page_count")[0][0]
            state.query(f"PRAGMA max_page_count = {pages}")
            with self.assertLogs("bridge", "ERROR") as logged, self.assertRaises(NoRoom):
                with state.transaction():
                    state.set_value("small", "x")
                    state.set_value("large", "x" * 100_000)
            self.assertIn("state: the disk is full", logged.output[0])
            self.assertIsNone(state.value("small"))
            self.assertFalse(state.room.is_there)
            state.query(f"PRAGMA max_page_count = {pages + 1000}")
            await within(state.room.wait())
            self.assertTrue(state.room.is_there)

    async def test_what_finds_no_room_is_done_again(self) -> None:
        faults = [NoRoom(), NoRoom()]

        async def act() -> int:
            if faults:
                raise faults.pop()
            return 7
        with mock.patch.object(room, "LOOK_EACH", 0.01):
            self.assertEqual(7, await when_there_is_room(act))
