"""Stores and states that are not of one moment, and those of a program and a bridge that did not number lines."""
import asyncio
import json
import shutil
import sqlite3
import subprocess
from contextlib import closing
from pathlib import Path
from typing import cast

from ocpi_bridge.node.feeder import NodeEnded
from ocpi_bridge.records import Event

from .running import PROGRAM
from .test_feeder import SETUP, Running, tokens, within
from .test_feeding_ahead import AheadCase, service, words


class CopiesTest(AheadCase):
    """A store and a state that are not of one moment."""

    def copy(self, running: Running) -> Path:
        """A copy of both, made while no program has them open."""
        copy = self.folder()
        for file in running.folder.glob("*.db*"):
            shutil.copy(file, copy)
        return copy

    async def refused(self, running: Running, fault: str) -> None:
        """Sees that a bridge does not begin, and why. The transcript is as it was."""
        transcript = running.folder / "node.transcript"
        written = transcript.read_bytes()
        with self.assertLogs("node", "ERROR") as logged:
            running.begin()
            self.assertEqual(3, await within(running.task))
        running.state.close()
        self.assertRegex(logged.output[0], fault)
        with self.assertRaises(NodeEnded):
            await running.feeder.feed(service(True))
        self.assertEqual(written, transcript.read_bytes())

    async def test_an_older_store_is_known_by_a_line_that_sent_nothing(self) -> None:
        running = await self.begin()
        await running.end()
        copy = self.copy(running)
        running.begin()
        self.assertEqual("stepped", (await within(running.feeder.feed(service(False)))).word)
        await running.end()
        shutil.copy(copy / "node.db", running.settings.store)
        await self.refused(running, "node.store: an older copy, which has line 1 and packet 0: line 3 and packet 0")

    async def test_an_older_state_with_lines_is_refused(self) -> None:
        """All that is fed up to the last line of the store would be passed over as known."""
        running = await self.begin()
        feeding = await self.feed_held(running, [service(False)])
        self.file(running, "stop").write_text("before bridge")
        self.go_on(running)
        await asyncio.sleep(0.5)
        await running.kill()
        self.assertEqual(["NodeEnded"], await words(feeding))
        copy = self.copy(running)
        running.begin()
        self.assertEqual("stepped", (await within(running.feeder.feed(service(True)))).word)
        await running.end()
        for file in running.folder.glob("state.db*"):
            file.unlink()
        for file in copy.glob("state.db*"):
            shutil.copy(file, running.folder)
        await self.refused(running, "state: an older copy, whose last line is 3: the store has line 5. .* --new-state")

    async def test_a_backup_with_the_store_of_another_moment_is_refused(self) -> None:
        running = await self.begin()
        await running.end()
        copy = self.copy(running)
        running.begin()
        await within(running.feeder.feed(service(False)))
        await running.end()
        newest = running.settings.store.read_bytes()
        for file in copy.iterdir():
            shutil.copy(file, running.folder)
        with closing(sqlite3.connect(running.folder / "state.db")) as connection, connection:
            connection.execute("INSERT INTO value_of VALUES ('backup', 'some time')")
        running.settings.store.write_bytes(newest)
        running.is_restored = True
        await self.refused(running, "the store is not the one that was copied with `state`: bring back both")

    async def test_what_another_bridge_did_until_it_ended_is_no_older_copy(self) -> None:
        running = Running(self.folder(), PROGRAM)
        await within(running.opened.wait())
        await running.end()
        words = [str(PROGRAM), "node", "BE/BEC", "--store", str(running.settings.store)]
        other = subprocess.Popen(words, stdin=subprocess.PIPE, stdout=subprocess.PIPE, text=True)
        assert other.stdin is not None and other.stdout is not None
        other.stdin.write(SETUP + "\n")
        other.stdin.flush()
        other.stdout.readline()
        with closing(sqlite3.connect(running.folder / "state.db")) as connection:
            connection.execute("INSERT INTO line_kept VALUES (2, ?)", (json.dumps(service(False)),))
            connection.commit()
            running.begin()
            await asyncio.sleep(0.3)
            connection.execute("DELETE FROM line_kept")
            connection.commit()
        lines = "".join(json.dumps(service(it)) + "\n" for it in (False, True))
        await asyncio.to_thread(other.communicate, lines, 60)
        await within(running.opened.wait())
        self.assertEqual([], [outcome for outcome in running.noted if outcome.event["event"] == "service"])
        await running.end()

    async def test_a_program_that_does_not_number_lines_is_refused(self) -> None:
        opened = json.dumps({"done": "opened", "party": "BE/BEC", "rows": 0, "serial": 0})
        running = Running(self.folder(), f"#!/bin/sh\nread -r setup\necho '{opened}'\ncat > /dev/null\n")
        with self.assertLogs("node", "ERROR") as logged:
            self.assertEqual(3, await within(running.task))
        self.assertIn("node.program: it is an earlier one", logged.output[0])


class BeforeTest(AheadCase):
    """A store of a program that did not number lines, and a state of its bridge with the line that was under way."""

    async def upgraded(self, event: Event, serial: int) -> Running:
        """A feeder over them, when a token was delivered, and the bridge had seen the packet of a serial."""
        running = await self.begin()
        await within(running.feeder.feed(tokens("T1")[0]))
        await running.end()
        with closing(sqlite3.connect(running.settings.store)) as connection, connection:
            connection.execute("DELETE FROM row_text WHERE kind = 'count' AND name = 'line'")
        with closing(sqlite3.connect(running.folder / "state.db")) as connection, connection:
            connection.executescript(f"DROP TABLE line_kept; PRAGMA user_version = 1;"
                                     f"DELETE FROM value_of WHERE name LIKE 'node.%'; INSERT INTO value_of VALUES"
                                     f"('node.was_opened', 'yes'), ('node.serial', '{serial}')")
            connection.execute("INSERT INTO value_of VALUES ('node.line', ?)", (json.dumps(event) if event else "",))
        running.noted.clear()
        self.file(running, "fed").unlink()
        running.begin()
        await within(running.opened.wait())
        return running

    async def test_what_had_not_taken_hold_by_the_serial_is_fed_and_has_a_number(self) -> None:
        running = await self.upgraded(service(False), 1)
        self.assertEqual(["service", "tick"], [outcome.event["event"] for outcome in running.noted])
        self.assertEqual([2, 3], [outcome.done["line"] for outcome in running.noted])
        self.assertEqual([], self.kept(running))
        self.assertEqual([None], self.setups(running))
        await running.end()

    async def test_what_had_taken_hold_by_the_serial_is_not_fed(self) -> None:
        running = await self.upgraded(tokens("T1")[0], 0)
        self.assertEqual(["tick"], [outcome.event["event"] for outcome in running.noted])
        self.assertEqual([], self.kept(running))
        self.assertEqual("stepped", (await within(running.feeder.feed(service(False)))).word)
        await running.end()

    async def test_what_is_fed_again_may_be_stopped_and_has_its_number_then(self) -> None:
        running = await self.upgraded(cast(Event, {}), 1)
        await running.kill()
        with closing(sqlite3.connect(running.folder / "state.db")) as connection, connection:
            connection.execute("INSERT INTO line_kept VALUES (0, ?)", (json.dumps(service(False)),))
        self.file(running, "stop").write_text("silent bridge")
        running.opened.clear()
        running.begin()
        while self.file(running, "stop").exists():
            await asyncio.sleep(0.01)
        await asyncio.sleep(0.3)
        self.assertEqual([(2, "service")], self.kept(running))
        await running.kill()
        running.begin()
        await within(running.opened.wait())
        self.assertEqual([None, None, 1], self.setups(running))
        self.assertEqual([], self.kept(running))
        await running.end()
