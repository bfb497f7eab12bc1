"""The feeder: what stops of the node and of the bridge leave, the statuses of the program, lines of many events."""
import asyncio
import contextlib
import dataclasses
import json
import subprocess
import sys
import tempfile
import time
import unittest
from collections.abc import Awaitable
from pathlib import Path
from typing import TypeVar, cast
from unittest import mock

from ocpi_bridge.clock import Clock, moment_of
from ocpi_bridge.configuration import NodeSettings
from ocpi_bridge.events import Events, Outcome
from ocpi_bridge.json_text import Members
from ocpi_bridge.metrics import Metrics
from ocpi_bridge.node import feeder as feeder_module
from ocpi_bridge.node.feeder import NodeEnded, OutcomeLost
from ocpi_bridge.node.revocable import RevocableFeeder
from ocpi_bridge.records import Body, Event, PacketLine
from ocpi_bridge.state import State

from .running import PROGRAM, operator, provider

T = TypeVar("T")
TESTS = Path(__file__).parent
STOPPING = f"#!/bin/sh\nOCPI_NODES='{PROGRAM}' exec '{sys.executable}' '{TESTS}/stopping_node.py' \"$@\"\n"
SETUP = json.dumps({"nodes": [operator("BE/BEC", ["E1"]), provider("NL/TNM")]})
TOKEN = {"country_code": "NL", "party_id": "TNM", "uid": "AA01", "type": "RFID", "contract_id": "NL-TNM-000001",
         "issuer": "TNM", "valid": True, "whitelist": "ALWAYS", "last_updated": "2025-01-01T09:00:00Z"}
START = {"authorization_reference": "R1", "evse_uid": "E1", "connector_id": "1", "location_id": "LOC1",
         "response_url": "https://node.invalid/NL/TNM/2", "token": TOKEN}


def charge_of_a_car() -> list[Event]:
    """A token, a start, its acceptance, the start of charging, a reading and the end, now. 2.5 kWh cost 0.625."""
    now = time.time()

    def event(name: str, second: int, **members: object) -> Event:
        return cast(Event, {"event": name, "node": "BE/BEC", "at": moment_of(now + second), **members})

    def delivery(second: int, number: int, kind: str, body: Members) -> Event:
        return event("deliver", second, packet={"from": "NL/TNM", "to": "BE/BEC", "serial": number, "request": number,
                                                "kind": kind, "body": body})

    return [delivery(0, 1, "put_token", TOKEN), delivery(1, 2, "start_session", START),
            event("accepts", 2, provider="NL/TNM", number=2), event("starts", 3, evse_uid="E1"),
            event("meter", 4, evse_uid="E1", kwh=2.5), event("stops", 5, evse_uid="E1")]


def tokens(*uids: str) -> list[Event]:
    """Deliveries of tokens."""
    packets: list[PacketLine] = [
        {"from": "NL/TNM", "to": "BE/BEC", "serial": number, "request": number, "kind": "put_token",
         "body": cast(Body, {**TOKEN, "uid": uid})} for number, uid in enumerate(uids, 1)]
    return [{"event": "deliver", "node": "BE/BEC", "at": moment_of(time.time()), "packet": it} for it in packets]


class Running:
    """A feeder over a folder, which can be begun again there, as a bridge that starts anew."""

    def __init__(self, folder: Path, program: Path | str, party: str = "BE/BEC", factor: float = 1.0) -> None:
        if isinstance(program, str):
            text, program = program, folder / "program"
            program.write_text(text)
            program.chmod(0o755)
        self.settings = NodeSettings(program, party, SETUP, folder / "node.db", folder / "node.transcript")
        self.folder, self.factor, self.is_restored = folder, factor, False
        self.noted: list[Outcome] = []
        self.metrics = Metrics()
        self.begin()

    def begin(self) -> None:
        """Starts a feeder over the state that stands there."""
        self.state = State(self.folder / "state.db", self.is_restored)
        self.opened = asyncio.Event()
        events = Events(self.settings.party, Clock(self.factor))
        self.feeder = RevocableFeeder(self.settings, events, self.state, self.metrics)
        self.feeder.before_commit.append(self.noted.append)
        self.feeder.after_opening.append(self.opened.set)
        self.task = asyncio.create_task(self.feeder.run())

    async def kill(self) -> None:
        """Ends the feeder where it stands: what is not in the state is gone."""
        self.task.cancel()
        await asyncio.wait([self.task])
        self.state.close()

    async def end(self) -> int:
        """Ends the feeder as a bridge that is told to stop."""
        await self.feeder.stop()
        status = await within(self.task)
        self.state.close()
        return status


async def within(awaited: Awaitable[T]) -> T:
    return await asyncio.wait_for(awaited, 60)


def settled(running: Running) -> str:
    """What the store of a node that has ended says is owed."""
    return subprocess.run([PROGRAM, "settle", running.settings.store], capture_output=True, text=True,
                          timeout=60).stdout


def woven(running: Running) -> int:
    """The status of `weave` over the transcript."""
    return subprocess.run([PROGRAM, "weave", "--given", "NL/TNM", running.folder / "node.transcript"],
                          stdout=subprocess.DEVNULL, timeout=60).returncode


class FeederCase(unittest.IsolatedAsyncioTestCase):
    """Folders that go with the test."""

    def folder(self) -> Path:
        folder = tempfile.TemporaryDirectory()
        self.addCleanup(folder.cleanup)
        return Path(folder.name)


class StopTest(FeederCase):
    """A charge with a stop at the same point of each line. Whoever gets no outcome goes on with the next line."""

    async def charge(self, point: str, stops: str) -> tuple[set[str], str]:
        """Gives what the callers of the lines saw, and what is owed at the end."""
        running = Running(self.folder(), STOPPING)
        plan = running.folder / "node.db.stop"
        seen = set()
        for event in charge_of_a_car():
            plan.write_text(f"{point} {stops}")
            feeding = asyncio.ensure_future(running.feeder.feed(event))
            if stops == "bridge":
                while plan.exists():
                    await asyncio.sleep(0.01)
                await asyncio.wait([feeding], timeout=20 if point == "after" else 0.2)
                await running.kill()
                running.begin()
                await within(running.opened.wait())
            try:
                seen.add((await within(feeding)).word)
            except (OutcomeLost, NodeEnded) as fault:
                seen.add(type(fault).__name__)
        # (A tick that a stop falls into is not fed again: it has come to its end once the node is open again.)
        with contextlib.suppress(OutcomeLost):
            await within(running.feeder.feed(Events("BE/BEC", Clock()).tick()))
        self.assertEqual(0, await running.end())
        noted = [json.dumps(outcome.event) for outcome in running.noted if outcome.event["event"] != "tick"]
        self.assertEqual(len(set(noted)), len(noted), "an outcome was told twice")
        self.assertEqual(0, woven(running), "the transcript is none")
        return seen, settled(running)

    async def test_no_stop_loses_a_line_or_has_it_done_twice(self) -> None:
        seen = {("before", "node"): "stepped", ("silent", "node"): "OutcomeLost", ("begun", "node"): "OutcomeLost",
                ("cut", "node"): "OutcomeLost", ("after", "node"): "stepped", ("before", "bridge"): "NodeEnded",
                ("silent", "bridge"): "NodeEnded", ("begun", "bridge"): "NodeEnded", ("cut", "bridge"): "NodeEnded",
                ("after", "bridge"): "stepped"}
        ended = await asyncio.gather(*(self.charge(point, stops) for point, stops in seen))
        self.assertEqual([({word}, "owed BE/BEC EUR 0.6250\n") for word in seen.values()], ended)


class ProgramTest(FeederCase):
    """What the program's status, its lock and its failures come to."""

    async def test_a_status_that_no_new_start_mends_is_the_bridges(self) -> None:
        for status in (2, 3):
            running = Running(self.folder(), f"#!/bin/sh\nexit {status}\n")
            self.assertEqual(status, await within(running.task))
            with self.assertRaises(NodeEnded):
                await running.feeder.feed(Events("BE/BEC", Clock()).tick())

    async def test_a_setup_that_the_node_refuses_ends_with_2(self) -> None:
        running = Running(self.folder(), PROGRAM)
        await running.kill()
        running.settings = dataclasses.replace(running.settings, setup_line='{"nodes":[{"party":"BE/BEC","site":{}}]}')
        running.begin()
        self.assertEqual(2, await within(running.task))

    async def test_an_older_copy_of_the_store_ends_with_3(self) -> None:
        """Its node would give numbers once more that partners have seen."""
        running = Running(self.folder(), PROGRAM)
        await within(running.opened.wait())
        await running.end()
        copy = running.settings.store.read_bytes()
        running.begin()
        sent = await within(running.feeder.feed(charge_of_a_car()[0]))
        self.assertEqual([1], [packet.serial for packet in sent.packets])
        await running.end()
        running.settings.store.write_bytes(copy)
        running.begin()
        self.assertEqual(3, await within(running.task))

    async def test_a_line_that_was_refused_is_told_by_the_status(self) -> None:
        unknown: Event = {"event": "none", "node": "BE/BEC"}
        for event, status in ((Events("BE/BEC", Clock()).tick(), 0), (unknown, 1)):
            running = Running(self.folder(), PROGRAM)
            await within(running.feeder.feed(event))
            self.assertEqual(status, await running.end())

    async def test_an_idle_tick_writes_nothing(self) -> None:
        running = Running(self.folder(), PROGRAM)
        await within(running.opened.wait())
        log = running.folder / "state.db-wal"
        before = log.stat()
        outcome = await within(running.feeder.feed(Events("BE/BEC", Clock()).tick()))
        self.assertEqual(("idle", before.st_mtime_ns, before.st_size),
                         (outcome.word, log.stat().st_mtime_ns, log.stat().st_size))
        await running.end()

    async def test_a_node_that_fails_is_started_again_later_and_later(self) -> None:
        """At once, and then after 1, 2 and 4 s, of a clock that goes ten times as fast."""
        folder = self.folder()
        running = Running(folder, f"#!/bin/sh\ndate +%s.%N >> {folder}/starts\nexit 1\n", factor=10)
        starts: list[float] = []
        while len(starts) < 5:
            await asyncio.sleep(0.05)
            starts = [float(line) for line in (folder / "starts").read_text().split()]
        gaps = [later - earlier for earlier, later in zip(starts, starts[1:])]
        self.assertTrue(all(gap >= least for gap, least in zip(gaps, (0, 0.1, 0.2, 0.4))), gaps)
        await running.end()

    async def test_a_store_that_an_orphan_has_is_waited_for(self) -> None:
        folder = self.folder()
        orphan = subprocess.Popen([PROGRAM, "node", "BE/BEC", "--store", folder / "node.db"], stdin=subprocess.PIPE,
                                  stdout=subprocess.PIPE, text=True)
        assert orphan.stdin is not None and orphan.stdout is not None
        orphan.stdin.write(SETUP + "\n")
        orphan.stdin.flush()
        orphan.stdout.readline()
        with mock.patch.object(feeder_module, "LOCKED_DELAYS", (0.1, 0.2)):
            self.assertEqual(3, await within(Running(folder, PROGRAM).task))
        running = Running(folder, PROGRAM)
        await asyncio.sleep(0.3)
        orphan.communicate(timeout=60)
        await within(running.opened.wait())
        await running.end()

    async def test_a_backup_has_the_store_alone_and_events_wait_meanwhile(self) -> None:
        running = Running(self.folder(), PROGRAM)
        await within(running.opened.wait())
        waiting: list[asyncio.Task[Outcome]] = []

        async def copy() -> bool:
            waiting.append(asyncio.create_task(running.feeder.feed(charge_of_a_car()[0])))
            await asyncio.sleep(0.1)
            return (running.folder / "node.db-wal").exists() or waiting[0].done()

        self.assertFalse(await within(running.feeder.while_closed(copy)))
        self.assertEqual("stepped", (await within(waiting[0])).word)
        self.assertEqual(2, (running.folder / "node.transcript").read_text().count('{"done":"opened"'))
        await running.end()


class SeveralTest(FeederCase):
    """Several events in one line: those that wait at once."""

    def fed(self, running: Running) -> list[list[Members]]:
        """The events of each line that the program got, without ticks."""
        lines = [json.loads(line) for line in (running.folder / "node.transcript").read_text().split("\n") if line]
        events = [[event for event in (line if isinstance(line, list) else [line])
                   if event.get("event", "tick") != "tick" and "done" not in event] for line in lines]
        return [line for line in events if line]

    async def carry_out(self, events: list[Event]) -> tuple[Running, list[str]]:
        """Feeds events at once. Gives what became of each."""
        running = Running(self.folder(), PROGRAM)
        await within(running.opened.wait())
        ended = await within(asyncio.gather(*map(running.feeder.feed, events), return_exceptions=True))
        await running.end()
        return running, [outcome.word if isinstance(outcome, Outcome) else type(outcome).__name__ for outcome in ended]

    async def test_what_waits_goes_in_lines_of_at_most_256_events_in_their_order(self) -> None:
        events = tokens(*(f"T{number}" for number in range(300)))
        running, words = await self.carry_out(events)
        self.assertEqual(["stepped"] * 300, words)
        fed = self.fed(running)
        self.assertEqual(events, [event for line in fed for event in line])
        self.assertEqual(256, max(map(len, fed)))
        self.assertEqual(events, [outcome.event for outcome in running.noted if outcome.event["event"] != "tick"])
        packets = [packet.request for outcome in running.noted for packet in outcome.packets]
        self.assertEqual(list(range(1, 301)), packets)

    async def test_an_event_that_spoils_its_line_is_found_and_no_other_suffers(self) -> None:
        _, words = await self.carry_out(tokens("T1", "T2", "\x01", "T4"))
        self.assertEqual(["stepped", "stepped", "malformed", "stepped"], words)

    async def test_a_malformed_and_a_refused_event_do_nothing_to_the_others(self) -> None:
        events = tokens("T1", "T2", "T3", "T4")
        del events[1]["at"]
        events[2]["packet"]["from"] = "AT/XXX"
        running, words = await self.carry_out(events)
        self.assertEqual(["stepped", "malformed", "refused", "stepped"], words)
        self.assertEqual([events], self.fed(running))
