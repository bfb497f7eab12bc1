"""Lines that are fed ahead of their answers: their numbers, through a stop at each moment."""
import asyncio
import json
from pathlib import Path

from ocpi_bridge.events import Outcome
from ocpi_bridge.json_text import write_json
from ocpi_bridge.node.feeder import MOST_LINES
from ocpi_bridge.records import Event

from .running import Members
from .test_feeder import STOPPING, FeederCase, Running, charge_of_a_car, settled, tokens, within, woven

# Ticks are so rare that none comes between the lines of a test.
SLOWLY = 0.001


def service(in_service: bool) -> Event:
    """An event that changes a row and sends nothing."""
    return {"event": "service", "node": "BE/BEC", "evse_uid": "E1", "in_service": in_service}


def tick() -> Event:
    return {"event": "tick", "node": "BE/BEC", "at": charge_of_a_car()[0]["at"]}


class AheadCase(FeederCase):
    """A feeder whose program takes no line while it is held."""

    async def begin(self) -> Running:
        running = Running(self.folder(), STOPPING, factor=SLOWLY)
        self.addCleanup(self.file(running, "hold").unlink, missing_ok=True)
        await within(running.opened.wait())
        return running

    def file(self, running: Running, ending: str) -> Path:
        return running.folder / f"node.db.{ending}"

    async def feed_held(self, running: Running, events: list[Event]) -> "list[asyncio.Task[Outcome]]":
        """Feeds events one behind the other, each in a line of its own as far as lines may be under way."""
        self.file(running, "hold").touch()
        feeding: "list[asyncio.Task[Outcome]]" = []
        for event in events:
            feeding += await self.feed_at_once(running, [event])
        return feeding

    async def feed_at_once(self, running: Running, events: list[Event]) -> "list[asyncio.Task[Outcome]]":
        """Feeds events, in one line where they may not wait."""
        feeding = [asyncio.create_task(running.feeder.feed(event)) for event in events]
        await asyncio.sleep(0)
        while running.feeder._queue and len(running.feeder._kept.lines) < MOST_LINES:
            await asyncio.sleep(0.01)
        return feeding

    def go_on(self, running: Running) -> None:
        self.file(running, "hold").unlink()

    def fed(self, running: Running) -> list[Members]:
        """The lines that the program was fed, but those of ticks."""
        lines = [json.loads(line) for line in self.file(running, "fed").read_text().splitlines()]
        return [line for line in lines if isinstance(line, list) or line.get("event") != "tick"]

    def setups(self, running: Running) -> list[int | None]:
        """What each setup line says of numbers."""
        return [line.get("line") for line in self.fed(running) if "nodes" in line]

    def kept(self, running: Running) -> list[tuple[int, str]]:
        """The lines that the state has: their numbers and events."""
        return [(number, json.loads(text)["event"]) for number, text in running.state.query(
            "SELECT number, text FROM line_kept ORDER BY number")]


async def words(feeding: "list[asyncio.Task[Outcome]]") -> list[str]:
    """What became of events."""
    ended = await within(asyncio.gather(*feeding, return_exceptions=True))
    return [outcome.word if isinstance(outcome, Outcome) else type(outcome).__name__ for outcome in ended]


class StopAheadTest(AheadCase):
    """A charge that is fed ahead: five lines, four of them at once, and the last with two events."""

    lines = ((0,), (1,), (2,), (3,), (4, 5))

    async def charge(self, point: str, stops: str, place: int) -> None:
        """A stop at a point of the line at a place."""
        running, told = await self.begin(), (point, stops, place)
        events = charge_of_a_car()
        feeding = await self.feed_held(running, events)
        plan = self.file(running, "stop")
        plan.write_text(f"{point} {stops} {place}")
        self.go_on(running)
        seen = range(sum(len(line) for line in self.lines[:place + (point == "after")]))
        if stops == "bridge":
            while plan.exists():
                await asyncio.sleep(0.01)
            await words([feeding[number] for number in seen])
            await running.kill()
            running.begin()
            await within(running.opened.wait())
            # What was never fed nobody carries out.
            fed = self.file(running, "fed").read_text()
            for event in events:
                if write_json(event) not in fed:
                    self.assertEqual("stepped", (await within(running.feeder.feed(event))).word, told)
        lost = set(self.lines[place]) if point not in ("before", "after") else set()
        wanted = ["OutcomeLost" if number in lost else "stepped" for number in range(len(events))]
        if stops == "bridge":
            wanted = ["stepped" if number in seen else "NodeEnded" for number in range(len(events))]
        self.assertEqual(wanted, await words(feeding), told)
        self.assertEqual([], self.kept(running))
        # (A node that was killed behind the last line was not begun again.)
        self.assertIn(await running.end(), (0, 137))
        noted = [write_json(outcome.event) for outcome in running.noted if outcome.event["event"] != "tick"]
        self.assertEqual([write_json(event) for number, event in enumerate(events) if number not in lost], noted, told)
        self.assertEqual("owed BE/BEC EUR 0.6250\n", settled(running), told)
        self.assertEqual(0, woven(running), told)

    async def test_no_stop_of_the_node_loses_a_line_or_has_it_done_twice(self) -> None:
        for point in ("before", "silent", "begun", "cut", "after"):
            await asyncio.gather(*(self.charge(point, "node", place) for place in range(5)))

    async def test_no_stop_of_the_bridge_loses_a_line_or_has_it_done_twice(self) -> None:
        for point in ("before", "silent", "begun", "cut", "after"):
            await asyncio.gather(*(self.charge(point, "bridge", place) for place in range(5)))


class NumbersTest(AheadCase):
    """Which numbers lines have, and what the state has of them."""

    async def test_four_lines_are_under_way(self) -> None:
        running = await self.begin()
        feeding = await self.feed_held(running, [service(bool(number % 2)) for number in range(6)])
        self.assertEqual([(number, "service") for number in range(3, 7)], self.kept(running))
        self.go_on(running)
        self.assertEqual(["stepped"] * 6, await words(feeding))
        self.assertEqual([], self.kept(running))
        await running.end()

    async def test_a_run_begins_behind_the_last_line_whose_done_was_seen(self) -> None:
        running = await self.begin()
        # (The tick of the opening was line 2.)
        feeding = await self.feed_held(running, tokens("T1", "T2", "T3"))
        self.file(running, "stop").write_text("before node 1")
        self.go_on(running)
        self.assertEqual(["stepped"] * 3, await words(feeding))
        await running.end()
        running.begin()
        await within(running.opened.wait())
        await running.end()
        self.assertEqual([None, 3, None], self.setups(running))
        uids = [line["packet"]["body"]["uid"] for line in self.fed(running) if "packet" in line]
        self.assertEqual(["T1", "T2", "T3"], uids)

    async def test_what_is_lost_is_told_and_counted(self) -> None:
        running = await self.begin()
        feeding = await self.feed_held(running, [*tokens("T1"), service(False)])
        self.file(running, "stop").write_text("silent node 1")
        self.go_on(running)
        self.assertEqual(["stepped", "OutcomeLost"], await words(feeding))
        self.assertIn('ocpi_lines_total{done="known"} 1.0', running.metrics.text())
        self.assertEqual(["4", "1"], [running.state.value(f"node.{name}") for name in ("number", "serial")])
        await running.end()

    async def test_a_tick_is_kept_with_what_is_fed_behind_it_alone(self) -> None:
        running = await self.begin()
        feeding = await self.feed_held(running, [tick()])
        self.assertEqual([], self.kept(running))
        feeding += await self.feed_held(running, [service(False)])
        self.assertEqual([(3, "tick"), (4, "service")], self.kept(running))
        self.file(running, "stop").write_text("silent bridge")
        self.go_on(running)
        await asyncio.sleep(0.5)
        await running.kill()
        running.begin()
        await within(running.opened.wait())
        self.assertEqual([], self.kept(running))
        self.assertEqual([None, 3], self.setups(running))
        await running.end()

    async def test_an_event_that_spoils_its_line_is_found_when_others_were_fed_ahead(self) -> None:
        running = await self.begin()
        events = tokens("T1", "T2", "\x01", "T4", "T5")
        feeding = await self.feed_held(running, events[:1])
        feeding += await self.feed_at_once(running, events[1:4])
        feeding += await self.feed_at_once(running, events[4:])
        self.assertEqual(3, len(running.state.query("SELECT number FROM line_kept")))
        self.go_on(running)
        self.assertEqual(["stepped", "stepped", "malformed", "stepped", "stepped"], await words(feeding))
        await running.end()
