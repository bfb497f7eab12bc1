#!/usr/bin/env python3
"""Kills `node --store`, or what feeds it, at moments drawn by chance, and feeds it on to the last line.

    faults/kill_node.py PROGRAM [--runs 50] [--stops 20] [--events 2000] [--most 1] [--seed 1] [--folder FOLDER]
                        [--transcript] [--old-rule]

PROGRAM is `ocpi_nodes`. For each run the events of two operators and two providers are drawn beside `play`. Those of
one of them become the lines of `node`, in which a delivery has the packet that its sender wrote in `play`. With --most
above 1 most lines have several events, at most so many; among them stand some that are malformed, and some that are
refused. Runs take turns: operator and provider; lines fed by a pipe, as far ahead as it has room, and lines read from a
file. Each run is stopped as often as --stops says, in one of these ways:

- the node is killed (SIGKILL), and what it had printed is read to the end;
- the node and its feeder are killed: what the feeder had not read yet it never saw;
- the feeder is killed, in the middle of a line or not: the input ends, and then nobody reads any more;
- the node is killed while it opens its store, or when its input has ended and it closes it.

After each stop the node is fed on by the five sentences of docs/NODE.md: the setup line has the number of the last line
whose `done` was seen. Then

- stock SQLite reads a copy of the store, `PRAGMA integrity_check` is ok, and the rows are those behind the line whose
  number the store has, of a run over another store that ends there by itself; the number is that run's too;
- no line that was seen to send or to change something has a higher number;
- `line`, `rows` and `serial` of the next `opened` are those of the store;
- lines up to that number are `known`, and no others;
- the packets of each line, and each `done` but for its `line`, are those of one run over a new store that nobody stops,
  with an event `restart` for each stop. The last ones may be wanting. What a line gave in a run after which it was
  fed again is no packet, and no `stepped`;
- the rows at the end are those of that run, and the number is that of its last line that changed rows.

With --transcript the node keeps a transcript in a file (`node --transcript`). At each stop the file is cut, where the
last sync of it ended well or somewhere behind that, as a power cut may leave it, and the store is not: so the store may
have all that the file lost. Then `weave` must read the file, at each stop and at the end, where the run that it makes
has each event that did something, in its order.

With --old-rule the node is fed ahead all the same, but after a stop by the rule that was right while lines had no
numbers: of the lines without `done` only the first can have been applied, and it was where it sent something. Then
only those lines are counted that were seen to send packets in more than one run, and the status is 0 where there are
some. (PROGRAM may be one from before the numbers: no setup line has one.)

A try of a minute: `--runs 4 --stops 5 --events 200`. Standard error has a line for each run. The last three lines of
the output, or four with --transcript, tell the stops that passed, how they came, and what they cost. The status is 0
where all passed.
"""

import argparse
import collections
import contextlib
import fcntl
import json
import os
import random
import shutil
import sqlite3
import subprocess
import sys
import tempfile
import threading
import time

from drawn_lines import OTHER_OPERATOR, OTHER_PROVIDER, draw_lines, in_groups, wide_setup
from kept_transcripts import Transcript, told_of
from stop_in_store import OPERATOR, PROVIDER, line_of

# Where the stores lie that nobody kills.
QUICK = "/dev/shm" if os.path.isdir("/dev/shm") else None

NODE, BOTH, FEEDER = "the node alone", "node and feeder", "the feeder alone"
OPENING, CLOSING = "the node while it opened its store", "the node while it closed its store"
WAYS = (NODE, BOTH, FEEDER, OPENING, CLOSING)

# How many bytes a pipe has room for, the command that sets this, and how many bytes are written to it at once.
ROOMS, SET_ROOM, PIECE = (4096, 16384, 65536), getattr(fcntl, "F_SETPIPE_SZ", 1031), 1000
NUMBER = ("count", "line")


def rows_of(store):
    """The rows of a store that no program has open, read from a copy; and what is wrong with it."""
    with tempfile.TemporaryDirectory(dir=QUICK) as room:
        copy = os.path.join(room, "store.db")
        for end in ("", "-wal"):
            if os.path.exists(store + end):
                shutil.copy(store + end, copy + end)
        with contextlib.closing(sqlite3.connect(copy)) as file:
            if not file.execute("SELECT 1 FROM sqlite_schema WHERE name = 'row_text'").fetchall():
                return [], []
            said = file.execute("PRAGMA integrity_check").fetchall()
            rows = file.execute("SELECT kind, name, body FROM row_text ORDER BY kind, name").fetchall()
            return rows, [] if said == [("ok",)] else [f"integrity: {said}"]


def last_of(rows, name, first):
    """The number that a counter of the rows has, or the first one where it has none."""
    return next((json.loads(body)["last"] for kind, it, body in rows if (kind, it) == ("count", name)), first)


def of_the_node(rows):
    """The rows but for the number of the last line that took hold."""
    return [row for row in rows if row[:2] != NUMBER]


def has_open_frames(store):
    """Whether the log ends with pages of a transaction that is not whole: such a stop fell while it was written."""
    if not os.path.exists(store + "-wal"):
        return False
    with open(store + "-wal", "rb") as file:
        log = file.read()
    size, salts, unfinished = int.from_bytes(log[8:12], "big"), log[16:24], False
    for at in range(32, len(log) - 23, 24 + size) if size else ():
        if log[at + 8:at + 16] != salts:
            break
        unfinished = log[at + 4:at + 8] == bytes(4)
    return unfinished


def did_something(said):
    """Whether that is a packet, or a `done` by which rows changed."""
    return isinstance(said, bytes) or said["done"] == "stepped"


class Printed:
    """What a run printed, as far as anybody read it: its `opened`, and what each line gave, by its number."""

    def __init__(self, base):
        self.base, self.opened, self.gave = base, None, collections.defaultdict(list)
        # The line that gives what comes next, those of which something came that changed rows, and what is wrong.
        self.next, self.changing, self.wrong = base + 1, 0, []

    def take(self, line):
        """Takes a line of the output. One without its end was cut."""
        if not line.endswith(b"\n"):
            return
        if not line.startswith(b'{"done"'):
            self.gave[self.next].append(line)
            self.changing = self.next
            return
        said = json.loads(line)
        number = said.pop("line")
        if said["done"] == "opened":
            self.opened = {**said, "line": number}
            return
        if number != self.next:
            self.wrong.append(f"a `done` has the number {number} in place of {self.next}")
        self.gave[self.next].append(said)
        if said["done"] == "stepped":
            self.changing = self.next
        if "event" not in said:
            self.next += 1

    def seen(self):
        """The number of the last line whose `done` was read."""
        return self.next - 1


class Node:
    """A run of `node` over a store, of a file or of a pipe."""

    def __init__(self, given, party, store, source=subprocess.PIPE, transcript=None):
        words, how = [given.program, "node", party, "--store", store], {"stderr": subprocess.DEVNULL}
        if transcript:
            words, how["env"] = words + transcript.words(), transcript.environment()
        self.program = subprocess.Popen(words, stdin=source, stdout=subprocess.PIPE, **how)
        self.feeding, self.stopped = None, threading.Event()

    def give(self, line):
        self.program.stdin.write(line)
        self.program.stdin.flush()

    def feed_ahead(self, lines, room, ends):
        """Feeds lines however far the node is behind, by pipes that have so much room. Then the input ends, or not."""
        for pipe in (self.program.stdin, self.program.stdout):
            fcntl.fcntl(pipe, SET_ROOM, room)
        self.feeding = threading.Thread(target=self.feed, args=(b"".join(lines), ends), daemon=True)
        self.feeding.start()

    def feed(self, text, ends):
        with contextlib.suppress(BrokenPipeError):
            for at in range(0, len(text), PIECE):
                if self.stopped.is_set():
                    break
                self.give(text[at:at + PIECE])
            if not ends:
                self.stopped.wait()
        self.end_input()

    def stop_feeding(self):
        """The feeder feeds no more, also in the middle of a line, and the input ends."""
        self.stopped.set()
        if not self.feeding:
            self.end_input()

    def read(self):
        """The next line of the output."""
        line = self.program.stdout.readline()
        if not line.endswith(b"\n"):
            sys.exit(f"kill_node: the program ended by itself with status {self.program.wait()}, after {line}")
        return line

    def end_input(self):
        if self.program.stdin:
            with contextlib.suppress(BrokenPipeError):
                self.program.stdin.close()

    def kill(self):
        """Kills it, and answers what it had written that was not read yet."""
        self.program.kill()
        rest = self.program.stdout.readlines()
        self.program.wait()
        self.stop_feeding()
        self.program.stdout.close()
        return rest

    def leave(self):
        """Reads no more, and waits until it has ended."""
        self.program.stdout.close()
        self.program.wait()

    def end(self):
        """Reads what it writes until it ends, as its input does."""
        rest = self.program.stdout.readlines()
        if self.program.wait() not in (0, 1):
            sys.exit(f"kill_node: the program ended with status {self.program.returncode}")
        return rest


def file_with(lines):
    file = tempfile.TemporaryFile(dir=QUICK)
    file.write(b"".join(lines))
    file.seek(0)
    return file


def setup_from(base):
    """The setup line of a run whose lines are counted on from that number."""
    return line_of(**json.loads(wide_setup()), line=base)


class Stop:
    """What was found when a run had been stopped."""

    def __init__(self, way, store, printed, seen):
        self.way, self.printed, self.seen = way, printed, seen
        self.rows, self.wrong = rows_of(store)
        self.open_frames = has_open_frames(store)
        self.number = last_of(self.rows, "line", 1)
        # Up to this line all is behind it: it took hold, or its `done` was seen.
        self.behind = max(self.number, seen)


class Feeder:
    """Feeds lines by the five sentences. Line n is `lines[n - 2]`."""

    def __init__(self, given, draw, party, store, by_file, transcript=None):
        self.given, self.draw, self.party, self.store, self.by_file = given, draw, party, store, by_file
        self.transcript = transcript
        lines = draw_lines(given.program, party, given.events, draw)
        if given.most > 1:
            lines = in_groups(lines, party, given.most, draw)
        self.lines, self.stops = [line for line, _ in lines], []
        self.targets = self.draw_targets([sends for _, sends in lines])
        # The last line whose `done` was seen, and the last that was seen to change something.
        self.seen, self.changing, self.seconds = 1, 1, 0.002
        # All that each run printed, and what is wrong with that.
        self.runs, self.wrong = [], []

    def draw_targets(self, sends):
        """The lines behind which it is stopped: most of them send packets, and so change rows."""
        targets = []
        for k in range(self.given.stops):
            places = range(k * len(sends) // self.given.stops, (k + 1) * len(sends) // self.given.stops)
            sending = [place for place in places[:-1] if sends[place]]
            targets.append(1 + self.draw.choice(sending if sending and self.draw.random() < 0.9 else places))
        return targets

    def pause(self, lines):
        """At most somewhat more than what so many lines take."""
        time.sleep(self.draw.random() * lines * 1.4 * self.seconds)

    def begin(self, last):
        """Begins a run behind the last line whose `done` was seen. Of a file all lines are fed up to that one."""
        printed = Printed(self.seen)
        self.runs.append(printed)
        if self.by_file:
            with file_with([setup_from(self.seen), *self.lines[self.seen - 1:last - 1]]) as source:
                return Node(self.given, self.party, self.store, source, self.transcript), printed
        node = Node(self.given, self.party, self.store, transcript=self.transcript)
        node.give(self.setup_line())
        return node, printed

    def setup_line(self):
        return setup_from(self.seen)

    def last_line(self):
        return len(self.lines) + 1

    def take(self, printed, line):
        """Sees a line of the output."""
        printed.take(line)
        self.seen, self.changing = max(self.seen, printed.seen()), max(self.changing, printed.changing)

    def open(self, node, printed):
        """Reads what the setup line gave."""
        self.take(printed, node.read())
        found = self.stops[-1].rows if self.stops else []
        wanted = {"done": "opened", "party": self.party, "line": last_of(found, "line", 1),
                  "rows": len(of_the_node(found)), "serial": last_of(found, "serial", 0)}
        if printed.opened != wanted:
            self.wrong.append(f"{printed.opened} in place of {wanted}")
        if printed.opened["line"] < self.changing:
            self.wrong.append(f"{printed.opened}, and line {self.changing} was seen to change something")

    def note_stop(self, way, printed):
        self.stops.append(Stop(way, self.store, printed, self.seen))
        if self.transcript:
            self.transcript.cut()

    def feed_all(self):
        """Feeds all lines, and stops the run behind each of the targets."""
        while self.targets:
            target = self.targets.pop(0)
            way = self.draw.choices(WAYS, [30, 30, 20, 10, 10])[0]
            if way == OPENING:
                self.stop_opening()
            else:
                self.feed_to(target, way)
        node, printed = self.begin(self.last_line())
        self.open(node, printed)
        if not self.by_file:
            node.feed_ahead(self.lines[self.seen - 1:], ROOMS[-1], True)
        for line in node.end():
            self.take(printed, line)

    def stop_opening(self):
        """Kills the node a little after its setup line was fed."""
        node, printed = self.begin(self.seen)
        time.sleep(self.draw.random() * 0.02)
        for line in node.kill():
            self.take(printed, line)
        self.note_stop(OPENING, printed)

    def feed_to(self, target, way):
        """Feeds ahead, reads until the target has its `done`, and stops in that way."""
        target = max(target, self.seen)
        node, printed = self.begin(target if way == CLOSING else self.last_line())
        self.open(node, printed)
        if not self.by_file:
            last = target if way == CLOSING else self.last_line()
            node.feed_ahead(self.lines[self.seen - 1:last - 1], self.draw.choice(ROOMS), way == CLOSING)
        begun, first = time.perf_counter(), self.seen
        while self.seen < target:
            self.take(printed, node.read())
        if self.seen > first:
            self.seconds += ((time.perf_counter() - begun) / (self.seen - first) - self.seconds) / 4
        self.stop(node, printed, way)
        self.note_stop(way, printed)

    def stop(self, node, printed, way):
        """Stops a run that has been read so far."""
        ahead = len(self.lines) / self.given.stops / 2
        if way in (NODE, CLOSING):
            self.pause(1) if way == NODE else time.sleep(self.draw.random() * 0.03)
            for line in node.kill():
                self.take(printed, line)
        elif way == BOTH:
            self.pause(ahead * self.draw.random())
            for line in node.kill():
                printed.take(line)
        else:
            node.stop_feeding()
            self.pause(ahead * self.draw.random())
            node.leave()


class OldFeeder(Feeder):
    """Feeds lines ahead, and after a stop by the rule for lines without numbers."""

    def __init__(self, given, draw, party, store):
        super().__init__(given, draw, party, store, False)
        # The last serial that was seen, and whether something was of the first line without `done`.
        self.serial, self.is_applied = 0, False

    def setup_line(self):
        return wide_setup()

    def take(self, printed, line):
        super().take(printed, line)
        if line.endswith(b"\n") and not line.startswith(b'{"done"'):
            self.serial = json.loads(line)["serial"]
        of_several = self.seen < self.last_line() and self.lines[self.seen - 1].startswith(b"[")
        self.is_applied = bool(printed.gave[self.seen + 1]) or of_several and not line.endswith(b"\n")

    def open(self, node, printed):
        opened = json.loads(node.read())
        if self.seen < self.last_line() and (self.is_applied or opened["serial"] > self.serial):
            self.seen += 1
        printed.base, printed.next = self.seen, self.seen + 1
        self.serial, self.is_applied = opened["serial"], False


def run_to_end(given, party, store, lines):
    """What a run of these lines writes that nobody stops."""
    with file_with(lines) as source:
        return Node(given, party, store, source).end()


def look_at_stops(given, party, feeder, room):
    """What is wrong with the rows and the number at each stop, by runs over another store that end there."""
    wrong, store, behind = [], os.path.join(room, "whole.db"), 1
    rows = []
    for place, stop in enumerate(feeder.stops):
        wrong += [f"stop {place}: {it}" for it in stop.wrong]
        if stop.number > behind:
            run_to_end(given, party, store, [setup_from(behind), *feeder.lines[behind - 1:stop.number - 1]])
            rows = rows_of(store)[0]
        if stop.rows != rows:
            wrong.append(f"stop {place}, {stop.way}: these are not the rows behind line {stop.number} with its number")
        if stop.printed.changing > stop.number:
            wrong.append(f"stop {place}: line {stop.printed.changing} did something, and {stop.number} is kept")
        wrong += [f"stop {place}: {it}" for it in stop.printed.wrong]
        behind = stop.behind
    return wrong


def run_whole(given, party, feeder, room):
    """What one run that nobody stops gives for each line, by its number here, and its rows; with a restart for each
    stop, behind the lines that are behind it."""
    restart, lines, places = line_of(event="restart", node=party), [], {}
    stops = collections.Counter(stop.behind for stop in feeder.stops)
    for number in range(1, feeder.last_line() + 1):
        if number > 1:
            places[number] = len(lines) + 2
            lines.append(feeder.lines[number - 2])
        lines += [restart] * stops[number]
    store, printed = os.path.join(room, "other.db"), Printed(1)
    for line in run_to_end(given, party, store, [wide_setup(), *lines]):
        printed.take(line)
    return {number: printed.gave[place] for number, place in places.items()}, rows_of(store)[0]


def look_at_answers(feeder, whole):
    """What differs from one run that nobody stops; how many lines were `known`, and how many packets nobody saw."""
    wrong, known, packets = [], 0, sum(isinstance(it, bytes) for gave in whole.values() for it in gave)
    behind = [stop.behind for stop in feeder.stops] + [feeder.last_line()]
    numbers, first = [1] + [stop.number for stop in feeder.stops], 1
    for printed, number, last in zip(feeder.runs, numbers, behind):
        for at, gave in printed.gave.items():
            if at <= number:
                known += 1
                is_right = gave == [{"done": "known"}]
            elif at <= last:
                is_right = at > first and gave == whole[at][:len(gave)]
                packets -= sum(isinstance(it, bytes) for it in gave)
            else:
                is_right = not any(map(did_something, gave))
            if not is_right:
                wrong.append(f"line {at}: it was answered {gave} in place of {whole[at]}, and {number} was kept before")
        first = last
    return wrong, known, packets


def events_that_did(feeder, whole):
    """The events that changed something or sent packets, in their order."""
    events = []
    for number, gave in whole.items():
        read = json.loads(feeder.lines[number - 2]) if any(map(did_something, gave)) else None
        events += [read[said["event"]] if "event" in said else read
                   for said in gave if isinstance(said, dict) and said["done"] == "stepped"]
    return events


def look_at(given, party, feeder, room):
    """What is wrong with a run, and what it cost."""
    whole, rows = run_whole(given, party, feeder, room)
    differs, known, packets = look_at_answers(feeder, whole)
    wrong = feeder.wrong + look_at_stops(given, party, feeder, room) + differs
    if feeder.transcript:
        feeder.transcript.end(events_that_did(feeder, whole))
        wrong += feeder.transcript.wrong
    found, said = rows_of(feeder.store)
    if of_the_node(found) != of_the_node(rows) or said:
        wrong.append(f"{said}the rows at the end are not those of the run that nobody stopped")
    changing = max([number for number, gave in whole.items() if any(map(did_something, gave))], default=1)
    if last_of(found, "line", 1) != changing or feeder.seen != feeder.last_line():
        wrong.append(f"line {changing} is the last that changed rows; the last seen is {feeder.seen}")
    return wrong, known, packets


def done_twice(feeder):
    """How many lines were seen to send packets in more than one run."""
    runs = collections.Counter(number for printed in feeder.runs for number, gave in printed.gave.items()
                               if any(isinstance(it, bytes) for it in gave))
    return sum(count > 1 for count in runs.values())


def options():
    words = argparse.ArgumentParser(description=__doc__.split("\n", maxsplit=1)[0])
    words.add_argument("program")
    words.add_argument("--runs", type=int, default=50)
    words.add_argument("--stops", type=int, default=20, help="how often each run is stopped")
    words.add_argument("--events", type=int, default=2000)
    words.add_argument("--most", type=int, default=1, help="how many events a line has at most")
    words.add_argument("--seed", type=int, default=1)
    words.add_argument("--folder", help="where the stores lie that are killed (its disk is the one that is tried)")
    words.add_argument("--transcript", action="store_true", help="keep transcripts in files, and cut them at each stop")
    words.add_argument("--old-rule", action="store_true", help="feed on by the rule for lines without numbers")
    given = words.parse_args()
    given.program = os.path.abspath(given.program)
    return given


def try_old_rule(given, draw):
    """Counts the lines that are done twice by the rule for lines without numbers."""
    twice, lines, runs = 0, 0, 0
    for number in range(given.runs):
        with tempfile.TemporaryDirectory(dir=given.folder) as killed:
            feeder = OldFeeder(given, draw, (OPERATOR, PROVIDER)[number % 2], os.path.join(killed, "node.db"))
            feeder.feed_all()
        here = done_twice(feeder)
        print(f"run {number + 1}, {feeder.party}: {len(feeder.stops)} stops, {here} lines twice", file=sys.stderr)
        twice, lines, runs = twice + here, lines + len(feeder.lines), runs + (here > 0)
    print(f"{twice} of {lines} lines sent packets twice, in {runs} of {given.runs} runs")
    return 0 if twice else 1


def main():
    given = options()
    draw = random.Random(given.seed)
    if given.old_rule:
        return try_old_rule(given, draw)
    stops, passed, known, lost, transcripts = [], 0, 0, 0, []
    for number in range(given.runs):
        party, by_file = (OPERATOR, PROVIDER)[number % 2], number % 4 >= 2
        name = f"run {number + 1}, {party}, {'from a file' if by_file else 'by a pipe'}"
        with tempfile.TemporaryDirectory(dir=given.folder) as killed, tempfile.TemporaryDirectory(dir=QUICK) as room:
            others = [it for it in (OPERATOR, PROVIDER, OTHER_OPERATOR, OTHER_PROVIDER) if it != party]
            kept = Transcript(given.program, killed, others, given.seed + number) if given.transcript else None
            feeder = Feeder(given, draw, party, os.path.join(killed, "node.db"), by_file, kept)
            feeder.feed_all()
            wrong, known_here, lost_here = look_at(given, party, feeder, room)
        for it in wrong[:5]:
            print(f"{name}: {it[:600]}", flush=True)
        print(f"{name}: {len(feeder.stops)} stops, {len(wrong)} wrong", file=sys.stderr, flush=True)
        stops, known, lost = stops + feeder.stops, known + known_here, lost + lost_here
        transcripts += [kept] if kept else []
        passed += 0 if wrong else len(feeder.stops)
    ways = collections.Counter(stop.way for stop in stops)
    unseen = [stop.number - stop.seen for stop in stops if stop.number > stop.seen]
    print(f"{passed} of {len(stops)} stops were as wanted, in {given.runs} runs of {given.events} events, "
          f"at most {given.most} a line")
    print("They stopped " + ", ".join(f"{ways[way]} {way}" for way in WAYS)
          + f"; {sum(stop.open_frames for stop in stops)} fell in a commit")
    print(f"{sum(unseen)} lines took hold unseen, in {len(unseen)} stops; {known} were fed again as `known`, "
          f"and {lost} packets never seen")
    if given.transcript:
        print(told_of(transcripts))
    return 0 if passed == len(stops) == given.runs * given.stops else 1


if __name__ == "__main__":
    sys.exit(main())
