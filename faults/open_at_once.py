#!/usr/bin/env python3
"""Opens one store with four programs at once, kills the node that got it, and looks whether anything seen is lost.

    faults/open_at_once.py PROGRAM [--rounds 2000] [--pause 3] [--jobs N] [--seed 1] [--folder FOLDER]

PROGRAM is `ocpi_nodes`. Each round has a folder of its own. In half of them, as drawn, no file stands there; in the
others one does that a node made and closed. Two runs of `node` and two of `settle` are started over that file, in an
order that is drawn, each up to --pause milliseconds behind the one before. A node is given its setup and an event that
sends a packet. One program at a time has the file, and the others are refused. The node that gets it is killed
(SIGKILL) a little after the `done` of its event; the others end by themselves. Then

- the log stood beside the file at each look, from that `done` to the kill;
- a node that starts again over the file says `opened`, with at least the rows and the `serial` that were seen;
- each other program went through, or was told that its store is refused.

So many rounds as --jobs says run side by side. A line tells each round that went otherwise, of which at most ten, and
the last line what was counted. The status is 0 where no round went otherwise.
"""

import argparse
import collections
import concurrent.futures
import dataclasses
import functools
import json
import os
import random
import shutil
import subprocess
import sys
import tempfile
import time

PARTY = "BE/BEC"
DAY = os.path.join(os.path.dirname(os.path.dirname(os.path.realpath(__file__))), "examples/node/operators_day/in.jsonl")
# Where the stores lie, which no stop of the machine is to outlast.
QUICK = "/dev/shm" if os.path.isdir("/dev/shm") else None
# At most so many looks at the log of a node, with so many seconds between two.
LOOKS, BETWEEN_LOOKS = 8, 0.001
# The most seconds that a program takes to end, and the most rounds that are told.
SECONDS, TOLD = 60, 10


@dataclasses.dataclass(frozen=True)
class Kept:
    """What a store has: at least so many rows, of a node that gave at least so many packets a number."""

    rows: int
    serial: int

    def has_all(self, other: "Kept") -> bool:
        return self.rows >= other.rows and self.serial >= other.serial


@dataclasses.dataclass(frozen=True)
class Trial:
    """What all rounds share. A node has closed the file at `standing`, behind the event; it has what `stood` says."""

    program: str
    folder: str
    pause: float
    seed: int
    setup: bytes
    event: bytes
    standing: str
    stood: Kept


@dataclasses.dataclass
class Outcome:
    """What came of a round."""

    was_got: bool = False
    is_lost: bool = False
    is_log_gone: bool = False
    faults: list[str] = dataclasses.field(default_factory=list)


class Run:
    """A run of the program, which is given all its lines at its start."""

    def __init__(self, words: list[str], lines: bytes = b"") -> None:
        self.words, self.seen = words, b""
        source, self.input = os.pipe()
        os.write(self.input, lines)
        self.process = subprocess.Popen(words, stdin=source, stdout=subprocess.PIPE, stderr=subprocess.PIPE)
        os.close(source)

    def got_its_store(self) -> bool:
        """Reads what a node writes, up to the `done` of its event, or to the end of one that was refused."""
        for line in self.process.stdout:
            self.seen += line
            if line.startswith(b'{"done"') and not line.startswith(b'{"done":"opened"'):
                return True
        return False

    def end(self) -> str:
        """Ends its input, and waits for its end. Returns what is wrong with that: it goes through, or it is refused."""
        os.close(self.input)
        with self.process as process:
            self.seen += process.stdout.read()
            said = process.stderr.read().decode(errors="replace")
            status = process.wait(SECONDS)
        if status == 0 or (status == 3 and said.startswith("store: 1 Refused\n")):
            return ""
        return f"`{' '.join(self.words[1:])}` ended with status {status}: {said.strip()}"

    def kill(self) -> None:
        self.process.kill()
        self.end()

    def lines(self) -> list[dict]:
        """What it wrote, but for a last line that was cut."""
        return [json.loads(line) for line in self.seen.splitlines(keepends=True) if line.endswith(b"\n")]

    def last_serial(self) -> int:
        return max((line["serial"] for line in self.lines() if "body" in line), default=0)


def start_node(program: str, store: str, lines: bytes) -> Run:
    return Run([program, "node", PARTY, "--store", store], lines)


def open_alone(program: str, store: str, lines: bytes) -> Kept:
    """Runs a node over a store, from these lines to its end. Returns what it found there."""
    run = start_node(program, store, lines)
    wrong, found = run.end(), run.lines()[:1]
    if wrong or not found or found[0].get("done") != "opened":
        raise ValueError(wrong or f"{found}")
    return Kept(found[0]["rows"], found[0]["serial"])


def start_all(trial: Trial, draw: random.Random, store: str) -> tuple[list[Run], list[Run]]:
    """Starts two nodes and two runs of `settle` over a store, in an order that is drawn. Returns both pairs."""
    kinds = ["node", "node", "settle", "settle"]
    nodes, settles = [], []
    draw.shuffle(kinds)
    for kind in kinds:
        if kind == "node":
            nodes.append(start_node(trial.program, store, trial.setup + trial.event))
        else:
            settles.append(Run([trial.program, "settle", store]))
        time.sleep(draw.random() ** 2 * trial.pause)
    return nodes, settles


def had_log(store: str, looks: int) -> bool:
    """Whether the log stood beside a store at each of so many looks."""
    for look in range(looks):
        if look:
            time.sleep(BETWEEN_LOOKS)
        if not os.path.lexists(store + "-wal"):
            return False
    return True


def run_all(trial: Trial, draw: random.Random, store: str, came: Outcome) -> int:
    """Starts all programs over a store, kills the node that got it, and waits for the others. Returns the last serial
    that was seen."""
    nodes, settles = start_all(trial, draw, store)
    got = next((node for node in nodes if node.got_its_store()), None)
    if got:
        came.was_got = True
        came.is_log_gone = not had_log(store, draw.randint(1, LOOKS))
        got.kill()
    wrong = [run.end() for run in (*nodes, *settles) if run is not got]
    came.faults += filter(None, wrong)
    # (A node that waited for the file may have got it when the first was killed.)
    return max(node.last_serial() for node in nodes)


def run_round(trial: Trial, number: int) -> Outcome:
    """One round, in a folder of its own."""
    draw, came, seen = random.Random(f"{trial.seed}/{number}"), Outcome(), Kept(0, 0)
    with tempfile.TemporaryDirectory(dir=trial.folder, prefix="open-at-once-") as room:
        store = os.path.join(room, "node.db")
        if draw.random() < 0.5:
            shutil.copy(trial.standing, store)
            seen = trial.stood
        serial = run_all(trial, draw, store, came)
        if serial:
            seen = Kept(trial.stood.rows, serial)
        try:
            found = open_alone(trial.program, store, trial.setup)
        except ValueError as wrong:
            came.is_lost = True
            came.faults.append(f"it is not opened again, and {seen} was seen: {wrong}")
            return came
    if not found.has_all(seen):
        came.is_lost = True
        came.faults.append(f"{found} was found, and {seen} was seen")
    if came.is_log_gone:
        came.faults.append("the log was gone while the node ran")
    return came


def make_trial(given: argparse.Namespace, room: str) -> Trial:
    """What all rounds share, with a store that stands in this folder."""
    with open(DAY, "rb") as day:
        setup, event = day.readline(), day.readline()
    program, standing = os.path.abspath(given.program), os.path.join(room, "standing.db")
    open_alone(program, standing, setup + event)
    stood = open_alone(program, standing, setup)
    if stood.serial != 1:
        sys.exit(f"open_at_once: {stood} is in a store behind one packet")
    return Trial(program, room, given.pause / 1000, given.seed, setup, event, standing, stood)


def main() -> int:
    options = argparse.ArgumentParser(description=__doc__.split("\n", maxsplit=1)[0])
    options.add_argument("program")
    options.add_argument("--rounds", type=int, default=2000)
    options.add_argument("--pause", type=float, default=3, help="the most milliseconds between two starts")
    options.add_argument("--jobs", type=int, default=len(os.sched_getaffinity(0)), help="so many rounds side by side")
    options.add_argument("--seed", type=int, default=1)
    options.add_argument("--folder", default=QUICK, help="where the stores lie: in memory, where nothing is said")
    given = options.parse_args()
    counts, told = collections.Counter(), 0
    with tempfile.TemporaryDirectory(dir=given.folder, prefix="open-at-once-") as room:
        play_round = functools.partial(run_round, make_trial(given, room))
        with concurrent.futures.ProcessPoolExecutor(given.jobs) as jobs:
            for number, came in enumerate(jobs.map(play_round, range(given.rounds)), start=1):
                counts.update(got=came.was_got, lost=came.is_lost, gone=came.is_log_gone, wrong=bool(came.faults))
                if came.faults and told < TOLD:
                    told += 1
                    print(f"round {number}: {'; '.join(came.faults)[:600]}", flush=True)
    print(f"{given.rounds} rounds: a node got the file in {counts['got']}, a log was gone in {counts['gone']}, "
          f"what was seen was lost in {counts['lost']}, {counts['wrong']} went otherwise than they should")
    return 1 if counts["wrong"] else 0


if __name__ == "__main__":
    sys.exit(main())
