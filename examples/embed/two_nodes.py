#!/usr/bin/env python3
"""Holds the nodes of a setup, each over a pipe and a store of its own: two_nodes.py PROGRAM FOLDER LINES

LINES is an input of `play`: the setup, and then what drivers and charge points do, an event a line. Each packet that a
node prints is fed to the node that it is for, and a tick each ten seconds of a clock that is made up. The next event of
LINES comes once a tick sends nothing: then all that was sent is acknowledged. (The deliveries, ticks and restarts of
LINES are passed over.) It prints each packet, and at the end what each store says is owed.

FOLDER has three files of each node: its store, the lines that it was fed, and the numbers of those that were seen done.
Kill this program, a node, or all of them, and run it again with the same words: it goes on.
"""
import datetime
import json
import os
import pathlib
import subprocess
import sys
from typing import Any

sys.dont_write_bytecode = True
from feeder import note

Members = dict[str, Any]
# Events of `play` that come of links, clocks and stops.
MADE_HERE = ("deliver", "tick", "restart", "refused")
TICK_SECONDS = 10


class Node:
    """A node that is held. `at` is the moment of its last line, and `sent` what it sent for those that it got again."""

    def __init__(self, program: str, party: str, folder: pathlib.Path, setup: Members) -> None:
        self.party, self.store = party, folder / f"{party.replace('/', '-')}.db"
        self.noted, kept = (self.store.with_suffix(end) for end in (".seen", ".lines"))
        # Each line is kept before it is fed. One that a stop cut off was not fed.
        whole = kept.read_bytes() if kept.exists() else b""
        whole = whole[:whole.rfind(b"\n") + 1]
        self.kept = kept.open("r+b" if kept.exists() else "wb")
        self.kept.truncate(self.kept.seek(len(whole)))
        lines = whole.decode().splitlines()
        self.events: list[Members] = [json.loads(line) for line in lines]
        self.at = self.events[-1]["at"] if lines else ""
        self.open(program, setup)
        self.sent = [packet for line in lines[self.seen - 1:] for packet in self.give(line)]

    def open(self, program: str, setup: Members) -> None:
        """Starts the node, and tells it which line was seen done last."""
        self.seen, self.changed = map(int, self.noted.read_text().split()) if self.noted.exists() else (1, 1)
        words = [program, "node", self.party, "--store", str(self.store), *["--existing"] * self.noted.exists()]
        self.process = subprocess.Popen(words, stdin=subprocess.PIPE, stdout=subprocess.PIPE)
        self.write(json.dumps({**setup, "line": self.seen}))
        opened = self.read()
        if opened["line"] < self.changed:
            sys.exit(f"{self.store}: an older copy, which has line {opened['line']}, and line {self.changed} was seen")
        note(self.noted, self.seen, self.changed)

    def write(self, line: str) -> None:
        try:
            self.process.stdin.write(line.encode() + b"\n")
            self.process.stdin.flush()
        except BrokenPipeError:
            sys.exit(f"{self.party}: the node has ended")

    def read(self) -> Members:
        line = self.process.stdout.readline()
        if not line.endswith(b"\n"):
            sys.exit(f"{self.party}: the node has ended")
        return json.loads(line)

    def give(self, line: str) -> list[Members]:
        """Feeds a line, reads until it is done, and gives the packets that the node sends."""
        self.write(line)
        packets = []
        while "done" not in (said := self.read()):
            print(f"{said['from']} sends {said['to']} {said['kind']} {said['request']}", flush=True)
            packets.append(said)
        if said["done"] in ("malformed", "refused"):
            print(f"{self.party}: line {said['line']}: {said['done']} {said['name']}", file=sys.stderr)
        self.seen = said["line"]
        self.changed = said["line"] if said["done"] == "stepped" else self.changed
        note(self.noted, self.seen, self.changed)
        return packets

    def feed(self, event: Members, at: str) -> list[Members]:
        """Keeps an event as the next line, and feeds it."""
        line = json.dumps({**event, "node": self.party, "at": at})
        self.kept.write(line.encode() + b"\n")
        self.kept.flush()
        os.fsync(self.kept.fileno())
        return self.give(line)

    def close(self) -> int:
        self.process.stdin.close()
        return self.process.wait()


def later(at: str) -> str:
    moment = datetime.datetime.fromisoformat(at.removesuffix("Z")) + datetime.timedelta(seconds=TICK_SECONDS)
    return moment.isoformat() + "Z"


def run(nodes: dict[str, Node], events: list[Members]) -> None:
    """Goes on with the events that no node was fed so far."""
    fed = sum(event["event"] not in MADE_HERE for node in nodes.values() for event in node.events)
    events = [event for event in events if event["event"] not in MADE_HERE][fed:]
    at = max(node.at for node in nodes.values()) or events[0]["at"]
    packets = [packet for node in nodes.values() for packet in node.sent]
    while True:
        while packets:
            packet = packets.pop(0)
            packets += nodes[packet["to"]].feed({"event": "deliver", "packet": packet}, at)
        at = later(at)
        packets = [packet for node in nodes.values() for packet in node.feed({"event": "tick"}, at)]
        if not packets:
            if not events:
                return
            event = events.pop(0)
            at = max(at, event["at"])
            packets = nodes[event["node"]].feed(event, at)


def main(program: str, folder: str, lines: str) -> int:
    os.umask(0o077)  # Lines have drivers' tokens.
    text = pathlib.Path(lines).read_text(encoding="utf-8")
    setup, *events = [json.loads(line) for line in text.splitlines()]
    nodes = {node["party"]: Node(program, node["party"], pathlib.Path(folder), setup) for node in setup["nodes"]}
    run(nodes, events)
    if any([node.close() for node in nodes.values()]):
        return 1
    for node in nodes.values():
        said = subprocess.run([program, "settle", str(node.store)], stdout=subprocess.PIPE, text=True, check=True)
        print(f"{node.store.name}: {said.stdout.strip()}")
    return 0


if __name__ == "__main__":
    sys.exit(main(*sys.argv[1:]))
