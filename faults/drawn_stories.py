#!/usr/bin/env python3
"""Compares what examples/draw_run.py tells of drawn runs with what `play` gave line by line.

    faults/drawn_stories.py PROGRAM [--runs N] [--events N] [--seed N]

Each run is drawn beside `play` without `--done`, which is given one line at a time, so that its packets are known. Some
lines are put between them that are skipped or malformed, and some that are empty. All are played at once with `--done`.
Of each event these must be one: what came when it was given alone, what stands before its line with `done`, and what
draw_run.py tells. The status is 1 where one differs.
"""

import argparse
import json
import os
import random
import re
import subprocess
import sys
import tempfile

from drawn_lines import WideDrawing, wide_setup
from stop_in_store import Run, line_of

DRAW_RUN = os.path.join(os.path.dirname(os.path.abspath(__file__)), "..", "examples", "draw_run.py")
AT = "2025-01-01T10:00:00Z"
SKIPPED = line_of(event="tick", node="AT/XXX", at=AT)
MALFORMED = [b"7\n", b"[]\n", line_of(event="none", node="BE/BEC", at=AT), line_of(event="tick", node="BE/BEC")]
TOLD_LINE = re.compile(r" *(\d+)  .{8}  ")
TOLD_PACKET = re.compile(r" {24}sends .* \((\w+) (\d+)/(\d+)\)(, which no line delivers)?$")


def packet_of(line):
    """What names a packet, of a line of the output."""
    packet = json.loads(line)
    return packet["kind"], packet["serial"], packet["request"]


def drawn(program, number, draw):
    """Lines of a run, each with the packets that it gave when it was given alone; None of an empty one."""
    run, drawing, lines = Run(program), WideDrawing(draw), []
    run.give(wide_setup())
    run.answer()
    for place in range(number):
        event = drawing.event() if place else drawing.first_event()
        line = line_of(**event)
        run.give(line)
        said = run.answer()
        drawing.saw(said)
        lines.append((line, [packet_of(it) for it in said if it.startswith(b"{")]))
        if draw.random() < 0.1:
            lines.append(draw.choice([(SKIPPED, []), (draw.choice(MALFORMED), []), (b"\n", None), (b"\r\n", None)]))
    run.end()
    return lines


def by_done(outputs):
    """The packets of each event, by the number that its line with `done` has."""
    found, packets = {}, []
    for line in outputs.splitlines():
        if not line.startswith(b"{"):
            continue
        if not line.startswith(b'{"done":'):
            packets.append(packet_of(line))
            continue
        done = json.loads(line)
        if done["line"] in found or done.get("packets", 0) != len(packets):
            return {}
        found[done["line"]] = packets
        packets = []
    return found


def by_story(text):
    """The packets of each event, by the number of its line, as draw_run.py tells them."""
    found, number = {}, 0
    for line in text.splitlines()[1:]:
        if told := TOLD_PACKET.match(line):
            found[number].append((told[1], int(told[2]), int(told[3])))
        elif told := TOLD_LINE.match(line):
            number = int(told[1])
            found[number] = []
    return found


def try_run(program, number, draw, folder):
    """How many events a run has, and at how many of them the three differ."""
    lines = drawn(program, number, draw)
    given = os.path.join(folder, "in.jsonl")
    with open(given, "wb") as file:
        file.write(wide_setup() + b"".join(line for line, _ in lines))
    with open(given, "rb") as file:
        outputs = subprocess.run([program, "play", "--done"], stdin=file, stdout=subprocess.PIPE, check=False).stdout
    story = subprocess.run([DRAW_RUN, "--text", given], input=outputs, stdout=subprocess.PIPE, check=False).stdout
    done, told = by_done(outputs), by_story(story.decode())
    wanted = [(place, packets) for place, (_, packets) in enumerate(lines, 2) if packets is not None]
    wrong = sum(done.get(count) != packets or told.get(place) != packets
                for count, (place, packets) in enumerate(wanted, 2))
    return len(wanted), wrong + abs(len(done) - len(wanted)) + abs(len(told) - len(wanted))


def main():
    parser = argparse.ArgumentParser(description=__doc__, formatter_class=argparse.RawDescriptionHelpFormatter)
    parser.add_argument("program")
    parser.add_argument("--runs", type=int, default=200)
    parser.add_argument("--events", type=int, default=80)
    parser.add_argument("--seed", type=int, default=1)
    words = parser.parse_args()
    events = wrong = 0
    with tempfile.TemporaryDirectory() as folder:
        for place in range(words.runs):
            draw = random.Random(words.seed * 1_000_003 + place)
            tried, differ = try_run(os.path.abspath(words.program), words.events, draw, folder)
            events += tried
            wrong += differ
            if differ:
                print(f"run {place}: {differ} of {tried} events differ")
    print(f"{words.runs} runs drawn by draw_run.py, of {events} events: {wrong} differ from what `done` says")
    return 1 if wrong else 0


if __name__ == "__main__":
    sys.exit(main())
