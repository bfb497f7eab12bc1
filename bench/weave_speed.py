#!/usr/bin/env python3
"""Measures `weave` beside `play` of the same events, in turn.

    bench/weave_speed.py PROGRAM [--lines 100000] [--runs 5]

PROGRAM is `ocpi_nodes`. The charge of examples/play/charge/in.jsonl happens again and again, until the transcripts of its operator
and its provider (`node PARTY --echo`, without stops) have so many lines each, by their mean. It tells the processor time of
`weave` over both, beside that of `play` over the run that it writes, and the ratio, which is wanted to be at most 1.5. Each
figure is a median. It also sees that `play` gives just the packets of the transcripts. The status is 1 where the ratio is
above. The machine should have nothing else to do.
"""

import argparse
import datetime
import json
import os
import statistics
import subprocess
import sys
import tempfile

TOP = os.path.dirname(os.path.dirname(os.path.abspath(__file__)))
# The lines of one charge in both transcripts, and the packets that each node sends in it.
LINES_OF_A_CHARGE, PACKETS_OF_A_CHARGE = 52, 7
BETWEEN = datetime.timedelta(hours=1)
WANTED = 1.5


def dump(value):
    return json.dumps(value, separators=(",", ":"), ensure_ascii=False).encode() + b"\n"


def again(event, count):
    """An event of the first charge, as it is in one so many charges later."""
    made = dict(event)
    at = datetime.datetime.fromisoformat(event["at"].removesuffix("Z")) + count * BETWEEN
    made["at"] = at.isoformat() + "Z"
    if "serial" in event:
        made["serial"] = event["serial"] + count * PACKETS_OF_A_CHARGE
    if "number" in event:
        made["number"] = event["number"] + count
    return made


def events_of(charges):
    """The setup line, and the events of so many charges."""
    with open(f"{TOP}/examples/play/charge/in.jsonl", "rb") as file:
        setup, *lines = file.read().splitlines(keepends=True)
    events = [json.loads(line) for line in lines]
    first = next(at for at, event in enumerate(events) if event["event"] == "submit")
    charge = [event for event in events[first:] if event["event"] != "tick"]
    return setup, events[:first] + [again(event, count) for count in range(charges) for event in charge]


def play(program, lines):
    """The packets of a run of `play`, in its order."""
    ran = subprocess.run([program, "play"], input=b"".join(lines), capture_output=True, check=True)
    return [line for line in ran.stdout.splitlines(keepends=True) if line.startswith(b"{")]


def feed_of(party, setup, events, packets):
    """The lines of `node` for one of the nodes."""
    lines = [setup]
    for event in events:
        if event["node"] != party:
            continue
        if event["event"] == "deliver":
            packet = packets[event["from"], event["serial"]]
            lines.append(dump({"event": "deliver", "node": party, "at": event["at"], "packet": None})
                         .replace(b"null", packet.rstrip(b"\n")))
        else:
            lines.append(dump(event))
    return lines


def make_transcripts(program, folder, charges):
    """Writes a transcript of each node, and answers their paths and all packets."""
    setup, events = events_of(charges)
    written = play(program, [setup, *map(dump, events)])
    packets = {}
    for line in written:
        packet = json.loads(line)
        packets[packet["from"], packet["serial"]] = line
    paths = []
    for node in json.loads(setup)["nodes"]:
        party = node["party"]
        path = os.path.join(folder, party.replace("/", ".") + ".transcript")
        with open(path, "wb") as file:
            lines = b"".join(feed_of(party, setup, events, packets))
            subprocess.run([program, "node", party, "--echo"], input=lines, stdout=file, check=True)
        paths.append(path)
    return paths, written


def processor_time(words, source, target):
    """The seconds of the processor that a run takes, its own and the system's for it."""
    actions = [(os.POSIX_SPAWN_OPEN, 0, source, os.O_RDONLY, 0),
               (os.POSIX_SPAWN_OPEN, 1, target, os.O_WRONLY | os.O_CREAT | os.O_TRUNC, 0o600)]
    child = os.posix_spawn(words[0], words, os.environ, file_actions=actions)
    _, status, used = os.wait4(child, 0)
    if os.waitstatus_to_exitcode(status) != 0:
        sys.exit(f"weave_speed: {' '.join(words)} ended with status {os.waitstatus_to_exitcode(status)}")
    return used.ru_utime + used.ru_stime


def count_lines(path):
    with open(path, "rb") as file:
        return file.read().count(b"\n")


def main():
    options = argparse.ArgumentParser(description=__doc__.split("\n", maxsplit=1)[0])
    options.add_argument("program")
    options.add_argument("--lines", type=int, default=100_000)
    options.add_argument("--runs", type=int, default=5)
    given = options.parse_args()
    program = os.path.abspath(given.program)
    with tempfile.TemporaryDirectory(dir="/dev/shm" if os.path.isdir("/dev/shm") else None) as folder:
        paths, written = make_transcripts(program, folder, max(2 * given.lines // LINES_OF_A_CHARGE, 1))
        woven, played = os.path.join(folder, "woven"), os.path.join(folder, "played")
        weaves, plays = [], []
        for _ in range(given.runs):
            weaves.append(processor_time([program, "weave", *paths], os.devnull, woven))
            plays.append(processor_time([program, "play"], woven, played))
        with open(played, "rb") as file:
            packets = [line for line in file.read().splitlines(keepends=True) if line.startswith(b"{")]
        if sorted(packets) != sorted(written):
            sys.exit("weave_speed: the woven run gives other packets")
        weave_s, play_s = statistics.median(weaves), statistics.median(plays)
        print(f"transcripts of {' and '.join(str(count_lines(path)) for path in paths)} lines, {count_lines(woven) - 1} events: "
              f"weave {weave_s:.2f} s, play {play_s:.2f} s: {weave_s / play_s:.2f} (wanted: {WANTED})")
    return 1 if weave_s > WANTED * play_s else 0


if __name__ == "__main__":
    sys.exit(main())
