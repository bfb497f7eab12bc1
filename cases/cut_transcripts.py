#!/usr/bin/env python3
"""Weaves two transcripts of which one is cut at a byte, or lacks a line, or has a line twice: each in turn.

    cases/cut_transcripts.py PROGRAM FILE FILE [--step 1] [--workers 4]

PROGRAM is `ocpi_nodes`. Each answer must be a run (status 0: the setup line and an event a line), or one line that
refuses (status 1). Standard error has nothing, but for the words that go with the refusals 1, 2 and 5. A run, and a refusal
1, 2 or 3, must also be what cases/woven_run.py makes of the same files, where that knows. Memory that runs out is none
of them. With --step cuts come at each so many bytes. The last line says what was tried; the status is 0 where all is so.
"""

import argparse
import collections
import concurrent.futures
import json
import os
import re
import subprocess
import sys
import tempfile
import threading

sys.dont_write_bytecode = True
import woven_run

PARTY, PLACE = r"[ -~]{2}/[ -~]{3}", r"[^\n]*:\d+"
REFUSALS = [
    rf"refused 1 NeverSent\({PARTY} \d+ {PLACE}\)\n",
    rf"refused 2 Differs\({PARTY} \d+ {PLACE} {PLACE}\)\n",
    rf"refused 3 NoOrder\({PLACE}(?: {PLACE})*\)\n",
    rf"refused 5 NotARun\({PLACE}\)\n",
    rf"refused 6 WrongTranscript\({PLACE}\)\n",
    rf"refused 8 BegunLater\({PLACE}\)\n",
    rf"refused 9 LinesMissing\({PLACE}\)\n",
]
NAMES = ("one.transcript", "other.transcript")
MOST_TOLD = 20


def changed(text, step):
    """The changed texts, each with what was done."""
    for at in range(0, len(text), step):
        yield f"cut at byte {at}", text[:at]
    lines = text.splitlines(keepends=True)
    for at, line in enumerate(lines):
        yield f"without line {at + 1}", b"".join(lines[:at] + lines[at + 1:])
        yield f"with line {at + 1} twice", b"".join(lines[:at] + [line] + lines[at:])


def is_run(written):
    """Whether it is a setup line and events, each a line."""
    lines = written.split(b"\n")
    if lines.pop() != b"" or not lines:
        return False
    try:
        setup, *events = map(json.loads, lines)
    except ValueError:
        return False
    return "nodes" in setup and all("event" in event for event in events)


def modelled(texts):
    """What the rules make of the files, where the script that has them knows."""
    try:
        return woven_run.weave(zip(NAMES, texts))
    except (woven_run.Unmodelled, KeyError, TypeError, AttributeError, ValueError):
        return None


def fault_in(texts, ran):
    """What is wrong with an answer, or which kind it is of."""
    if ran.stderr and not ran.stdout.startswith((b"refused 1 ", b"refused 2 ", b"refused 5 ")):
        return f"standard error has {ran.stderr[:200]!r}", None
    wanted = modelled(texts)
    if ran.returncode == 0:
        if not is_run(ran.stdout):
            return f"no run: {ran.stdout[:200]!r}", None
        return (f"another run: {ran.stdout[-300:]!r}, and not {wanted[-300:]!r}" if wanted not in (None, ran.stdout) else None), "run"
    told = ran.stdout.decode("ascii", "replace")
    if ran.returncode != 1 or not any(re.fullmatch(form, told) for form in REFUSALS):
        return f"status {ran.returncode}, {ran.stdout[:200]!r}", None
    number = told.split()[1]
    if number in "123" and wanted not in (None, ran.stdout):
        return f"{told!r}, and not {wanted[-300:]!r}", None
    return None, f"refusal {number}"


class Trials:
    """Runs of the program, each in a folder of its own thread."""

    def __init__(self, program, folder):
        self.program, self.folder, self.local = program, folder, threading.local()

    def room(self):
        if not hasattr(self.local, "room"):
            self.local.room = tempfile.mkdtemp(dir=self.folder)
        return self.local.room

    def run(self, texts):
        for name, text in zip(NAMES, texts):
            with open(os.path.join(self.room(), name), "wb") as file:
                file.write(text)
        ran = subprocess.run([self.program, "weave", *NAMES], cwd=self.room(), capture_output=True, stdin=subprocess.DEVNULL,
                             timeout=60, check=False)
        return fault_in(texts, ran)


def pairs_of(originals, step):
    """The pairs of texts, each with what was done to which file."""
    for at in (0, 1):
        for what, text in changed(originals[at], step):
            texts = list(originals)
            texts[at] = text
            yield f"file {at + 1} {what}", texts


def main():
    options = argparse.ArgumentParser(description=__doc__.split("\n", maxsplit=1)[0])
    options.add_argument("program")
    options.add_argument("files", nargs=2)
    options.add_argument("--step", type=int, default=1)
    options.add_argument("--workers", type=int, default=os.cpu_count())
    given = options.parse_args()
    originals = []
    for path in given.files:
        with open(path, "rb") as file:
            originals.append(file.read())
    kinds, faults = collections.Counter(), 0
    with tempfile.TemporaryDirectory() as folder, concurrent.futures.ThreadPoolExecutor(given.workers) as workers:
        trials = Trials(os.path.abspath(given.program), folder)
        tried = list(pairs_of(originals, given.step))
        for (what, _), (fault, kind) in zip(tried, workers.map(lambda pair: trials.run(pair[1]), tried)):
            kinds[kind] += 1
            if fault:
                faults += 1
                if faults <= MOST_TOLD:
                    print(f"{what}: {fault}", flush=True)
    told = ", ".join(f"{kind} {number}" for kind, number in sorted(kinds.items(), key=str))
    print(f"{len(tried)} changed transcripts: {told}; {faults} answers are wrong")
    return 1 if faults or not tried else 0


if __name__ == "__main__":
    sys.exit(main())
