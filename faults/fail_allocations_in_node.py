#!/usr/bin/env python3
"""Runs one node once for each allocation that it makes, with that allocation failing.

    faults/fail_allocations_in_node.py PROGRAM PARTY INPUT [--store]

PROGRAM is `ocpi_nodes`, in whose process faults/fail_allocation.c stands before the C library (it is built here). The lines of
INPUT go in one by one. With `--store` each run has a new store. Of each run one of these must hold:

- all is as with ample memory;
- memory ran out at a line: status 3, `memory: 4 Memory`, nothing is written for that line, and all before it is as with
  ample memory. A store then has rows and number of before that line, or of behind it, as the next run opens it;
- the same of the keeper of the node's rows, with `store: 4 Memory`;
- the same in a line of several events, wherever in it there was no memory. A store then has those of before that line;
- the run ends with status 1 or 2 for want of memory elsewhere, and what it wrote is a beginning of that.

Some runs must have ended in each of the first two ways at a line of one event, where INPUT has some behind the setup; so
must some at lines of several events. The last line says what was tried.
"""

import argparse
import collections
import concurrent.futures
import json
import os
import subprocess
import sys
import tempfile

from fail_allocations_in_weave import FAILED, build

STORE, MEMORY = b"store: 4 Memory\n", b"memory: 4 Memory\n"
# How many runs are begun before it is seen whether one of them makes so many allocations.
AT_ONCE = 200
# What may come of a run.
LINE, KEEPER = "a line ended the run", "the keeper ended the run"
SEVERAL = "a line of several events ended the run"


class Run:
    """A run of the program in which the allocation of that number fails, or none at 0."""

    def __init__(self, given, library, store, number):
        words = [os.path.abspath(given.program), "node", given.party, *(["--store", store] if store else [])]
        environment = {**os.environ, "LD_PRELOAD": library, "FAIL_ALLOCATION": str(number)}
        self.program = subprocess.Popen(words, env=environment, stdin=subprocess.PIPE, stdout=subprocess.PIPE, stderr=subprocess.PIPE)

    def answer(self, line):
        """What a line gives, and whether it was answered to its end."""
        try:
            self.program.stdin.write(line)
            self.program.stdin.flush()
        except BrokenPipeError:
            pass
        lines = []
        while True:
            lines.append(self.program.stdout.readline())
            if not lines[-1].endswith(b"\n"):
                return b"".join(lines), False
            if lines[-1].startswith(b'{"done":') and "event" not in json.loads(lines[-1]):
                return b"".join(lines), True

    def end(self):
        """The status, what was still written, and what was said, without that an allocation failed."""
        rest, said = self.program.communicate()
        return self.program.returncode, rest, said


def has_several(line):
    """Whether a line has several events."""
    return line.lstrip(b" \t\r").startswith(b"[")


class Node:
    """Runs of the program over the same lines."""

    def __init__(self, given, library, folder):
        self.given, self.library, self.folder = given, library, folder
        with open(given.input, "rb") as file:
            self.lines = [line for line in file.read().splitlines(keepends=True) if line.strip()]
        run = Run(given, library, self.store(0), 0)
        self.parts, self.opened = [], []
        for line in self.lines:
            gives, is_whole = run.answer(line)
            if not is_whole:
                sys.exit(f"fail_allocations_in_node: with ample memory: {gives[-200:]!r}, {run.end()}")
            self.parts.append(gives)
        self.status = run.end()[0]

    def store(self, number):
        return os.path.join(self.folder, f"{number}.db") if self.given.store else None

    def rows_behind(self, count):
        """What `opened` says of a store in which so many of the lines were carried out."""
        while len(self.opened) <= count:
            path = os.path.join(self.folder, f"behind{len(self.opened)}.db")
            run = Run(self.given, self.library, path, 0)
            for line in self.lines[: len(self.opened)]:
                run.answer(line)
            run.end()
            self.opened.append(self.opened_by(path))
            os.remove(path)
        return self.opened[count]

    def opened_by(self, path):
        run = Run(self.given, self.library, path, 0)
        gives, _ = run.answer(self.lines[0])
        run.end()
        return gives

    def kind_of(self, number):
        """What came of the run in which that allocation fails; `none` where it makes fewer."""
        try:
            return self.tried(number)
        finally:
            if self.given.store and os.path.exists(self.store(number)):
                os.remove(self.store(number))

    def tried(self, number):
        run = Run(self.given, self.library, self.store(number), number)
        for count, (line, wanted) in enumerate(zip(self.lines, self.parts)):
            gives, is_whole = run.answer(line)
            if not is_whole:
                return self.ended(number, run, count, gives, wanted)
            if gives != wanted:
                return f"WRONG: {gives[:300]!r} in line {count + 1}"
        status, rest, said = run.end()
        fails = said.count(FAILED.strip())
        if (status, rest, said.replace(FAILED, b"", 1)) == (self.status, b"", b""):
            return "whole" if fails else "none"
        if status == 3 and STORE in said and fails == 1:
            return "the keeper could not be closed"
        return f"WRONG: status {status} behind the last line, {rest[:200]!r}, {said[:300]!r}"

    def ended_by(self, count, said):
        """What ended a run in that line for want of memory."""
        if count == 0:
            return "no node was made"
        return SEVERAL if has_several(self.lines[count]) else KEEPER if STORE in said else LINE

    def ended(self, number, run, count, gives, wanted):
        """What came of a run that ended within a line."""
        status, rest, said = run.end()
        gives += rest
        if said.count(FAILED.strip()) != 1:
            return f"WRONG: status {status} in line {count + 1} without a failed allocation, {said[:300]!r}"
        if status == 3 and (STORE in said or MEMORY in said) and not gives:
            if self.given.store and os.path.exists(self.store(number)):
                left = self.opened_by(self.store(number))
                ends = (count,) if has_several(self.lines[count]) else (count, count + 1)
                if left not in map(self.rows_behind, ends):
                    return f"WRONG: {left!r} behind a stop in line {count + 1}"
            return self.ended_by(count, said)
        if status in (1, 2) and wanted.startswith(gives):
            return "the run ended for want of memory elsewhere"
        return f"WRONG: status {status} in line {count + 1}, {gives[:200]!r}, {said[:300]!r}"


def is_complete(kinds, node):
    """Whether each kind of end was met that the lines can have."""
    behind = node.lines[1:]
    wanted = [LINE, KEEPER] if any(not has_several(line) for line in behind) else []
    wanted += [SEVERAL] if any(map(has_several, behind)) else []
    return all(kinds[kind] for kind in wanted)


def main():
    parser = argparse.ArgumentParser()
    parser.add_argument("program")
    parser.add_argument("party")
    parser.add_argument("input")
    parser.add_argument("--store", action="store_true")
    parser.add_argument("--workers", type=int, default=4)
    given = parser.parse_args()
    kinds, wrong, number = collections.Counter(), 0, 0
    with tempfile.TemporaryDirectory() as folder, concurrent.futures.ThreadPoolExecutor(given.workers) as pool:
        node = Node(given, build(folder), folder)
        if given.store:
            node.rows_behind(len(node.lines))
        while not kinds["none"]:
            for at, kind in enumerate(pool.map(node.kind_of, range(number + 1, number + AT_ONCE + 1)), number + 1):
                if kind.startswith("WRONG"):
                    wrong += 1
                    print(f"allocation {at}: {kind}")
                kinds["WRONG" if kind.startswith("WRONG") else kind] += 1
            number += AT_ONCE
    del kinds["none"]
    print(f"each of {sum(kinds.values())} allocations failed once: " + ", ".join(f"{kind} {count}" for kind, count in sorted(kinds.items())))
    return 0 if not wrong and is_complete(kinds, node) else 1


if __name__ == "__main__":
    sys.exit(main())
