#!/usr/bin/env python3
"""Plays a run once for each allocation that it makes, with that allocation failing.

    faults/fail_allocations_in_play.py PROGRAM INPUT OUTPUT

PROGRAM is `case_lines` (or `ocpi_nodes`), built with faults/fail_allocation.c (tools/build_unproved); OUTPUT is what INPUT gives with ample
memory. The lines go in one by one, each with an event behind it that is of no node, so that its end can be seen. A line that
is refused for want of memory is given once more, and must then give what it gives with ample memory, and so must all lines
behind it: so the refusal left every node as it was. A run that ends early with status 1, or with status 3 where a keeper of
a node's rows had no memory, must have written a beginning of OUTPUT. At most one line a run may be refused so, and none where no allocation failed. The last line says what was tried.
"""

import os
import subprocess
import sys

# An event that is of no node, and a line that is no JSON: each shows where the answers of the lines before it end.
MARK, SKIPPED = b'{"event":"tick","node":"no/bdy","at":"2025-01-01T00:00:00Z"}\n', b"skipped\n"
OTHER_MARK, REFUSED = b"{\n", b"refused 1 Syntax\n"
WITHOUT_MEMORY = (b"refused 4 Memory\n", b"refused 8 Memory\n")


class Ended(Exception):
    """The program ended before it answered all lines."""


class Played:
    """A run of the program in which one allocation fails."""

    def __init__(self, program, number):
        environment = {**os.environ, "FAIL_ALLOCATION": str(number)}
        self.program = subprocess.Popen([program, "play"], env=environment, stdin=subprocess.PIPE,
                                        stdout=subprocess.PIPE, stderr=subprocess.PIPE)
        self.written = b""
        self.refused = 0

    def give(self, line):
        try:
            self.program.stdin.write(line)
            self.program.stdin.flush()
        except BrokenPipeError as fault:
            raise Ended from fault

    def read_to(self, end):
        """The lines up to that one, or up to one that tells want of memory, which is answered too."""
        lines = []
        while True:
            line = self.program.stdout.readline()
            if not line:
                self.written += b"".join(lines)
                raise Ended
            if line == end or line in WITHOUT_MEMORY:
                return lines, line
            lines.append(line)

    def answer(self, line):
        """What a line gives; none where it was refused for want of memory."""
        self.give(line + MARK)
        lines, end = self.read_to(SKIPPED)
        if end == SKIPPED:
            return lines
        self.refused += 1
        self.give(OTHER_MARK)
        more, _ = self.read_to(REFUSED)
        if more == [SKIPPED] and not lines:
            return None
        if more:
            raise AssertionError(f"{more[0][:80]!r} behind a refusal for want of memory")
        return lines

    def event(self, line, wanted):
        """An event goes in, once more where memory ran out, and `wanted` lines come out."""
        lines = self.answer(line)
        if lines is None:
            lines = self.answer(line)
        if lines != wanted:
            raise AssertionError(f"{line[:80]!r} gave {lines}")
        self.written += b"".join(wanted)


def parts_of(program, lines):
    """What each line gives with ample memory."""
    parts = []
    run = Played(program, 0)
    run.give(lines[0])
    for line in lines[1:]:
        run.give(line + MARK)
        parts.append(run.read_to(SKIPPED)[0])
    return parts


def play(program, lines, parts, number, whole):
    """Plays the run with that allocation failing. Answers how many failed and how many lines were refused for it."""
    run = Played(program, number)
    is_whole = False
    try:
        run.give(lines[0])
        for line, wanted in zip(lines[1:], parts):
            run.event(line, wanted)
        is_whole = True
    except Ended:
        pass
    rest, said = run.program.communicate()
    failed = said.count(b"an allocation failed")
    status = run.program.returncode
    # (the program may have refused the setup and ended before the next line was given)
    written = run.written + (b"" if rest in WITHOUT_MEMORY else rest)
    if is_whole and status == (1 if run.refused else 0) and written == whole and run.refused <= failed:
        return failed, run.refused
    if failed == 1 and status in (1, 2, 3) and written != whole and whole.startswith(written):
        return failed, 0
    raise AssertionError(f"allocation {number}: status {status}, {run.refused} refused, {written[-200:]!r}, {said[:200]!r}")


def main():
    program, given, wanted = sys.argv[1:]
    with open(given, "rb") as file:
        lines = file.read().splitlines(keepends=True)
    with open(wanted, "rb") as file:
        whole = file.read()
    parts = parts_of(program, lines)
    number = refused = 0
    while True:
        failed, again = play(program, lines, parts, number + 1, whole)
        if not failed:
            break
        number, refused = number + 1, refused + again
    print(f"each of {number} allocations failed once; {refused} times a line was refused for it and given once more, and the output was whole")
    return 0 if number and refused else 1


if __name__ == "__main__":
    sys.exit(main())
