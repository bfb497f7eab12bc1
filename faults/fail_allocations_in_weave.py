#!/usr/bin/env python3
"""Weaves transcripts once for each allocation that this makes, with that allocation failing.

    faults/fail_allocations_in_weave.py PROGRAM FILE.. [--workers 4]

PROGRAM is `ocpi_nodes`, in whose process faults/fail_allocation.c stands before the C library (it is built here). Each run must
give what it gives with ample memory, or `refused 4 Memory` alone with status 1; only the words beside a refusal may be wanting.
Before the words of the command line are read memory may also run out for these: status 2, no output, and standard error says so;
such runs are counted apart. No run may be
refused so where no allocation failed. The last line says what was tried.
"""

import argparse
import collections
import concurrent.futures
import os
import subprocess
import sys
import tempfile

HERE = os.path.dirname(os.path.abspath(__file__))
FAILED, MEMORY = b"an allocation failed\n", b"refused 4 Memory\n"
# What the program says where memory runs out for its own words.
WORDS = b"out of memory"
# How many runs are begun before it is seen whether one of them makes so many allocations.
AT_ONCE = 200


def build(folder):
    """The library with the calls that fail."""
    path = os.path.join(folder, "fail.so")
    names = [f"-D__wrap_{name}={name}" for name in ("malloc", "realloc")]
    names += [f"-D__real_{name}=__libc_{name}" for name in ("malloc", "realloc")]
    subprocess.run(["cc", "-shared", "-fPIC", "-O1", *names, "-o", path, f"{HERE}/fail_allocation.c"], check=True)
    return path


class Weaving:
    """Runs of the program over the same files."""

    def __init__(self, given, library):
        self.words, self.library = [os.path.abspath(given.program), "weave", *given.files], library
        self.status, self.output, said = self.run(0)
        self.said = said
        if self.status not in (0, 1) or said and not said.startswith(b"weave: ") or self.output == MEMORY:
            sys.exit(f"fail_allocations_in_weave: with ample memory: status {self.status}, {said[:200]!r}")

    def run(self, number):
        environment = {**os.environ, "LD_PRELOAD": self.library, "FAIL_ALLOCATION": str(number)}
        ran = subprocess.run(self.words, env=environment, capture_output=True, stdin=subprocess.DEVNULL, timeout=120, check=False)
        return ran.returncode, ran.stdout, ran.stderr

    def kind_of(self, number):
        """What came of the run in which that allocation fails; `none` where it makes fewer."""
        status, output, said = self.run(number)
        rest = said.replace(FAILED, b"", 1)
        is_whole = (status, output) == (self.status, self.output) and rest in (b"", self.said)
        if rest == said:
            return "none" if is_whole and said == self.said else f"WRONG without a failed allocation: status {status}, {output[:200]!r}, {said[:200]!r}"
        if is_whole:
            return "whole"
        if (status, output, rest) == (1, MEMORY, b""):
            return "refused 4 Memory"
        if status == 2 and not output and WORDS in rest:
            return "no memory for the command line"
        return f"WRONG: status {status}, {output[-200:]!r}, {rest[:200]!r}"


def main():
    options = argparse.ArgumentParser(description=__doc__.split("\n", maxsplit=1)[0])
    options.add_argument("program")
    options.add_argument("files", nargs="+")
    options.add_argument("--workers", type=int, default=os.cpu_count())
    given = options.parse_args()
    kinds, wrong, first = collections.Counter(), 0, 1
    with tempfile.TemporaryDirectory() as folder, concurrent.futures.ThreadPoolExecutor(given.workers) as workers:
        weaving = Weaving(given, build(folder))
        while not kinds["none"]:
            numbers = range(first, first + AT_ONCE)
            for number, kind in zip(numbers, workers.map(weaving.kind_of, numbers)):
                if kind.startswith("WRONG"):
                    wrong += 1
                    print(f"allocation {number}: {kind}", flush=True)
                else:
                    kinds[kind] += 1
            first += AT_ONCE
    del kinds["none"]
    told = ", ".join(f"{kind}: {number}" for kind, number in sorted(kinds.items()))
    print(f"each of {sum(kinds.values()) + wrong} allocations failed once: {told}; {wrong} answers are wrong")
    return 1 if wrong or not kinds["refused 4 Memory"] else 0


if __name__ == "__main__":
    sys.exit(main())
