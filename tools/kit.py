#!/usr/bin/env python3
"""The command `rt` of the kit as a module, for the scripts beside this one; as a program it is that command: kit.py WORD..

It does the same, but for this:

- A crate's sum has those of the crates below it in it. Some kits take the sum of a crate once for each path that leads
  to it, which at the upper crates is tens of thousands of times. Here it is taken once for each question. The same
  holds of the crates below a crate, which do not change: they are found once.
- Tasks run side by side as tools/lanes.py says: RT_JOBS of them, or one a processor, each with one job (with more jobs
  a check takes up to a third more processor time). Of the libraries' checks from nothing most took less than half of
  the memory that the kit guesses, so one counts half. (`node_store` took 0.64 of it, `node_keepers` 0.83.) That of a
  program counts six tenths, as does a try of edits, since a search that fails takes more: `ocpi_nodes` took some 6 GB
  of 9 and the edit of `node_harness` 4.2 of 7.8.
- `kit.py ci` tries the edits of a crate in one check of the functions that they change (tools/wrong_together.py), once
  the crate is proved. Those that get no verdict so are tried as the kit does, each by a check from nothing. (Some kits
  keep what an edit came to, for later runs on the machine; others prove everything anew, and take no names of crates.)
- The two compilations of a program run side by side, where there is memory for both.
- At the end of the tasks of `kit.py ci` it prints what each took, behind the word `took:`.
"""
import contextlib
import importlib.machinery
import importlib.util
import os
import shutil
import subprocess
import sys
import threading

import lanes
from wrong_together import together

# The task whose time is the unit of the table: its crate is small, and stands low.
UNIT = "session_state", "proof"
# What the two compilations of a program take beside each other, in bytes.
TWO_COMPILATIONS = 9_000_000_000


def load_rt():
    """The command rt as a module."""
    path = os.path.realpath(shutil.which("rt") or sys.exit("the command rt is not on the PATH"))
    loader = importlib.machinery.SourceFileLoader("rt", path)
    made = importlib.util.module_from_spec(importlib.util.spec_from_loader("rt", loader))
    loader.exec_module(made)
    made.rtlib.Crate.stamp = taken_once(made.rtlib.Crate.stamp)
    made.rtlib.Crate.below = found_once(made.rtlib.Crate.below)
    made.Crate.compile_by = side_by_side(made, made.Crate.compile_by)
    if hasattr(made, "add_edits"):
        made.add_edits = in_one_check(made, made.add_edits)
    made.in_lanes = in_lanes_of(made)
    subprocess.Popen = lanes.Timed
    made.rtlib.ThreadPoolExecutor = lanes.Threads
    return made


def in_lanes_of(rt, tells=False):
    """How tasks are run side by side. The rest of the system gets what no task may take."""

    def part(key):
        crate, what = lanes.parts_of(key)
        return 0.6 if what == "edits" or os.path.isfile(f"crates/{crate}/src/main.rt") else 0.5

    def of(tasks):
        counted = {
            # (a crate without tests or edits may have a task for them, which does nothing)
            key: (waits, work, 0 if lanes.parts_of(key)[1] != "proof" and not work else part(key) * needs, call)
            for key, (waits, work, needs, call) in tasks.items()}
        number = os.environ.get("RT_JOBS", "")
        with getattr(rt, "ending", contextlib.nullcontext)():
            given, took = lanes.in_lanes(counted, int(number) if number.isdigit() else rt.processors(), 0.85 * rt.free())
        if tells:
            for line in lanes.table_of(counted, took, UNIT):
                print(f"took: {line}", flush=True)
        return given

    return of


def in_one_check(rt, one_by_one):
    """How a crate's edits are tried by `rt ci`: in one check of the functions that they change."""

    def add_edits(tasks, crate, edits, first, waits, is_well, kept, start=None, in_ci=True):
        if not in_ci or not edits:
            return one_by_one(tasks, crate, edits, first, waits, is_well, kept, start, in_ci)
        tries = Tries(rt, crate, edits, kept)

        def call(given, jobs):
            return tries.all() if is_well(given, len(edits) - len(tries.known())) else None

        tasks[crate.name, "edits"] = ([*waits, *first], crate.count(rb"\n"), rt.need(crate), call)
        return lambda given: given[crate.name, "edits"], tries.known

    return add_edits


class Tries:
    """The edits of a crate that is proved, and what earlier runs on this machine came to with them."""

    def __init__(self, rt, crate, edits, kept):
        self.rt, self.crate, self.edits, self.kept = rt, crate, edits, kept
        self.names = self.earlier = None
        self.files = [self.state_of(it) for it in edits]

    @staticmethod
    def state_of(edit):
        found = os.stat(edit)
        return found.st_ino, found.st_size, found.st_mtime_ns, found.st_ctime_ns

    def known(self):
        """What earlier runs came to, and what was said, by the edits' numbers. It is asked for once the libraries below stand."""
        if self.earlier is None:
            made = self.kept.key(self.crate)
            self.names = [self.kept.of_edit(it, made) for it in self.edits]
            told = {number: self.kept.tried(name) for number, name in enumerate(self.names)}
            self.earlier = {number: it for number, it in told.items() if it}
        return self.earlier

    def all(self):
        """What each edit comes to, and what to say of it."""
        known = self.known()
        left = [it for number, it in enumerate(self.edits) if number not in known]
        refused = {edit: line for edit, _, line in together(self.rt, self.crate, left)} if left else {}
        return [known.get(number) or self.one(number, edit, refused) for number, edit in enumerate(self.edits)]

    def one(self, number, edit, refused):
        """What an edit comes to that no earlier run has tried. It is kept where no file that it stands on was touched."""
        if edit in refused:
            tried = self.rt.REFUSED, refused[edit]
        else:
            tried = self.rt.must_fail(self.crate, edit, ["--jobs", "1"])
        if tried[0] in self.rt.SETTLED and self.kept.is_untouched(self.crate):
            with contextlib.suppress(OSError):
                if self.state_of(edit) == self.files[number]:
                    self.kept.keep_tried(self.names[number], *tried)
        return tried


def all_in_one_check(rt):
    """The same where the kit tries a crate's edits by one call, and keeps nothing of what they came to."""

    def must_fail_all(crate, edits, flags):
        refused = {edit: line for edit, _, line in together(rt, crate, edits)}
        return [(True, refused[it]) if it in refused else rt.must_fail(crate, it, flags) for it in edits]

    return must_fail_all


def side_by_side(rt, compile_by):
    """How a proved program is compiled: by both compilers at once, where there is memory for that."""
    second = {}

    def of(crate, backend, words, to):
        if backend == "rattle" and crate.folder in second:
            return second.pop(crate.folder).result()
        if backend != "llvm" or rt.free() < TWO_COMPILATIONS:
            return compile_by(crate, backend, words, to)
        # (both have ended before either result is looked at)
        with lanes.Threads(1) as pool:
            second[crate.folder] = pool.submit(compile_by, crate, "rattle", words, to)
            return compile_by(crate, backend, words, to)

    return of


def found_once(below):
    """How the crates below a crate are found, once for each crate."""
    found = {}

    def of(crate):
        if crate.folder not in found:
            found[crate.folder] = below(crate)
        return list(found[crate.folder])

    return of


def taken_once(stamp):
    """How a crate's sum is taken, so that while one is, each below it is taken once."""
    here = threading.local()

    def taken(crate):
        is_first = not hasattr(here, "sums")
        if is_first:
            here.sums = {}
        try:
            if crate.folder not in here.sums:
                here.sums[crate.folder] = stamp(crate)
            return here.sums[crate.folder]
        finally:
            if is_first:
                del here.sums

    return taken


def main(words):
    rt = load_rt()
    is_gate = words[:1] == ["ci"]
    rt.in_lanes = in_lanes_of(rt, tells=is_gate)
    if is_gate and not hasattr(rt, "add_edits"):
        rt.must_fail_all = all_in_one_check(rt)
    return rt.main(words)


if __name__ == "__main__":
    sys.dont_write_bytecode = True
    sys.exit(main(sys.argv[1:]))
