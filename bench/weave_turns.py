#!/usr/bin/env python3
"""Measures `weave_turns` of the library `weave`, over histories in memory.

    bench/weave_turns.py [--runs 5] [PROGRAM]

It builds bench/weave_turns/main.rt.txt without proofs, optimised (tools/build_unproved), in a copy of the crates, which
takes some minutes; or it takes PROGRAM, which was built so before. Each line tells the median of the processor times of
some runs, beside what is wanted: at most 1.5 s for 64 nodes of 10,000 entries each, and 0.3 s for two of 100,000. What
each delivery waits for stands at the head of that source. The status is 1 where one is above. The machine should have
nothing else to do, and 3 GB of memory are wanted.
"""

import argparse
import glob
import os
import shutil
import statistics
import subprocess
import sys
import tempfile

TOP = os.path.dirname(os.path.dirname(os.path.abspath(__file__)))
LIBRARIES = "ocpi_text ocpi_types ocpi_json histories weave"
WANTED = [(64, 10_000, 1.5), (2, 100_000, 0.3)]
SHAPES = ("apart", "pairs", "along", "against", "crossed")


def build(folder, program):
    """Builds the program in a copy of the crates."""
    for path in glob.glob(f"{TOP}/crates/*/"):
        name = os.path.basename(path.rstrip("/"))
        for part in ("src", "specs", "proofs"):
            if os.path.isdir(f"{path}{part}"):
                shutil.copytree(f"{path}{part}", f"{folder}/crates/{name}/{part}")
    crate = f"{folder}/crates/weave_turns"
    os.makedirs(f"{crate}/src")
    shutil.copy(f"{TOP}/bench/weave_turns/main.rt.txt", f"{crate}/src/main.rt")
    for name in ("HANDLES", "crates.txt"):
        shutil.copy(f"{TOP}/{name}", folder)
    with open(f"{folder}/crates.txt", "a", encoding="utf-8") as file:
        file.write(f"weave_turns: {LIBRARIES}\n")
    subprocess.run([f"{TOP}/tools/build_unproved", "--news", "weave_turns", crate, program], check=True)


def seconds(program, nodes, entries, shape):
    """The processor time that one run tells."""
    ran = subprocess.run([program, str(nodes), str(entries), shape], capture_output=True, check=True, text=True)
    *said, number, unit = ran.stdout.split()
    wanted = ["no", "order"] if shape == "crossed" else [str(nodes * entries), "turns"]
    if said != wanted or unit != "us":
        sys.exit(f"weave_turns: {nodes} {entries} {shape} said {ran.stdout!r}")
    return int(number) / 1e6


def main():
    options = argparse.ArgumentParser(description=__doc__.split("\n", maxsplit=1)[0])
    options.add_argument("program", nargs="?")
    options.add_argument("--runs", type=int, default=5)
    given = options.parse_args()
    above = 0
    with tempfile.TemporaryDirectory() as folder:
        program = given.program and os.path.abspath(given.program)
        if not program:
            program = f"{folder}/program"
            build(folder, program)
        for nodes, entries, wanted in WANTED:
            for shape in SHAPES:
                taken = statistics.median(seconds(program, nodes, entries, shape) for _ in range(given.runs))
                above += taken > wanted
                print(f"{nodes} nodes of {entries} entries, {shape}: {taken:.3f} s (wanted: {wanted} s)", flush=True)
    return 1 if above else 0


if __name__ == "__main__":
    sys.exit(main())
