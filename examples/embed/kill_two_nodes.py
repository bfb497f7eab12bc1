#!/usr/bin/env python3
"""Kills two_nodes.py and its nodes at each packet, and begins them again: kill_two_nodes.py PROGRAM [--all]

A charge runs between an operator and a provider. Once each packet is printed, one of VICTIMS is killed, in turn, or
with --all each of them in a charge of its own. Then all is begun again, until the charge is done. Each time both stores
must say that the same is owed, and have rows of the same names, as in a charge that nobody stopped: one session, and
one bill. Each line of a node must have been seen done under its number. The last line is 'N of M stops were as wanted',
and the status 0 where all were.

(With --hold STOP VICTIM FOLDER it is what it starts: two_nodes.py, with a print that kills.)
"""
import contextlib
import os
import pathlib
import signal
import sqlite3
import subprocess
import sys
import tempfile
import time

sys.dont_write_bytecode = True
import two_nodes

HERE = pathlib.Path(__file__).resolve().parent
CHARGE = HERE.parent / "play" / "charge" / "in.jsonl"
NAMES = ("BE-BEC", "NL-TNM")
# What is killed: the program that holds both nodes, it and both nodes, one node alone.
VICTIMS = ("the holder", "all", "the operator", "the provider")
# A node that lost its holder may have its store for a moment.
MOST_BEGINNINGS = 200
# How much of what is not as wanted is shown.
MOST_SHOWN = 300


def nodes_of(holder: int) -> list[int]:
    """The processes that a process started, the first one first."""
    found = []
    for path in pathlib.Path("/proc").glob("[0-9]*/stat"):
        with contextlib.suppress(OSError):
            if int(path.read_text().rpartition(")")[2].split()[1]) == holder:
                found.append(int(path.parent.name))
    return sorted(found)


def kill(victim: str) -> None:
    """Kills nodes, and this process, which holds them, last."""
    nodes, holder = nodes_of(os.getpid()), os.getpid()
    chosen = {"the holder": [holder], "all": [*nodes, holder], "the operator": nodes[:1], "the provider": nodes[1:]}
    for number in chosen[victim]:
        os.kill(number, signal.SIGKILL)


def hold(program: str, stop: str, victim: str, folder: str) -> int:
    """Runs two_nodes.py, with a print that kills once so many lines are printed."""
    printed = 0

    def print_and_kill(*words: object, **more: object) -> None:
        nonlocal printed
        print(*words, **more)
        printed += 1
        if printed == int(stop):
            kill(victim)
    two_nodes.print = print_and_kill
    return two_nodes.main(program, folder, str(CHARGE))


def begin(program: str, folder: str, stop: int, victim: str) -> tuple[int, list[str]]:
    """Runs both nodes. Gives the status, and what was printed."""
    words = [sys.executable, __file__, program, "--hold", str(stop), victim, folder]
    ended = subprocess.run(words, stdout=subprocess.PIPE, stderr=subprocess.DEVNULL, text=True, check=False)
    return ended.returncode, ended.stdout.splitlines()


def left(folder: pathlib.Path, name: str) -> tuple[list[tuple[str, str]], bool]:
    """What a node left: the names of its rows, and whether each of its lines was seen done under its number."""
    with contextlib.closing(sqlite3.connect(folder / f"{name}.db")) as store:
        rows = store.execute("SELECT kind, name FROM row_text ORDER BY kind, name").fetchall()
    lines = len((folder / f"{name}.lines").read_text().splitlines())
    return rows, (folder / f"{name}.seen").read_text().split()[0] == str(lines + 1)


def charge(program: str, stop: int, victim: str) -> tuple[int, list[str], list[tuple[list[tuple[str, str]], bool]]]:
    """A charge with a stop: how many packets the last run printed, what is owed at the end, and what the nodes left."""
    with tempfile.TemporaryDirectory() as folder:
        status, printed = begin(program, folder, stop, victim)
        if status == 0 and stop:
            return 0, ["nothing was stopped"], []
        for _ in range(MOST_BEGINNINGS):
            if status == 0:
                break
            time.sleep(0.05)
            status, printed = begin(program, folder, 0, victim)
        at_end = -len(NAMES)
        return len(printed) + at_end, printed[at_end:], [left(pathlib.Path(folder), name) for name in NAMES]


def main(program: str, *words: str) -> int:
    packets, *wanted = charge(program, 0, "")
    stops = [(stop, victim) for stop in range(1, packets + 1) for place, victim in enumerate(VICTIMS)
             if "--all" in words or stop % len(VICTIMS) == place]
    passed = 0
    for stop, victim in stops:
        _, *came = charge(program, stop, victim)
        passed += came == wanted
        if came != wanted:
            print(f"{victim} was killed at packet {stop}: {came}"[:MOST_SHOWN])
    print(f"{passed} of {len(stops)} stops were as wanted")
    owed, nodes = wanted
    is_right = len({line.split(": ")[1] for line in owed}) == 1 and all(is_seen for _, is_seen in nodes)
    return 0 if is_right and passed == len(stops) > 0 else 1


if __name__ == "__main__":
    if sys.argv[2:3] == ["--hold"]:
        sys.exit(hold(sys.argv[1], *sys.argv[3:]))
    sys.exit(main(os.path.abspath(sys.argv[1]), *sys.argv[2:]))
