#!/usr/bin/env python3
"""Makes the cases of the program `case_lines`: a text and what it must give for each part, in the folder
cases/out/lines, and a choice of them in cases/out/without_memory. Git ignores both folders.

    cases/makers/make_lines.py [--sums]

They are made where they do not stand, or where a file that they are made from has changed since. Then it tells which
lines came and which went. The SHA-256 sum of each text stands in cases/SHA256SUMS: a text that differs from its sum is
told by its name, and the status is 1. With --sums that file is written anew. What each part holds is told in
`call_cases`, `packet_cases`, `book_cases`, `operator_cases`, `provider_cases`, `stored_cases`, `world_cases`,
`kept_cases`, `store_cases`, `cell_cases`, `woven_cases`, `thread_cases` and `long_run_cases`. To see where the program
differs:

    tools/try cases
"""

import collections
import contextlib
import fcntl
import hashlib
import importlib
import os
import pathlib
import shutil
import sys

TOP = pathlib.Path(__file__).resolve().parents[2]
MAKERS, MADE, SUMS = TOP / "cases/makers", TOP / "cases/out", TOP / "cases/SHA256SUMS"
# The sums of the files that the texts which stand were made from.
MADE_FROM = MADE / "made_from"
PARTS = {
    "calls": "call_cases",
    "packets": "packet_cases",
    "books": "book_cases",
    "operator": "operator_cases",
    "provider": "provider_cases",
    "nodes": "stored_cases",
    "worlds": "world_cases",
    "kept_nodes": "kept_cases",
    "stores": "store_cases",
    "cells": "cell_cases",
    "woven": "woven_cases",
    "threads": "thread_cases",
    "long_runs": "long_run_cases",
}
# Some cases of these parts are in without_memory too.
WITHOUT_MEMORY = ("operator", "provider", "nodes", "kept_nodes", "cells", "woven", "threads", "stores")
FOLDERS = ("lines", "without_memory")
# How many of the lines that came or went are shown of each text, and how much of each.
SHOWN, SHOWN_LENGTH = 5, 150


def sum_of(file):
    return hashlib.sha256(file.read_bytes()).hexdigest()


def sums_below(top, files):
    """The sums of these files, in the form of the command sha256sum."""
    return "".join(f"{sum_of(file)}  {file.relative_to(top)}\n" for file in sorted(files))


def texts_in(folder):
    """The texts that were made in a folder."""
    return [file for name in FOLDERS for file in (folder / name).glob("*")]


def read_sums(file):
    """The sum of each name in a file that has the form of the command sha256sum."""
    lines = file.read_text(encoding="utf-8").splitlines() if file.is_file() else []
    return {name: digest for digest, name in (line.split("  ", 1) for line in lines)}


# --- making ---


def watch_reads():
    """The files of the repository that are read from now on; so no list of them can be wrong."""
    read = set()

    def note(event, given):
        if event == "open" and isinstance(given[0], str):
            read.add(given[0])

    sys.addaudithook(note)
    return read


def part(name, lines):
    """The lines of a part, behind its name."""
    return [f"\f{name}", *lines]


def write(file, lines):
    file.write_text("".join(f"{line}\n" for line in lines), encoding="utf-8", newline="\n")


def make(folder):
    """Makes all texts in a folder."""
    makers = {name: importlib.import_module(module) for name, module in PARTS.items()}
    for name in FOLDERS:
        (folder / name).mkdir(parents=True)
    for name, told in makers.items():
        given, gives = told.cases()
        write(folder / "lines" / name, part(name, given))
        write(folder / "lines" / f"{name}.stdout", gives)
        print(f"{name}: {len(given)} lines")
    without_memory = [(role, *case) for role in WITHOUT_MEMORY for case in makers[role].cases_without_memory()]
    for at, (role, name, given, gives) in enumerate(without_memory, 1):
        write(folder / "without_memory" / f"{at}", part(role, given))
        write(folder / "without_memory" / f"{at}.stdout", gives)
        print(f"without_memory/{at}: {name}")


def made_from(read):
    """The files that the texts are made from: all makers, and what these read in the repository."""
    others = {pathlib.Path(name).resolve() for name in read}
    others = {file for file in others if TOP in file.parents and MADE not in file.parents and file.is_file()}
    return {file for file in MAKERS.iterdir() if file.is_file()} | {it for it in others if it.suffix != ".pyc"}


def tell_change(name, before, now):
    """Tells which lines of a text came and which went."""
    before, now = ((file.read_text(encoding="utf-8").split("\n") if file.is_file() else []) for file in (before, now))
    before, now = collections.Counter(before), collections.Counter(now)
    came, went = now - before, before - now
    print(f"{name}: {sum(came.values())} lines came, {sum(went.values())} went, or others moved")
    for sign, lines in (("-", went), ("+", came)):
        for line in list(lines)[:SHOWN]:
            print(f"  {sign} {line[:SHOWN_LENGTH]}")


def make_anew():
    """Makes all texts, tells what changed, and puts them in the place of those that stood."""
    read, new = watch_reads(), MADE / "new"
    shutil.rmtree(new, ignore_errors=True)
    make(new)
    stood = {str(file.relative_to(MADE)) for file in texts_in(MADE)}
    for name in sorted(stood | {str(file.relative_to(new)) for file in texts_in(new)}) if stood else ():
        before, now = MADE / name, new / name
        if not before.is_file() or not now.is_file() or before.read_bytes() != now.read_bytes():
            tell_change(name, before, now)
    MADE_FROM.unlink(missing_ok=True)
    for name in FOLDERS:
        shutil.rmtree(MADE / name, ignore_errors=True)
        (new / name).rename(MADE / name)
    new.rmdir()
    MADE_FROM.write_text(sums_below(TOP, made_from(read)), encoding="utf-8")


def stands():
    """Whether all texts stand as their sums say, and were made from the files as they are."""
    read = read_sums(MADE_FROM)
    if not read or any(not (TOP / name).is_file() or sum_of(TOP / name) != digest for name, digest in read.items()):
        return False
    makers = {str(file.relative_to(TOP)) for file in MAKERS.iterdir() if file.is_file()}
    return makers <= read.keys() and not list(differing())


def differing():
    """The texts that are not as cases/SHA256SUMS says, each with what is wrong."""
    wanted = read_sums(SUMS)
    made = {str(file.relative_to(MADE)): sum_of(file) for file in texts_in(MADE)}
    for name in sorted(wanted.keys() | made.keys()):
        if name not in made:
            yield f"cases/out/{name}: it is not made, and cases/SHA256SUMS has its sum"
        elif name not in wanted:
            yield f"cases/out/{name}: cases/SHA256SUMS has no sum of it"
        elif made[name] != wanted[name]:
            yield f"cases/out/{name}: its SHA-256 sum is not the one in cases/SHA256SUMS"


@contextlib.contextmanager
def alone():
    """While no other process makes the texts."""
    MADE.mkdir(exist_ok=True)
    with open(MADE / "lock", "w", encoding="utf-8") as lock:
        fcntl.flock(lock, fcntl.LOCK_EX)
        yield


def main():
    if sys.argv[1:] not in ([], ["--sums"]):
        sys.exit("usage: make_lines.py [--sums]")
    sys.dont_write_bytecode = True
    with alone():
        if not stands():
            make_anew()
        if sys.argv[1:]:
            SUMS.write_text(sums_below(MADE, texts_in(MADE)), encoding="utf-8")
        wrong = list(differing())
    print("\n".join(wrong), end="\n" if wrong else "")
    return 1 if wrong else 0


if __name__ == "__main__":
    sys.exit(main())
