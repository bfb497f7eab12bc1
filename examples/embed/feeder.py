#!/usr/bin/env python3
"""Feeds a node over a pipe, ahead of its answers, and goes on after any stop: feeder.py PROGRAM PARTY STORE LINES

LINES has the setup, and then an event a line. Line n of the file is line n of the node for good, so only append to it.
STORE.seen has two numbers: the last line whose `done` was seen, and the last that was seen to change something. Packets
are printed, where another feeder sends them. Kill feeder, node or both, and run it again.
"""
import contextlib
import json
import pathlib
import subprocess
import sys
import threading
from typing import TextIO


def feed(pipe: TextIO, lines: list[str]) -> None:
    """Feeds all lines, however far the node is behind, and ends its input."""
    with contextlib.suppress(BrokenPipeError), pipe:
        pipe.writelines(line + "\n" for line in lines)


def note(file: pathlib.Path, seen: int, changed: int) -> None:
    """Notes both numbers. (A stop leaves these or those of before, which may be given too.)"""
    new = file.with_name(file.name + ".new")
    new.write_text(f"{seen} {changed}\n", encoding="utf-8")
    new.replace(file)


def main(program: str, party: str, store: str, lines: str) -> int:
    noted = pathlib.Path(store + ".seen")
    seen, changed = map(int, noted.read_text(encoding="utf-8").split()) if noted.exists() else (1, 1)
    setup, *events = pathlib.Path(lines).read_text(encoding="utf-8").splitlines()
    words = [program, "node", party, "--store", store, *["--existing"] * noted.exists()]
    node = subprocess.Popen(words, stdin=subprocess.PIPE, stdout=subprocess.PIPE, encoding="utf-8", bufsize=1)
    node.stdin.write(json.dumps({**json.loads(setup), "line": seen}) + "\n")
    for line in node.stdout:
        said = json.loads(line) if line.endswith("\n") else {"done": "cut", "event": 0}
        if "done" not in said:
            print(line, end="", flush=True)
        elif said["done"] == "opened":
            if said["line"] < changed:
                sys.exit(f"{store}: an older copy, which has line {said['line']}, and line {changed} was seen")
            note(noted, seen, changed)
            threading.Thread(target=feed, args=(node.stdin, events[seen - 1:]), daemon=True).start()
        else:
            changed = said["line"] if said["done"] == "stepped" else changed
            if "event" not in said:
                seen = max(seen, said["line"])
                note(noted, seen, changed)
    return node.wait()


if __name__ == "__main__":
    sys.exit(main(*sys.argv[1:]))
