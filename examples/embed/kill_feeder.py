#!/usr/bin/env python3
"""Kills the feeder behind each packet that it sends, and begins it again: kill_feeder.py PROGRAM

It feeds a day of an operator. At each packet it is killed once alone, and once with its node, which is then killed too.
It is run again until all lines have their `done`. Then no packet was sent twice, and the rows are those of a day that
nobody stopped, but for the serial of the last packet. At the end it gets an older copy of its store, and must feed
nothing. The last line is 'N of M stops were as wanted'.
"""
import contextlib
import json
import os
import pathlib
import shutil
import signal
import sqlite3
import subprocess
import sys
import tempfile
import time

HERE = pathlib.Path(__file__).resolve().parent
DAY, PARTY = HERE.parent / "node" / "operators_day", "BE/BEC"


def write_day(file: str) -> int:
    """Writes the lines of the day, and answers their number."""
    text = (DAY / "in.jsonl").read_text(encoding="utf-8")
    text += "".join((DAY / "next.jsonl").read_text(encoding="utf-8").splitlines(keepends=True)[1:])
    pathlib.Path(file).write_text(text, encoding="utf-8")
    return len(text.splitlines())


def feed(program: str, folder: str, stop: int, signal_all: bool) -> tuple[int, list[int]]:
    """Runs the feeder, and kills it behind so many packets. Answers its status, and the serials of its packets."""
    words = [sys.executable, str(HERE / "feeder.py"), program, PARTY, f"{folder}/be.db", f"{folder}/lines"]
    serials = []
    with subprocess.Popen(words, stdout=subprocess.PIPE, stderr=subprocess.DEVNULL, start_new_session=True) as feeder:
        for line in feeder.stdout:
            serials.append(json.loads(line)["serial"])
            if len(serials) == stop:
                os.killpg(feeder.pid, signal.SIGKILL) if signal_all else feeder.kill()
                break
    return feeder.returncode, serials


def rows_of(folder: str) -> list[tuple[str, str, str]]:
    with contextlib.closing(sqlite3.connect(f"{folder}/be.db")) as store:
        rows = store.execute("SELECT kind, name, body FROM row_text ORDER BY kind, name").fetchall()
    return [row for row in rows if row[:2] != ("count", "serial")]


def day(program: str, stop: int, signal_all: bool) -> tuple[bool, int, list[tuple[str, str, str]]]:
    """A day with a stop: whether all lines were seen and no packet was sent twice, how many packets, and the rows."""
    with tempfile.TemporaryDirectory() as folder:
        lines = write_day(f"{folder}/lines")
        status, sent = feed(program, folder, stop, signal_all)
        # (A node that lost its feeder may have the store for a moment.)
        for _ in range(200):
            if status in (0, 1):
                break
            time.sleep(0.05)
            status, more = feed(program, folder, 0, False)
            sent += more
        seen = pathlib.Path(f"{folder}/be.db.seen").read_text(encoding="utf-8").split()
        return seen[0] == str(lines) and len(sent) == len(set(sent)), len(sent), rows_of(folder)


def refuses_older_copy(program: str) -> bool:
    """Whether the feeder feeds nothing over a copy that was made before the last lines took hold."""
    with tempfile.TemporaryDirectory() as folder:
        store, lines = f"{folder}/be.db", pathlib.Path(f"{folder}/lines")
        write_day(str(lines))
        day = lines.read_text(encoding="utf-8").splitlines(keepends=True)
        lines.write_text("".join(day[:4]), encoding="utf-8")
        feed(program, folder, 0, False)
        shutil.copy(store, f"{folder}/copy.db")
        lines.write_text("".join(day), encoding="utf-8")
        feed(program, folder, 0, False)
        shutil.copy(f"{folder}/copy.db", store)
        status, sent = feed(program, folder, 0, False)
        return status == 1 and not sent


def main(program: str) -> int:
    is_right, packets, wanted = day(program, 0, False)
    stops = [(stop, signal_all) for stop in range(1, packets + 1) for signal_all in (False, True)]
    passed = 0
    for stop, signal_all in stops:
        is_well, _, rows = day(program, stop, signal_all)
        passed += is_well and rows == wanted
    refused = refuses_older_copy(program)
    print(f"an older copy of the store was {'refused' if refused else 'FED'}")
    print(f"{passed} of {len(stops)} stops were as wanted")
    return 0 if is_right and refused and passed == len(stops) > 0 else 1


if __name__ == "__main__":
    sys.exit(main(os.path.abspath(sys.argv[1])))
