#!/usr/bin/env python3
"""Kills `play --store` at moments drawn by chance, and looks at what the stores hold then.

    faults/stop_in_store.py PROGRAM [--events 2000] [--moments 200] [--seed 1] [--folder FOLDER]

PROGRAM is `ocpi_nodes`. First a run without a store draws the events: drivers charge at four EVSEs, packets are delivered late,
twice or never, nodes start again. Then the run is made with a store and killed (SIGKILL) at a moment that is drawn; each event has
one behind it that is of no node, so that its end can be seen. So many runs are given their lines one by one, each once the one
before was answered, and as many again read them all from a file and write to one. After each kill

- stock SQLite opens each file, and `PRAGMA integrity_check` is ok;
- `settle` reads each file, with status 0;
- the rows of all files are those after the events whose packets were written, or after one event more.

The rows that are wanted come from runs that end there by themselves. The last two lines say how many moments passed, of the runs
event by event and of those with a file. The status is 0 where all did.
"""

import argparse
import contextlib
import json
import os
import random
import shutil
import sqlite3
import subprocess
import sys
import tempfile
import time

MARK, SKIPPED = b'{"event":"tick","node":"no/bdy","at":"2025-01-01T00:00:00Z"}\n', b"skipped\n"
OPERATOR, PROVIDER = "BE/BEC", "NL/TNM"
EVSES = ["E1", "E2", "E3", "E4"]


def line_of(**members):
    return json.dumps(members, separators=(",", ":")).encode() + b"\n"


def setup_line():
    connector = {"format": "SOCKET", "id": "1", "power_type": "AC_3_PHASE", "standard": "IEC_62196_T2"}
    evses = [{"connectors": [connector], "evse_id": f"BE*BEC*{uid}", "uid": uid} for uid in EVSES]
    location = {"address": "Korenmarkt 1", "city": "Gent", "country": "BEL", "evses": evses, "id": "LOC1",
                "latitude": "51.05421", "longitude": "3.72180"}
    site = {"currency": "EUR", "locations": [location], "price": 0.25}
    return line_of(nodes=[{"party": OPERATOR, "site": site}, {"party": PROVIDER}])


def token(number):
    return {"contract_id": f"NL-TNM-{number:06}", "country_code": "NL", "issuer": "TNM", "last_updated": "2025-01-01T09:00:00Z",
            "party_id": "TNM", "type": "RFID", "uid": f"AA{number:02}", "valid": True, "whitelist": "ALWAYS"}


class Run:
    """A run of the program that is given its lines one by one."""

    def __init__(self, program, store=None):
        words = [program, "play"] + (["--store", store] if store else [])
        self.program = subprocess.Popen(words, stdin=subprocess.PIPE, stdout=subprocess.PIPE)

    def give(self, line):
        self.program.stdin.write(line + MARK)
        self.program.stdin.flush()

    def answer(self):
        """The lines of the line that was given; none where the program ended before they were all written."""
        lines = []
        while True:
            line = self.program.stdout.readline()
            if not line:
                return None
            if line == SKIPPED:
                return lines
            lines.append(line)

    def end(self):
        self.program.stdin.close()
        self.program.stdout.read()
        return self.program.wait()


class Drawing:
    """Draws events, by what the nodes sent so far."""

    def __init__(self, draw):
        self.draw, self.now, self.sent, self.kwh = draw, 10 * 3600, [], {}

    def moment(self):
        self.now += self.draw.choice([0, 1, 1, 2, 5])
        day, second = divmod(self.now, 86400)
        return f"2025-01-{1 + day:02}T{second // 3600:02}:{second // 60 % 60:02}:{second % 60:02}Z"

    def saw(self, lines):
        for line in lines:
            if line.startswith(b"{"):
                packet = json.loads(line)
                self.sent.append((packet["from"], packet["to"], packet["serial"]))

    def event(self):
        kind = self.draw.choices(["deliver", "submit", "accepts", "starts", "meter", "stops", "tick", "restart", "swipe", "token"],
                                 [60, 8, 10, 5, 8, 4, 6, 1, 2, 2])[0]
        at, evse = self.moment(), self.draw.choice(EVSES)
        if kind == "deliver" and self.sent:
            recent = self.sent[-12:] if self.draw.random() < 0.9 else self.sent
            sender, to, serial = self.draw.choice(recent)
            return {"event": kind, "node": to, "at": at, "from": sender, "serial": serial}
        if kind == "submit":
            return {"event": kind, "node": PROVIDER, "at": at, "operator": OPERATOR, "order": "start_session",
                    "token_uid": "AA01", "token_type": "RFID", "location_id": "LOC1", "evse_uid": evse, "connector_id": "1"}
        if kind == "accepts":
            number = self.draw.randint(1, 3 + len({s for f, _, s in self.sent if f == PROVIDER}))
            return {"event": kind, "node": OPERATOR, "at": at, "provider": PROVIDER, "number": number}
        if kind in ("starts", "stops"):
            return {"event": kind, "node": OPERATOR, "at": at, "evse_uid": evse}
        if kind == "meter":
            self.kwh[evse] = self.kwh.get(evse, 0) + self.draw.randint(1, 90000)
            return {"event": kind, "node": OPERATOR, "at": at, "evse_uid": evse, "kwh": self.kwh[evse] / 10000}
        if kind == "restart":
            return {"event": kind, "node": self.draw.choice([OPERATOR, PROVIDER])}
        if kind == "swipe":
            return {"event": kind, "node": OPERATOR, "at": at, "evse_uid": evse, "connector_id": "1", "token_uid": "AA01",
                    "token_type": "RFID"}
        if kind == "token":
            return {"event": kind, "node": PROVIDER, "at": at, "token": token(self.draw.randint(1, 9))}
        return {"event": "tick", "node": self.draw.choice([OPERATOR, PROVIDER]), "at": at}


def draw_events(program, number, draw):
    """Event lines, drawn beside a run without a store."""
    run, drawing, lines = Run(program), Drawing(draw), []
    run.give(setup_line())
    run.answer()
    for place in range(number):
        event = {"event": "token", "node": PROVIDER, "at": drawing.moment(), "token": token(1)} if place == 0 else drawing.event()
        line = line_of(**event)
        run.give(line)
        drawing.saw(run.answer())
        lines.append(line)
    run.end()
    return lines


def rows_in(store):
    """The rows of all files of a store, by node; and what is wrong with the files."""
    rows, wrong = {}, []
    for name in sorted(os.listdir(store)):
        if not name.endswith(".db"):
            continue
        path = os.path.join(store, name)
        try:
            with contextlib.closing(sqlite3.connect(f"file:{path}?mode=ro", uri=True)) as file:
                said = file.execute("PRAGMA integrity_check").fetchall()
                if said != [("ok",)]:
                    wrong.append(f"{name}: {said}")
                rows[name] = file.execute("SELECT kind, name, body FROM row_text ORDER BY kind, name").fetchall()
        except sqlite3.Error as fault:
            wrong.append(f"{name}: {fault}")
    return rows, wrong


def rows_after(program, lines, number):
    """The rows after that many events, of a run that ends there by itself."""
    with tempfile.TemporaryDirectory(dir="/dev/shm" if os.path.isdir("/dev/shm") else None) as store:
        run = subprocess.run([program, "play", "--store", store], input=setup_line() + b"".join(lines[:number]),
                             stdout=subprocess.DEVNULL, check=False)
        if run.returncode not in (0, 1):
            sys.exit(f"stop_in_store: a run of {number} events ended with status {run.returncode}")
        return rows_in(store)[0]


def killed_run(program, lines, store, after, pause):
    """Runs the events, kills the program that long after the event of that number was given, and answers how many were answered."""
    run, answered = Run(program, store), 0
    run.give(setup_line())
    if run.answer() is None:
        return 0
    for line in lines:
        run.give(line)
        if answered == after:
            time.sleep(pause)
            run.program.kill()
            while run.answer() is not None:
                answered += 1
            break
        if run.answer() is None:
            break
        answered += 1
    run.program.kill()
    run.program.wait()
    return answered


def killed_run_of_file(program, lines, store, after, pause):
    """The same of a run that reads all events from a file and writes to one. It is killed that long after the event of that number
    was answered, and has gone on meanwhile."""
    with tempfile.TemporaryFile() as given, tempfile.NamedTemporaryFile() as written, open(written.name, "rb") as shown:
        given.write(setup_line() + MARK + b"".join(line + MARK for line in lines))
        given.seek(0)
        run, output = subprocess.Popen([program, "play", "--store", store], stdin=given, stdout=written), b""
        while run.poll() is None and output.count(SKIPPED) <= after:
            output += shown.read()
        time.sleep(pause)
        run.kill()
        run.wait()
        return max((output + shown.read()).count(SKIPPED) - 1, 0)


def looked_at(program, lines, store, answered):
    """What the stores hold after a run of which so many events were answered: how many more were stored, and what is wrong."""
    rows, wrong = rows_in(store)
    for name in rows:
        settled = subprocess.run([program, "settle", os.path.join(store, name)], capture_output=True, check=False)
        if settled.returncode != 0:
            wrong.append(f"settle {name}: status {settled.returncode}, {settled.stderr.decode().strip()}")
    for more in (0, 1):
        if rows == rows_after(program, lines, answered + more):
            return more, wrong
    return 0, [*wrong, f"the rows are those neither of {answered} events nor of {answered + 1}"]


def tried(given, lines, draw, killed, name):
    """Kills so many runs, and says how many passed."""
    passed = 0
    stored = [0, 0]
    for moment in range(given.moments):
        store = tempfile.mkdtemp(dir=given.folder)
        after, pause = draw.randrange(given.events), draw.choice([0, draw.random() / 1000, draw.random() / 100])
        answered = killed(given.program, lines, store, after, pause)
        more, wrong = looked_at(given.program, lines, store, answered)
        shutil.rmtree(store)
        if wrong:
            print(f"{name}, moment {moment}, killed after event {after}: " + "; ".join(wrong))
        else:
            passed += 1
            stored[more] += 1
    print(f"{name}: {passed} of {given.moments} moments as wanted: {stored[0]} with the rows of the events that were answered, "
          f"{stored[1]} with those of one more")
    return passed == given.moments


def main():
    options = argparse.ArgumentParser(description=__doc__.split("\n", maxsplit=1)[0])
    options.add_argument("program")
    options.add_argument("--events", type=int, default=2000)
    options.add_argument("--moments", type=int, default=200)
    options.add_argument("--seed", type=int, default=1)
    options.add_argument("--folder", help="where the stores lie that are killed (its disk is the one that is tried)")
    given = options.parse_args()
    draw = random.Random(given.seed)
    lines = draw_events(given.program, given.events, draw)
    by_event = tried(given, lines, draw, killed_run, "event by event")
    by_file = tried(given, lines, draw, killed_run_of_file, "from a file")
    return 0 if by_event and by_file else 1


if __name__ == "__main__":
    sys.exit(main())
