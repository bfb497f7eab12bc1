#!/usr/bin/env python3
"""Measures `node` beside `play` and `settle`, in turn.

    bench/node_speed.py PROGRAM INPUT [--party PARTY] [--runs 5] [--stored 10000] [--starts 15] [--records 100000]
        [--deliveries 5000] [--disk FOLDER] [--only lines|stores|starts|records|several]

PROGRAM is `ocpi_nodes`, and INPUT one of `play` in which a charge ends, as `examples/play/charge/in.jsonl`. It is cut into an
input of `node` for each node of its setup, or for PARTY alone: the events of that node, in which a delivery has the
packet that its sender wrote in `play`. It tells

- the processor time of a line in memory, without that of the setup, over the lines of all those nodes, beside that of
  an event of `play` over the whole INPUT; then that of a line at an operator and at a provider;
- the same with stores, over the first so many events of INPUT;
- the time from the start of `node` to its first `done`, in memory and with a new store, for a setup of one operator
  alone; beside the second, the whole run of `play --store` for that setup;
- over a store of so many charge detail records of a provider, and no other rows: the time from the start to the first
  `done`, and the processor time of a run without events; beside each that of `settle`;
- of so many `put_token` deliveries at an operator, given at once by 1, by 10 and by 100 a line, in memory and with a
  store: processor time and wall time of a delivery, and with a store how often all of them sync, where `strace` is.
  Beside these, what stock SQLite takes that puts the same rows in the same transactions. These stores lie on a disk.

Each figure is a median, and behind each pair stands the ratio of the two. Stores lie in memory where there is such a
folder (or in FOLDER, by --folder), but for the last ones (by --disk). --only measures one of the five. The machine
should have nothing else to do.
"""

import argparse
import contextlib
import json
import os
import shutil
import sqlite3
import statistics
import subprocess
import sys
import tempfile
import time


def dump(value):
    return json.dumps(value, separators=(",", ":"), ensure_ascii=False).encode() + b"\n"


def key_of(party):
    return party.upper()


class Input:
    """An input of `play`, and what `play` wrote for it."""

    def __init__(self, program, path):
        with open(path, "rb") as file:
            self.setup, *self.events = (line for line in file if line.strip())
        self.nodes = json.loads(self.setup)["nodes"]
        with open(path, "rb") as file:
            written = subprocess.run([program, "play"], stdin=file, capture_output=True, check=False).stdout
        self.packets = {}
        for line in written.split(b"\n"):
            if line.startswith(b"{"):
                packet = json.loads(line)
                self.packets[key_of(packet["from"]), packet["serial"]] = line

    def first_operator(self):
        return next(node["party"] for node in self.nodes if node.get("site"))

    def setup_of(self, party):
        """A setup of that node alone. Numbers are spelled as Python spells them."""
        return dump({"nodes": [node for node in self.nodes if key_of(node["party"]) == key_of(party)]})

    def delivery(self, node, at, packet):
        return dump({"event": "deliver", "node": node, "at": at, "packet": None}).replace(b"null", packet)

    def lines_of(self, parties, number):
        """The lines of `node` for the events of each of these nodes, among the first so many."""
        lines = {key_of(party): [] for party in parties}
        for line in self.events[:number]:
            event = json.loads(line)
            own = lines.get(key_of(event.get("node", "")))
            if own is None:
                continue
            if event["event"] != "deliver":
                own.append(line)
            elif (key_of(event["from"]), event["serial"]) in self.packets:
                packet = self.packets[key_of(event["from"]), event["serial"]]
                own.append(self.delivery(event["node"], event["at"], packet))
        return lines


class Room:
    """A folder for inputs and stores, each under a new name."""

    def __init__(self, folder):
        self.folder, self.count = folder, 0

    def new(self, end=""):
        self.count += 1
        return os.path.join(self.folder, f"{self.count}{end}")

    def remove(self, path):
        """Removes a store, of one file or of a folder."""
        if os.path.isdir(path):
            shutil.rmtree(path)
        else:
            os.remove(path)

    def file_of(self, lines):
        path = self.new()
        with open(path, "wb") as file:
            file.writelines(lines)
        return path


def times(words, source):
    """The seconds of a run: of the processor, its own and the system's for it, and from its start to its end."""
    begun = time.perf_counter()
    child = os.posix_spawn(words[0], words, os.environ, file_actions=[
        (os.POSIX_SPAWN_OPEN, 0, source, os.O_RDONLY, 0),
        (os.POSIX_SPAWN_OPEN, 1, os.devnull, os.O_WRONLY, 0)])
    _, status, used = os.wait4(child, 0)
    if os.waitstatus_to_exitcode(status) not in (0, 1):
        sys.exit(f"node_speed: {' '.join(words)} ended with status {os.waitstatus_to_exitcode(status)}")
    return used.ru_utime + used.ru_stime, time.perf_counter() - begun


def processor_time(words, source):
    """The seconds of the processor that a run takes, its own and the system's for it."""
    return times(words, source)[0]


def wall_time(words, line):
    """The seconds from the start of a run to its end."""
    begun = time.perf_counter()
    ran = subprocess.run(words, input=line, stdout=subprocess.DEVNULL, check=False)
    if ran.returncode != 0:
        sys.exit(f"node_speed: {' '.join(words)} ended with status {ran.returncode}")
    return time.perf_counter() - begun


def time_to_done(words, line):
    """The seconds from the start of a run of `node` to its first `done`."""
    begun = time.perf_counter()
    with subprocess.Popen(words, stdin=subprocess.PIPE, stdout=subprocess.PIPE) as run:
        run.stdin.write(line)
        run.stdin.flush()
        said = run.stdout.readline()
        seconds = time.perf_counter() - begun
        run.stdin.close()
        run.stdout.read()
    if not said.startswith(b'{"done":"opened"'):
        sys.exit(f"node_speed: {' '.join(words)} said {said}")
    return seconds


def medians(number, *measured):
    """The median of each of these measurements, which are taken in turn."""
    taken = [[take() for take in measured] for _ in range(number)]
    return [statistics.median(column) for column in zip(*taken)]


class Work:
    """Runs of one command over some lines, and over the setup alone: what the lines take is the difference."""

    def __init__(self, given, room, words, stored, lines):
        self.given, self.room, self.words, self.stored, self.number = given, room, words, stored, len(lines)
        self.setup, self.source = room.file_of([lines.setup]), room.file_of([lines.setup, *lines])

    def once(self, source):
        words = [self.given.program, *self.words]
        if self.stored:
            store = self.room.new()
            if self.words[0] == "play":
                os.mkdir(store)
            words += ["--store", store]
        seconds = processor_time(words, source)
        if self.stored:
            self.room.remove(store)
        return seconds

    def take(self):
        """The seconds that the lines take."""
        return self.once(self.source) - self.once(self.setup)


class Lines(list):
    """The lines behind a setup."""

    def __init__(self, setup, lines):
        super().__init__(lines)
        self.setup = setup


def a_line(works, seconds):
    """The microseconds of a line, by what all lines of some runs take."""
    return sum(seconds) / max(sum(work.number for work in works), 1) * 1e6


def compare_lines(given, room, read, number, stored):
    """The processor time of a line, in memory or with stores."""
    parties = [given.party] if given.party else [node["party"] for node in read.nodes]
    operators = {key_of(node["party"]) for node in read.nodes if node.get("site")}
    own = read.lines_of(parties, number)
    works = [Work(given, room, ["node", party], stored, Lines(read.setup, own[key_of(party)])) for party in parties]
    play = Work(given, room, ["play"], stored, Lines(read.setup, read.events[:number]))
    rounds = [([work.take() for work in works], play.take()) for _ in range(given.runs)]

    def of(is_counted):
        some = [at for at, party in enumerate(parties) if is_counted(key_of(party) in operators)]
        them = [works[at] for at in some]
        return statistics.median(a_line(them, [taken[at] for at in some]) for taken, _ in rounds)

    whole, an_event = of(lambda is_operator: True), statistics.median(a_line([play], [taken]) for _, taken in rounds)
    number = sum(work.number for work in works)
    print(f"{'with stores' if stored else 'in memory'}: node {whole:.1f} us a line ({number} lines of {len(works)} nodes), "
          f"play {an_event:.1f} us ({play.number} events): {whole / an_event:.2f}; a line at an operator "
          f"{of(lambda is_operator: is_operator):.1f} us, at a provider {of(lambda is_operator: not is_operator):.1f} us",
          flush=True)


def compare_starts(given, room, read):
    """The time to the first `done`."""
    party = given.party or read.first_operator()
    line = read.setup_of(party)

    def new_folder():
        path = room.new()
        os.mkdir(path)
        return path

    memory, whole, store, play = medians(
        given.starts,
        lambda: time_to_done([given.program, "node", party], line),
        lambda: time_to_done([given.program, "node", party], read.setup),
        lambda: time_to_done([given.program, "node", party, "--store", room.new(".db")], line),
        lambda: wall_time([given.program, "play", "--store", new_folder()], line))
    print(f"first done in memory: {memory * 1e3:.1f} ms; for a setup of {len(read.nodes)} nodes {whole * 1e3:.1f} ms")
    print(f"first done with a new store: {store * 1e3:.1f} ms, play --store {play * 1e3:.1f} ms: {store / play:.2f}")


def store_of_records(given, room, read):
    """A provider's store of so many charge detail records, made of one that `play` sent, and of no other rows."""
    packet = next((json.loads(line) for line in read.packets.values() if b'"kind":"post_cdr"' in line), None)
    if packet is None:
        sys.exit("node_speed: no charge ends in that input, so there is no charge detail record")
    party, store = packet["to"], room.new(".db")
    line = read.packets[key_of(packet["from"]), packet["serial"]]
    lines = read.setup + read.delivery(party, packet["body"]["last_updated"], line)
    subprocess.run([given.program, "node", party, "--store", store], input=lines, stdout=subprocess.DEVNULL, check=True)
    with contextlib.closing(sqlite3.connect(store)) as file:
        (key, text), = file.execute("SELECT name, body FROM row_text WHERE kind = 'cdr'").fetchall()
        record = json.loads(text)

        def row(number):
            changed = {name: record[name][:-12] + f"{number:012x}" for name in ("id", "session_id")}
            body = text
            for name, value in changed.items():
                body = body.replace(f'"{name}":"{record[name]}"', f'"{name}":"{value}"')
            return "cdr", key[:-12] + f"{number:012x}".upper(), body

        file.execute("DELETE FROM row_text")
        file.executemany("INSERT INTO row_text VALUES (?, ?, ?)", map(row, range(1, given.records + 1)))
        file.commit()
    return party, store


def compare_records(given, room, read):
    """How long a store of records alone takes to open."""
    party, store = store_of_records(given, room, read)
    node, settle = [given.program, "node", party, "--store", store], [given.program, "settle", store]
    source = room.file_of([read.setup])
    opens, ends, opens_works, ends_works = medians(
        given.runs,
        lambda: time_to_done(node, read.setup),
        lambda: wall_time(settle, b""),
        lambda: processor_time(node, source),
        lambda: processor_time(settle, os.devnull))
    print(f"a store of {given.records} records: node opens it in {opens * 1e3:.1f} ms, settle {ends * 1e3:.1f} ms: "
          f"{opens / ends:.2f}; in processor time {opens_works * 1e3:.1f} ms and {ends_works * 1e3:.1f} ms: "
          f"{opens_works / ends_works:.2f}", flush=True)


# How many deliveries stand in a line.
SIZES = (1, 10, 100)


def put_tokens(read, number):
    """So many deliveries of a new token each to the first operator, as lines; each is like one that `play` sent."""
    operator = read.first_operator()
    packet = next((json.loads(line) for line in read.packets.values() if b'"kind":"put_token"' in line), None)
    if packet is None:
        sys.exit("node_speed: no token is sent in that input")
    lines = []
    for count in range(1, number + 1):
        packet.update(request=count, serial=count, to=operator)
        packet["body"].update(uid=f"T{count:06}", contract_id=f"C{count:06}")
        lines.append(read.delivery(operator, packet["body"]["last_updated"], dump(packet).rstrip(b"\n")))
    return lines


def in_groups(lines, size):
    """The same events with so many in a line; alone they stand in no array."""
    if size == 1:
        return lines
    groups = (lines[at:at + size] for at in range(0, len(lines), size))
    return [b"[" + b",".join(line.rstrip(b"\n") for line in group) + b"]\n" for group in groups]


def syncs_of(words, source):
    """How often a run syncs a file; nothing where there is no strace."""
    if not shutil.which("strace"):
        return None
    with open(source, "rb") as given:
        said = subprocess.run(["strace", "-f", "-c", "-e", "trace=fsync,fdatasync", *words], stdin=given,
                              stdout=subprocess.DEVNULL, stderr=subprocess.PIPE, check=False).stderr.decode()
    return sum(int(line.split()[3]) for line in said.splitlines() if line.endswith(("fsync", "fdatasync")))


def rows_by_delivery(store):
    """How a store's table was made, and the rows that each delivery of `put_tokens` put into it."""
    with contextlib.closing(sqlite3.connect(store)) as file:
        (schema,), = file.execute("SELECT sql FROM sqlite_schema WHERE name = 'row_text'").fetchall()
        kept = {kind: sorted(file.execute("SELECT kind, name, body FROM row_text WHERE kind = ?", (kind,)),
                             key=lambda row: (len(row[1]), row[1])) for kind in ("reply", "token", "count")}
    def counted(number):
        return "count", "serial", f'{{"last":{number}}}'
    return schema, [[reply, token, counted(at)] for at, (reply, token) in enumerate(zip(kept["reply"], kept["token"]), 1)]


def sqlite_times(schema, deliveries, size, path):
    """The seconds in which stock SQLite puts those rows, with so many deliveries in a transaction: of the processor, and
    of the wall."""
    with contextlib.closing(sqlite3.connect(path, isolation_level=None)) as file:
        file.execute("PRAGMA journal_mode = WAL")
        file.execute("PRAGMA synchronous = FULL")
        file.execute(schema)
        begun, used = time.perf_counter(), time.process_time()
        for at in range(0, len(deliveries), size):
            file.execute("BEGIN IMMEDIATE")
            for rows in deliveries[at:at + size]:
                file.executemany("INSERT OR REPLACE INTO row_text VALUES (?, ?, ?)", rows)
            file.execute("COMMIT")
        return time.process_time() - used, time.perf_counter() - begun


class Groups:
    """Runs of `node` over the same deliveries, by so many a line, and of stock SQLite with their rows."""

    def __init__(self, given, read, memory, disk):
        self.given, self.memory, self.disk = given, memory, disk
        self.words = [given.program, "node", read.first_operator()]
        lines = put_tokens(read, given.deliveries)
        self.setup = memory.file_of([read.setup])
        self.sources = {size: memory.file_of([read.setup, *in_groups(lines, size)]) for size in SIZES}
        store = memory.new(".db")
        times([*self.words, "--store", store], self.sources[SIZES[-1]])
        self.schema, self.rows = rows_by_delivery(store)
        if len(self.rows) != given.deliveries:
            sys.exit(f"node_speed: of {given.deliveries} deliveries {len(self.rows)} were stored")

    def run(self, source, is_stored):
        """The processor time and the wall time of a run."""
        store = self.disk.new(".db")
        taken = times(self.words + (["--store", store] if is_stored else []), source)
        if is_stored:
            os.remove(store)
        return taken

    def of_deliveries(self, size, is_stored):
        """The same of the deliveries alone, as the difference of two runs."""
        return [whole - setup for whole, setup in zip(self.run(self.sources[size], is_stored),
                                                      self.run(self.setup, is_stored))]

    def of_sqlite(self, size):
        path = self.disk.new(".db")
        taken = sqlite_times(self.schema, self.rows, size, path)
        os.remove(path)
        return taken

    def syncs(self):
        """How often the setup alone syncs, which opens a new store and closes it, and for each size the deliveries."""
        sources = [self.setup, *(self.sources[size] for size in SIZES)]
        first, *counts = (syncs_of([*self.words, "--store", self.disk.new(".db")], source) for source in sources)
        return {} if first is None else {0: first, **{size: count - first for size, count in zip(SIZES, counts)}}

    def tell(self, name, taken, syncs=None):
        """Tells the medians of what was taken for each size."""
        first = None
        for size in SIZES:
            processor, wall = (statistics.median(column) for column in zip(*(turn[size] for turn in taken)))
            first = first or (processor, wall)
            synced = f", {syncs[size]} syncs and {syncs[0]} of opening and closing" if syncs else ""
            print(f"{name}, by {size} a line: {processor / self.given.deliveries * 1e6:.1f} us of the processor a delivery, "
                  f"{wall / self.given.deliveries * 1e6:.1f} us in all{synced}; by one 1, so {processor / first[0]:.2f} and "
                  f"{wall / first[1]:.2f}", flush=True)


def compare_groups(given, room, read):
    """Deliveries by one, by 10 and by 100 a line."""
    with tempfile.TemporaryDirectory(dir=given.disk) as folder:
        groups = Groups(given, read, room, Room(folder))
        for name, take, syncs in (
                ("in memory", lambda size: groups.of_deliveries(size, False), None),
                ("with a store", lambda size: groups.of_deliveries(size, True), groups.syncs()),
                ("stock SQLite", groups.of_sqlite, None)):
            groups.tell(name, [{size: take(size) for size in SIZES} for _ in range(given.runs)], syncs)


def main():
    options = argparse.ArgumentParser(description=__doc__.split("\n", maxsplit=1)[0])
    options.add_argument("program")
    options.add_argument("input")
    options.add_argument("--party")
    options.add_argument("--runs", type=int, default=5)
    options.add_argument("--stored", type=int, default=10_000)
    options.add_argument("--starts", type=int, default=15)
    options.add_argument("--records", type=int, default=100_000)
    options.add_argument("--deliveries", type=int, default=5000)
    options.add_argument("--folder", default="/dev/shm" if os.path.isdir("/dev/shm") else None)
    options.add_argument("--disk", help="where the stores of those deliveries lie (its disk is the one that is measured)")
    parts = {"lines": lambda: compare_lines(given, room, read, len(read.events), False),
             "stores": lambda: compare_lines(given, room, read, given.stored, True),
             "starts": lambda: compare_starts(given, room, read),
             "records": lambda: compare_records(given, room, read),
             "several": lambda: compare_groups(given, room, read)}
    options.add_argument("--only", choices=parts)
    given = options.parse_args()
    given.program = os.path.abspath(given.program)
    with tempfile.TemporaryDirectory(dir=given.folder) as folder:
        room, read = Room(folder), Input(given.program, given.input)
        for name, measure in parts.items():
            if given.only in (None, name):
                measure()
    return 0


if __name__ == "__main__":
    sys.exit(main())
