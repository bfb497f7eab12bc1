"""A node of a network: its journal of lines, and the process that runs it now, for faults/network_trial.py.

Lines are fed ahead, by the five sentences of docs/NODE.md. Each event has a member `mark`, its number at this node,
which the node reads past: so its transcript says which events were carried out.
"""

import contextlib
import json
import os
import queue
import random
import shutil
import subprocess
import threading
import time
from collections import Counter
from collections.abc import Iterator

from network_rows import Rows, bad_rows, rows_of
from network_setups import Json, Setup

# The longest time that anything may take, in seconds. The trial may set another.
PATIENCE = 60.0


class Broken(Exception):
    """The trial cannot go on."""


def line_of(value: object) -> bytes:
    return json.dumps(value, separators=(",", ":")).encode() + b"\n"


class Process:
    """A run of `node`, which threads feed and read."""

    def __init__(self, words: list[str]) -> None:
        pipe = subprocess.PIPE
        self.words = " ".join(words)
        self.program = subprocess.Popen(words, stdin=pipe, stdout=pipe, stderr=pipe)
        self.written: queue.SimpleQueue[bytes | None] = queue.SimpleQueue()
        self._given: queue.SimpleQueue[bytes | None] = queue.SimpleQueue()
        self._threads = [threading.Thread(target=it, daemon=True) for it in (self._feed, self._read)]
        for it in self._threads:
            it.start()

    def give(self, line: bytes | None) -> None:
        """Feeds a line, or ends the input."""
        self._given.put(line)

    def _feed(self) -> None:
        assert self.program.stdin is not None
        with contextlib.suppress(BrokenPipeError), self.program.stdin as pipe:
            while (line := self._given.get()) is not None:
                pipe.write(line)
                pipe.flush()

    def _read(self) -> None:
        assert self.program.stdout is not None
        for line in self.program.stdout:
            self.written.put(line)
        self.written.put(None)

    def next(self) -> bytes | None:
        """The next line of the output; none at its end."""
        try:
            return self.written.get(timeout=PATIENCE)
        except queue.Empty:
            raise Broken(f"the process {self.words} gave nothing for {PATIENCE} seconds") from None

    def rest(self) -> Iterator[bytes]:
        """All that it writes until it ends."""
        while (line := self.next()) is not None:
            yield line

    def end(self) -> tuple[int, str]:
        """Waits until it has ended: its status, and its standard error."""
        self.give(None)
        assert self.program.stderr is not None and self.program.stdout is not None
        told = self.program.stderr.read().decode()
        status = self.program.wait(PATIENCE)
        for it in self._threads:
            it.join(PATIENCE)
        for pipe in (self.program.stdout, self.program.stderr):
            pipe.close()
        return status, told


class Node:
    """A node and what feeds it. `Line n` of its journal is `lines[n - 2]`."""

    def __init__(self, program: str, folder: str, setup: Setup, draw: random.Random) -> None:
        self.program, self.folder, self.draw, self.party = program, folder, draw, setup.party
        self.setup, self.setups, self.process = setup, [setup], None  # type: Setup, list[Setup], Process | None
        self.store = os.path.join(folder, f"{self.party.replace('/', '')}.db")
        self.lines: list[tuple[bytes, list[str]]] = []
        # The last line whose `done` was seen, the last that was seen to change something, and the next that gives any.
        self.seen, self.changed, self.next, self.marks = 1, 1, 2, 0
        self.was_opened = False
        # Its transcripts, each behind the copy of the store over which it begins.
        self.transcripts: list[tuple[str, str]] = [("", self._file("transcript"))]
        self.rows, self.came, self.wrong = Rows([]), Counter(), []  # type: Rows, Counter[tuple[str, str]], list[str]

    def _file(self, ending: str, number: int = 0) -> str:
        return f"{self.store.removesuffix('.db')}.{number}.{ending}"

    # ---- its process

    def begin(self, setup: Setup) -> None:
        """Starts a run under a setup, which has not opened the store yet."""
        words = [self.program, "node", self.party, "--store", self.store, *["--existing"] * self.was_opened]
        self.process = Process([*words, "--transcript", self.transcripts[-1][1]])
        self.process.give(setup.line(self.seen, self.draw.randint(0, 9)))

    def open(self, setup: Setup) -> bool:
        """Starts a run under a setup, and feeds all that is to be fed. False where its store was refused."""
        bad = bad_rows(self.rows, setup)
        self.begin(setup)
        assert self.process is not None
        first = self.process.next()
        if first is None:
            self._refused(bad)
            return False
        told = json.loads(first)
        wanted = {"done": "opened", "line": self.rows.line, "rows": len(self.rows.all),
                  "serial": self.rows.of("count").get("serial", {"last": 0})["last"]}
        if bad or {name: told.get(name) for name in wanted} != wanted:
            self.wrong.append(f"{self.party}: {told} in place of {bad or wanted}")
        if told["line"] < self.changed:
            self.wrong.append(f"{self.party}: {told}, and line {self.changed} was seen to change something")
        self.was_opened, self.setup = True, setup
        self.setups.append(setup)
        self.next = self.seen + 1
        for line, _ in self.lines[self.seen - 1:]:
            self.process.give(line)
        return True

    def _refused(self, bad: dict[str, set[str]]) -> None:
        """Looks how an opening was refused, and that nothing changed."""
        assert self.process is not None
        status, told = self.process.end()
        self.process = None
        refusal, _, words = told.partition("\n")
        named = [f"{self.store}: {row}: {reason}\n" for row, reasons in bad.items() for reason in reasons]
        if (status, refusal) != (3, "store: 4 Core(BadRows)") or words not in named:
            self.wrong.append(f"{self.party}: status {status}, {told!r}, and not a refusal of one of {named}")
        self.look(self.rows)

    def look(self, wanted: Rows | None = None) -> None:
        """Reads its rows, which nobody has open."""
        self.rows, wrong = rows_of(self.store)
        self.wrong += wrong
        if wanted is not None and (self.rows.all, self.rows.line) != (wanted.all, wanted.line):
            self.wrong.append(f"{self.party}: a refused opening changed rows")

    def evses(self) -> list[str]:
        """The EVSEs of its site."""
        return [evse["uid"] for _, evse in self.setup.evses()]

    # ---- its lines

    def give(self, events: list[tuple[str, bytes]]) -> None:
        """Journals events as one line, and feeds it. Each comes with a word for what it is, and without its end."""
        texts = []
        for _, text in events:
            self.marks += 1
            texts.append(text[:-1] + b',"mark":%d}' % self.marks)
        line = texts[0] if len(texts) == 1 and self.draw.random() < 0.9 else b"[" + b",".join(texts) + b"]"
        self.journal(line + b"\n", [word for word, _ in events])

    def journal(self, line: bytes, words: list[str]) -> None:
        self.lines.append((line, words))
        if self.process:
            self.process.give(line)

    def waiting(self) -> int:
        """How many lines were fed whose `done` was not seen."""
        return len(self.lines) + 2 - self.next if self.process else 0

    def take(self, text: bytes) -> bytes | None:
        """Takes a line of the output; the packet, where it is one."""
        if not text.endswith(b"\n"):
            return None
        if not text.startswith(b'{"done"'):
            self.changed = max(self.changed, self.next)
            return text.rstrip(b"\n")
        told = json.loads(text)
        if told["line"] != self.next:
            self.wrong.append(f"{self.party}: {told} in place of line {self.next}")
        is_known = told["done"] == "known"
        if is_known != (told["line"] <= self.rows.line):
            self.wrong.append(f"{self.party}: {told} behind an opening with line {self.rows.line}")
        if told["done"] == "stepped":
            self.changed = max(self.changed, self.next)
        self._count(told)
        if "event" not in told:
            self.next += 1
            self.seen = max(self.seen, told["line"])
        return None

    def _count(self, told: Json) -> None:
        """Counts what became of an event."""
        words = self.lines[told["line"] - 2][1]
        if told["done"] not in ("all", "known"):
            self.came[words[told.get("event", 0)], told.get("name", told["done"])] += 1

    def collect(self, most: int) -> list[bytes]:
        """The packets that were written, once at most so many lines wait for their `done`."""
        packets = []
        while self.process and (self.waiting() > most or not self.process.written.empty()):
            line = self.process.next()
            if line is None:
                status, told = self.process.end()
                raise Broken(f"{self.party} ended by itself: status {status}, {told!r}")
            packets.append(self.take(line))
        return [it for it in packets if it is not None]

    # ---- its stops

    def stop(self, way: str) -> list[bytes]:
        """Stops its run in that way; the packets that were still seen."""
        assert self.process is not None
        packets: list[bytes | None] = []
        if way == "an end":
            packets += self._end()
        else:
            if way == "a kill at the end":
                self.process.give(None)
            time.sleep(self.draw.choice((0, 0.001, 0.01)))
            self.process.program.kill()
            is_seen = way != "a kill that loses packets"
            packets += [self.take(line) for line in self.process.rest() if is_seen]
            self.process.end()
        self.process = None
        self.look()
        if self.draw.random() < 0.25:
            self.begin_anew()
        return [it for it in packets if it is not None]

    def stop_opening(self, setup: Setup) -> None:
        """Starts a run under a setup, and kills it at once."""
        self.begin(setup)
        assert self.process is not None
        time.sleep(self.draw.random() * 0.02)
        self.process.program.kill()
        lines = list(self.process.rest())
        self.process.end()
        self.process = None
        if lines and lines[0].endswith(b"\n"):
            self.was_opened = True
            self.setups.append(setup)
        self.look()

    def _end(self) -> list[bytes | None]:
        assert self.process is not None
        self.process.give(None)
        packets = [self.take(line) for line in self.process.rest()]
        status, told = self.process.end()
        if status not in (0, 1) or told:
            self.wrong.append(f"{self.party}: an end with status {status}, {told!r}")
        return packets

    def begin_anew(self) -> None:
        """Its transcript begins anew, over a copy of the store."""
        if not os.path.exists(self.store) or not os.path.exists(self.transcripts[-1][1]):
            return
        number = len(self.transcripts)
        copied = self._file("db", number)
        for end in ("", "-wal"):
            if os.path.exists(self.store + end):
                shutil.copy(self.store + end, copied + end)
        self.transcripts.append((copied, self._file("transcript", number)))
