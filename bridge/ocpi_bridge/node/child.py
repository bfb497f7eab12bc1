"""The program `node` as a child process: a line in, lines out, and its end."""
import asyncio
import fcntl
import logging
import os
from asyncio.subprocess import PIPE, Process
from collections import deque
from contextlib import suppress
from functools import partial
from io import FileIO
from pathlib import Path
from typing import cast

from ..configuration import NodeSettings
from ..events import Packet
from ..json_text import read_json
from ..records import Done
from ..room import FULL
from ..state import State
from .kept import Kept

LOG = logging.getLogger("node")
# Longer than any line that a node writes.
MOST_BYTES = 64 * 1024 * 1024
LOCKED, NO_ROOM = "another program has it open", "the disk is full"


class ChildEnded(Exception):
    """The program's output has ended."""


class TranscriptLocked(Exception):
    """Another node has the transcript, as that of a bridge that was killed."""


class Child:
    """A running program. It is in a session of its own, so that a signal from the terminal reaches the bridge alone."""

    def __init__(self, process: Process, settings: NodeSettings, state: State, transcript: FileIO | None) -> None:
        assert process.stdin and process.stdout and process.stderr
        self._process, self._input, self._output = process, process.stdin, process.stdout
        self._settings, self._state, self._transcript = settings, state, transcript
        self._refusal, self.found_lock = 0, False
        # What it said last on standard error, or why the bridge does not take it.
        self.words = deque[str](maxlen=10)
        self._errors = asyncio.create_task(self._log_errors(process.stderr))

    @classmethod
    async def start(cls, settings: NodeSettings, existing: bool, state: State) -> "Child":
        """Starts the program, whose store is `existing` where the state knows it. Raises OSError where it cannot be
        started, NoRoom and TranscriptLocked.

        The transcript is locked as long as the program runs, whatever becomes of the bridge: a run writes there before
        it opens the store, so none may begin beside another.
        """
        words = ["node", settings.party, "--store", str(settings.store), *(["--existing"] if existing else [])]
        transcript = None
        if settings.transcript is not None:
            transcript = _locked(settings.transcript, state)
            words += ["--transcript", str(settings.transcript)]
        process = await asyncio.create_subprocess_exec(
            settings.program, *words, stdin=PIPE, stdout=PIPE, stderr=PIPE, limit=MOST_BYTES, start_new_session=True,
            pass_fds=() if transcript is None else (transcript.fileno(),))
        return cls(process, settings, state, transcript)

    async def open(self, kept: Kept) -> Done:
        """Feeds the setup, and gives what the node says of its store. Raises ChildEnded, also where it must not be
        fed."""
        line = self._settings.setup_line
        if kept.line_before is not None:
            line = f'{line[:-1]},"line":{kept.line_before}}}'
        await self.write(line)
        answer = await self._next_line()
        opened: Done = read_json(answer)
        is_open = opened["done"] == "opened"
        fault = kept.fault_of(opened, self._settings.takes_new_state) if is_open else "the node refuses its setup"
        if fault is not None:
            self._refusal = 3 if is_open else 2
            self.words.append(f"{fault}: {answer.decode().rstrip()}")
            LOG.error("%s", self.words[-1])
            raise ChildEnded()
        return opened

    def lacks_room(self) -> str | None:
        """The file that it could not write for want of room: `store` or `transcript`."""
        words = next((text for text in self.words if NO_ROOM in text), None)
        return words and ("transcript" if words.startswith(f"{self._settings.transcript}:") else "store")

    async def write(self, line: str) -> None:
        """Feeds a line, which the state has before the program does. Raises ChildEnded and NoRoom."""
        await self._state.synced()
        try:
            self._input.write(line.encode() + b"\n")
            await self._input.drain()
        except ConnectionError:
            raise ChildEnded() from None

    async def read(self) -> Packet | Done:
        """What the next line says that the program writes. Raises ChildEnded where there is none, or it was cut."""
        told = read_json(await self._next_line())
        return Packet.of(told) if "kind" in told else cast(Done, told)

    async def _next_line(self) -> bytes:
        line = await self._output.readline()
        if not line.endswith(b"\n"):
            raise ChildEnded()
        return line

    def end_input(self) -> None:
        """The program carries out what it was fed, and ends."""
        self._input.close()

    async def end(self) -> int:
        """Ends the program's input, and waits. Gives its status: 128 more of a signal, 2 of a wrong setup, 3 of a
        store that does not fit the state."""
        self.end_input()
        await self._output.read()
        await self._errors
        with suppress(ConnectionError):
            await self._input.wait_closed()
        status = await self._process.wait()
        if self._transcript is not None:
            if self._refusal:
                # Nothing was fed: what stood there when it was opened stands alone again.
                self._transcript.truncate()
            self._transcript.close()
        return self._refusal or (status if status >= 0 else 128 - status)

    async def _log_errors(self, errors: asyncio.StreamReader) -> None:
        async for line in errors:
            text = line.decode(errors="replace").rstrip()
            self.words.append(text)
            self.found_lock = self.found_lock or LOCKED in text
            LOG.warning("%s", text)


def _locked(path: Path, state: State) -> FileIO:
    """Opens and locks a transcript, which is made for its owner alone. Raises NoRoom and TranscriptLocked."""
    try:
        file = open(path, "ab", buffering=0, opener=partial(os.open, mode=0o600))
    except OSError as fault:
        raise state.room.lacks("transcript", path) if fault.errno in FULL else fault
    try:
        fcntl.flock(file, fcntl.LOCK_EX | fcntl.LOCK_NB)
    except BlockingIOError:
        file.close()
        raise TranscriptLocked() from None
    return file
