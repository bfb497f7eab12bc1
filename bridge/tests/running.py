"""Bridges as processes of their own, for tests that look at them from outside alone: configurations, start, stop, logs.

A bridge is `bridge/run CONFIG` in a folder of its own. All waits are bounded. What a bridge writes to standard error is
kept in a file, so that a test can look for what must not stand in a log.
"""
import asyncio
import ctypes
import json
import os
import random
import re
import signal
import socket
import subprocess
import time
from collections.abc import Awaitable, Callable, Mapping, Sequence
from pathlib import Path
from typing import Any, TypeVar

import aiohttp

Members = dict[str, Any]
Found = TypeVar("Found")

REPOSITORY = Path(__file__).resolve().parents[2]
PROGRAM = Path(os.environ.get("OCPI_NODES") or REPOSITORY / "ocpi_nodes").resolve()
RUN = REPOSITORY / "bridge" / "run"
LISTENING = re.compile(r"\b(ocpi|ocpp|admin): listening on (127\.0\.0\.1:\d+)")

# The seconds within which a bridge has to listen, and to end. They are long, since tests run side by side.
STARTS_WITHIN = 60.0
ENDS_WITHIN = 60.0


# Of Linux: the signal that a process gets when the one that started it ends.
SET_SIGNAL_AT_END_OF_PARENT = 1


def end_with_parent() -> None:
    """Has this process killed when the one that started it ends, however that ends."""
    ctypes.CDLL(None).prctl(SET_SIGNAL_AT_END_OF_PARENT, signal.SIGKILL)


def free_port() -> int:
    """A port that nobody listens on, of those that the system gives to nobody by itself."""
    while True:
        port = random.randrange(12_000, 32_000)
        with socket.socket() as tried:
            try:
                tried.bind(("127.0.0.1", port))
            except OSError:
                continue
            return port


def operator(party: str, evse_uids: Sequence[str], price: float = 0.25, **other: object) -> Members:
    """An operator of a setup: one location `LOC1`, whose EVSEs have a connector `1` each. The price is in EUR a kWh.

    `other` is what each connector has too.
    """
    connector = {"id": "1", "standard": "IEC_62196_T2", "format": "SOCKET", "power_type": "AC_3_PHASE"} | other
    evses = [{"uid": uid, "evse_id": f"{party.replace('/', '*')}*{uid}", "connectors": [connector]}
             for uid in evse_uids]
    location = {"id": "LOC1", "address": "Korenmarkt 1", "city": "Gent", "country": "BEL", "latitude": "51.05421",
                "longitude": "3.72180", "evses": evses}
    return {"party": party, "site": {"currency": "EUR", "price": price, "locations": [location]}}


def provider(party: str) -> Members:
    """A provider of a setup."""
    return {"party": party}


def partner(party: str, kind: str, token: str, their_token: str | None = None,
            versions_url: str | None = None) -> Members:
    """An entry of `partners`. Without the last two it is a party that will register."""
    entry = {"party": party, "kind": kind, "token": token}
    if their_token is not None and versions_url is not None:
        entry |= {"their_token": their_token, "versions_url": versions_url}
    return entry


def charge_point(identifier: str, evse_uids: Sequence[str], password: str | None = None, **other: object) -> Members:
    """An entry of `charge_points`: connector 1 is that of the first EVSE, and so on. `other` is what each has too."""
    connectors: Members = {str(number): {"evse_uid": uid, "connector_id": "1"} | other
                           for number, uid in enumerate(evse_uids, 1)}
    entry: Members = {"id": identifier, "connectors": connectors}
    if password is not None:
        entry["password"] = password
    return entry


async def eventually(look: Callable[[], Awaitable[Found | None]], what: str, within: float = 60.0) -> Found:
    """Looks again and again until what is looked for is there. Raises AssertionError after so many seconds."""
    end = time.monotonic() + within
    while True:
        found = await look()
        if found:
            return found
        if time.monotonic() > end:
            raise AssertionError(f"not within {within:.0f} s: {what}")
        await asyncio.sleep(0.05)


class RunningBridge:
    """One bridge in a folder. It can be started again after it was stopped or killed, at the same OCPI port."""

    def __init__(self, folder: Path, setup: Sequence[Members], party: str, partners: Sequence[Members],
                 charge_points: Sequence[Members] | None = None, clock_factor: float | None = None,
                 ocpi_url: str | None = None, words: Sequence[str] = ()) -> None:
        """`setup` has the nodes, of which `party` is this one's. An `ocpi_url` of another address is a proxy's."""
        folder.mkdir(parents=True, exist_ok=True)
        self.folder = folder
        self.party = party
        self.words = list(words)
        self.addresses: dict[str, str] = {}
        self._process: subprocess.Popen[bytes] | None = None
        port = free_port()
        self.configuration: Members = {
            "node": {"program": str(PROGRAM), "party": party, "setup": "setup.json", "store": "node.db",
                     "transcript": "node.transcript"},
            "state": "bridge.db",
            "ocpi": {"listen": f"127.0.0.1:{port}", "url": ocpi_url or f"http://127.0.0.1:{port}",
                     "business": party.replace("/", "-")},
            "admin": {"listen": "127.0.0.1:0"},
            "partners": list(partners)}
        if charge_points is not None:
            self.configuration["ocpp"] = {"listen": "127.0.0.1:0", "charge_points": list(charge_points)}
        if clock_factor is not None:
            self.configuration["clock_factor"] = clock_factor
        (folder / "setup.json").write_text(json.dumps({"nodes": list(setup)}))

    @property
    def store(self) -> Path:
        """The store of its node."""
        return self.folder / "node.db"

    @property
    def transcript(self) -> Path:
        """The transcript of its node."""
        return self.folder / "node.transcript"

    @property
    def ocpi_url(self) -> str:
        """Where it listens for OCPI, up to the base path `/ocpi`, whatever its configuration tells partners."""
        return f"http://{self.configuration['ocpi']['listen']}"

    @property
    def ocpp_url(self) -> str:
        """The address for charge points, up to their ids."""
        return f"ws://{self.addresses['ocpp']}/ocpp"

    @property
    def admin_url(self) -> str:
        return f"http://{self.addresses['admin']}"

    @property
    def pid(self) -> int:
        assert self._process is not None
        return self._process.pid

    def runs(self) -> bool:
        """Whether it was started and has not ended."""
        return self._process is not None and self._process.poll() is None

    def log(self) -> str:
        """All that it and its earlier runs wrote to standard error."""
        path = self.folder / "log"
        return path.read_text(errors="replace") if path.exists() else ""

    def write(self) -> None:
        """Writes its configuration."""
        (self.folder / "bridge.json").write_text(json.dumps(self.configuration))

    def begin(self) -> "subprocess.Popen[bytes]":
        """Starts it, and does not wait until it listens."""
        self.write()
        with (self.folder / "log").open("ab") as log:
            self._process = subprocess.Popen([RUN, self.folder / "bridge.json", *self.words], stdin=subprocess.DEVNULL,
                                             stdout=log, stderr=log, start_new_session=True,
                                             preexec_fn=end_with_parent)
        return self._process

    async def start(self, within: float = STARTS_WITHIN) -> None:
        """Starts it, and waits until it listens at each of its addresses. Raises AssertionError with its log."""
        before = len(self.log())
        process = self.begin()
        wanted = {"ocpi", "admin"} | ({"ocpp"} if "ocpp" in self.configuration else set())
        end = time.monotonic() + within
        while True:
            self.addresses = dict(LISTENING.findall(self.log()[before:]))
            if wanted <= self.addresses.keys():
                return
            if process.poll() is not None or time.monotonic() > end:
                self.kill()
                raise AssertionError(f"{self.party} does not listen, status {process.poll()}: {self.log()[before:]}")
            await asyncio.sleep(0.02)

    async def ended(self, within: float = ENDS_WITHIN) -> int:
        """Waits until it ended, and gives its status."""
        assert self._process is not None
        end = time.monotonic() + within
        while self._process.poll() is None:
            if time.monotonic() > end:
                self.kill()
                raise AssertionError(f"{self.party} does not end: {self.log()[-2000:]}")
            await asyncio.sleep(0.02)
        return self._process.returncode

    async def stop(self) -> int:
        """Asks it to end (SIGTERM), and gives its status."""
        assert self._process is not None
        self._process.send_signal(signal.SIGTERM)
        return await self.ended()

    def kill_bridge(self) -> None:
        """Kills it (SIGKILL) and leaves its node to itself, as a failure of the bridge does."""
        assert self._process is not None
        self._process.kill()
        self._process.wait(ENDS_WITHIN)

    def kill(self) -> None:
        """Kills it and its node (SIGKILL), where they run."""
        if self._process is None:
            return
        try:
            os.killpg(self._process.pid, signal.SIGKILL)
        except ProcessLookupError:
            pass
        self._process.wait(ENDS_WITHIN)

    def node_pid(self) -> int:
        """The process of its node."""
        children = Path(f"/proc/{self.pid}/task/{self.pid}/children").read_text().split()
        for child in children:
            if b"\0node\0" in Path(f"/proc/{child}/cmdline").read_bytes():
                return int(child)
        raise AssertionError(f"{self.party} has no node")

    def peak_memory(self) -> int:
        """The most memory that the bridge, without its node, had at once, in bytes."""
        status = Path(f"/proc/{self.pid}/status").read_text()
        found = re.search(r"VmHWM:\s+(\d+) kB", status)
        assert found is not None
        return int(found[1]) * 1024

    async def admin_get(self, path: str) -> Any:
        """The JSON, or the text, that an admin address answers with status 200."""
        async with aiohttp.ClientSession() as session, session.get(self.admin_url + path) as response:
            text = await response.text()
            if response.status != 200:
                raise AssertionError(f"GET {path}: {response.status} {text[:500]}")
            return json.loads(text) if response.content_type == "application/json" else text

    async def admin_post(self, path: str, body: Mapping[str, object], key: str | None = None) -> Members:
        """What an admin address answers to a JSON body, under an `Idempotency-Key`: its status, and the JSON as
        `answer`."""
        headers = {} if key is None else {"Idempotency-Key": key}
        async with (aiohttp.ClientSession() as session,
                    session.post(self.admin_url + path, json=body, headers=headers) as response):
            text = await response.text()
            return {"status": response.status, "answer": json.loads(text)}
