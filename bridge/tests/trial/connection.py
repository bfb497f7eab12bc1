"""A charge point's connection to its central system, that is lost now and then, by chance."""
import asyncio
import base64
import json
import socket
import time
import uuid
from collections.abc import Awaitable, Callable
from datetime import datetime, timedelta, timezone
from random import Random
from typing import Any

from aiohttp import ClientError, ClientSession, ClientWebSocketResponse, WSMsgType

from .chance import happens

Payload = dict[str, Any]

CALL, RESULT, ERROR = 2, 3, 4
# In seconds of the machine.
ANSWERED_WITHIN = 4.0
LIVES_FOR_ABOUT = 4.0
LONGEST_PAUSE = 1.0
# How often a connection is lost behind a call that was sent, and behind one that came and is not answered.
LOST_BEHIND_A_CALL = 0.08


class ConnectionLost(Exception):
    """There is no connection, or it was lost before the answer came."""


class Connection:
    """One call at a time goes out, as OCPP wants it, and what comes from the other end is answered meanwhile."""

    def __init__(self, identifier: str, password: str, address: Callable[[], str | None], chance: Random,
                 factor: float, answer: Callable[[str, Payload], Awaitable[Payload | None]],
                 booted: Callable[[], Awaitable[None]], subprotocol: str, boot: Payload) -> None:
        """`boot` is the payload of its BootNotification."""
        self._subprotocol, self._boot = subprotocol, boot
        self._path = f"/{identifier}"
        credentials = base64.b64encode(f"{identifier}:{password}".encode()).decode()
        self._headers = {"Authorization": f"Basic {credentials}"}
        self._address = address
        self._chance = chance
        self._factor = factor
        self._answer = answer
        self._booted = booted
        self._socket: ClientWebSocketResponse | None = None
        self._opened = asyncio.Event()
        self._turn = asyncio.Lock()
        self._awaited: dict[str, "asyncio.Future[Payload]"] = {}
        self._origin: tuple[float, float] | None = None
        self._last: tuple[str, Payload, Payload] | None = None
        self.faults: list[str] = []

    @property
    def has_booted(self) -> bool:
        """Whether the central system told the time by now."""
        return self._origin is not None

    def moment(self) -> str:
        """Now, by the clock that the central system set when the charge point first booted."""
        assert self._origin is not None
        theirs, ours = self._origin
        now = datetime.fromtimestamp(theirs + (time.monotonic() - ours) * self._factor, timezone.utc)
        return now.strftime("%Y-%m-%dT%H:%M:%S.") + f"{now.microsecond // 1000:03}Z"

    async def run(self) -> None:
        """Connects, and connects again when the connection is lost, until it is cancelled."""
        async with ClientSession() as session:
            while True:
                address = self._address()
                if address is not None:
                    try:
                        await self._live(session, address + self._path)
                    except (ClientError, OSError, asyncio.TimeoutError):
                        pass
                await asyncio.sleep(self._chance.uniform(0.05, LONGEST_PAUSE))

    async def report(self, action: str, payload: Payload) -> Payload:
        """Sends a call until it is answered, with the same content, and at times with the same message id."""
        identifier = str(uuid.uuid4())
        async with self._turn:
            while True:
                await self._opened.wait()
                try:
                    answer = await self._send(action, payload, identifier)
                    self._last = action, payload, answer
                    return answer
                except ConnectionLost:
                    identifier = identifier if happens(self._chance, 0.5) else str(uuid.uuid4())
                    await asyncio.sleep(0.05)

    async def call(self, action: str, payload: Payload) -> Payload:
        """Sends a call once. Raises ConnectionLost."""
        async with self._turn:
            if not self._opened.is_set():
                raise ConnectionLost
            return await self._send(action, payload, str(uuid.uuid4()))

    async def _live(self, session: ClientSession, url: str) -> None:
        """One connection, from its beginning until it is lost."""
        async with session.ws_connect(url, protocols=(self._subprotocol,), headers=self._headers) as opened:
            self._socket = opened
            beginning = asyncio.create_task(self._begin())
            life = asyncio.get_running_loop().call_later(self._chance.expovariate(1 / LIVES_FOR_ABOUT), self._lose)
            try:
                async for message in opened:
                    if message.type is WSMsgType.TEXT:
                        await self._take(json.loads(message.data))
            finally:
                life.cancel()
                beginning.cancel()
                self._socket = None
                self._opened.clear()
                for awaited in self._awaited.values():
                    if not awaited.done():
                        awaited.set_exception(ConnectionLost())
                self._awaited.clear()

    async def _begin(self) -> None:
        """Boots, takes the time once, and lets reports go out."""
        try:
            answer = await self._send("BootNotification", self._boot, str(uuid.uuid4()))
            if self._origin is None:
                theirs = datetime.fromisoformat(answer["currentTime"].replace("Z", "+00:00"))
                self._origin = ((theirs - datetime(1970, 1, 1, tzinfo=timezone.utc)) / timedelta(seconds=1),
                                time.monotonic())
            if self._last is not None and happens(self._chance):
                await self._send_again(*self._last)
            if self._socket is not None:
                self._opened.set()
                await self._booted()
        except ConnectionLost:
            pass

    async def _send_again(self, action: str, payload: Payload, answer: Payload) -> None:
        """Sends the last report once more, as after a power cut in which its answer was lost."""
        again = await self._send(action, payload, str(uuid.uuid4()))
        if again != answer:
            self.faults.append(f"{action} {payload} was answered {answer}, and then {again}")

    def _lose(self) -> None:
        """Cuts the connection as a lost radio link does, without a word."""
        if self._socket is None:
            return
        cut = self._socket.get_extra_info("socket")
        if cut is not None:
            try:
                cut.shutdown(socket.SHUT_RDWR)
            except OSError:
                pass

    async def _send(self, action: str, payload: Payload, identifier: str) -> Payload:
        """Sends a call, and awaits its answer. An answer that does not come is a lost connection."""
        if self._socket is None:
            raise ConnectionLost
        awaited: "asyncio.Future[Payload]" = asyncio.get_running_loop().create_future()
        self._awaited[identifier] = awaited
        try:
            await self._socket.send_str(json.dumps([CALL, identifier, action, payload]))
            if happens(self._chance, LOST_BEHIND_A_CALL):
                self._lose()
            return await asyncio.wait_for(awaited, ANSWERED_WITHIN)
        except (asyncio.TimeoutError, ConnectionError):
            self._lose()
            raise ConnectionLost from None
        finally:
            self._awaited.pop(identifier, None)

    async def _take(self, frame: list[Any]) -> None:
        """A frame of the other end: a call is answered, an answer goes to who awaits it."""
        if frame[0] == CALL:
            await self._take_call(str(frame[1]), frame[2], frame[3])
            return
        if frame[0] == ERROR:
            self.faults.append(f"refused by {frame}")
        awaited = self._awaited.pop(str(frame[1]), None)
        if awaited is None or awaited.done():
            return
        if frame[0] == RESULT:
            awaited.set_result(frame[2])
        else:
            awaited.set_exception(ConnectionLost())

    async def _take_call(self, identifier: str, action: str, payload: Payload) -> None:
        await asyncio.sleep(self._chance.uniform(0.0, 0.1))
        answer = await self._answer(action, payload)
        if happens(self._chance, LOST_BEHIND_A_CALL):
            self._lose()
        frame = [ERROR, identifier, "NotImplemented", "", {}] if answer is None else [RESULT, identifier, answer]
        if self._socket is not None:
            try:
                await self._socket.send_str(json.dumps(frame))
            except ConnectionError:
                pass
