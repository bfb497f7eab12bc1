"""A charge point of OCPP over JSON as frames on a WebSocket, written from OCPP's words alone."""
import asyncio
import itertools
import json
from collections.abc import Sequence
from typing import Any

import aiohttp

from .running import Members

# The seconds within which each frame has to come.
COMES_WITHIN = 60.0


class ChargePoint:
    """One connection of a charge point. Calls of the other side wait until `asked` takes them."""

    def __init__(self, url: str, identifier: str, password: str | None = None,
                 protocols: Sequence[str] = ("ocpp1.6",)) -> None:
        """`url` is the address up to the id of the charge point."""
        self.protocols = protocols
        self.url = f"{url}/{identifier}"
        self.identifier = identifier
        self._authentication = None if password is None else aiohttp.BasicAuth(identifier, password)
        self._numbers = itertools.count(1)
        self._calls: "asyncio.Queue[list[Any]]" = asyncio.Queue()
        self._answers: "asyncio.Queue[list[Any]]" = asyncio.Queue()
        self._session: aiohttp.ClientSession | None = None
        self._socket: aiohttp.ClientWebSocketResponse | None = None
        self._reading: "asyncio.Task[None] | None" = None

    async def connect(self) -> None:
        """Opens the connection. Raises aiohttp.WSServerHandshakeError, with the HTTP status, where it is refused."""
        await self.close()
        self._session = aiohttp.ClientSession(auth=self._authentication)
        try:
            self._socket = await asyncio.wait_for(
                self._session.ws_connect(self.url, protocols=self.protocols, max_msg_size=0), COMES_WITHIN)
        except BaseException:
            await self._session.close()
            raise
        self._reading = asyncio.create_task(self._read(self._socket))

    async def _read(self, socket: aiohttp.ClientWebSocketResponse) -> None:
        async for message in socket:
            frame = json.loads(message.data)
            await (self._calls if frame[0] == 2 else self._answers).put(frame)

    async def close(self) -> None:
        """Ends the connection."""
        if self._socket is not None:
            await self._socket.close()
        if self._reading is not None:
            self._reading.cancel()
        if self._session is not None:
            await self._session.close()
        self._socket = self._session = self._reading = None

    @property
    def protocol(self) -> str | None:
        """The subprotocol that the other side chose."""
        assert self._socket is not None
        return self._socket.protocol

    async def was_closed(self) -> None:
        """Waits until the other side ended the connection."""
        assert self._reading is not None
        await asyncio.wait_for(asyncio.shield(self._reading), COMES_WITHIN)

    async def send(self, text: str) -> None:
        """Sends a text as it is."""
        assert self._socket is not None
        await self._socket.send_str(text)

    async def send_bytes(self, data: bytes) -> None:
        """Sends a binary message."""
        assert self._socket is not None
        await self._socket.send_bytes(data)

    async def answer(self) -> list[Any]:
        """The next CALLRESULT or CALLERROR that comes, whole."""
        return await asyncio.wait_for(self._answers.get(), COMES_WITHIN)

    async def frame(self, text: str) -> list[Any]:
        """Sends a text as it is, and gives the CALLRESULT or CALLERROR that comes."""
        await self.send(text)
        return await self.answer()

    async def begin_call(self, action: str, payload: Members, identifier: str | None = None) -> str:
        """Sends a CALL, whose answer is awaited later. Gives its message id."""
        identifier = identifier or f"{self.identifier}-{next(self._numbers)}"
        await self.send(json.dumps([2, identifier, action, payload]))
        return identifier

    async def call(self, action: str, payload: Members, identifier: str | None = None) -> Members:
        """Sends a CALL, and gives the payload of its CALLRESULT. Raises AssertionError at a CALLERROR."""
        sent = await self.begin_call(action, payload, identifier)
        answer = await self.answer()
        if answer[:2] != [3, sent]:
            raise AssertionError(f"{action}: {answer}")
        return dict(answer[2])

    async def asked(self, action: str) -> tuple[str, Members]:
        """The next call of the other side but TriggerMessage, which must be of this action: its id and its payload.

        A TriggerMessage is answered NotImplemented, as by a charge point that cannot do it.
        """
        while True:
            _, identifier, name, payload = await asyncio.wait_for(self._calls.get(), COMES_WITHIN)
            if name == action:
                return identifier, payload
            if name != "TriggerMessage":
                raise AssertionError(f"{name} came, and not {action}: {payload}")
            await self.give(identifier, {"status": "NotImplemented"})

    async def give(self, identifier: str, payload: Members) -> None:
        """Answers a call of the other side."""
        await self.send(json.dumps([3, identifier, payload]))

    def was_not_asked(self) -> bool:
        """Whether no call but TriggerMessage waits to be taken."""
        waiting = [self._calls.get_nowait() for _ in range(self._calls.qsize())]
        for call in waiting:
            self._calls.put_nowait(call)
        return all(call[2] == "TriggerMessage" for call in waiting)
