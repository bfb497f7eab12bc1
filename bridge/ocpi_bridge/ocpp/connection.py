"""A connection of a charge point: its calls are handled one after another, and it is asked one thing at a time."""
import asyncio
import logging
from collections.abc import AsyncIterator, Awaitable, Callable
from contextlib import asynccontextmanager, suppress
from uuid import uuid4

from aiohttp import ClientWebSocketResponse, WSMsgType, web

from ..clock import Clock
from ..json_text import Members, write_json
from ..node.feeder import NodeEnded
from .frames import CALL, RESULT, CallError, Frame, read_frame
from .messages import Version

LOG = logging.getLogger("ocpp")
ANSWER_WITHIN = 30.0
# Seconds of real time for the other side to take that a connection ends.
CLOSED_WITHIN = 4.0
# The characters of calls that may wait. A charge point that sends more does not wait for answers at all.
MOST_WAITING = 4_000_000
# Gives the payload that answers an action and its payload. Raises CallError.
Handler = Callable[[str, Members], Awaitable[Members]]


class Connection:
    """Handles the frames that come, in order.

    A result of the bridge's own call is handled whole before a call that came behind it: a charge point may accept a
    remote start and tell of the transaction in the next frame.
    """

    def __init__(self, socket: web.WebSocketResponse | ClientWebSocketResponse, version: Version, clock: Clock,
                 handler: Handler, abort: Callable[[], None] = lambda: None, name: str = "a charge point",
                 synced: Callable[[], Awaitable[None]] | None = None) -> None:
        """`abort` ends the connection where the other side does not read any more. `name` is what the log calls it.
        `synced` is awaited before each frame is sent: what that rests on is on the disk."""
        self.version = version
        self._socket, self._clock, self._handler, self._abort, self._name = socket, clock, handler, abort, name
        self._inbox: asyncio.Queue[tuple[str, Frame] | None] = asyncio.Queue()
        self._times: dict[str, int] = {}
        self._waiting = 0
        # Whoever asks has the first of these until it is answered, and who handles what came has the second.
        self._asking, self._handling = asyncio.Lock(), asyncio.Lock()
        self._asked: tuple[str, asyncio.Future[Members | None]] | None = None
        self._is_open, self.since, self._synced = True, clock.seconds(), synced

    @property
    def has_waiting(self) -> bool:
        """Whether a call came that is not answered."""
        return bool(self._times)

    async def read(self) -> None:
        """Reads frames until the connection ends. Calls that nobody began to handle by then are forgotten."""
        try:
            async for message in self._socket:
                await self._take(message.data if message.type == WSMsgType.TEXT else "")
        finally:
            self._is_open = False
            if self._asked is not None and not self._asked[1].done():
                self._asked[1].set_result(None)
            self._inbox.put_nowait(None)

    async def _take(self, text: str) -> None:
        try:
            frame = read_frame(text)
        except CallError as error:
            await self._send(self._refusal(error, "a frame", error.message_id))
            return
        if frame.action is None:
            if self._asked is not None and self._asked[0] == frame.message_id and not self._asked[1].done():
                self._asked[1].set_result(frame.payload)
        elif text in self._times:
            self._times[text] += 1
        elif self._waiting + len(text) > MOST_WAITING:
            await self.close()
        else:
            self._times[text] = 1
            self._waiting += len(text)
            self._inbox.put_nowait((text, frame))

    async def work(self) -> None:
        """Handles what was read, until the connection ends. What is begun is brought to its end.

        Raises NodeEnded where the bridge is stopping. The connection is closed then: the charge point calls again.
        """
        try:
            while (item := await self._inbox.get()) is not None:
                # Whoever was answered before this came is awake by then, and goes first.
                await asyncio.sleep(0)
                async with self._handling:
                    await self._handle(*item)
        finally:
            await self.close()

    async def _handle(self, text: str, call: Frame) -> None:
        """Handles a call. It is answered as often as it came meanwhile."""
        if not self._is_open:
            return
        try:
            answer = write_json([RESULT, call.message_id, await self._handler(str(call.action), call.payload)])
        except CallError as error:
            answer = self._refusal(error, str(call.action), call.message_id)
        except NodeEnded:
            raise
        except Exception:
            LOG.exception("%s: a call %.50s could not be handled", self._name, call.action)
            answer = CallError("InternalError", "it could not be handled").frame(call.message_id, self.version.name)
        self._waiting -= len(text)
        for _ in range(self._times.pop(text)):
            await self._send(answer)

    def _refusal(self, error: CallError, what: str, message_id: str) -> str:
        """The CALLERROR that tells what is wrong, which is logged too."""
        LOG.warning("%s: %.50s is refused: %s, %s", self._name, what, error.code, error)
        return error.frame(message_id, self.version.name)

    @asynccontextmanager
    async def asking(self, action: str, payload: Members,
                     is_wanted: Callable[[], bool] = lambda: True) -> AsyncIterator[Members | None]:
        """Asks the charge point. Inside stands what it answered, or None where it did not within 30 s.

        What was asked before is answered first. `is_wanted` is called right before the call is sent, and where it says
        no nothing is asked. Calls that come behind the answer wait until this is left. So inside nothing else may be
        asked.
        """
        reply = None
        async with self._asking:
            self._asked = message_id, answer = str(uuid4()), asyncio.get_running_loop().create_future()
            if self._is_open and not self._socket.closed and is_wanted():
                await self._send(write_json([CALL, message_id, action, payload]))
                with suppress(TimeoutError):
                    reply = await self._clock.within(ANSWER_WITHIN, answer)
                if reply is None:
                    LOG.warning("%s: did not answer %s", self._name, action)
        async with self._handling:
            yield reply

    async def _send(self, text: str) -> None:
        """Sends a frame. Where the connection has ended it is lost."""
        if self._synced is not None:
            await self._synced()
        with suppress(ConnectionError, RuntimeError):
            await self._socket.send_str(text)

    async def close(self) -> None:
        with suppress(TimeoutError):
            await asyncio.wait_for(self._socket.close(), CLOSED_WITHIN)
        self._abort()
