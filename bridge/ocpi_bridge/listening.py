"""The HTTP servers of a bridge: where each listens, and how long a request may take to arrive."""
import asyncio
import logging
from collections.abc import Awaitable, Callable

from aiohttp import web

LOG = logging.getLogger("bridge")
# In seconds of real time. A connection on which nothing is asked is kept as long.
ARRIVES_WITHIN = 30.0
MOST_UNACCEPTED = 1024
Handler = Callable[[web.Request], Awaitable[web.StreamResponse]]


class Listener:
    """A web application at HOST:PORT. Connections whose requests do not arrive in time are ended."""

    def __init__(self, name: str, address: str, application: web.Application) -> None:
        """`name` is what a log line calls it. The system picks a port for 0."""
        self._name, self._address = name, address
        application.middlewares.insert(0, self._arrive)
        # No body is decompressed: a small one could become very large.
        self._runner = web.AppRunner(
            application, access_log=None, keepalive_timeout=ARRIVES_WITHIN, auto_decompress=False)
        self._silent: set[object] = set()
        self._server: asyncio.Server | None = None

    async def open(self) -> None:
        """Begins to listen. Raises OSError."""
        await self._runner.setup()
        host, _, port = self._address.rpartition(":")
        self._server = await asyncio.get_running_loop().create_server(
            self._connect, host.strip("[]"), int(port), backlog=MOST_UNACCEPTED)
        LOG.info("%s: listening on %s:%d", self._name, host, self._server.sockets[0].getsockname()[1])

    def stop(self) -> None:
        """Takes no more connections."""
        if self._server is not None:
            self._server.close()

    async def close(self) -> None:
        """Ends all connections."""
        if self._runner.server is not None:
            await self._runner.shutdown()
            await self._runner.server.shutdown(1.0)
        await self._runner.cleanup()

    def _connect(self) -> web.RequestHandler:
        assert self._runner.server is not None
        connection = self._runner.server()
        self._silent.add(connection)
        asyncio.get_running_loop().call_later(ARRIVES_WITHIN, self._end_silent, connection)
        return connection

    def _end_silent(self, connection: web.RequestHandler) -> None:
        if connection in self._silent:
            self._silent.remove(connection)
            connection.force_close()

    @web.middleware
    async def _arrive(self, request: web.Request, handler: Handler) -> web.StreamResponse:
        self._silent.discard(request.protocol)
        timer = asyncio.get_running_loop().call_later(ARRIVES_WITHIN, _end_slow, request)
        try:
            return await handler(request)
        finally:
            timer.cancel()


def _end_slow(request: web.Request) -> None:
    """Ends the connection of a request whose body has not arrived."""
    if not request.content.is_eof() and request.transport is not None:
        request.transport.abort()
