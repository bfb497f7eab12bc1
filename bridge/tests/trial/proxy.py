"""A proxy before one bridge, that loses, delays, repeats and reorders the requests to it and the responses."""
import asyncio
from dataclasses import dataclass
from random import Random

from aiohttp import ClientError, ClientSession, ClientTimeout, web
from multidict import CIMultiDict
from yarl import URL

from .chance import happens

# Headers of one connection, which are not passed on.
OF_A_CONNECTION = ("host", "connection", "keep-alive", "content-length", "transfer-encoding")
# In seconds of the machine. A bridge of a trial awaits a response for 0.8 of them.
LONGEST_DELAY = 0.4
LONGEST_DELAY_OF_A_RESPONSE = 0.3
LONGEST_DELAY_OF_A_REPEAT = 1.5
SILENCE = 2.0
# How often the sender of what is lost is told so, by the end of its connection. Else it waits.
TOLD = 0.85


@dataclass
class Budget:
    """How many requests a trial may make in all. More than that is a fault of a bridge."""

    left: int
    made: int = 0

    def take(self) -> bool:
        """Whether one more request may be made."""
        self.made += 1
        return self.made <= self.left


@dataclass(frozen=True)
class Fate:
    """What befalls a request: after which seconds each copy of it arrives, and what becomes of the response."""

    copies: tuple[float, ...]
    is_answered_by_the_last: bool
    is_response_lost: bool
    response_delay: float
    is_loss_told: bool

    @staticmethod
    def drawn(chance: Random) -> "Fate":
        """A fate, of which each part is drawn by itself."""
        copies = [chance.uniform(0.02, LONGEST_DELAY) if happens(chance) else 0.0]
        if happens(chance):
            copies.append(chance.uniform(0.0, LONGEST_DELAY_OF_A_REPEAT))
        response_delay = chance.uniform(0.02, LONGEST_DELAY_OF_A_RESPONSE) if happens(chance) else 0.0
        return Fate(() if happens(chance) else tuple(copies), happens(chance, 0.5), happens(chance), response_delay,
                    happens(chance, TOLD))


@dataclass(frozen=True)
class Request:
    """What came, as it is passed on. The path is as it was sent, with its query."""

    method: str
    path: str
    headers: "CIMultiDict[str]"
    body: bytes


class Proxy:
    """Listens at a port of its own, which stays when the bridge behind it starts again at another one."""

    def __init__(self, chance: Random, budget: Budget, slowness: float) -> None:
        """Each answer takes `slowness` seconds longer."""
        self.target: str | None = None
        self.url = ""
        self._chance, self._budget, self._slowness = chance, budget, slowness
        self._copies: set["asyncio.Task[web.Response | None]"] = set()

    @property
    def is_quiet(self) -> bool:
        """No copy of a request is under way."""
        return not self._copies

    async def open(self) -> None:
        """Listens. `url` is its address from then on."""
        self._session = ClientSession(timeout=ClientTimeout(total=5), auto_decompress=False)
        application = web.Application(client_max_size=4 << 20)
        application.router.add_route("*", "/{path:.*}", self._handle)
        self._runner = web.AppRunner(application, access_log=None)
        await self._runner.setup()
        site = web.TCPSite(self._runner, "127.0.0.1", 0, shutdown_timeout=1)
        await site.start()
        self.url = f"http://127.0.0.1:{self._runner.addresses[0][1]}"

    async def close(self) -> None:
        """Ends what is under way, too."""
        for copy in self._copies:
            copy.cancel()
        await self._session.close()
        await self._runner.cleanup()

    async def _handle(self, received: web.Request) -> web.StreamResponse:
        headers = CIMultiDict((name, value) for name, value in received.headers.items()
                              if name.lower() not in OF_A_CONNECTION)
        request = Request(received.method, received.raw_path, headers, await received.read())
        fate = Fate.drawn(self._chance)
        response = await self._pass_on(request, fate) if self._budget.take() else None
        if response is not None and not fate.is_response_lost:
            await asyncio.sleep(self._slowness + fate.response_delay)
            return response
        if not fate.is_loss_told:
            await asyncio.sleep(SILENCE)
        if received.transport is not None:
            received.transport.close()
        return web.Response(status=502)

    async def _pass_on(self, request: Request, fate: Fate) -> web.Response | None:
        """Sends all copies, and gives the response to one of them once it is there."""
        copies = [asyncio.create_task(self._send(request, delay)) for delay in fate.copies]
        for copy in copies:
            self._copies.add(copy)
            copy.add_done_callback(self._copies.discard)
        if not copies:
            return None
        return await asyncio.shield(copies[-1 if fate.is_answered_by_the_last else 0])

    async def _send(self, request: Request, delay: float) -> web.Response | None:
        await asyncio.sleep(delay)
        if self.target is None:
            return None
        url = URL(self.target + request.path, encoded=True)
        try:
            async with self._session.request(request.method, url, headers=request.headers, data=request.body,
                                             allow_redirects=False) as response:
                headers = CIMultiDict((name, value) for name, value in response.headers.items()
                                      if name.lower() not in OF_A_CONNECTION)
                return web.Response(status=response.status, headers=headers, body=await response.read())
        except (ClientError, OSError, asyncio.TimeoutError):
            return None
