"""The addresses for whoever runs the node: orders, tokens, credits, service, lists, backup, metrics, health, the page.

They are on loopback alone. As a browser of the same machine reaches that too, what a page of another address asks for
is refused, and so is what comes under another name than this machine's own. A bridge of this machine reaches it as
well, where a partner lists it as its own address: so what is sent to partners, by their tokens, is refused.
"""
import asyncio
import re
import shutil
import sqlite3
import time
from collections.abc import Awaitable, Callable, Sequence
from functools import partial
from pathlib import Path
from typing import NoReturn

from aiohttp import web

from .. import __version__
from ..backup import copy_together
from ..clock import milliseconds_of
from ..configuration import Configuration, WrongConfiguration
from ..events import Events
from ..json_text import JsonObject, NotJson, NumberTooLarge, read_json, write_json
from ..metrics import Metrics
from ..node.feeder import NodeEnded, OutcomeLost
from ..node.revocable import RevocableFeeder
from ..ocpi.client import Client
from ..ocpi.locations import Locations
from ..ocpi.objects import Objects
from ..ocpi.places import Places
from ..ocpp.central_system import CentralSystem
from ..room import NoRoom
from ..state import State
from .answers import LOST, Answers
from .feeding import EVENTS, Feeding
from .outstanding import Outstanding
from .shown import Shown

Handler = Callable[[web.Request], Awaitable[web.StreamResponse]]

PAGE = Path(__file__).parent / "page"
HEADERS = {"Cache-Control": "no-store", "X-Content-Type-Options": "nosniff",
           "Content-Security-Policy": "default-src 'none'; script-src 'self'; style-src 'self'; connect-src 'self'; "
                                      "img-src data:; base-uri 'none'; form-action 'none'; frame-ancestors 'none'"}
# What names this machine alone, as the header `Host` has it. Any other name may lead here too, for whoever owns it.
OWN_NAME = re.compile(r"(localhost|127(\.\d{1,3}){3}|\[::1\])(:\d+)?")
# The HTTP status of what a request may fail by, and what it means.
FAILURES = {
    NotJson: (400, "the body is no JSON that a node reads"), NodeEnded: (503, "the bridge is ending"),
    NumberTooLarge: (400, "the body has a number of a size that no node takes"),
    NoRoom: (503, "nothing was done: a disk is full, and the log says which"),
    OutcomeLost: (LOST[0], LOST[1]["error"])}
# Seconds within which a tick must have been answered, and the least seconds between two looks at what a page shows.
HEALTHY_WITHIN = 5.0
LOOK_EVERY = 0.5
# How many of a list an address gives at most: the newest.
MOST_LISTED = 10_000


class Admin:
    """All these addresses. What `feeding` and `outstanding` note of each outcome they have to be told."""

    def __init__(self, configuration: Configuration, state: State, events: Events, feeder: RevocableFeeder,
                 objects: Objects, client: Client, metrics: Metrics, locations: Locations | None, places: Places,
                 central_system: CentralSystem, reload: Callable[[], Awaitable[None]]) -> None:
        """`locations` are an operator's, `places` a provider's. `reload` has the configuration read again."""
        self._clock, self._objects, self._reload = events.clock, objects, reload
        self._configuration, self._state, self._feeder, self._metrics = configuration, state, feeder, metrics
        self.feeding = Feeding(
            events, feeder, objects, Answers(state, events.clock), locations,
            None if configuration.ocpp is None else central_system, client.takes_orders)
        self.outstanding = outstanding = Outstanding(state, objects, lambda: feeder.is_open)
        self._shown = Shown(configuration, events.clock, objects, outstanding, client, locations, places,
                            central_system)
        is_operator = configuration.is_operator
        metrics.gauge("ocpi_unacknowledged_pushes", outstanding.pushes)
        metrics.gauge("ocpi_open_commands",
                      lambda: len(central_system.commands()) if is_operator else outstanding.open_commands())
        metrics.gauge("ocpi_charge_points_connected", central_system.connected_count)
        if is_operator:
            metrics.gauge("ocpi_silent_sessions", central_system.silent_count)
        lists: dict[str, Callable[[], Sequence[object]]] = {
            "/locations": partial(places.locations, MOST_LISTED), "/tariffs": partial(places.tariffs, MOST_LISTED)}
        if locations is not None:
            lists = {"/locations": locations.all, "/tariffs": locations.tariffs.all}
        self._lists: dict[str, Callable[[], Sequence[object]]] = {
            **lists,
            **{f"/{module}": partial(objects.newest, module, MOST_LISTED) for module in ("sessions", "cdrs", "tokens")},
            "/commands": lambda: central_system.commands() if is_operator else outstanding.commands(),
            "/charge_points": central_system.charge_points, "/partners": client.told}

    def application(self) -> web.Application:
        application = web.Application(middlewares=[_guard], client_max_size=1 << 20)
        application.add_routes([
            *(web.post(path, self._feed) for path in EVENTS), *(web.get(path, self._list) for path in self._lists),
            web.post("/backup", self._backup), web.post("/reload", self._read_again),
            web.get("/metrics", self._metrics_text),
            web.get("/totals", self._totals), web.get("/health", self._health), web.get("/events", self._stream),
            web.get("/openapi.json", _page), web.get("/", _page), web.get(r"/{file:page\.(js|css)}", _page)])
        return application

    async def _list(self, request: web.Request) -> web.Response:
        """Writes the list in a thread, since it may be long, and the node goes on meanwhile."""
        text = await asyncio.to_thread(write_json, self._lists[request.path]())
        return web.Response(text=text, content_type="application/json", headers=HEADERS)

    async def _feed(self, request: web.Request) -> web.Response:
        """Feeds the body of a request as an event, and answers what came of it, once that is on the disk."""
        body = await self._body(request, EVENTS[request.path][1])
        status, told = await self.feeding.feed(request.path, body, request.headers.get("Idempotency-Key"))
        await self._state.synced()
        return _answer(told, status)

    async def _backup(self, request: web.Request) -> web.Response:
        """Copies the node's store and the state to a new folder, while the node is ended."""
        to = (await self._body(request)).get("to")
        if not isinstance(to, str) or "\0" in to or not Path(to).is_absolute():
            raise web.HTTPBadRequest(text="to: wanted is the absolute path of a folder that is not there yet")
        configuration, began = self._configuration, time.monotonic()
        copy = partial(copy_together, configuration.node.store, configuration.state, Path(to),
                       self._clock.seconds())
        try:
            if Path(to).exists():
                raise web.HTTPConflict(text="to: there is such a file or folder")
            size = await self._feeder.while_closed(lambda: asyncio.to_thread(copy))
        except (OSError, sqlite3.Error) as fault:
            raise web.HTTPConflict(text=f"to: no copy was made: {getattr(fault, 'strerror', fault)}") from None
        return _answer({"bytes": size, "seconds": round(time.monotonic() - began, 3)})

    async def _read_again(self, request: web.Request) -> web.Response:
        """Has the configuration read again. What is wrong there is told, and the old one goes on."""
        await self._body(request)
        await self._reload()
        return _answer({})

    async def _metrics_text(self, _: web.Request) -> web.Response:
        return web.Response(text=self._metrics.text(), headers={"Content-Type": "text/plain; version=0.0.4"})

    async def _health(self, _: web.Request) -> web.Response:
        """The node is `closed`, or it is `silent` where it answered no tick lately. Where a disk is full nothing is
        healthy."""
        node, settings = self._feeder, self._configuration
        is_silent = time.monotonic() > node.ticked + HEALTHY_WITHIN
        word = "closed" if not node.is_open else "silent" if is_silent else "open"
        is_healthy = word == "open" and self._state.room.is_there
        files = {"store": settings.node.store, "state": settings.state, "transcript": settings.node.transcript}
        return _answer({
            "healthy": is_healthy, "version": __version__, "node": word,
            "free_bytes": {name: shutil.disk_usage(file.parent).free for name, file in files.items() if file},
        }, 200 if is_healthy else 503)

    async def _stream(self, request: web.Request) -> NoReturn:
        """Server-sent events: all that the page shows, at once and whenever it changed, until the connection ends.

        Where a look takes long, as at a large site, the next one comes later: a page takes a tenth of the time at most.
        """
        response = web.StreamResponse(headers={**HEADERS, "Content-Type": "text/event-stream"})
        await response.prepare(request)
        shown = ""
        while True:
            began = time.monotonic()
            text = write_json(self._shown.all())
            pause = max(LOOK_EVERY, 9 * (time.monotonic() - began))
            await response.write(f"data: {text}\n\n".encode() if text != shown else b":\n\n")
            shown = text
            await asyncio.sleep(pause)

    async def _totals(self, request: web.Request) -> web.Response:
        """The totals of the bills of a time, such as a day."""
        try:
            moments = [milliseconds_of(request.query[name]) for name in ("date_from", "date_to")]
            return _answer(self._objects.totals(*moments))
        except (KeyError, ValueError, OverflowError):
            raise web.HTTPBadRequest(text="date_from, date_to: wanted are two moments") from None

    async def _body(self, request: web.Request, is_operators: bool | None = None) -> JsonObject:
        """The JSON object that a request carries, where the node has the role that the request wants."""
        if not self._state.room.is_there:
            raise NoRoom()
        if request.content_type != "application/json":
            raise web.HTTPUnsupportedMediaType(text="Content-Type: wanted is application/json")
        body = read_json(await request.read())
        if not isinstance(body, dict):
            raise web.HTTPBadRequest(text="the body is no JSON object")
        if is_operators not in (None, self._configuration.is_operator):
            raise web.HTTPConflict(text=f"only {'an operator' if is_operators else 'a provider'} does this")
        return body


def _answer(value: object, status: int = 200) -> web.Response:
    return web.Response(text=write_json(value), status=status, content_type="application/json", headers=HEADERS)


async def _page(request: web.Request) -> web.FileResponse:
    return web.FileResponse(PAGE / (request.path[1:] or "page.html"), headers=HEADERS)


@web.middleware
async def _guard(request: web.Request, handler: Handler) -> web.StreamResponse:
    """Lets through what comes from this machine under its own name, and gives each refusal as JSON."""
    origin = f"http://{request.host}"
    try:
        if not OWN_NAME.fullmatch(request.host) or request.headers.get("Origin", origin) != origin:
            raise web.HTTPForbidden(text="Host and Origin: wanted is the very address on which the bridge listens")
        if request.headers.get("Authorization", "").startswith("Token"):
            raise web.HTTPForbidden(text="Authorization: what a bridge sends to its partners is not for this address")
        return await handler(request)
    except web.HTTPException as refusal:
        return _answer({"error": refusal.text}, refusal.status)
    except WrongConfiguration as wrong:
        return _answer({"error": str(wrong)}, 409)
    except tuple(FAILURES) as failure:
        status, words = FAILURES[type(failure)]
        return _answer({"error": words}, status)
