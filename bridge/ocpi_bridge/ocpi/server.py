"""The OCPI server: who may ask, which path leads where, and the format and the headers of each response."""
import asyncio
import logging
from contextlib import AsyncExitStack
from urllib.parse import unquote

from aiohttp import web

from ..events import Events
from ..json_text import NotJson, NumberTooLarge, read_json
from ..listening import Handler
from ..metrics import Metrics
from ..node.feeder import NodeEnded, OutcomeLost
from ..parties import codes
from ..room import NoRoom
from ..state import State
from .credentials import Credentials
from .envelope import (CLIENT_ERROR, INVALID, SERVER_ERROR, Refusal, answer, is_printable, read_token, routing_headers,
                       written_token)
from .interfaces import Interfaces
from .partners import Partner, Partners
from .receiving import Receiving

logger = logging.getLogger(__name__)

# What a partner that is not registered may ask for too. Their messages have no routing headers.
VERSIONS, DETAILS, CREDENTIALS = "/ocpi/versions", "/ocpi/2.2.1", "/ocpi/2.2.1/credentials"
CONFIGURATION_PATHS = (VERSIONS, DETAILS, CREDENTIALS)
IDS = ("X-Request-ID", "X-Correlation-ID")
LARGEST_BODY = 1_000_000
# Requests with larger bodies than OCPI's usually are: so many at once are read and carried out, the others wait.
LARGE_BODY, MOST_LARGE = 8_192, 8
# How long a request waits for its answer, in seconds of the clock.
LONGEST_WAIT = 8

NO_JSON = 400, INVALID, "the body is no JSON that is read here"
NOT_WHOLE = 400, INVALID, "the body is not whole, or not coded as its headers say"
# What a request may fail by, and what is answered: the HTTP status, OCPI's status code, and words.
FAILURES: dict[type[Exception], tuple[int, int, str]] = {
    NotJson: NO_JSON, UnicodeDecodeError: NO_JSON, ConnectionError: NOT_WHOLE, web.RequestPayloadError: NOT_WHOLE,
    NumberTooLarge: (200, INVALID, "the body has a number that is too large"),
    TimeoutError: (504, SERVER_ERROR, "the node did not answer in time: send the request again"),
    OutcomeLost: (504, SERVER_ERROR, "the answer was lost: send the request again"),
    NodeEnded: (503, SERVER_ERROR, "the node is stopping"),
    NoRoom: (503, SERVER_ERROR, "a disk is full: send the request again")}
UNKNOWN_FAILURE = 500, SERVER_ERROR, "the bridge could not carry out the request"


class Server:
    """Answers whoever has a token. What a registered partner may ask for is handled by `interfaces`."""

    def __init__(self, events: Events, partners: Partners, credentials: Credentials, interfaces: Interfaces,
                 metrics: Metrics, state: State, receiving: Receiving | None = None) -> None:
        """`receiving` is a provider's."""
        self._receiving = receiving
        self._state, self._room = state, state.room
        self._party, self._clock, self._partners = events.node, events.clock, partners
        self._credentials, self._interfaces, self._metrics = credentials, interfaces, metrics
        self._large = asyncio.Semaphore(MOST_LARGE)

    def application(self) -> web.Application:
        application = web.Application(middlewares=[self.respond], client_max_size=LARGEST_BODY + 1)
        application.add_routes([
            *self._interfaces.routes(), *(self._receiving.routes() if self._receiving is not None else ()),
            web.route("GET", VERSIONS, self.versions),
            web.route("GET", DETAILS, self.details),
            *(web.route(method, CREDENTIALS, self.credentials) for method in ("GET", "POST", "PUT", "DELETE"))])
        return application

    @web.middleware
    async def respond(self, request: web.Request, handler: Handler) -> web.StreamResponse:
        """Lets those ask who may, makes each refusal a response in OCPI's format, and completes the headers."""
        response: web.StreamResponse
        try:
            request["partner"] = self._partner(request)
            if not self._room.is_there:
                raise NoRoom()
            response = await self._carry_out(request, handler)
            await self._state.synced()
        except Refusal as refusal:
            response = self._error(refusal.http_status, refusal.status_code, refusal.message)
        except web.HTTPException as exception:
            response = self._error(exception.status, CLIENT_ERROR, exception.reason)
            response.headers.update({name: text for name, text in exception.headers.items() if name == "Allow"})
        except Exception as fault:
            known = [told for kind, told in FAILURES.items() if isinstance(fault, kind)]
            if known and known[0][0] == 504 and not self._room.is_there:
                known = [FAILURES[NoRoom]]
            if not known:
                logger.exception("a request was not carried out")
            response = self._error(*(known[0] if known else UNKNOWN_FAILURE))
        self._complete(request, response)
        return response

    async def _carry_out(self, request: web.Request, handler: Handler) -> web.StreamResponse:
        """Reads a request and carries it out, where its body is not too large, and where it is large, in its turn."""
        length = request.content_length or 0
        if length > LARGEST_BODY:
            raise web.HTTPRequestEntityTooLarge(LARGEST_BODY, length)
        async with AsyncExitStack() as turn:
            if length >= LARGE_BODY or request.can_read_body and not length:
                await self._clock.within(LONGEST_WAIT, turn.enter_async_context(self._large))
            await request.read()
            asked = handler(request)
            response = await (asked if request.path in CONFIGURATION_PATHS else self._clock.within(LONGEST_WAIT, asked))
        return response

    def _error(self, http_status: int, status_code: int, message: str) -> web.Response:
        return answer(self._clock.moment(), None, status_code, message, http_status)

    def _partner(self, request: web.Request) -> Partner:
        """The partner that asks. Raises Refusal: 401, or 2001 where the request is for another party."""
        partner = self._sender(request)
        if not partner.is_registered and request.path not in CONFIGURATION_PATHS:
            raise Refusal(401, INVALID, f"{partner.party} is not registered")
        if not _agree(request, "OCPI-to", self._party):
            raise Refusal(200, INVALID, f"OCPI-to: this is {self._party}")
        if not is_printable(unquote(request.rel_url.raw_path)):
            raise Refusal(200, INVALID, "path: wanted are characters of printable ASCII")
        return partner

    def _sender(self, request: web.Request) -> Partner:
        """The partner whose token comes, or the one of several that share it which the routing headers name. About
        versions and credentials it may be any of these."""
        written = written_token(request.headers.get("Authorization"))
        found = self._partners.sharing(written, False) or self._partners.sharing(read_token(written))
        if not found:
            raise Refusal(401, INVALID, "Authorization: the token is of nobody")
        named = [partner for partner in found if _agree(request, "OCPI-from", partner.party)]
        if not named or len(named) > 1 and request.path not in CONFIGURATION_PATHS:
            parties = ", ".join(partner.party for partner in found)
            raise Refusal(401, INVALID, f"OCPI-from: the token is of {parties}{', and none is named' if named else ''}")
        return named[0]

    async def versions(self, _: web.Request) -> web.Response:
        return answer(self._clock.moment(), self._credentials.versions())

    async def details(self, _: web.Request) -> web.Response:
        return answer(self._clock.moment(), self._credentials.details())

    async def credentials(self, request: web.Request) -> web.Response:
        text = (await request.read()).decode()
        body = read_json(text) if request.method in ("POST", "PUT") else None
        return answer(self._clock.moment(), await self._credentials.answer(request["partner"], request.method, body))

    def _complete(self, request: web.Request, response: web.StreamResponse) -> None:
        """Adds the headers that each response has, and tells metrics and log of it."""
        partner: Partner | None = request.get("partner")
        for name in IDS:
            if is_printable(request.headers.get(name, "\n")):
                response.headers[name] = request.headers[name]
        if partner is not None and request.path not in CONFIGURATION_PATHS:
            response.headers.update(routing_headers(self._party, partner.party))
        asking = "unknown" if partner is None else partner.party
        self._metrics.count("ocpi_http_requests_total", partner=asking, direction="in", status=str(response.status))
        # The path itself may have a driver's token.
        resource = request.match_info.route.resource
        path = "unknown path" if resource is None else resource.canonical
        ids = ", ".join(response.headers[name][:80] for name in IDS if name in response.headers)
        logger.info("%s %s %s: %d%s", asking, request.method, path, response.status, f" ({ids})" if ids else "")


def _agree(request: web.Request, header: str, party: str) -> bool:
    """Whether routing headers, where they are there, name a party."""
    country, identifier = codes(party)
    named = ((f"{header}-country-code", country), (f"{header}-party-id", identifier))
    return all(request.headers.get(name, code).upper() == code.upper() for name, code in named)
