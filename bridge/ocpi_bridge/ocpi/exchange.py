"""One HTTP request to a partner and its response, bounded in time and in size, and what a partner's versions list."""
import logging
import uuid
from collections.abc import Awaitable, Callable, Mapping
from contextlib import suppress
from dataclasses import dataclass
from email.utils import parsedate_to_datetime
from urllib.parse import quote

import aiohttp
from yarl import URL

from ..clock import Clock
from ..json_text import JsonObject, NotJson, NumberTooLarge, read_json, write_json
from ..metrics import Metrics
from .envelope import SUCCESS, authorization
from .partners import Endpoints, Partner

SECONDS = 10.0
SECONDS_TO_CONNECT = 5.0
MOST_BYTES = 1_000_000
VERSION = "2.2.1"
# The characters that a URL may have as they are. All others are percent-encoded.
PLAIN = "!#$%&'()*+,/:;=?@[]~"
# What a partner means that answers so: not now. The longest time in seconds for which it is then left alone.
NOT_NOW = (429, 503)
LONGEST_REST = 3600.0

log = logging.getLogger(__name__)


async def at_once() -> None:
    """Where nothing is kept there is nothing to wait for."""


class NoResponse(Exception):
    """Nothing came that can be used."""


class NotSent(NoResponse):
    """Surely nothing reached the partner."""


class NoAddress(NotSent):
    """A request has no address at its partner."""


class OtherVersions(NoResponse):
    """The partner speaks no OCPI 2.2.1."""


@dataclass(frozen=True)
class Response:
    """What came: the members of a body (none where it is no object), and where a list has its next page."""

    status: int
    headers: Mapping[str, str]
    body: JsonObject
    next_page: str | None

    @property
    def data(self) -> object:
        """The `data` of the body. Raises NoResponse where the response is no success."""
        if self.status >= 300 or self.body.get("status_code") != SUCCESS:
            raise NoResponse(f"HTTP {self.status}, status_code {self.body.get('status_code')} "
                             f"{self.body.get('status_message', '')!a}")
        return self.body.get("data")


class Exchange:
    """The connections to all partners. To be made while the event loop runs."""

    def __init__(self, clock: Clock, metrics: Metrics, synced: Callable[[], Awaitable[None]] = at_once) -> None:
        """`synced` is awaited before each request: what that rests on is on the disk."""
        self.clock = clock
        self._metrics, self._synced = metrics, synced
        # The address of the details that were lost once, by that of the versions, and when each partner may be asked.
        self._details: dict[str, str] = {}
        self._rested_at: dict[str, float] = {}
        # A connection is kept for a few seconds alone: one that the partner ends meanwhile would lose a request.
        self._session = aiohttp.ClientSession(
            connector=aiohttp.TCPConnector(limit=0, keepalive_timeout=3), cookie_jar=aiohttp.DummyCookieJar(),
            timeout=aiohttp.ClientTimeout(total=None, sock_connect=SECONDS_TO_CONNECT / clock.factor),
            auto_decompress=False, json_serialize=write_json)

    async def ask(self, partner: Partner, method: str, url: str, body: object = None,
                  headers: Mapping[str, str] | None = None, told: str | None = None) -> Response:
        """Sends a request with the token that a partner gave, and gives what is answered. Raises NoResponse.

        Where `headers` have no ids, as of a packet, it has ids of its own. Where the request is lost, its URL is told:
        as `told`, if there is something in it that no log may tell.
        """
        if partner.their_token is None:
            raise NoAddress("not registered")
        status = "lost"
        sent = {"Authorization": authorization(partner.their_token, partner.token_base64),
                "Accept-Encoding": "identity", "X-Request-ID": str(uuid.uuid4()),
                "X-Correlation-ID": str(uuid.uuid4()), **(headers or {})}
        ids = f"({sent['X-Request-ID']}, {sent['X-Correlation-ID']})"
        asked = f"{method} {told or url} {ids}"
        await self._synced()
        try:
            response = await self.clock.within(SECONDS, self._ask(method, url, sent, body))
            status = str(response.status)
            self._note_rest(partner, response)
            log.info("to %s: %s %s: %s", partner.party, method, ids, status)
            return response
        except aiohttp.ClientConnectorCertificateError as fault:
            raise NotSent(f"its certificate is not trusted: {fault.certificate_error}: {asked}") from None
        except (aiohttp.ClientConnectorError, aiohttp.ServerTimeoutError) as fault:
            words = getattr(fault, "strerror", None) or "not in time"
            raise NotSent(f"no connection: {words}: {asked}") from None
        except NoResponse as fault:
            raise type(fault)(f"{fault}: {asked}") from None
        except (aiohttp.ClientError, TimeoutError, OSError, ValueError) as fault:
            raise NoResponse(f"no response: {type(fault).__name__}: {asked}") from None
        finally:
            self._metrics.count("ocpi_http_requests_total", partner=partner.party, direction="out", status=status)

    def _note_rest(self, partner: Partner, response: Response) -> None:
        """Keeps until when a partner wants to be left alone, where it says so."""
        after = response.headers.get("Retry-After", "")
        if response.status in NOT_NOW and after:
            seconds = float(after) if after.isdecimal() else 0.0
            with suppress(ValueError, OverflowError):
                seconds = seconds or parsedate_to_datetime(after).timestamp() - self.clock.seconds()
            self._rested_at[partner.party] = self.clock.seconds() + min(seconds, LONGEST_REST)

    def is_resting(self, partner: Partner) -> bool:
        """Whether a partner said `Retry-After`, and that is not over."""
        return self.clock.seconds() < self._rested_at.get(partner.party, 0.0)

    async def may_ask(self, partner: Partner, at_most: float = LONGEST_REST) -> bool:
        """Waits until a partner may be asked that said `Retry-After`, so many seconds at most. Whether it may be."""
        seconds = self._rested_at.get(partner.party, 0.0) - self.clock.seconds()
        if seconds > 0:
            await self.clock.sleep(min(seconds, at_most))
        return self.clock.seconds() >= self._rested_at.get(partner.party, 0.0)

    async def endpoints(self, partner: Partner) -> Endpoints:
        """Where the modules of a partner stand in its OCPI 2.2.1. Raises NoResponse.

        Where the answer of its details is lost, the next call asks for these alone, once: a bad link has two requests
        less often answered one behind the other.
        """
        versions_url = partner.versions_url or ""
        address = self._details.pop(versions_url, None)
        if address is None:
            versions = await self.ask(partner, "GET", versions_url)
            urls = [one["url"] for one in objects_of(versions.data, "version", "url") if one["version"] == VERSION]
            if not urls:
                raise OtherVersions(f"its versions list no {VERSION}")
            address = self._details[versions_url] = urls[0]
        details = await self.ask(partner, "GET", address)
        self._details.pop(versions_url, None)
        listed = details.data.get("endpoints") if isinstance(details.data, dict) else None
        return {(one["identifier"], one["role"]): one["url"] for one in objects_of(listed, "identifier", "role", "url")}

    async def close(self) -> None:
        await self._session.close()

    async def _ask(self, method: str, url: str, headers: Mapping[str, str], body: object) -> Response:
        address = _address(url)
        async with self._session.request(method, address, headers=headers, json=body,
                                         allow_redirects=False) as response:
            pieces = bytearray()
            async for piece in response.content.iter_chunked(65_536):
                pieces += piece
                if len(pieces) > MOST_BYTES:
                    raise NoResponse("the response is too large")
            page = str(response.links["next"]["url"]) if "next" in response.links else None
            if page is not None and URL(page).origin() != address.origin():
                # The token is for no other address.
                raise NoResponse("the next page is at another address")
            return Response(response.status, response.headers, _members(bytes(pieces)), page)


def _address(url: str) -> URL:
    """A URL as it is asked. Raises NoAddress."""
    with suppress(ValueError):
        address = URL(quote(url, safe=PLAIN), encoded=True)
        if address.scheme in ("http", "https") and address.host:
            return address
    raise NoAddress("no address of HTTP")


def _members(text: bytes) -> JsonObject:
    with suppress(NotJson, NumberTooLarge):
        body = read_json(text)
        return body if isinstance(body, dict) else {}
    return {}


def objects_of(listed: object, *names: str) -> list[dict[str, str]]:
    """The objects of a list that have texts under these names."""
    elements = listed if isinstance(listed, list) else []
    return [element for element in elements
            if isinstance(element, dict) and all(isinstance(element.get(name), str) for name in names)]
