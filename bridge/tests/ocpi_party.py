"""A party of OCPI 2.2.1 that knows nothing of nodes: its HTTP server and its client, written from OCPI's words alone.

Its correlation ids are UUIDs, it repeats nothing by itself, and it finds what to call by versions and their details.
"""
import asyncio
import base64
import json
import uuid
from collections.abc import Awaitable, Callable, Mapping, Sequence
from dataclasses import dataclass
from datetime import datetime, timezone
from typing import Any

import aiohttp
from aiohttp import web
from yarl import URL

from .running import Members, eventually

# The interfaces of each role, by module.
INTERFACES = {
    "EMSP": {"credentials": "SENDER", "commands": "SENDER", "sessions": "RECEIVER", "cdrs": "RECEIVER",
             "tokens": "SENDER"},
    "CPO": {"credentials": "SENDER", "commands": "RECEIVER", "tokens": "RECEIVER", "sessions": "SENDER",
            "cdrs": "SENDER", "locations": "SENDER"}}

# How often a request is sent that is answered 504 each time.
MOST_ATTEMPTS = 10


def now() -> str:
    """The moment, as OCPI writes it."""
    return datetime.now(timezone.utc).strftime("%Y-%m-%dT%H:%M:%S.%f")[:-3] + "Z"


def token_header(token: str) -> str:
    """The value of `Authorization` for a credentials token."""
    return "Token " + base64.b64encode(token.encode()).decode()


@dataclass(frozen=True)
class Received:
    """A request that came: `path` is decoded, `raw_path` is as it was sent, with the query. `module` is of the path."""

    method: str
    module: str
    path: str
    raw_path: str
    headers: Mapping[str, str]
    body: Any


@dataclass(frozen=True)
class Reply:
    """What was answered: the HTTP status, the headers, and OCPI's response format."""

    http_status: int
    headers: Mapping[str, str]
    members: Members

    @property
    def status_code(self) -> int:
        """OCPI's status code, 0 where there is none."""
        return int(self.members.get("status_code", 0))

    @property
    def data(self) -> Any:
        return self.members.get("data")


Answer = Callable[[Received], Awaitable[web.StreamResponse]]


def answered(data: object = None, status_code: int = 1000, headers: Mapping[str, str] | None = None) -> web.Response:
    """A response in OCPI's format, without `data` where that is None."""
    members: Members = {"status_code": status_code, "timestamp": now()}
    if data is not None:
        members["data"] = data
    return web.json_response(members, headers=headers)


class OcpiParty:
    """One party, an `EMSP` or a `CPO`. `answers` has functions that answer in place of the usual answers, by module."""

    def __init__(self, party: str, role: str, token: str, bridge_token: str = "") -> None:
        """`token` is what others have to present to it, `bridge_token` what it presents to the bridge."""
        self.party = party
        self.role = role
        self.token = token
        self.bridge_token = bridge_token
        self.bridge_versions_url = ""
        self.bridge_party = ""
        self.requests: list[Received] = []
        self.answers: dict[str, Answer] = {}
        self.interfaces = dict(INTERFACES[role])
        self.lists: dict[str, list[Members]] = {
            "sessions": [], "cdrs": [], "tokens": [], "locations": [], "tariffs": []}
        self.page_size = 2
        self.token_base64 = True
        self._endpoints: dict[str, str] = {}
        self._runner: web.AppRunner | None = None
        self._session: aiohttp.ClientSession | None = None
        self.url = ""

    async def start(self, port: int = 0) -> None:
        """Listens at a port, or at one that is free."""
        application = web.Application(client_max_size=4_000_000)
        application.router.add_route("*", "/{path:.*}", self._receive)
        self._runner = web.AppRunner(application)
        await self._runner.setup()
        site = web.TCPSite(self._runner, "127.0.0.1", port)
        await site.start()
        self.url = f"http://127.0.0.1:{self._runner.addresses[0][1]}"
        self._session = aiohttp.ClientSession(connector=aiohttp.TCPConnector(limit=0))

    async def close(self) -> None:
        if self._session is not None:
            await self._session.close()
        if self._runner is not None:
            await self._runner.cleanup()

    def written(self, token: str) -> str:
        """The value of `Authorization` for a token, as this party writes and reads it."""
        return token_header(token) if self.token_base64 else f"Token {token}"

    def deals_with(self, party: str, versions_url: str) -> None:
        """Tells whom it calls, and where that party lists its versions."""
        self.bridge_party = party
        self.bridge_versions_url = versions_url
        self._endpoints = {}

    @property
    def versions_url(self) -> str:
        return self.url + "/versions"

    def credentials(self) -> Members:
        """Its Credentials object."""
        country_code, party_id = self.party.split("/")
        role = {"role": self.role, "business_details": {"name": party_id}, "party_id": party_id,
                "country_code": country_code}
        return {"token": self.token, "url": self.versions_url, "roles": [role]}

    # What others ask of it.

    async def _receive(self, request: web.Request) -> web.StreamResponse:
        parts = request.path.strip("/").split("/")
        module = parts[1] if parts[0] == "2.2.1" and len(parts) > 1 else parts[0]
        text = await request.text()
        received = Received(request.method, module, request.path, request.raw_path, request.headers.copy(),
                            json.loads(text) if text else None)
        self.requests.append(received)
        if request.headers.get("Authorization") != self.written(self.token):
            return web.json_response({"status_code": 2001, "timestamp": now()}, status=401)
        if module in self.answers:
            return await self.answers[module](received)
        return self._usual_answer(received, request)

    def _usual_answer(self, received: Received, request: web.Request) -> web.Response:
        if received.module == "versions":
            return answered([{"version": "2.2.1", "url": self.url + "/2.2.1"}])
        if received.path == "/2.2.1":
            endpoints = [{"identifier": module, "role": role, "url": f"{self.url}/2.2.1/{module}"}
                         for module, role in self.interfaces.items()]
            return answered({"version": "2.2.1", "endpoints": endpoints})
        if received.module == "commands":
            return answered({"result": "ACCEPTED", "timeout": 30})
        if received.method == "GET" and received.module in self.lists:
            return self._page(received, request)
        return answered()

    def _page(self, received: Received, request: web.Request) -> web.Response:
        """A page of a list, with the `Link` to the next one. `date_from` and `date_to` choose by `last_updated`."""
        query = request.query
        chosen = [element for element in self.lists[received.module]
                  if query.get("date_from", "") <= element["last_updated"] < query.get("date_to", "9999")]
        offset = int(query.get("offset", 0))
        limit = min(int(query.get("limit", self.page_size)), self.page_size)
        headers = {"X-Total-Count": str(len(chosen)), "X-Limit": str(limit)}
        if offset + limit < len(chosen):
            following = request.url.update_query(offset=str(offset + limit), limit=str(limit))
            headers["Link"] = f'<{self.url}{following.raw_path_qs}>; rel="next"'
        return answered(chosen[offset:offset + limit], headers=headers)

    async def came(self, module: str, fits: Callable[[Received], bool] = lambda received: True,
                   within: float = 60.0) -> Received:
        """The first request to a module that fits and was not taken yet. It is taken by this."""
        async def look() -> Received | None:
            for received in self.requests:
                if received.module == module and fits(received):
                    self.requests.remove(received)
                    return received
            return None
        return await eventually(look, f"a request to {module} of {self.party}", within)

    # What it asks of others.

    def headers(self, token: str | None = None, correlation: str | None = None) -> dict[str, str]:
        """The headers of a request: those of authorization, of its ids and of routing."""
        country, identifier = self.party.split("/")
        to_country, to_identifier = self.bridge_party.split("/")
        return {"Authorization": self.written(token or self.bridge_token), "X-Request-ID": str(uuid.uuid4()),
                "X-Correlation-ID": correlation or str(uuid.uuid4()), "OCPI-from-country-code": country,
                "OCPI-from-party-id": identifier, "OCPI-to-country-code": to_country,
                "OCPI-to-party-id": to_identifier}

    async def ask(self, method: str, url: str, body: object = None, *, data: bytes | None = None,
                  token: str | None = None, correlation: str | None = None,
                  headers: Mapping[str, str | None] | None = None) -> Reply:
        """Sends a request to a URL, used as it is written. `headers` go before the usual ones, or drop them (None).

        What is answered 504 is sent again under the same ids.
        """
        sent: dict[str, str | None] = {**self.headers(token, correlation), **(headers or {})}
        if body is not None:
            data = json.dumps(body).encode()
        if data is not None:
            sent.setdefault("Content-Type", "application/json")
        kept = {name: value for name, value in sent.items() if value is not None}
        for _ in range(MOST_ATTEMPTS):
            reply = await self._ask_once(method, url, data, kept)
            if reply.http_status != 504:
                break
        return reply

    async def _ask_once(self, method: str, url: str, data: bytes | None, headers: Mapping[str, str]) -> Reply:
        assert self._session is not None
        async with self._session.request(method, URL(url, encoded=True), data=data, headers=headers,
                                         timeout=aiohttp.ClientTimeout(240)) as response:
            text = await response.text()
            members = json.loads(text) if response.content_type == "application/json" and text else {}
            return Reply(response.status, response.headers.copy(), members)

    async def endpoint(self, module: str, role: str) -> str:
        """The URL of an interface of the bridge, read off its versions and details once."""
        if not self._endpoints:
            versions = await self.ask("GET", self.bridge_versions_url)
            details_url = next(version["url"] for version in versions.data if version["version"] == "2.2.1")
            details = await self.ask("GET", details_url)
            self._endpoints = {f"{endpoint['identifier']} {endpoint['role']}": endpoint["url"]
                               for endpoint in details.data["endpoints"]}
        return self._endpoints[f"{module} {role}"]

    async def put_token(self, token: Members, **options: Any) -> Reply:
        """PUTs a Token to the bridge of an operator."""
        url = await self.endpoint("tokens", "RECEIVER")
        path = "/".join(quoted(token[name]) for name in ("country_code", "party_id", "uid"))
        return await self.ask("PUT", f"{url}/{path}?type={token['type']}", token, **options)

    async def command(self, name: str, body: Members, **options: Any) -> Reply:
        """POSTs a command to the bridge of an operator."""
        return await self.ask("POST", f"{await self.endpoint('commands', 'RECEIVER')}/{name}", body, **options)

    async def put_session(self, session: Members, **options: Any) -> Reply:
        """PUTs a Session to the bridge of a provider."""
        return await self.ask("PUT", await self.session_url(session), session, **options)

    async def session_url(self, session: Members) -> str:
        """Where the bridge of a provider holds a Session."""
        url = await self.endpoint("sessions", "RECEIVER")
        return url + "/" + "/".join(quoted(session[name]) for name in ("country_code", "party_id", "id"))


def quoted(text: str) -> str:
    """A text as one segment of a path, with all percent-encoded that is no letter and no digit."""
    return "".join(character if character.isascii() and character.isalnum() else
                   "".join(f"%{byte:02X}" for byte in character.encode()) for character in text)


async def gathered(asked: Sequence[Awaitable[Reply]], within: float = 400.0) -> list[Reply]:
    """All replies, within so many seconds. Raises TimeoutError."""
    return list(await asyncio.wait_for(asyncio.gather(*asked), within))
