"""The interfaces of OCPI's modules that a node has: what each method at each path does.

A request that is a packet is delivered to the node, and answered by what the node sends for it. The others the bridge
answers by itself.
"""
import asyncio
from collections.abc import Awaitable, Callable, Mapping, Sequence
from dataclasses import dataclass
from functools import partial
from typing import cast

from aiohttp import web

from ..events import Events, Outcome, Packet
from ..json_text import JsonObject, write_json
from ..parties import party_key, party_of, same_party
from ..records import Body, Event
from .asked import (RECEIVER, SENDER, compare, members_of, module_of, part_of, refuse_of_another,
                    segments_of)
from .envelope import (INVALID, SERVER_ERROR, SUCCESS, UNKNOWN_LOCATION, UNKNOWN_TOKEN, Refusal, answer, is_printable,
                       refusal_of)
from .locations import Locations
from .objects import OBJECT_KINDS, OBJECTS, Objects, Part
from .orders import LATE
from .packets import AGED, COMMANDS, OBJECT_PATH, path_of
from .partners import Partner
from .requests import NODES_URL, RESULTS_PATH, Requests, digest_of, number_in, number_of, reference_of

COMMAND_KINDS = {name: kind for kind, name in COMMANDS.items()}
# Segments of a path that may be empty, as an id may be.
OBJECT = "{country_code:[^/]*}/{party_id:[^/]*}/{identifier:[^/]*}"
# The longest line that a node reads, in bytes, and the longest address that a command may have.
LONGEST_LINE = 1 << 20
LONGEST_URL = 255
# The most requests that wait for the node, be it that their senders wait no more.
MOST_UNDER_WAY = 2000

Handler = Callable[[web.Request], Awaitable[web.Response]]


@dataclass
class UnderWay:
    """A request that was fed, and by how many who sent it its outcome is awaited."""

    event: Event
    outcome: "asyncio.Future[Outcome]"
    awaiting: int = 0


class Interfaces:
    """Handles what a registered partner asks for, which is `request["partner"]`."""

    def __init__(self, url: str, events: Events, objects: Objects, requests: Requests, locations: Locations | None,
                 feed: Callable[[Event], Awaitable[Outcome]],
                 takes_orders: Callable[[str], bool] = lambda party: True,
                 revoke: Callable[[Event], bool] = lambda event: False,
                 expect_late: Callable[[str, int], None] = lambda party, number: None,
                 operator_of: Callable[[int | None], str | None] = lambda number: None) -> None:
        """`locations` are those of an operator, and None at a provider. `feed` carries out an event, and goes on where
        nobody waits any more, unless `revoke` takes the event back, which tells whether it could. `takes_orders` says
        whether the result of one command more may wait for a partner, `expect_late` keeps that a command is late, and
        `operator_of` says to whom the command of a number was given, where that is known.
        """
        self._url, self._events, self._clock, self._feed = url, events, events.clock, feed
        self._objects, self._requests, self._locations = objects, requests, locations
        self._takes_orders, self._revoke, self._expect_late = takes_orders, revoke, expect_late
        self._operator_of = operator_of
        self._patching = asyncio.Lock()
        self._under_way: dict[tuple[str, int], UnderWay] = {}

    def routes(self) -> list[web.RouteDef]:
        """The routes of an operator or of a provider."""
        objects = f"{RECEIVER}/{'sessions' if self._locations is None else 'tokens'}/{OBJECT}"
        routes: list[tuple[str, str, Handler]] = [
            ("GET", objects, self.get), ("PUT", objects, self.put), ("PATCH", objects, self.patch)]
        if self._locations is None:
            routes += [
                ("POST", f"{RECEIVER}/cdrs", self.put), ("GET", f"{RECEIVER}/cdrs/{OBJECT}", self.get),
                ("POST", RESULTS_PATH + "{number:[0-9]+}", self.post_result),
                ("GET", f"{SENDER}/tokens", self.get_list),
                ("POST", SENDER + "/tokens/{token_uid:[^/]*}/authorize", self.authorize)]
        else:
            routes += [
                ("POST", f"{RECEIVER}/commands/{{name:{'|'.join(COMMAND_KINDS)}}}", self.post_command),
                ("GET", f"{SENDER}/{{module:sessions|cdrs|locations|tariffs}}", self.get_list),
                ("GET", SENDER + "/locations/{identifiers:[^/]*(/[^/]*){0,2}}", self.get)]
        return [web.route(method, path, handler) for method, path, handler in routes]

    async def post_command(self, request: web.Request) -> web.Response:
        kind, body = COMMAND_KINDS[request.match_info["name"]], await members_of(request)
        partner: Partner = request["partner"]
        if (kind == "start_session" and partner.kind == "ocpi" and not partner.own_references
                and not body.get("authorization_reference")):
            raise Refusal(200, INVALID, "authorization_reference: missing")
        if not self._takes_orders(partner.party):
            raise Refusal(503, SERVER_ERROR, "too many results wait for you: send the request again")
        return await self._deliver(request, kind, body)

    async def post_result(self, request: web.Request) -> web.Response:
        operator = self._operator_of(number_of(request.match_info["number"]))
        if operator is not None and not same_party(operator, request["partner"].party):
            raise Refusal(200, INVALID, "the command was given to another party")
        url = f"{NODES_URL}{self._events.node}/{request.match_info['number']}"
        return await self._deliver(request, "command_result", {**await members_of(request), "response_url": url})

    async def authorize(self, request: web.Request) -> web.Response:
        body: JsonObject = {"token_uid": segments_of(request)[0]}
        if "type" in request.query:
            body["type"] = request.query["type"]
        if (await request.read()).strip():
            body["location"] = await members_of(request)
        return await self._deliver(request, "authorize", body)

    async def put(self, request: web.Request) -> web.Response:
        """Takes a whole session, token or CDR."""
        body = await members_of(request)
        _compare(request, body)
        return await self._deliver(request, OBJECT_KINDS[module_of(request)], body)

    async def patch(self, request: web.Request) -> web.Response:
        """Puts the members of the body into the object that is held, and hands on the whole: one after another, and
        each behind what its partner asked for before."""
        changes = await members_of(request)
        _compare(request, changes)
        if changes.get("last_updated") is None:
            raise Refusal(200, INVALID, "last_updated: missing")
        async with self._patching:
            party = party_key(request["partner"].party)
            if before := [fed.outcome for key, fed in self._under_way.items() if key[0] == party]:
                await asyncio.wait(before)
            return await self._deliver(request, OBJECT_KINDS[module_of(request)], {**self._held(request), **changes})

    async def get(self, request: web.Request) -> web.Response:
        return answer(self._clock.moment(), self._held(request))

    async def get_list(self, request: web.Request) -> web.Response:
        """The locations, the tariffs, the tokens, or the sessions or CDRs of the partner that asks."""
        part, module = part_of(request.query), module_of(request)
        count, listed = self._listed(module, request["partner"], part)
        headers, following = {"X-Total-Count": str(count), "X-Limit": str(part.limit)}, part.offset + part.limit
        if following < count:
            path = request.rel_url.update_query(offset=following, limit=part.limit).raw_path_qs
            headers["Link"] = f'<{self._url}{path}>; rel="next"'
        return answer(self._clock.moment(), listed, headers=headers)

    def _listed(self, module: str, partner: Partner, part: Part) -> tuple[int, Sequence[object]]:
        """How many objects a list has by the dates of a part, and those of the part."""
        if self._locations is None or module not in ("locations", "tariffs"):
            count, listed = self._objects.page(module, "" if module == "tokens" else partner.party, part)
            if self._locations is not None and module == "cdrs" and partner.kind == "ocpi":
                listed = [self._locations.tariffs.in_bill(bill) for bill in listed]
            return count, listed
        if module == "tariffs":
            return part.of(self._locations.tariffs.all())
        return part.of(self._locations.all())

    def _held(self, request: web.Request) -> Mapping[str, object]:
        """What a path names: a place, or an object of the partner that asks. Raises Refusal where there is none."""
        module, segments = module_of(request), segments_of(request)
        found: Mapping[str, object] | None = None
        if module == "locations" and self._locations is not None:
            found = self._locations.find(*segments)
        elif same_party(party_of(*segments[:2]), request["partner"].party):
            found = self._objects.find(module, request["partner"].party, segments[2], _token_type(request))
        if found is None:
            raise Refusal(404, UNKNOWN_TOKEN if module == "tokens" else UNKNOWN_LOCATION, f"{module}: not held")
        return found

    async def _deliver(self, request: web.Request, kind: str, body: JsonObject) -> web.Response:
        """Delivers a packet of a kind and a body, and answers as the node does. Raises Refusal."""
        partner: Partner = request["partner"]
        refuse_of_another(kind, body, partner.party)
        serial, number = await self._numbers(request, partner)
        if kind == "start_session" and partner.own_references and not body.get("authorization_reference"):
            body = {**body, "authorization_reference": reference_of(partner.party, number)}
        url = body.get("response_url")
        if kind in COMMANDS and partner.kind == "node" and isinstance(url, str) and len(url) <= LONGEST_URL:
            self._requests.keep_url(partner.party, number, url)
            body = {**body, "response_url": NODES_URL + request.headers["X-Correlation-ID"]}
        if kind in AGED and partner.kind == "node" and (number_of(request.headers.get("X-Order-Age", "")) or 0) > LATE:
            self._expect_late(partner.party, number)
        event = self._events.deliver(Packet(partner.party, self._events.node, serial, number, kind, cast(Body, body)))
        if len(write_json(event)) > LONGEST_LINE:
            raise Refusal(413, INVALID, "the body is too long")
        outcome = await self._carry_out((party_key(partner.party), number), event)
        if outcome.word not in ("stepped", "idle"):
            raise refusal_of(outcome.done)
        sent = outcome.answer_to(partner.party, number)
        if sent is None:
            raise Refusal(504, SERVER_ERROR, "the answer was lost: send the request again")
        status_code, data = sent.body["status_code"], sent.body.get("data")
        if kind == "post_cdr" and status_code != SUCCESS:
            self._objects.warn_of_bill(cast(Body, body))
        headers = {"X-Serial": str(sent.serial)}
        if kind == "post_cdr" and status_code == SUCCESS:
            headers["Location"] = f"{self._url}{RECEIVER}/cdrs{path_of(OBJECT_PATH, body)}"
        if partner.kind == "ocpi" and "location" in body and data is not None and data.get("allowed") == "ALLOWED":
            data = data.copy()
            data["location"] = body["location"]
        # OCPI wants 404 of a question about a token that is not known. To a node's bridge it is a response like others.
        is_unknown = kind == "authorize" and status_code == UNKNOWN_TOKEN and partner.kind == "ocpi"
        return answer(sent.body["timestamp"], data, status_code, http_status=404 if is_unknown else 200,
                      headers=headers)

    async def _carry_out(self, key: tuple[str, int], event: Event) -> Outcome:
        """Feeds the request of a party and a number. One that comes again meanwhile waits for the same outcome, so
        that repeats do not add to what keeps a node busy. One that nobody awaits any more is revoked, if it can be:
        who asked was told that it was not done. Raises Refusal where too many wait."""
        if key not in self._under_way:
            if len(self._under_way) >= MOST_UNDER_WAY:
                raise Refusal(503, SERVER_ERROR, "the node is busy: send the request again")
            self._under_way[key] = UnderWay(event, asyncio.ensure_future(self._feed(event)))
            self._under_way[key].outcome.add_done_callback(partial(self._end, key))
        fed = self._under_way[key]
        fed.awaiting += 1
        try:
            return await asyncio.shield(fed.outcome)
        finally:
            fed.awaiting -= 1
            if not fed.awaiting and not fed.outcome.done() and self._revoke(fed.event):
                self._end(key, fed.outcome)

    def _end(self, key: tuple[str, int], outcome: asyncio.Future[Outcome]) -> None:
        """Forgets a request that is under way no more."""
        if key in self._under_way and self._under_way[key].outcome is outcome:
            del self._under_way[key]
        if outcome.done() and not outcome.cancelled():
            outcome.exception()

    async def _numbers(self, request: web.Request, partner: Partner) -> tuple[int, int]:
        """The serial and the number of a request."""
        headers = request.headers
        correlation = headers.get("X-Correlation-ID", "")
        if not is_printable(correlation):
            raise Refusal(200, INVALID, "X-Correlation-ID: wanted are characters of printable ASCII")
        if partner.kind == "ocpi":
            asked = f"{request.method} {request.rel_url.raw_path_qs}"
            return 0, self._requests.number(partner.party, correlation or None, digest_of(asked, await request.read()))
        serial = number_in(headers.get("X-Request-ID", ""), partner.party)
        number = number_in(correlation, partner.party)
        if serial is None or number is None:
            name = "X-Request-ID" if serial is None else "X-Correlation-ID"
            raise Refusal(200, INVALID, f"{name}: wanted is {partner.party}/NUMBER")
        return serial, number


def _token_type(request: web.Request) -> str:
    return request.query.get("type", "RFID")


def _compare(request: web.Request, body: JsonObject) -> None:
    """Raises Refusal where a body says otherwise than the path."""
    module = module_of(request)
    named = dict(zip(("country_code", "party_id", OBJECTS[OBJECT_KINDS[module]][1]), segments_of(request)))
    compare(named | {"type": _token_type(request)} if module == "tokens" else named, body)
