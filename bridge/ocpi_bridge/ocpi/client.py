"""Sends the requests of a node to its partners over HTTP, and hands on what they answer.

What fails is lost: the node sends it again. Each partner has lanes of its own. A partner of kind `ocpi` knows no
repeats: a command that it would carry out twice is kept before it is sent, with what is answered, and is sent once.
"""
import asyncio
import logging
from collections.abc import Awaitable, Callable
from contextlib import suppress
from typing import cast

from ..clock import Clock, milliseconds_of, moment_of
from ..configuration import Configuration
from ..events import Events, Outcome, Packet
from ..json_text import JsonObject, NotJson, read_json, write_json
from ..node.feeder import NodeEnded, repeated
from ..parties import party_key
from ..records import Body, Data, Event
from ..room import NoRoom
from ..state import State
from ..tasks import Tasks
from .envelope import INVALID, SUCCESS, routing_headers
from .exchange import Exchange, NoAddress, NoResponse, NotSent, Response
from .lanes import AT_ONCE, Lanes
from .orders import Orders
from .packets import AGED, COMMANDS, FORMS, path_of
from .partners import Endpoints, Partner, Partners
from .requests import NODES_URL, RESULTS_PATH, Requests, SentOnce, number_in, number_of
from .tariffs import Tariffs

ONCE = ("start_session", "reserve_now", "stop_session")
# How long a request waits for a partner that said `Retry-After`, before it is lost.
LONGEST_WAIT = 10.0
# Of HTTP: what says nothing about the request itself.
TRANSIENT = (401, 408, 429)
REFUSED_BILL = ": the bill is not taken there, as where another of that session is held"

log = logging.getLogger(__name__)


class Client:
    """Asks each partner a few requests at a time, and one that fails again and again less often."""

    def __init__(self, configuration: Configuration, state: State, partners: Partners, exchange: Exchange,
                 requests: Requests, events: Events, feed: Callable[[Event], Awaitable[Outcome]],
                 orders: Orders, tariffs: Tariffs | None = None) -> None:
        """`tariffs` are an operator's."""
        self._orders, self._tariffs = orders, tariffs
        self._url, self._state, self._sent, self._feed = configuration.ocpi.url, state, SentOnce(state), feed
        self.partners, self.exchange, self.requests, self.events = partners, exchange, requests, events
        self._lanes: dict[str, Lanes] = {}
        self._workers, self._may_send = Tasks(), asyncio.Event()
        self._looking_up = Tasks(NoResponse)

    def send(self, packet: Packet) -> None:
        """Takes a request of the node, to be sent to its receiver. Where too many wait it is lost."""
        if not self._lanes_of(packet.receiver).put(packet):
            log.warning("%s to %s: lost, too many wait", packet.kind, packet.receiver)

    def takes_orders(self, party: str) -> bool:
        """Whether a partner may be sent one command or result more. (Of no partner its node has a word.)"""
        return not (self.partners.has(party) and self._lanes_of(party).is_full)

    def _lanes_of(self, party: str) -> Lanes:
        """The lanes of a partner, which are there from its first request on."""
        key = party_key(party)
        if key not in self._lanes:
            self._lanes[key] = Lanes(self.events.clock)
            for number in range(AT_ONCE):
                self._workers.begin(self._work, key, number)
        return self._lanes[key]

    def told(self) -> list[JsonObject]:
        """Each partner: how it stands (`state`), and how many requests are `waiting` for it or under way."""
        return [{"party": partner.party, "kind": partner.kind, "registered": partner.is_registered,
                 "versions_url": partner.versions_url, "state": self._state_of(partner),
                 "waiting": self._lanes_of(partner.party).waiting} for partner in self.partners.all()]

    def _state_of(self, partner: Partner) -> str:
        if not partner.is_registered:
            return "UNREGISTERED"
        if self.exchange.is_resting(partner):
            return "RESTING"
        return "FAILING" if self._lanes_of(partner.party).is_failing else "ANSWERING"

    async def run(self) -> None:
        """Sends what waits, until it is cancelled."""
        self._may_send.set()
        try:
            await asyncio.Event().wait()
        finally:
            self._workers.cancel()

    async def endpoint(self, partner: Partner, module: str, role: str) -> str:
        """Where a module of a partner stands. Raises NoResponse."""
        endpoints = partner.endpoints or await self.look_up(partner)
        if (module, role) not in endpoints:
            raise NoAddress(f"it lists no {module} {role}")
        return endpoints[module, role]

    async def look_up(self, partner: Partner) -> Endpoints:
        """Asks where the modules of a partner stand by now, once for all that wait for it. Raises NoResponse."""
        return await asyncio.shield(self._looking_up.begin(self._look_up, party_key(partner.party)))

    async def _look_up(self, party: str) -> Endpoints:
        partner = self.partners.of(party)
        endpoints = await self.exchange.endpoints(partner)
        self.partners.set_endpoints(partner.party, partner.versions_url, endpoints)
        return endpoints

    async def deliver(self, packet: Packet) -> Outcome | None:
        """Hands a packet to the node, and once more where a stop of that lost what came of it: so what a partner does
        not send again is kept in the state too. None where it is none. Raises NodeEnded where the bridge ends before.
        """
        try:
            return await repeated(lambda: self._feed(self.events.deliver(packet)))
        except NotJson:
            log.warning("%s of %s: nested too deep", packet.kind, packet.sender)
            return None

    async def _work(self, party: str, number: int) -> None:
        """Sends a partner one request after the other. The first of its workers sends those alone that are awaited by
        somebody."""
        lanes = self._lanes[party]
        await self._may_send.wait()
        while True:
            packet, failures = await lanes.take(urgent_alone=number == 0)
            was_answered = False
            try:
                was_answered = await self._send(packet)
            except NodeEnded:
                return
            except Exception:
                log.exception("%s to %s: lost", packet.kind, packet.receiver)
            await lanes.finish(packet, failures, was_answered)

    async def _send(self, packet: Packet) -> bool:
        """Sends one request. True where its partner answered, be it by an error, or where it is not asked at all, as
        one that is no partner any more."""
        if not self.partners.has(packet.receiver):
            return True
        partner = self.partners.of(packet.receiver)
        kept = self._sent.answer(packet) if _is_sent_once(packet, partner) else None
        may_ask = kept is None and await self.exchange.may_ask(partner, LONGEST_WAIT)
        if kept:
            await self.deliver(Packet.of(read_json(kept)))
        elif partner.kind == "ocpi" and packet.kind in COMMANDS and self._orders.is_late(packet):
            await self.deliver(self._orders.give_up(packet))
        elif may_ask:
            return await self._ask(packet, partner)
        return True

    async def _ask(self, packet: Packet, partner: Partner) -> bool:
        """Asks a partner for what a request says, and hands on its answer. True where it answered."""
        is_sent_once = _is_sent_once(packet, partner)
        # A node that was restored gives numbers again, which no node has seen. Of other partners nobody knows.
        number = self._state.value("restored") if partner.kind == "ocpi" else None
        restored = "" if number is None else f"/{number}"
        headers = {"X-Request-ID": f"{packet.sender}/{packet.serial}{restored}",
                   "X-Correlation-ID": f"{packet.sender}/{packet.request}{restored}",
                   **routing_headers(packet.sender, packet.receiver)}
        if partner.kind == "node" and packet.kind in AGED:
            headers["X-Order-Age"] = str(self._orders.age(packet))
        try:
            url, told, body = await self._request(packet, partner)
            if is_sent_once:
                self._sent.keep(packet, "")
            response = await self.exchange.ask(partner, FORMS[packet.kind].method, url, body, headers, told)
        except NoResponse as fault:
            if is_sent_once and isinstance(fault, NotSent):
                self._sent.forget(packet)
            if isinstance(fault, NotSent) and not isinstance(fault, NoAddress) and packet.kind != "command_result":
                self.partners.set_endpoints(partner.party, partner.versions_url, {})
            log.warning("%s to %s: lost, %s", packet.kind, partner.party, fault)
            return isinstance(fault, NoAddress)
        if response.status == 404 and packet.kind != "authorize":
            self.partners.set_endpoints(partner.party, partner.versions_url, {})
        answer = answer_of(packet, partner.kind, response, self.events.clock)
        if answer is None or answer.body["status_code"] != SUCCESS:
            _warn(packet, response, told, answer)
        if answer is not None:
            if is_sent_once:
                with suppress(NoRoom):
                    self._sent.keep(packet, write_json(answer.members()))
            await self.deliver(answer)
        return response.status < 500 and response.status not in TRANSIENT

    async def _request(self, packet: Packet, partner: Partner) -> tuple[str, str, object]:
        """The URL of the request that a packet is, the same as logs tell it, and its body. Raises NoResponse.

        No log tells a driver's token.
        """
        form, body = FORMS[packet.kind], packet.body.copy()
        if packet.kind == "command_result":
            url: str | None = body["response_url"]
            if partner.kind == "node":
                number = number_in(body["response_url"].removeprefix(NODES_URL), partner.party)
                url = self.requests.url(partner.party, number)
            if url is None:
                raise NoAddress("its result has no address")
            return url, url, {"result": body["result"]}
        if packet.kind in COMMANDS:
            body["response_url"] = self._url + RESULTS_PATH + body["response_url"].rpartition("/")[2]
        if packet.kind == "post_cdr" and partner.kind == "ocpi" and self._tariffs is not None:
            body = self._tariffs.in_bill(body)
        address = await self.endpoint(partner, form.module, form.role)
        hidden: JsonObject = {**packet.body, "uid": "...", "token_uid": "..."}
        url, told = (address.rstrip("/") + path_of(form.path, members) if form.path else address
                     for members in (body, hidden))
        return url, told, body.get("location") if packet.kind == "authorize" else body


def _is_sent_once(packet: Packet, partner: Partner) -> bool:
    return partner.kind == "ocpi" and packet.kind in ONCE


def _warn(packet: Packet, response: Response, told: str, answer: Packet | None) -> None:
    """Warns of a response that is no success: with its URL, as it may be told, where it is no answer."""
    words = f": {told}" if answer is None else REFUSED_BILL if packet.kind == "post_cdr" else ""
    log.warning("%s to %s (%s/%d, %s/%d): HTTP %d, status_code %s%s", packet.kind, packet.receiver, packet.sender,
                packet.serial, packet.sender, packet.request, response.status, response.body.get("status_code"), words)


def answer_of(packet: Packet, kind: str, response: Response, clock: Clock) -> Packet | None:
    """The packet by which a partner of a kind answers a request. None where it is lost.

    A partner of kind `node` tells the serial of its node's packet. Without one its bridge has answered, or what stands
    before it, and its node has said nothing: no packet is made of that. Of any other partner a 4xx to a question about
    a token is an answer, but for one that says nothing of the token: who gives it is not offline.
    """
    question, answering = packet.kind == "authorize", FORMS[packet.kind].answer
    serial = number_of(response.headers.get("X-Serial", "")) if kind == "node" else None
    if kind == "node" and serial is None:
        return None
    status_code, data = response.body.get("status_code"), response.body.get("data")
    if question and kind == "ocpi" and 400 <= response.status < 500 and response.status not in TRANSIENT:
        status_code = INVALID
    elif response.status >= 300 or not isinstance(status_code, int):
        return None
    body: Body = {"status_code": status_code, "timestamp": str(response.body.get("timestamp"))}
    if serial is None:
        body["timestamp"] = clock.moment()
        with suppress(ValueError, OverflowError):
            body["timestamp"] = moment_of(milliseconds_of(str(response.body.get("timestamp"))) / 1000)
    if data is not None and status_code == SUCCESS and answering != "ack":
        body["data"] = cast(Data, data)
        if question and kind == "ocpi" and isinstance(data, dict) and data.get("allowed") == "ALLOWED":
            body["data"]["allowed"] = _restricted(body["data"], packet.body.get("location"))
    return Packet(packet.receiver, packet.sender, serial or 0, packet.request, answering, body)


def _restricted(data: Data, asked: object) -> str:
    """What an AuthorizationInfo of ALLOWED says: NOT_ALLOWED where its `location` lacks the EVSE in question."""
    allowed_at = data.get("location")
    return "ALLOWED" if allowed_at is None or _evses(asked) <= _evses(allowed_at) else "NOT_ALLOWED"


def _evses(location: object) -> set[tuple[str, str]]:
    """The EVSEs of LocationReferences, each with its location, as they are compared."""
    if not isinstance(location, dict):
        return set()
    return {(str(location.get("location_id")).upper(), str(uid).upper()) for uid in location.get("evse_uids") or []}
