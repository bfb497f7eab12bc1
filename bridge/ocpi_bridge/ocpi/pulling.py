"""Asks partners that push nothing twice for what was missed: an operator's sessions and CDRs, a provider's tokens.

A provider asks operators of either kind for their locations and tariffs, which no node hands on.

Each list is pulled by itself, so that none waits for another. In a turn it is read so far and no further, and the next
turn goes on where that stopped.
"""
import asyncio
import logging
from contextlib import suppress
from urllib.parse import urlencode

from yarl import URL

from ..clock import milliseconds_of, moment_of
from ..events import Outcome, Packet
from ..node.feeder import NodeEnded
from ..parties import party_key, party_of, same_party
from ..state import State
from ..tasks import Tasks
from .client import Client
from .envelope import SERVER_ERROR, SUCCESS, Refusal, refusal_of, routing_headers
from .exchange import NoAddress, NoResponse, Response
from .objects import OBJECT_KINDS, Objects
from .partners import Partner
from .places import Places, check

# In seconds: between two turns of a list, between two of which the first did not reach its end, and until a partner
# without the list is looked at again.
SECONDS_BETWEEN, SECONDS_WITHIN_A_LIST, SECONDS_WITHOUT_A_LIST = 300.0, 10.0, 3600.0
# How far a list is read in a turn: in seconds and in pages. How many pages a list has at most.
SECONDS_A_TURN, PAGES_A_TURN = 60.0, 100
MOST_PAGES = 10_000
PAGE = 100
PLACES = ("tariffs", "locations")
# An object may be listed somewhat later than others that were changed after it, by so many milliseconds.
OVERLAP = 60_000

log = logging.getLogger(__name__)


class Pulling:
    """Pulls from partners every few minutes and where it is woken. The state keeps how far."""

    def __init__(self, client: Client, objects: Objects, state: State, is_operator: bool, places: Places) -> None:
        self._client, self._objects, self._state, self._places = client, objects, state, places
        self._clock, self._is_operator = client.events.clock, is_operator
        self._woken, self._tasks = asyncio.Event(), Tasks()

    def wake(self) -> None:
        """Has the lists pulled now, of whoever is a partner by then, as after an opening of the node."""
        self._woken.set()
        self._woken = asyncio.Event()

    async def run(self) -> None:
        """Pulls until it is cancelled."""
        try:
            while True:
                woken = self._woken
                for partner in self._client.partners.all():
                    for module in self._modules(partner):
                        self._tasks.begin(self._pull_again_and_again, partner.party, module)
                await woken.wait()
        finally:
            self._tasks.cancel()

    def _modules(self, partner: Partner) -> tuple[str, ...]:
        """The lists that are asked for."""
        if self._is_operator:
            return ("tokens",) if partner.kind == "ocpi" else ()
        return (*(("sessions", "cdrs") if partner.kind == "ocpi" else ()), *PLACES)

    async def _pull_again_and_again(self, party: str, module: str) -> None:
        while self._client.partners.has(party):
            woken, partner, seconds = self._woken, self._client.partners.of(party), SECONDS_BETWEEN
            try:
                if partner.is_registered and not await self._pull(partner, module):
                    seconds = SECONDS_WITHIN_A_LIST
            except NodeEnded:
                return
            except NoAddress as fault:
                # Not each operator tells its places, and one that begins to is found so.
                log.log(logging.INFO if module in PLACES else logging.WARNING, "list of %s of %s: %s", module, party,
                        fault)
                seconds = 1.0 if await self._is_listed(partner, module) else SECONDS_WITHOUT_A_LIST
            except Exception as fault:
                log.warning("list of %s of %s: %s", module, party, fault, exc_info=not isinstance(fault, NoResponse))
            with suppress(TimeoutError):
                await self._clock.within(seconds, woken.wait())

    async def _is_listed(self, partner: Partner, module: str) -> bool:
        """Whether a partner lists a module by now."""
        with suppress(NoResponse):
            return (module, "SENDER") in await self._client.look_up(partner)
        return False

    async def _pull(self, partner: Partner, module: str) -> bool:
        """Hands on a list, page by page, as far as a turn goes. Whether that was the end of the list."""
        until = self._clock.seconds() + SECONDS_A_TURN
        page, pages, latest = await self._page(partner, module)
        headers = routing_headers(self._client.events.node, partner.party)
        for turn in range(1, PAGES_A_TURN + 1):
            if not await self._client.exchange.may_ask(partner):
                break
            response = await self._client.exchange.ask(partner, "GET", page, headers=headers)
            for listed in self._listed(partner, module, response):
                latest = max(latest, await self._hand_on(partner, module, listed))
            if not response.data or response.next_page in (None, page) or pages + turn >= MOST_PAGES:
                with self._state.transaction():
                    self._forget_page(partner, module)
                    self._state.query("INSERT OR REPLACE INTO list_pulled (party, module, latest) VALUES (?, ?, ?)",
                                      party_key(partner.party), module, min(latest, int(self._clock.seconds() * 1000)))
                return True
            page = str(response.next_page)
            self._state.query("INSERT OR REPLACE INTO list_under_way (party, module, page, pages, latest)"
                              " VALUES (?, ?, ?, ?, ?)", party_key(partner.party), module, page, pages + turn, latest)
            if self._clock.seconds() > until:
                break
        return False

    def _listed(self, partner: Partner, module: str, response: Response) -> list[object]:
        """What a page lists. Where it is refused, the next turn begins with the first page. Raises NoResponse."""
        try:
            return response.data if isinstance(response.data, list) else []
        except NoResponse:
            self._forget_page(partner, module)
            raise

    async def _page(self, partner: Partner, module: str) -> tuple[str, int, int]:
        """The page with which a turn begins, how many of the list came before it, and their latest `last_updated`.

        A page of before is asked for at the very address alone where the list stands.
        """
        address = await self._client.endpoint(partner, module, "SENDER")
        for page, pages, latest in self._state.query("SELECT page, pages, latest FROM list_under_way WHERE party = ?"
                                                     " AND module = ?", party_key(partner.party), module):
            if URL(page).origin() == URL(address).origin():
                return page, pages, latest
        self._forget_page(partner, module)
        latest = next((latest for latest, in self._state.query(
            "SELECT latest FROM list_pulled WHERE party = ? AND module = ?", party_key(partner.party), module)), 0)
        query = {"date_from": moment_of(max(latest - OVERLAP, 0) / 1000), "limit": PAGE}
        return address + "?" + urlencode(query), 0, latest

    def _forget_page(self, partner: Partner, module: str) -> None:
        self._state.query("DELETE FROM list_under_way WHERE party = ? AND module = ?", party_key(partner.party), module)

    async def _hand_on(self, partner: Partner, module: str, listed: object) -> int:
        """Delivers an object that the node has no such version of, and gives its `last_updated` in milliseconds."""
        if module in PLACES:
            return self._hold(partner, module, listed)
        kind = OBJECT_KINDS[module]
        try:
            body = dict(listed)  # type: ignore[call-overload]
            updated = milliseconds_of(body["last_updated"])
            party = party_of(body["country_code"], body["party_id"])
            is_known = self._objects.has(module, body)
        except (KeyError, TypeError, ValueError, AttributeError, OverflowError):
            log.warning("list of %s of %s: an object lacks what tells its version", module, partner.party)
            return 0
        if same_party(party, partner.party) and not is_known:
            number = self._client.requests.number(partner.party)
            packet = Packet(partner.party, self._client.events.node, 0, number, kind, body)
            outcome = await self._client.deliver(packet)
            if outcome is None or _is_refused(outcome, packet):
                log.warning("list of %s of %s: the node refuses an object, until it has another last_updated: %.80a",
                            module, partner.party, "a token" if kind == "put_token" else str(body.get("id")))
                self._objects.refuse(module, body)
                if kind == "post_cdr":
                    self._objects.warn_of_bill(body)
        return updated

    def _hold(self, partner: Partner, module: str, listed: object) -> int:
        """Holds a location or a tariff, and gives its `last_updated`."""
        try:
            body = check(module, listed)
            if same_party(party_of(body["country_code"], body["party_id"]), partner.party):
                self._places.take(module, body)
            return milliseconds_of(str(body["last_updated"]))
        except Refusal as fault:
            log.warning("list of %s of %s: %s", module, partner.party, fault.message)
            return 0


def _is_refused(outcome: Outcome, packet: Packet) -> bool:
    """Whether a node refused an object for what it says, and not for its own sake."""
    if outcome.word not in ("stepped", "idle"):
        return refusal_of(outcome.done).status_code < SERVER_ERROR
    sent = outcome.answer_to(packet.sender, packet.request)
    return sent is not None and SUCCESS < sent.body["status_code"] < SERVER_ERROR
