"""The versions, the version details and the credentials of a bridge: how a partner registers, and how it registers.

This bridge registers at a partner beside the one that runs, over the same state, in these steps:
1. The partner's versions and details are asked, by the token that its owner gave away.
2. A new token for the partner is kept as an offer, which the running bridge lets look up its versions from then on.
3. The credentials with that token are posted. The partner looks us up, and answers with its own.
4. Both tokens are kept, in place of an older registration, and the running bridge uses them.
A loss before the last step leaves what was there before, and an offer that a next attempt replaces. Where it lay behind
the third, the partner's owner has to give away another token.
"""
import logging
import sys
from dataclasses import replace

from ..clock import Clock
from ..configuration import Configuration
from ..json_text import JsonObject
from ..metrics import Metrics
from ..parties import codes, party_key, party_of
from ..state import State
from .envelope import INVALID, Refusal
from .exchange import VERSION, Exchange, NoResponse, OtherVersions, objects_of
from .partners import Partner, Partners

OPERATOR_MODULES = (("commands", "RECEIVER"), ("tokens", "RECEIVER"), ("sessions", "SENDER"), ("cdrs", "SENDER"),
                    ("locations", "SENDER"), ("tariffs", "SENDER"))
PROVIDER_MODULES = (("commands", "SENDER"), ("sessions", "RECEIVER"), ("cdrs", "RECEIVER"), ("tokens", "SENDER"),
                    ("locations", "RECEIVER"), ("tariffs", "RECEIVER"))
LOOK_UP_SECONDS = 8.0
UNUSABLE = 3001
UNSUPPORTED_VERSION = 3002

log = logging.getLogger(__name__)


class Credentials:
    """Answers what a partner asks about versions and credentials, with the `data` of the response, and registers."""

    def __init__(self, configuration: Configuration, partners: Partners, exchange: Exchange) -> None:
        self._configuration, self._partners, self._exchange = configuration, partners, exchange
        self._url = f"{configuration.ocpi.url}/ocpi/{VERSION}"

    def versions(self) -> list[JsonObject]:
        """The versions that this bridge speaks."""
        return [{"version": VERSION, "url": self._url}]

    def details(self) -> JsonObject:
        """Where the modules of this bridge stand."""
        modules = OPERATOR_MODULES if self._configuration.is_operator else PROVIDER_MODULES
        endpoints = [{"identifier": module, "role": role, "url": f"{self._url}/{role.lower()}/{module}"}
                     for module, role in modules]
        own = {"identifier": "credentials", "role": "SENDER", "url": f"{self._url}/credentials"}
        return {"version": VERSION, "endpoints": [own, *endpoints]}

    async def answer(self, partner: Partner, method: str, body: object) -> JsonObject | None:
        """Answers GET, POST, PUT or DELETE of the credentials by a partner. Raises Refusal."""
        if method == "GET":
            return self._own(partner.token or "")
        if (method == "POST") == partner.is_registered:
            raise Refusal(405, INVALID, "registered already" if partner.is_registered else "not registered")
        sharing = self._partners.sharing(partner.token or "", partner.token_base64)
        if method == "DELETE":
            with self._partners.together():
                for each in sharing:
                    self._partners.unregister(each.party)
            return None
        told = self._told(sharing, body)
        try:
            endpoints = await self._exchange.clock.within(LOOK_UP_SECONDS, self._exchange.endpoints(told[0]))
        except (NoResponse, TimeoutError) as fault:
            # What answers there, if anything, is for the owner alone: it may stand in the owner's own network.
            log.warning("credentials of %s: url: %s", partner.party, str(fault) or "no response in time")
            status_code = UNSUPPORTED_VERSION if isinstance(fault, OtherVersions) else UNUSABLE
            raise Refusal(200, status_code, f"url: no OCPI {VERSION} was found there") from None
        current = [each.is_registered for each in self._partners.sharing(partner.token or "", partner.token_base64)]
        if current != [each.is_registered for each in sharing]:
            raise Refusal(405, INVALID, "another request has registered meanwhile")
        with self._partners.together():
            token = self._partners.offer(partner.party)
            for each in told:
                # Whoever changes its token, and does not get the answer, goes on with the one that it has.
                self._partners.register(each.party, token, each.their_token, each.versions_url, endpoints,
                                        each.token if each.is_registered else None)
        return self._own(token)

    async def register(self, party: str, url: str, token: str) -> None:
        """Registers at the partner of a party, whose versions stand at `url`, by its token.

        Raises KeyError where there is no such partner, and NoResponse and Refusal.
        """
        partner = replace(self._partners.of(party), their_token=token, versions_url=url)
        endpoints = await self._exchange.endpoints(partner)
        address = next((address for (module, _), address in endpoints.items() if module == "credentials"), None)
        if address is None:
            raise NoResponse("its version details list no credentials")
        offered = self._partners.offer(party)
        response = await self._exchange.ask(partner, "POST", address, self._own(offered))
        told, = self._told([partner], response.data)
        self._partners.register(party, offered, told.their_token, told.versions_url,
                                endpoints if told.versions_url == url else {})

    def _own(self, token: str) -> JsonObject:
        """The credentials with which a partner reaches this bridge."""
        country, identifier = codes(self._configuration.node.party)
        role = {"role": "CPO" if self._configuration.is_operator else "EMSP", "party_id": identifier,
                "country_code": country, "business_details": {"name": self._configuration.ocpi.business}}
        return {"token": token, "url": f"{self._configuration.ocpi.url}/ocpi/versions", "roles": [role]}

    def _told(self, partners: list[Partner], body: object) -> list[Partner]:
        """Those of some partners whom credentials name, with their token and versions URL. They may name others too.

        Raises Refusal where they are no credentials, or name none of them.
        """
        members = body if isinstance(body, dict) else {}
        for name, longest in (("token", 64), ("url", 255)):
            text = members.get(name)
            if not isinstance(text, str) or not 0 < len(text) <= longest or not text.isprintable():
                raise Refusal(200, INVALID, f"{name}: a text of 1 to {longest} characters")
        wanted = "EMSP" if self._configuration.is_operator else "CPO"
        named = {party_key(party_of(role["country_code"], role["party_id"]))
                 for role in objects_of(members.get("roles"), "role", "country_code", "party_id")
                 if role["role"] == wanted}
        told = [replace(partner, their_token=members["token"], versions_url=members["url"]) for partner in partners
                if party_key(partner.party) in named]
        if not told:
            parties = " or ".join(partner.party for partner in partners)
            raise Refusal(200, INVALID, f"roles: {wanted} of {parties} is not there")
        return told


async def register(configuration: Configuration, party: str, url: str, token: str) -> int:
    """Registers at the partner of a party, whose versions stand at `url`, by its token. Gives the exit status."""
    state = State(configuration.state)
    exchange = Exchange(Clock(configuration.clock_factor), Metrics(), state.synced)
    try:
        await Credentials(configuration, Partners(configuration, state), exchange).register(party, url, token)
    except (KeyError, NoResponse, Refusal) as fault:
        words = "no partner of the configuration" if isinstance(fault, KeyError) else fault
        print(f"register: {party}: {words}", file=sys.stderr)
        return 1
    finally:
        await exchange.close()
        await state.synced()
        state.close()
    return 0
