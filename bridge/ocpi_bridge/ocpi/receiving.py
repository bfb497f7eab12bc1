"""The interfaces by which a provider receives locations and tariffs: the bridge itself answers them."""
from aiohttp import web

from ..clock import Clock
from ..parties import party_of, same_party
from .asked import RECEIVER, compare, members_of, module_of, segments_of
from .envelope import INVALID, UNKNOWN_LOCATION, Refusal, answer
from .places import Places, check

PATH = "{country_code:[^/]*}/{party_id:[^/]*}/{identifiers:[^/]*"


class Receiving:
    """Handles what a registered partner asks for, which is `request["partner"]`."""

    def __init__(self, clock: Clock, places: Places) -> None:
        self._clock, self._places = clock, places

    def routes(self) -> list[web.RouteDef]:
        locations, tariffs = f"{RECEIVER}/locations/{PATH}(/[^/]*){{0,2}}}}", f"{RECEIVER}/tariffs/{PATH}}}"
        return [web.get(locations, self.get), web.put(locations, self.put), web.patch(locations, self.patch),
                web.get(tariffs, self.get), web.put(tariffs, self.put), web.delete(tariffs, self.delete)]

    async def get(self, request: web.Request) -> web.Response:
        party, names = _asked(request)
        module = module_of(request)
        found = self._places.part(party, names) if module == "locations" else self._places.find(module, party, names[0])
        if found is None:
            raise _not_held(module)
        return answer(self._clock.moment(), found)

    async def put(self, request: web.Request) -> web.Response:
        """Takes a whole location or tariff, or an EVSE or a connector of a location that is held."""
        party, names = _asked(request)
        module, body = module_of(request), await members_of(request)
        compare(_ids(request, names), body)
        if len(names) == 1:
            self._places.take(module, check(module, body))
        else:
            self._change(party, names, check("connectors" if len(names) == 3 else "evses", body), True)
        return answer(self._clock.moment())

    async def patch(self, request: web.Request) -> web.Response:
        """Puts members into a location, an EVSE or a connector that is held, as the status of an EVSE."""
        party, names = _asked(request)
        members = await members_of(request)
        compare(_ids(request, names), members)
        if members.get("last_updated") is None:
            raise Refusal(200, INVALID, "last_updated: missing")
        self._change(party, names, members, False)
        return answer(self._clock.moment())

    def _change(self, party: str, names: list[str], members: dict[str, object], is_whole: bool) -> None:
        if not self._places.change(party, names, members, is_whole):
            raise _not_held("locations")

    async def delete(self, request: web.Request) -> web.Response:
        party, names = _asked(request)
        self._places.delete(party, names[0])
        return answer(self._clock.moment())


def _asked(request: web.Request) -> tuple[str, list[str]]:
    """The partner, and the ids of what it asks for. Raises Refusal where that is another party's."""
    country, identifier, *names = segments_of(request)
    if not same_party(party_of(country, identifier), request["partner"].party):
        raise Refusal(404, UNKNOWN_LOCATION, "country_code, party_id: wanted are your own")
    return request["partner"].party, names


def _ids(request: web.Request, names: list[str]) -> dict[str, str]:
    """The members of the object that is asked for, by which its path names it."""
    if len(names) == 1:
        return dict(zip(("country_code", "party_id", "id"), segments_of(request)))
    return {"uid" if len(names) == 2 else "id": names[-1]}


def _not_held(module: str) -> Refusal:
    return Refusal(404, UNKNOWN_LOCATION, f"{module}: not held")
