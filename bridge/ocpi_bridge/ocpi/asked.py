"""What a request asks for: a module, what its path names, the object that it carries, and the part of a list."""
from collections.abc import Mapping
from urllib.parse import unquote

from aiohttp import web

from ..clock import milliseconds_of
from ..json_text import JsonObject, read_json
from ..parties import party_of, same_party
from .envelope import INVALID, Refusal
from .objects import FOREVER, Part
from .requests import number_of

SENDER, RECEIVER = "/ocpi/2.2.1/sender", "/ocpi/2.2.1/receiver"
# Whose an object is that comes in a packet of a kind: the party that stands in it, or in its token.
OWNERS = {"put_token": "", "put_session": "", "post_cdr": "", "start_session": "token", "reserve_now": "token"}
# The most objects that a response lists.
MOST_LISTED = 1000


def module_of(request: web.Request) -> str:
    return request.path.split("/")[4]


def segments_of(request: web.Request) -> list[str]:
    """What stands behind the module in the path, without percent-encoding."""
    return [unquote(segment) for segment in request.rel_url.raw_path.split("/")[5:]]


async def members_of(request: web.Request) -> JsonObject:
    """The body. Raises Refusal where it is no object, and NotJson, UnicodeDecodeError and NumberTooLarge."""
    body = read_json((await request.read()).decode())
    if not isinstance(body, dict):
        raise Refusal(200, INVALID, "body: wanted is an object")
    return body


def compare(names: Mapping[str, str], body: JsonObject) -> None:
    """Raises Refusal where a body says otherwise than its path. What it does not say is asked for elsewhere."""
    for name, text in names.items():
        value = body.get(name)
        if isinstance(value, str) and value.upper() != text.upper():
            raise Refusal(200, INVALID, f"{name}: the path says otherwise")


def refuse_of_another(kind: str, body: JsonObject, party: str) -> None:
    """Raises Refusal where a partner sends what is another party's. What is missing there, the node refuses."""
    inside = OWNERS.get(kind)
    owned = body.get(inside) if inside else body
    if inside is None or not isinstance(owned, dict):
        return
    codes = owned.get("country_code"), owned.get("party_id")
    if all(isinstance(code, str) for code in codes) and not same_party(party_of(*codes), party):
        path = f"{inside}." if inside else ""
        raise Refusal(200, INVALID, f"{path}country_code, {path}party_id: wanted are your own")


def part_of(query: Mapping[str, str]) -> Part:
    """The part of a list that a query asks for. Raises Refusal."""
    try:
        dates = [milliseconds_of(query[name]) if name in query else otherwise
                 for name, otherwise in (("date_from", -FOREVER), ("date_to", FOREVER))]
    except (ValueError, OverflowError):
        raise Refusal(200, INVALID, "date_from, date_to: wanted are moments, as 2025-01-01T10:00:00Z") from None
    offset, limit = number_of(query.get("offset", "0")), number_of(query.get("limit", str(MOST_LISTED)))
    if offset is None or not limit:
        raise Refusal(200, INVALID, "offset, limit: wanted are whole numbers of at most 18 digits, and a limit above 0")
    return Part(dates[0], dates[1], offset, min(limit, MOST_LISTED))
