"""OCPI's response format and headers, as the server and the client write and read them."""
import base64
from collections.abc import Mapping
from contextlib import suppress
from pathlib import Path

from aiohttp import web

from ..json_text import read_json, write_json
from ..parties import codes
from ..records import Done

SUCCESS = 1000
CLIENT_ERROR = 2000
INVALID = 2001
UNKNOWN_LOCATION = 2003
UNKNOWN_TOKEN = 2004
SERVER_ERROR = 3000
# What a request is answered that a node refused.
REFUSALS = read_json(Path(__file__).with_name("refusals.json").read_bytes())


class Refusal(Exception):
    """A request that is answered by an error: the HTTP status, OCPI's status code, and words for a person."""

    def __init__(self, http_status: int, status_code: int, message: str) -> None:
        super().__init__(message)
        self.http_status, self.status_code, self.message = http_status, status_code, message


def refusal_of(done: Done) -> Refusal:
    """The refusal that tells a partner of a `done` that is `malformed` or `refused`, and names the member at fault."""
    name, member = done.get("name"), done.get("field")
    http_status, status_code, words = REFUSALS["answers"].get(name, REFUSALS["answers"]["otherwise"])
    wanted = REFUSALS["wanted"].get(name, {}).get(member, "another form")
    return Refusal(http_status, status_code, words.format(member=member, wanted=wanted))


def answer(timestamp: str, data: object = None, status_code: int = SUCCESS, message: str | None = None,
           http_status: int = 200, headers: Mapping[str, str] | None = None) -> web.Response:
    """A response in OCPI's format. `data` and `status_message` are left out where they are None."""
    members = {"data": data, "status_code": status_code, "status_message": message, "timestamp": timestamp}
    text = write_json({name: value for name, value in members.items() if value is not None})
    return web.Response(body=text.encode(), status=http_status, content_type="application/json", headers=headers)


def authorization(token: str, is_base64: bool = True) -> str:
    """The header `Authorization` with a credentials token: in Base64, as OCPI 2.2.1 wants it, or as it is."""
    return "Token " + (base64.b64encode(token.encode()).decode() if is_base64 else token)


def written_token(header: str | None) -> str:
    """The credentials token in a header `Authorization`, as it is written there. Raises Refusal (401)."""
    scheme, _, written = (header or "").partition(" ")
    if scheme.lower() != "token":
        raise Refusal(401, INVALID, "Authorization: wanted is Token and the token in Base64")
    return written.strip()


def read_token(written: str) -> str:
    """The token that is written in Base64. Raises Refusal (401) where it is not."""
    with suppress(ValueError):
        return base64.b64decode(written, validate=True).decode()
    raise Refusal(401, INVALID, "Authorization: wanted is Token and the token in Base64")


def routing_headers(sender: str, receiver: str) -> dict[str, str]:
    """The headers that say from which party to which a message goes."""
    from_codes, to_codes = codes(sender), codes(receiver)
    return {"OCPI-from-country-code": from_codes[0], "OCPI-from-party-id": from_codes[1],
            "OCPI-to-country-code": to_codes[0], "OCPI-to-party-id": to_codes[1]}


def is_printable(text: str) -> bool:
    """Whether a text has characters of printable ASCII alone, as OCPI's ids have."""
    return all(" " <= character <= "~" for character in text)
