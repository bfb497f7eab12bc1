"""Which packet is which request over HTTP: module, interface, method and path, for the server and the client."""
from collections.abc import Mapping
from dataclasses import dataclass
from urllib.parse import quote

COMMANDS = {"start_session": "START_SESSION", "stop_session": "STOP_SESSION", "reserve_now": "RESERVE_NOW",
            "cancel_reservation": "CANCEL_RESERVATION", "unlock_connector": "UNLOCK_CONNECTOR"}

# Commands with which nodes' bridges tell how old the order is: an old one is not asked of a charge point any more.
AGED = ("start_session", "unlock_connector")


@dataclass(frozen=True)
class Form:
    """The module and the interface (`role`) of a request, its method, its path behind the address of these, and the
    packet that answers it."""

    module: str
    role: str
    method: str
    path: str
    answer: str


OBJECT_PATH = "/{country_code}/{party_id}/{id}"
# Of each packet that is a request. A `command_result` goes to an address of its own, and to no endpoint.
FORMS = {
    **{kind: Form("commands", "RECEIVER", "POST", f"/{name}", "command_response") for kind, name in COMMANDS.items()},
    "command_result": Form("commands", "SENDER", "POST", "", "ack"),
    "put_session": Form("sessions", "RECEIVER", "PUT", OBJECT_PATH, "ack"),
    "post_cdr": Form("cdrs", "RECEIVER", "POST", "", "ack"),
    "put_token": Form("tokens", "RECEIVER", "PUT", "/{country_code}/{party_id}/{uid}?type={type}", "ack"),
    "authorize": Form("tokens", "SENDER", "POST", "/{token_uid}/authorize?type={type}", "authorization")}


def path_of(path: str, body: Mapping[str, object]) -> str:
    """A path with the members of a body that it names. Without a `type` in the body it has no query."""
    written = path if "type" in body else path.partition("?")[0]
    return written.format_map({name: quote(text, safe="") for name, text in body.items() if isinstance(text, str)})
