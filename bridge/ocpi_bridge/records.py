"""What stands in the lines of a node: the setup, events, packets with their bodies, and `done`. Of each those members
that the bridge reads. A record of any kind has them all, and which are there its kind tells (docs/PROTOCOL.md)."""
from typing import TypedDict

from .json_text import Number


class Token(TypedDict, total=False):
    """A token, or a `cdr_token`, which has the first four."""

    country_code: str
    party_id: str
    uid: str
    type: str
    valid: bool
    last_updated: str


class Price(TypedDict):
    excl_vat: int | Number


class Session(TypedDict, total=False):
    country_code: str
    party_id: str
    id: str
    start_date_time: str
    end_date_time: str
    kwh: int | Number
    cdr_token: Token
    auth_method: str
    authorization_reference: str
    location_id: str
    evse_uid: str
    connector_id: str
    currency: str
    total_cost: Price
    status: str
    last_updated: str


class Data(TypedDict, total=False):
    """Of a response to a command: `result` and `timeout`. Of one to a question about a token: `allowed`, `location`."""

    result: str
    timeout: int
    allowed: str
    location: object


class Answer(TypedDict, total=False):
    status_code: int
    timestamp: str
    data: Data


class Command(TypedDict, total=False):
    """A command; a `command_result` has `response_url` and `result`, a question `token_uid` and `location`."""

    response_url: str
    result: str
    token: Token
    token_uid: str
    location: object
    reservation_id: str
    expiry_date: str


class Body(Session, Answer, Command, total=False):
    """The body of a packet of any kind. The members of a token and of a CDR are here."""

    uid: str
    type: str
    valid: bool
    session_id: str
    total_energy: int | Number
    credit: bool
    tariffs: "list[Tariff]"


PacketLine = TypedDict("PacketLine", {
    "from": str, "to": str, "serial": int, "request": int, "kind": str, "body": Body})


class Event(TypedDict, total=False):
    """An event line. `owner`, `away` and `idempotency` are the bridge's own, and nodes read past them."""

    event: str
    node: str
    at: str
    packet: PacketLine
    evse_uid: str
    session_id: str
    provider: str
    number: int
    in_service: bool
    owner: bool
    away: bool
    idempotency: list[str]


class Done(TypedDict, total=False):
    """The last line that a node writes for an event: in a line of several, `event` is its place there."""

    done: str
    line: int
    name: str
    field: str
    event: int
    serial: int
    packets: int
    rows: int


class Connector(TypedDict, total=False):
    """A connector of a setup, or of OCPI's EVSE, which has what else OCPI wants."""

    id: str
    standard: str
    power_type: str
    max_voltage: int
    max_amperage: int
    max_electric_power: int
    tariff_ids: list[str]
    last_updated: str


class Evse(TypedDict, total=False):
    """An EVSE of a setup, or of OCPI's Location, which has its `status` too."""

    uid: str
    evse_id: str
    connectors: list[Connector]
    status: str
    last_updated: str


class Location(TypedDict, total=False):
    """A location of a setup, with `latitude` and `longitude`, or OCPI's Location."""

    country_code: str
    party_id: str
    id: str
    address: str
    city: str
    latitude: str
    longitude: str
    publish: bool
    evses: list[Evse]
    last_updated: str


class PriceComponent(TypedDict):
    type: str
    price: int | Number
    step_size: int


class TariffElement(TypedDict):
    price_components: list[PriceComponent]


class Tariff(TypedDict, total=False):
    country_code: str
    party_id: str
    id: str
    currency: str
    elements: list[TariffElement]
    start_date_time: str
    end_date_time: str
    last_updated: str


class PriceFrom(TypedDict):
    """One of the `prices` of a site, from a moment on."""

    start_date_time: str
    price: int | Number


class Site(TypedDict, total=False):
    currency: str
    price: int | Number
    prices: list[PriceFrom]
    locations: list[Location]


class SetupNode(TypedDict, total=False):
    party: str
    site: Site | None


class Setup(TypedDict):
    nodes: list[SetupNode]
