"""The packets and the site line as tables: which members each has, of which form, and in which order faults are told.

`answer(line)` gives what a line must give: the packet's line as it is written, or `refused` and the first fault. What
follows `site ` is a site line, and is `taken` or refused. All this is written from the rules (docs/PROTOCOL.md), and
shares nothing with the crates that it is to test. The trees are those of Python (`str`, `bool`, `None`, `list`, `dict`),
with a `Number` that holds its token. Reading a value gives at once the text that is written for it.
"""

import calendar
import json
import re


class Fault(Exception):
    """The first fault of a line, by its number and name."""


def missing(name):
    return Fault(f"4 Missing({name})")


def wrong_form(name):
    return Fault(f"5 WrongForm({name})")


def unknown_word(name):
    return Fault(f"6 UnknownWord({name})")


SYNTAX = "1 Syntax"
BAD_NUMBER_TOKEN = "2 BadNumberToken"
TAGGED_TEXT = "3 TaggedText"
UNKNOWN_KIND = "7 UnknownKind"


class Number:
    """A number by its token."""

    def __init__(self, token):
        self.token = token


def spell(value):
    """A tree as JSON without spaces, with its members in the order in which they stand."""
    if isinstance(value, Number):
        return value.token
    if isinstance(value, dict):
        return "{" + ",".join(f"{spell(name)}:{spell(member)}" for name, member in value.items()) + "}"
    if isinstance(value, list):
        return "[" + ",".join(map(spell, value)) + "]"
    return json.dumps(value, ensure_ascii=False)


def as_text(value, name):
    if not isinstance(value, str):
        raise wrong_form(name)
    return value


def as_token(value, name):
    if not isinstance(value, Number):
        raise wrong_form(name)
    return value.token


class CiString:
    """At most so many characters of printable ASCII, or exactly so many (OCPI 2.2.1, Types: CiString)."""

    def __init__(self, most, exact=False):
        self.most = most
        self.exact = exact

    def read(self, value, name):
        text = as_text(value, name)
        fits = len(text) == self.most if self.exact else len(text) <= self.most
        if not fits or not all(" " <= character <= "~" for character in text):
            raise wrong_form(name)
        return spell(text)


class String:
    """At most so many characters, none a control character (OCPI 2.2.1, Types: string)."""

    def __init__(self, most):
        self.most = most

    def read(self, value, name):
        text = as_text(value, name)
        if len(text) > self.most or any(c < " " or "\x7f" <= c <= "\x9f" for c in text):
            raise wrong_form(name)
        return spell(text)


class Party:
    """A country of two characters and a party id of three, as `BE/BEC`."""

    def read(self, value, name):
        text = as_text(value, name)
        if not re.fullmatch(r"[ -~]{2}/[ -~]{3}", text):
            raise wrong_form(name)
        return spell(text)


class Moment:
    """A moment from 1970 to 9999, by milliseconds (OCPI 2.2.1, Types: DateTime)."""

    TEXT = re.compile(
        r"([0-9]{4})-([0-9]{2})-([0-9]{2})[Tt]([0-9]{2}):([0-9]{2}):([0-9]{2})(?:\.([0-9]+))?(?:Z|z|[+]00:00|-00:00)?"
    )

    def read(self, value, name):
        match = self.TEXT.fullmatch(as_text(value, name))
        if not match:
            raise wrong_form(name)
        year, month, day, hour, minute, second = map(int, match.groups()[:6])
        if year < 1970 or not 1 <= month <= 12 or not 1 <= day <= calendar.monthrange(year, month)[1]:
            raise wrong_form(name)
        if hour > 23 or minute > 59 or second > 59:
            raise wrong_form(name)
        millis = int(((match.group(7) or "") + "000")[:3])
        fraction = f".{millis:03}" if millis else ""
        return spell(f"{year:04}-{month:02}-{day:02}T{hour:02}:{minute:02}:{second:02}{fraction}Z")


class Word:
    """A word of a closed list."""

    def __init__(self, *words):
        self.words = words

    def read(self, value, name):
        if as_text(value, name) not in self.words:
            raise unknown_word(name)
        return spell(value)


class Truth:
    """True or false."""

    def read(self, value, name):
        if not isinstance(value, bool):
            raise wrong_form(name)
        return spell(value)


MOST_WHOLE = 999_999_999_999_999_999


class Whole:
    """A whole number of digits alone."""

    def __init__(self, least=0, most=MOST_WHOLE):
        self.least = least
        self.most = most

    def read(self, value, name):
        token = as_token(value, name)
        if not re.fullmatch("[0-9]+", token) or not self.least <= int(token) <= self.most:
            raise wrong_form(name)
        return token


class Decimal:
    """A number of four decimals, below 10^11 in magnitude. Further decimals are cut, and then the bounds are tried."""

    def __init__(self, negative, most_units=10**15 - 1):
        self.negative = negative
        self.most_units = most_units

    def read(self, value, name):
        match = re.fullmatch(r"(-?)([0-9]+)(?:\.([0-9]+))?", as_token(value, name))
        if not match:
            raise wrong_form(name)
        sign, whole, decimals = match.group(1), match.group(2), ((match.group(3) or "") + "0000")[:4]
        units = int(whole + decimals)
        if units > self.most_units or (sign and units and not self.negative):
            raise wrong_form(name)
        return f"{sign if units else ''}{units // 10_000}.{units % 10_000:04}"


class Member:
    """A member of a record: its name and its form. An optional one may be absent or null."""

    def __init__(self, name, form, optional=False):
        self.name = name
        self.form = form
        self.optional = optional

    def read(self, tree):
        """What is written of it: none, where it is absent."""
        value = tree.get(self.name)
        if value is not None:
            return self.form.read(value, self.name)
        if self.optional:
            return None
        raise missing(self.name)


class Record:
    """An object of these members, in the order in which their faults are told."""

    def __init__(self, *members):
        self.members = members

    def read(self, value, name):
        if not isinstance(value, dict):
            raise wrong_form(name)
        return self.write(self.read_members(value))

    def read_members(self, tree):
        return {member.name: member.read(tree) for member in self.members}

    def write(self, texts):
        there = sorted((name, text) for name, text in texts.items() if text is not None)
        return "{" + ",".join(f"{spell(name)}:{text}" for name, text in there) + "}"


class Reply(Record):
    """A reply: data with status 1000 alone. With another status `data` is not looked at."""

    def __init__(self, data):
        super().__init__(Member("status_code", Whole(1000, 9999)), Member("timestamp", Moment()), Member("data", data))

    def read_members(self, tree):
        head = {member.name: member.read(tree) for member in self.members[:2]}
        if head["status_code"] == "1000":
            head["data"] = self.members[2].read(tree)
        return head


class ChargeDetailRecord(Record):
    """A charge detail record, which is a credit where `credit` is true, and otherwise a bill. That is read behind all other
    members: it may be wanting, unless it is told that it may not, and the record that a credit takes back stands behind it. Of
    a bill `credit_reference_id` is not looked at. Of a bill nothing is written, unless it is told that `credit` is."""

    TAKEN_BACK = Member("credit_reference_id", CiString(39))

    def __init__(self, *members, wants_credit=False, writes_credit=False):
        super().__init__(*members)
        self.wants_credit = wants_credit
        self.writes_credit = writes_credit

    def read_members(self, tree):
        texts = super().read_members(tree)
        credit = Member("credit", Truth(), optional=not self.wants_credit).read(tree)
        if credit == "true":
            return {**texts, "credit": credit, self.TAKEN_BACK.name: self.TAKEN_BACK.read(tree)}
        return {**texts, "credit": "false"} if self.writes_credit else texts


class Items:
    """A list. Its length is tried first, and an element of a wrong kind is a fault of the list."""

    def __init__(self, form, least, most=10**6):
        self.form = form
        self.least = least
        self.most = most

    def read(self, value, name):
        if not isinstance(value, list) or not self.least <= len(value) <= self.most:
            raise wrong_form(name)
        return "[" + ",".join(self.form.read(item, name) for item in value) + "]"


class NewText:
    """A text that is equal to no earlier one, but for case."""

    def __init__(self, form):
        self.form = form
        self.seen = set()

    def read(self, value, name):
        text = self.form.read(value, name)
        if text.upper() in self.seen:
            raise wrong_form(name)
        self.seen.add(text.upper())
        return text


class LaterMoment(NewText):
    """A moment that is later than the one before."""

    def __init__(self):
        super().__init__(Moment())

    def read(self, value, name):
        text = self.form.read(value, name)
        moment = text.strip('"').removesuffix("Z")
        if self.seen and moment <= max(self.seen):
            raise wrong_form(name)
        self.seen.add(moment)
        return text


class Scope(Record):
    """An object within which new texts differ."""

    def __init__(self, *members, new_texts):
        super().__init__(*members)
        self.new_texts = new_texts

    def read_members(self, tree):
        for form in self.new_texts:
            form.seen.clear()
        return super().read_members(tree)


ID = CiString(36)
TOKEN_TYPE = Word("AD_HOC_USER", "APP_USER", "OTHER", "RFID")
AUTH_METHOD = Word("AUTH_REQUEST", "COMMAND", "WHITELIST")
URL = Member("response_url", String(255))
REFERENCE = Member("authorization_reference", ID, optional=True)
PARTY_HALVES = (Member("country_code", CiString(2, exact=True)), Member("party_id", CiString(3, exact=True)))
POWER = Decimal(negative=False)

TOKEN = Record(
    *PARTY_HALVES,
    Member("uid", ID),
    Member("type", TOKEN_TYPE),
    Member("contract_id", ID),
    Member("issuer", String(64)),
    Member("valid", Truth()),
    Member("whitelist", Word("ALWAYS", "ALLOWED", "ALLOWED_OFFLINE", "NEVER")),
    Member("last_updated", Moment()),
)

CDR_TOKEN = Record(*PARTY_HALVES, Member("uid", ID), Member("type", TOKEN_TYPE), Member("contract_id", ID))

PRICE = Record(Member("excl_vat", Decimal(negative=True)))

SESSION = Record(
    *PARTY_HALVES,
    Member("id", ID),
    Member("start_date_time", Moment()),
    Member("end_date_time", Moment(), optional=True),
    Member("kwh", POWER),
    Member("cdr_token", CDR_TOKEN),
    Member("auth_method", AUTH_METHOD),
    REFERENCE,
    Member("location_id", ID),
    Member("evse_uid", ID),
    Member("connector_id", ID),
    Member("currency", String(3)),
    Member("total_cost", PRICE, optional=True),
    Member("status", Word("ACTIVE", "COMPLETED", "INVALID", "PENDING", "RESERVATION")),
    Member("last_updated", Moment()),
)

COORDINATES = Record(Member("latitude", String(10)), Member("longitude", String(11)))

CDR_LOCATION = Record(
    Member("id", ID),
    Member("address", String(45)),
    Member("city", String(45)),
    Member("country", String(3)),
    Member("coordinates", COORDINATES),
    Member("evse_uid", ID),
    Member("evse_id", CiString(48)),
    Member("connector_id", ID),
    Member("connector_standard", String(64)),
    Member("connector_format", String(64)),
    Member("connector_power_type", String(64)),
)

DIMENSION = Record(Member("type", String(64)), Member("volume", Decimal(negative=True)))

PERIOD = Record(Member("start_date_time", Moment()), Member("dimensions", Items(DIMENSION, least=1)))

CDR_MEMBERS = (
    *PARTY_HALVES,
    Member("id", CiString(39)),
    Member("start_date_time", Moment()),
    Member("end_date_time", Moment()),
    Member("session_id", ID),
    Member("cdr_token", CDR_TOKEN),
    Member("auth_method", AUTH_METHOD),
    REFERENCE,
    Member("cdr_location", CDR_LOCATION),
    Member("currency", String(3)),
    Member("charging_periods", Items(PERIOD, least=1)),
    Member("total_cost", PRICE),
    Member("total_energy", POWER),
    Member("total_time", POWER),
    Member("last_updated", Moment()),
)

CDR = ChargeDetailRecord(*CDR_MEMBERS)

RESPONSE_DATA = Record(
    Member("result", Word("NOT_SUPPORTED", "REJECTED", "ACCEPTED", "UNKNOWN_SESSION")), Member("timeout", Whole())
)

RESULT = Word(
    "ACCEPTED",
    "CANCELED_RESERVATION",
    "EVSE_OCCUPIED",
    "EVSE_INOPERATIVE",
    "FAILED",
    "NOT_SUPPORTED",
    "REJECTED",
    "TIMEOUT",
    "UNKNOWN_RESERVATION",
)

AUTHORIZATION_INFO = Record(
    Member("allowed", Word("ALLOWED", "BLOCKED", "EXPIRED", "NO_CREDIT", "NOT_ALLOWED")),
    Member("token", TOKEN),
    REFERENCE,
)

LOCATION_REFERENCES = Record(Member("location_id", ID), Member("evse_uids", Items(ID, least=0), optional=True))

BODIES = {
    "start_session": Record(
        URL,
        Member("token", TOKEN),
        Member("location_id", ID),
        Member("evse_uid", ID, optional=True),
        Member("connector_id", ID, optional=True),
        REFERENCE,
    ),
    "stop_session": Record(URL, Member("session_id", ID)),
    "reserve_now": Record(
        URL,
        Member("token", TOKEN),
        Member("expiry_date", Moment()),
        Member("reservation_id", ID),
        Member("location_id", ID),
        Member("evse_uid", ID, optional=True),
    ),
    "cancel_reservation": Record(URL, Member("reservation_id", ID)),
    "unlock_connector": Record(URL, Member("location_id", ID), Member("evse_uid", ID), Member("connector_id", ID)),
    "command_response": Reply(RESPONSE_DATA),
    "command_result": Record(URL, Member("result", RESULT)),
    "put_token": TOKEN,
    "authorize": Record(
        Member("token_uid", ID),
        Member("type", TOKEN_TYPE, optional=True),
        Member("location", LOCATION_REFERENCES, optional=True),
    ),
    "authorization": Reply(AUTHORIZATION_INFO),
    "put_session": SESSION,
    "post_cdr": CDR,
    "ack": Record(Member("status_code", Whole(1000, 9999)), Member("timestamp", Moment())),
}


CONNECTOR_ID = NewText(ID)

CONNECTOR = Record(
    Member("id", CONNECTOR_ID),
    Member("standard", String(64)),
    Member("format", String(64)),
    Member("power_type", String(64)),
)

EVSE_UID = NewText(ID)

EVSE = Scope(
    Member("uid", EVSE_UID),
    Member("evse_id", CiString(48)),
    Member("connectors", Items(CONNECTOR, least=1, most=10)),
    new_texts=[CONNECTOR_ID],
)

LOCATION_ID = NewText(ID)

LOCATION = Record(
    Member("id", LOCATION_ID),
    Member("address", String(45)),
    Member("city", String(45)),
    Member("country", String(3)),
    Member("latitude", String(10)),
    Member("longitude", String(11)),
    Member("evses", Items(EVSE, least=1, most=1000)),
)

PRICE = Member("price", Decimal(negative=False, most_units=100_000_000))

PRICE_START = LaterMoment()

PRICE_FROM = Record(Member("start_date_time", PRICE_START), PRICE)

SITE = Scope(
    Member("currency", String(3)),
    PRICE,
    Member("prices", Items(PRICE_FROM, least=0, most=1000), optional=True),
    Member("locations", Items(LOCATION, least=1, most=1000)),
    new_texts=[LOCATION_ID, EVSE_UID, PRICE_START],
)

NEW_PARTY = NewText(Party())

SITE_LINE = Scope(
    Member("at", Moment()),
    Member("party", NEW_PARTY),
    Member("providers", Items(NEW_PARTY, least=0, most=63)),
    Member("site", SITE),
    new_texts=[NEW_PARTY],
)


class Kind:
    """The kind of a packet."""

    def read(self, value, name):
        if as_text(value, name) not in BODIES:
            raise Fault(UNKNOWN_KIND)
        return spell(value)


ENVELOPE = (
    Member("from", Party()),
    Member("to", Party()),
    Member("serial", Whole()),
    Member("request", Whole()),
    Member("kind", Kind()),
)

NUMBER_TOKEN = re.compile(r"[-0-9][-+.0-9eE]*")
JSON_NUMBER = re.compile(r"-?(?:0|[1-9][0-9]*)(?:\.[0-9]+)?(?:[eE][-+]?[0-9]+)?")
STRING_TOKEN = re.compile(r'"(?:[^"\\]|\\.)*"?', re.DOTALL)


def try_tokens(line):
    """Refuses the first number that is none, or the first text that begins with the escape of U+0001."""
    at = 0
    while at < len(line):
        if line.startswith('"\\u0001', at):
            raise Fault(TAGGED_TEXT)
        if line[at] == '"':
            at = STRING_TOKEN.match(line, at).end()
        elif number := NUMBER_TOKEN.match(line, at):
            if not JSON_NUMBER.fullmatch(number.group()):
                raise Fault(BAD_NUMBER_TOKEN)
            at = number.end()
        else:
            at += 1


MOST_DEPTH = 127


def depth(tree):
    """How many objects and lists stand within one another."""
    if isinstance(tree, dict):
        tree = list(tree.values())
    return 1 + max(map(depth, tree), default=0) if isinstance(tree, list) else 0


def refuse_constant(name):
    raise ValueError(name)


def read_tree(line):
    """The line's tree. Of a repeated name the last counts."""
    try_tokens(line)
    try:
        tree = json.loads(line, parse_int=Number, parse_float=Number, parse_constant=refuse_constant)
        spell(tree).encode()  # Refuses half of a surrogate pair.
    except ValueError:
        raise Fault(SYNTAX) from None
    if depth(tree) > MOST_DEPTH:
        raise Fault(SYNTAX)
    return tree


def read_packet(line):
    tree = read_tree(line)
    if not isinstance(tree, dict):
        raise wrong_form("line")
    envelope = Record(*ENVELOPE).read_members(tree)
    envelope["body"] = Member("body", BODIES[tree["kind"]]).read(tree)
    return Record().write(envelope)


SITE_MARK = "site "


def answer(line):
    """What the line must give."""
    try:
        if line.startswith(SITE_MARK):
            SITE_LINE.read(read_tree(line.removeprefix(SITE_MARK)), "line")
            return "taken"
        return read_packet(line)
    except Fault as fault:
        return f"refused {fault}"
