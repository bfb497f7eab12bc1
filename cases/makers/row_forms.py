"""The rows as tables: which members the text of each kind has, in which order faults are told, and which keys it may have.

`answer(line)` gives what a line of `packet_cases` must give that is a kind, a key and a text behind `row `, with tabs between
them: these three as they are written, or `refused` and the first fault. Behind `row_1 ` they are those of layout 1, in which
the text of a charge detail record is that of a packet (docs/STORE.md); they are written as in layout 2. Written from the rules
(docs/PROTOCOL.md), as `packet_forms` is, and beside it.
"""

import re

from packet_forms import (
    BODIES,
    ID,
    RESULT,
    TOKEN,
    CDR_MEMBERS,
    SESSION,
    UNKNOWN_KIND,
    ChargeDetailRecord,
    Fault,
    Kind,
    Member,
    Moment,
    Party,
    Record,
    Whole,
    as_text,
    read_tree,
    spell,
    wrong_form,
)

ROW_MARK = "row "
ROW_1_MARK = "row_1 "

COMMANDS = ["start_session", "stop_session", "reserve_now", "cancel_reservation", "unlock_connector"]
REPLIES = ["command_response", "authorization", "ack"]
PUSHES = ["command_result", "put_token", "put_session", "post_cdr"]


class CarriedKind(Kind):
    """The kind of the body beside it, out of those that such a row carries."""

    def __init__(self, kinds):
        self.kinds = kinds

    def read(self, value, name):
        if as_text(value, name) not in self.kinds:
            raise Fault(UNKNOWN_KIND)
        return spell(value)


class Carried(Record):
    """A record with a body of the kind that stands beside it. The kind is tried before the body is looked at, and the body
    before the members behind."""

    def __init__(self, kinds, before=(), behind=()):
        super().__init__(*before, Member("kind", CarriedKind(kinds)), *behind)
        self.kinds = kinds

    def read_members(self, tree):
        texts = {}
        for member in self.members:
            texts[member.name] = member.read(tree)
            if member.name == "kind":
                texts["body"] = Member("body", BODIES[tree["kind"]]).read(tree)
        return texts


# A printable character that is no small letter, a party of such, a number without leading zeros.
CHARACTER = "[ -`{-~]"
PARTY = f"{CHARACTER}{{2}}/{CHARACTER}{{3}}"
NUMBER = "(?:0|[1-9][0-9]{0,17})"
PARTY_NUMBER = f"{PARTY}/{NUMBER}"
PARTY_ID = f"{PARTY}/{CHARACTER}{{0,36}}"


def token_key(tree):
    return f"{tree['country_code']}/{tree['party_id']}/{tree['type']}/{tree['uid']}".upper()


def own_key(tree):
    return f"{tree['country_code']}/{tree['party_id']}/{tree['id']}".upper()


# Of each kind the form of its text, and the form of its key or the key by the text.
ROWS = {
    "count": (Record(Member("last", Whole())), "serial|request|session|cdr|reference"),
    "reply": (Carried(REPLIES), PARTY_NUMBER),
    "token": (TOKEN, token_key),
    "push": (Carried(PUSHES, behind=[Member("to", Party())]), NUMBER),
    "service": (Record(), f"{CHARACTER}{{0,36}}"),
    "spent": (Record(), PARTY_ID),
    "mark": (Record(Member("number", Whole())), PARTY_ID),
    "reservation": (
        Record(
            Member("evse_uid", ID), Member("expiry_date", Moment()), Member("location_id", ID), Member("token", TOKEN)
        ),
        PARTY_ID,
    ),
    "pending": (
        Carried(
            COMMANDS,
            behind=[
                Member("connector_id", ID, optional=True),
                Member("deadline", Moment()),
                Member("evse_uid", ID, optional=True),
            ],
        ),
        PARTY_NUMBER,
    ),
    "result": (Record(Member("result", RESULT)), PARTY_NUMBER),
    "session": (SESSION, own_key),
    "cdr": (ChargeDetailRecord(*CDR_MEMBERS, wants_credit=True, writes_credit=True), own_key),
    "command": (
        Carried(
            COMMANDS,
            before=[Member("answer", BODIES["command_response"], optional=True)],
            behind=[Member("result", RESULT, optional=True), Member("to", Party())],
        ),
        NUMBER,
    ),
}


# The same of layout 1.
ROWS_1 = {**ROWS, "cdr": (ChargeDetailRecord(*CDR_MEMBERS, writes_credit=True), own_key)}


def read_row(rows, kind, key, text):
    if kind not in rows:
        raise Fault(UNKNOWN_KIND)
    record, form = rows[kind]
    tree = read_tree(text)
    written = record.read(tree, "line")
    fits = key == form(tree) if callable(form) else re.fullmatch(form, key)
    if not fits:
        raise wrong_form("key")
    return f"{kind}\t{key}\t{written}"


def answer(line):
    """What the line must give."""
    try:
        if line.startswith(ROW_1_MARK):
            return read_row(ROWS_1, *line.removeprefix(ROW_1_MARK).split("\t", 2))
        return read_row(ROWS, *line.removeprefix(ROW_MARK).split("\t", 2))
    except Fault as fault:
        return f"refused {fault}"
