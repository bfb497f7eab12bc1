"""The part `packets` of the cases of the program `case_lines`: packets, site lines, setup lines, event lines and rows, and what
each must give.

Each line gives one line. Each case of a packet or a site says what it must give, and the tables in `packet_forms` say it once
more: where the two differ, nothing is written. Those of setups and events are in `event_cases`, those of events of one node in
`node_event_cases`, those of rows in `row_cases`.
"""

import copy
import pathlib
import sys

from event_cases import CASES as EVENT_CASES
from node_event_cases import add_cases as node_event_cases
from packet_forms import (
    BAD_NUMBER_TOKEN,
    BODIES,
    ENVELOPE,
    MOST_DEPTH,
    SITE_LINE,
    SITE_MARK,
    SYNTAX,
    TAGGED_TEXT,
    UNKNOWN_KIND,
    CiString,
    Items,
    Kind,
    Member,
    NewText,
    Number,
    Record,
    Reply,
    Word,
    answer,
    missing,
    read_tree,
    spell,
    unknown_word,
    wrong_form,
)
from packet_values import GREATEST, LEAST, USUAL, other_kinds, right_values, sample, wrong_values
from row_cases import CASES as ROW_CASES

HERE = pathlib.Path(__file__).resolve().parent

# A packet of each kind, as it is written: a start, what is answered to it, the session that it opens, and so on.
EXAMPLES = (HERE / "packet_examples.jsonl").read_text(encoding="utf-8").splitlines()
START, RESPONSE, SESSION, CDR, ACK = (
    next(line for line in EXAMPLES if f'"kind":"{kind}"' in line)
    for kind in ("start_session", "command_response", "put_session", "post_cdr", "ack")
)

CASES = []


def case(line, wanted):
    """A line and what it must give."""
    found = answer(line)
    if found != wanted:
        sys.exit(f"the tables give another answer\nline   {line}\nwanted {wanted}\nfound  {found}")
    CASES.append((line, wanted))


def refused(line, fault):
    case(line, f"refused {fault}")


def changed(line, old, new):
    """The line with another text in the place of one."""
    if line.count(old) != 1:
        sys.exit(f"{old} does not stand once in {line}")
    return line.replace(old, new)


# Trees


def line_of(tree):
    """The line that spells a packet or a site line."""
    return spell(tree) if is_packet(tree) else SITE_MARK + spell(tree)


def taken(tree):
    """What is given for a tree that is spelled as it is written."""
    return spell(tree) if is_packet(tree) else "taken"


def is_packet(tree):
    return "serial" in tree or "request" in tree


def sample_packet(kind, size=USUAL):
    """A packet of that kind, spelled as it is written."""
    tree = {member.name: sample(member.form, size) for member in ENVELOPE if member.name != "kind"}
    tree |= {"kind": kind, "body": sample(BODIES[kind], size)}
    return dict(sorted(tree.items()))


def at(tree, path):
    for step in path:
        tree = tree[step]
    return tree


def replaced(tree, path, value):
    """A copy of the tree with that value at the path."""
    tree = copy.deepcopy(tree)
    at(tree, path[:-1])[path[-1]] = value
    return tree


def removed(tree, path):
    """A copy of the tree with nothing at the path."""
    tree = copy.deepcopy(tree)
    del at(tree, path[:-1])[path[-1]]
    return tree


def members_of(record, path, tree):
    """Each member of the record at the path, and of those within it, in the order in which faults are told."""
    for member in record.members:
        place = [*path, member.name]
        yield record, member, place
        form, places = member.form, [place]
        if isinstance(form, Items):
            form, places = form.form, [[*place, number] for number in range(len(at(tree, place)))]
        if isinstance(form, Record):
            for within in places:
                yield from members_of(form, within, tree)


def packet_members(kind, tree):
    return list(members_of(Record(*ENVELOPE, Member("body", BODIES[kind])), [], tree))


# What was tried, so that each record and each form is tried in full once.
TRIED = set()


def is_new(*key):
    new = key not in TRIED
    TRIED.add(key)
    return new


# The cases


def add_packets():
    """Packets are written as they are spelled: the examples, and the least and the greatest of each kind."""
    for line in EXAMPLES:
        case(line, line)
    for kind in BODIES:
        for size in (LEAST, USUAL, GREATEST):
            line = spell(sample_packet(kind, size))
            case(line, line)


def add_spellings():
    """Members of a session that are spelled in other ways, and near misses."""
    for text, written in {"0.5": "0.5000", "12.34567": "12.3456", "-0": "0.0000", "-0.00001": "0.0000"}.items():
        case(changed(SESSION, '"kwh":0.0000', f'"kwh":{text}'), changed(SESSION, '"kwh":0.0000', f'"kwh":{written}'))
    for text in ("1e3", "1234567890123456", "-0.0001", '"0.5"', "true"):
        refused(changed(SESSION, '"kwh":0.0000', f'"kwh":{text}'), "5 WrongForm(kwh)")
    refused(changed(SESSION, '"kwh":0.0000', '"kwh":01'), "2 BadNumberToken")
    case(changed(CDR, '"volume":12.3456', '"volume":-1.5'), changed(CDR, '"volume":12.3456', '"volume":-1.5000'))
    refused(changed(START, '"uid":"AA01"', r'"uid":"\u00015"'), "3 TaggedText")
    refused(changed(SESSION, '"id":"5', r'"id":"\u00015'), "3 TaggedText")
    refused(changed(SESSION, '"country_code":"BE"', '"country_code":"BEL"'), "5 WrongForm(country_code)")
    refused(changed(SESSION, '"party_id":"BEC"', '"party_id":"BECX"'), "5 WrongForm(party_id)")
    case(changed(SESSION, '"start_date_time"', '"end_date_time":null,"start_date_time"'), SESSION)
    for text in ("2025-02-29T00:00:00Z", "2025-01-01T10:00:05+01:00", "1969-12-31T23:59:59Z", "2025-01-01T10:00:60Z"):
        line = changed(SESSION, '"last_updated":"2025-01-01T10:00:05Z"', f'"last_updated":"{text}"')
        refused(line, "5 WrongForm(last_updated)")


def add_members():
    """Each member of each record in turn."""
    for kind in reversed(BODIES):
        tree = sample_packet(kind)
        for record, member, path in packet_members(kind, tree):
            if is_new("envelope" if len(path) == 1 else record, member.name):
                try_member(tree, record, member, path)


def try_member(tree, record, member, path):
    try_absence(tree, path, member)
    try_wrong_values(tree, path, member, is_new(form_key(member.form), "wrong"))
    # Another status goes without data: `add_replies` has it.
    if not (isinstance(record, Reply) and member.name == "status_code"):
        try_right_values(tree, path, member, is_new(form_key(member.form), "right"))
    if isinstance(member.form, Items):
        try_elements(tree, path, member)


def form_key(form):
    """Forms of the same key take the same values."""
    if isinstance(form, NewText):
        return form_key(form.form)
    others = ("form", "members", "new_texts")
    return type(form).__name__, *(value for name, value in vars(form).items() if name not in others)


def try_absence(tree, path, member):
    without, null = removed(tree, path), replaced(tree, path, None)
    for line in map(line_of, (without, null)):
        if member.optional:
            case(line, taken(without))
        else:
            refused(line, missing(member.name))


def try_wrong_values(tree, path, member, is_full):
    for value in other_kinds(member.form):
        refused(line_of(replaced(tree, path, value)), wrong_form(member.name))
    fault = wrong_form(member.name)
    if isinstance(member.form, Word):
        fault = unknown_word(member.name)
    if isinstance(member.form, Kind):
        fault = UNKNOWN_KIND
    few, more = wrong_values(member.form)
    for value in few + more if is_full else few:
        refused(line_of(replaced(tree, path, value)), fault)


def try_right_values(tree, path, member, is_full):
    few, more = right_values(member.form)
    for value, written in few + more if is_full else few:
        case(line_of(replaced(tree, path, value)), taken(replaced(tree, path, written)))


def try_elements(tree, path, member):
    """A wrong element, the first or a later one, is a fault of the list."""
    if member.form.least > 0:
        refused(line_of(replaced(tree, path, [])), wrong_form(member.name))
    element = member.form.form
    for value in (None, *other_kinds(element), *wrong_values(element)[0]):
        refused(line_of(replaced(tree, path, [value])), wrong_form(member.name))
        refused(line_of(replaced(tree, path, [*at(tree, path), value])), wrong_form(member.name))


def add_first_faults():
    for kind in BODIES:
        tree = sample_packet(kind)
        try_first_faults(tree, packet_members(kind, tree))


def try_first_faults(tree, members):
    """Where a member and all behind it are wrong, its fault is told, whether it is wrong or absent."""
    for number, (_, member, path) in enumerate(members):
        if len(path) > 1 or is_new("first fault", member.name):
            later = [(place, form) for _, form, place in members[number + 1 :] if place[: len(path)] != path]
            spoiled = spoil(tree, later)
            refused(line_of(replaced(spoiled, path, other_kinds(member.form)[0])), wrong_form(member.name))
            if not member.optional:
                refused(line_of(removed(spoiled, path)), missing(member.name))


def spoil(tree, members):
    """A copy of the tree in which each of the members is of another kind of value."""
    done = []
    for path, member in members:
        if not any(path[: len(before)] == before for before in done):
            tree = replaced(tree, path, other_kinds(member.form)[0])
            done.append(path)
    return tree


def add_kinds():
    """The kind is tried before the body, and faults before it are told first."""
    for kind in BODIES:
        refused(changed(ACK, '"kind":"ack"', f'"kind":"{kind.upper()}"'), UNKNOWN_KIND)
    for body in ("5", "null", "{}", '{"status_code":"x"}'):
        tree = sample_packet("ack")
        refused(spell(tree | {"body": Number(body), "kind": "acknowledge"}), UNKNOWN_KIND)
        refused(spell(tree | {"body": Number(body), "kind": Number("5")}), wrong_form("kind"))
    refused(changed(changed(ACK, '"kind":"ack"', '"kind":"x"'), '"serial":2', '"serial":-2'), wrong_form("serial"))
    refused(changed(ACK, '"kind":"ack"', '"kind":"command_response"'), missing("data"))
    refused(changed(RESPONSE, '"kind":"command_response"', '"kind":"stop_session"'), missing("response_url"))
    response = changed(RESPONSE, '"kind":"command_response"', '"kind":"ack"')
    case(response, changed(response, '"data":{"result":"ACCEPTED","timeout":30},', ""))


def add_replies():
    """Data goes with status 1000 alone; beside another one it is neither looked at nor written."""
    for kind in ("command_response", "authorization"):
        tree = sample_packet(kind)
        for status in ("1001", "2001", "9999"):
            refusal = removed(replaced(tree, ["body", "status_code"], Number(status)), ["body", "data"])
            case(spell(refusal), spell(refusal))
            for data in ("5", "null", "[]", "{}", '{"allowed":1,"result":"x"}', spell(tree["body"]["data"])):
                body = {"data": Number(data), **refusal["body"]}
                case(spell(refusal | {"body": body}), spell(refusal))


def with_credit(tree, **members):
    """A charge detail record's packet with these members in its body, which stand there in the order of their names."""
    return {**tree, "body": dict(sorted({**tree["body"], **members}.items()))}


NO_TRUTHS = ["x", "true", "", *map(Number, ("1", "0")), [], [True], {}, {"credit": True}]


def add_credits():
    """A credit names the record that it takes back. A bill says neither, and what stands there beside false is read past. All
    that is told behind the faults of other members."""
    tree = sample_packet("post_cdr")
    for credit in ({}, {"credit": None}, {"credit": False}):
        for value in (None, "C1", "x" * 40, "\u00e9", Number("5"), False, [], {}):
            case(spell(with_credit(tree, **credit, credit_reference_id=value)), spell(tree))
        case(spell(with_credit(tree, **credit)), spell(tree))
    credit = with_credit(tree, credit=True, credit_reference_id="C1")
    case(spell(credit), spell(credit))
    case(spell(with_credit(tree, credit=True)), f"refused {missing('credit_reference_id')}")
    refused(spell(with_credit(credit, credit_reference_id=None)), missing("credit_reference_id"))
    wrong, more = wrong_values(CiString(39))
    for value in (*other_kinds(CiString(39)), *wrong, *more):
        refused(spell(with_credit(credit, credit_reference_id=value)), wrong_form("credit_reference_id"))
    for value in ("", "a-C", "~" * 39, '"\\/'):
        given = spell(with_credit(credit, credit_reference_id=value))
        case(given, given)
    for value in NO_TRUTHS:
        for given in (tree, credit, with_credit(credit, credit_reference_id=None)):
            refused(spell(with_credit(given, credit=value)), wrong_form("credit"))
    # Each other member is read before.
    for given in (with_credit(tree, credit="x"), with_credit(tree, credit=True)):
        for member in BODIES["post_cdr"].members:
            if not member.optional:
                refused(spell(with_credit(given, **{member.name: None})), missing(member.name))
            refused(spell(with_credit(given, **{member.name: other_kinds(member.form)[0]})), wrong_form(member.name))
    add_repeated_credits(tree)


def add_repeated_credits(tree):
    """Of repeated members the last counts, and elsewhere these members are unknown."""
    behind = '"country_code":"BE"'
    case(changed(CDR, behind, f'{behind},"credit":true,"credit":false'), CDR)
    case(changed(CDR, behind, f'{behind},"credit":"x","credit":null'), CDR)
    refused(changed(CDR, behind, f'{behind},"credit":null,"credit":true'), missing("credit_reference_id"))
    credit = changed(CDR, behind, f'{behind},"credit":true,"credit_reference_id":"C1"')
    case(credit, credit)
    case(changed(credit, '"credit":true', '"credit":[],"credit":true'), credit)
    case(changed(credit, '"credit_reference_id":"C1"', '"credit_reference_id":5,"credit_reference_id":"C1"'), credit)
    refused(changed(credit, '"credit":true', '"Credit":true,"credit":5'), wrong_form("credit"))
    case(changed(credit, '"credit":true', '"Credit":true'), CDR)
    for path in (["credit"], ["body", "cdr_location", "credit"], ["body", "charging_periods", 0, "credit"]):
        case(spell(replaced(tree, path, True)), spell(tree))
    case(changed(SESSION, behind, f'{behind},"credit":true'), SESSION)


def add_members_about():
    """Unknown members are read past, of repeated ones the last counts, and their order is free."""
    extra = {"more": [Number("1e400"), {"kind": None}, "\u20ac"], "Kind": "x", "kind ": "x", "": True, "data": "x"}
    for kind in BODIES:
        tree = sample_packet(kind)
        case(spell(with_extra(tree, extra)), spell(tree))
        case(spell(turned(tree)), spell(tree))
    for old, new in REPEATED:
        case(changed(START, old, new), START)
    refused(changed(START, '"kind":"start_session"', '"kind":"start_session","kind":null'), missing("kind"))
    refused(changed(START, '"kind":"start_session"', '"Kind":"start_session"'), missing("kind"))
    refused(changed(START, '"uid":"AA01"', '"uid":"AA01","uid":5'), wrong_form("uid"))
    case(changed(START, '"evse_uid":"E1"', '"evse_uid":"E1","evse_uid":null'), changed(START, '"evse_uid":"E1",', ""))


REPEATED = [
    ('"kind":"start_session"', '"kind":5,"kind":"start_session"'),
    ('"kind":"start_session"', r'"k\u0069nd":"start_session"'),
    ('"kind":"start_session"', r'"kind":"stop_session","\u006bind":"start_session"'),
    ('{"body":', '{"body":{},"body":'),
    ('"uid":"AA01"', '"uid":null,"uid":"AA01"'),
    ('"valid":true', '"valid":"x","valid":false,"valid":true'),
    ('"token":{', '"token":{"uid":"BB01"},"token":{'),
    ('"to":"BE/BEC"', '"to":"FR/FRC","to":"BE/BEC"'),
]


def with_extra(tree, extra):
    """A copy of the tree with more members in each object. Those that an object has stay as they are."""
    if isinstance(tree, dict):
        return {**extra, **{name: with_extra(value, extra) for name, value in tree.items()}}
    return [with_extra(value, extra) for value in tree] if isinstance(tree, list) else tree


def turned(tree):
    """A copy of the tree with the members of each object in the other order."""
    if isinstance(tree, dict):
        return {name: turned(tree[name]) for name in reversed(tree)}
    return [turned(value) for value in tree] if isinstance(tree, list) else tree


def add_texts():
    """Escapes, and what is written for them."""
    issuer = '"issuer":"TNM"'
    taken = {r"\u0041\u00e9\u20AC": "A\u00e9\u20ac", r"\ud83d\ude00": "\U0001f600", r"\/": "/"}
    taken |= {r"\u0022\u005C": r"\"\\", r"\\\"": r"\\\"", r"\\u0001": r"\\u0001", "-1.5": "-1.5", "{}": "{}"}
    for text, written in taken.items():
        case(changed(START, issuer, f'"issuer":"{text}"'), changed(START, issuer, f'"issuer":"{written}"'))
    for text in ("\\n", "\\b", "\\f", "\\r", "\\t", "\\u0000", "\\u001F", "\\u007f", "\\u009F", "a\\u0001"):
        refused(changed(START, issuer, f'"issuer":"{text}"'), wrong_form("issuer"))
    for text in ("\\x", "\\u12", "\\ud83d", "\\ud83dx", "\\ude00\\ud83d", "\t", "\x01", "\\U0041"):
        refused(changed(START, issuer, f'"issuer":"{text}"'), SYNTAX)
    # What follows is turned inside out, and 2025-01-01 stands outside the texts.
    for text in ("\\", '"'):
        refused(changed(START, issuer, f'"issuer":"{text}"'), BAD_NUMBER_TOKEN)
    for text in ("\\u0001", "\\u00011", "\\u0001\\"):
        refused(changed(START, issuer, f'"issuer":"{text}"'), TAGGED_TEXT)
    spaced = RESPONSE.replace(",", " ,\t").replace(":{", " : {\r ").replace("}", " } ")
    case(f" \t{spaced}\r", RESPONSE)


NO_OBJECTS = ["5", "-1.5e+3", "[]", "null", '"text"', "true", " [1] "]

NO_PACKETS = ["{}", ' { "a" : [ true , null , -1e+3 ] }\r', '{"1":2,"a":"1:2"}', r'{"a":["a\u0001","\\u0001"]}']

NO_JSON = [
    *(" ", "{", "}", "nul", "True", "NaN", "Infinity", "+5", ".5", "0x10", "\ufeff{}", '"\x01"'),
    *(r'"\u000', r'"\\u0001', "{} {}", "{} x", "{},", "[1 2]", "[1,]", "{a:1}", "{'a':1}", '{"a" 1}', '{"a":}'),
    *('{"a":1,}', '{"a":1"b":2}'),
    '{"a":1 // x\r}',
    # A number is no name.
    *("{1:2}", "{1 \t\r:2}", '{"a":{1:2},"a":3}', '{"a":[{"b":{-1.5:null}}]}', '{"a":1,2:3}'),
]

NO_NUMBERS = ["01", "00", "-", "-01", "-.5", "1.", "1.e2", "1e", "1e+", "1+", "1-2", "--1", "1.5.2", "1e5e5"]

BAD_NUMBERS_FIRST = ["{} -", "x 2.5.1", "{1:01}", '{"a":1.', r'- "\u0001"', '{"a":tru-e}']

TAGGED_TEXTS_FIRST = [r'{"\u0001":null}', r'x"\u0001"', r'"\u0001', r'"\u0001" 01', r'{1:"\u0001"}', r'[",","\u00015"]']


def add_lines():
    """Lines that are no packet at all."""
    for lines, fault in (
        (NO_OBJECTS, wrong_form("line")),
        (NO_PACKETS, missing("from")),
        (NO_JSON, SYNTAX),
        ([f'{{"a":{token}}}' for token in NO_NUMBERS], BAD_NUMBER_TOKEN),
        (BAD_NUMBERS_FIRST, BAD_NUMBER_TOKEN),
        (TAGGED_TEXTS_FIRST, TAGGED_TEXT),
    ):
        for line in lines:
            refused(line, fault)
    add_cut_lines()
    add_depths()


def add_cut_lines():
    """A line that was cut is Syntax, or BadNumberToken where it ends inside a number."""
    line = r'{"a":-1.5e+3,"b":["\u00e9 -",0.25E-7]}'
    inside = ("-", "-1.", "-1.5e", "-1.5e+", ",0.", ",0.25E", ",0.25E-")
    for end in range(1, len(line)):
        is_cut = line[:end].endswith(inside) and not line[:end].endswith(" -")
        refused(line[:end], BAD_NUMBER_TOKEN if is_cut else SYNTAX)
    for end in range(1, len(RESPONSE)):
        refused(RESPONSE[:end], SYNTAX)


def add_depths():
    """Objects and lists may stand within one another to a depth of 127."""
    tree = sample_packet("ack")
    for deep, wanted in ((MOST_DEPTH - 1, spell(tree)), (MOST_DEPTH, f"refused {SYNTAX}"), (300, f"refused {SYNTAX}")):
        case(spell(tree | {"more": Number("[" * deep + "]" * deep)}), wanted)
    refused("[" * MOST_DEPTH + "]" * MOST_DEPTH, wrong_form("line"))
    refused("[" * (MOST_DEPTH + 1) + "]" * (MOST_DEPTH + 1), SYNTAX)


SITE = (
    '{"at":"2025-01-01T10:00:00Z","party":"BE/BEC","providers":["NL/TNM","DE/EMP"],"site":{"currency":"EUR",'
    '"locations":[{"address":"Korenmarkt 1","city":"Gent","country":"BEL","evses":[{"connectors":[{"format":"SOCKET",'
    '"id":"1","power_type":"AC_3_PHASE","standard":"IEC_62196_T2"}],"evse_id":"BE*BEC*E1","uid":"E1"}],"id":"LOC1",'
    '"latitude":"51.05421","longitude":"3.72180"}],"price":0.25,"prices":[{"price":0.30,'
    '"start_date_time":"2025-01-01T10:00:00Z"}]}}'
)


def add_sites():
    """Site lines: each member in turn, the order of faults, numbers of elements, and texts that must differ."""
    tree = read_tree(SITE)
    case(SITE_MARK + SITE, "taken")
    members = list(members_of(SITE_LINE, [], tree))
    for record, member, path in members:
        try_member(tree, record, member, path)
    try_first_faults(tree, members)
    locations = ["site", "locations"]
    location, evse = tree["site"]["locations"][0], tree["site"]["locations"][0]["evses"][0]
    connector = evse["connectors"][0]
    connectors = [*locations, 0, "evses", 0, "connectors"]
    evses = [*locations, 0, "evses"]
    try_counts(tree, ["providers"], [f"NL/P{number:02}" for number in range(64)])
    try_counts(tree, connectors, [connector | {"id": f"C{number}"} for number in range(11)])
    for providers in (["NL/TNM", "nl/tnm"], ["be/bec"], ["NL/TNM", "DE/EMP", "NL/TNM"]):
        refused(line_of(replaced(tree, ["providers"], providers)), wrong_form("providers"))
    # The later of two equal texts is refused where it is read, before what follows it.
    same = [connector | {"id": "a"}, connector | {"id": "A", "standard": None}]
    refused(line_of(replaced(tree, connectors, same)), wrong_form("id"))
    refused(line_of(replaced(tree, evses, [evse, evse | {"uid": "e1", "evse_id": None}])), wrong_form("uid"))
    same = [location, location | {"id": "loc1", "address": None}]
    refused(line_of(replaced(tree, locations, same)), wrong_form("id"))
    other, second = location | {"id": "LOC2"}, evse | {"uid": "E2"}
    refused(line_of(replaced(tree, locations, [location, other])), wrong_form("uid"))
    case(line_of(replaced(tree, evses, [evse, second])), "taken")
    case(line_of(replaced(tree, locations, [location, other | {"evses": [second]}])), "taken")
    try_prices(tree)


def price(start, token="0.30"):
    """A price from a moment on."""
    return {"start_date_time": start, "price": Number(token)}


def try_prices(tree):
    """Prices from moments on: each moment is later than the one before, by milliseconds. Entries are read in order."""
    prices = ["site", "prices"]
    first = price("2025-01-01T10:00:00Z")
    many = [price(f"2025-01-01T00:{second // 60:02}:{second % 60:02}Z") for second in range(1001)]
    try_counts(tree, prices, many)
    for later in ("2025-01-01T10:00:00.001Z", "2025-01-01T10:00:01Z", "9999-12-31T23:59:59.999Z"):
        case(line_of(replaced(tree, prices, [first, price(later)])), "taken")
    same, earlier = ["2025-01-01T10:00:00Z", "2025-01-01t10:00:00.0009"], ["2025-01-01T09:59:59.999Z", "1970-01-01T00:00:00Z"]
    for no_later in same + earlier:
        for second in (price(no_later), price(no_later, "10001"), {"start_date_time": no_later}):
            refused(line_of(replaced(tree, prices, [first, second])), wrong_form("start_date_time"))
    # Each is compared with the one before, not with the first.
    second, third = price("2025-01-01T10:00:02Z"), price("2025-01-01T10:00:03Z")
    case(line_of(replaced(tree, prices, [first, second, third])), "taken")
    refused(line_of(replaced(tree, prices, [first, second, second])), wrong_form("start_date_time"))
    # A fault of an entry comes before one of a later entry.
    too_dear = first | {"price": Number("10000.0001")}
    for entry, fault in ((first | {"price": None}, missing("price")), (too_dear, wrong_form("price"))):
        for second in (first, {}, third):
            refused(line_of(replaced(tree, prices, [entry, second])), fault)
    refused(line_of(replaced(tree, prices, [None, {}])), wrong_form("prices"))
    refused(line_of(replaced(tree, prices, [first, {"price": None}])), missing("start_date_time"))
    refused(line_of(replaced(tree, prices, [first, 1])), wrong_form("prices"))


def try_counts(tree, path, items):
    """As many elements as there may be, and one more."""
    case(line_of(replaced(tree, path, items[:-1])), "taken")
    refused(line_of(replaced(tree, path, items)), wrong_form(path[-1]))
    # The number of elements is told before an element.
    refused(line_of(replaced(tree, path, [None, *items[1:]])), wrong_form(path[-1]))


def cases():
    """The lines, and what each must give."""
    add_packets()
    add_spellings()
    add_members()
    add_first_faults()
    add_kinds()
    add_replies()
    add_credits()
    add_members_about()
    add_texts()
    add_lines()
    add_sites()
    CASES.extend(EVENT_CASES)
    CASES.extend(node_event_cases(EXAMPLES))
    CASES.extend(ROW_CASES)
    if any("\n" in line or not line for line, _ in CASES):
        sys.exit("a case is not one line")
    return [line for line, _ in CASES], [wanted for _, wanted in CASES]
