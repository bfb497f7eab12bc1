"""The cases of `packet_cases` that are rows: `CASES` has each line, a kind, a key and a text behind `row ` with tabs between
them, and what it must give: these three as they are written, or why the row is refused. Behind `row_1 ` stand rows of layout
1. Each case says what it must give, and the tables in `row_forms` say it once more. `packet_cases` writes them behind its
own."""

import sys

from packet_forms import BODIES, CDR, Kind, Member, Number, Record, Word, missing, spell, unknown_word, wrong_form
from packet_forms import BAD_NUMBER_TOKEN, SYNTAX, TAGGED_TEXT, UNKNOWN_KIND
from packet_values import GREATEST, LEAST, USUAL, other_kinds, right_values, sample, sample_record, wrong_values
from row_forms import ROW_1_MARK, ROW_MARK, ROWS, ROWS_1, Carried, answer

CASES = []


def line_of(kind, key, tree, mark=ROW_MARK):
    text = tree if isinstance(tree, str) else spell(tree)
    return f"{mark}{kind}\t{key}\t{text}"


def case(kind, key, tree, wanted, mark=ROW_MARK):
    line = line_of(kind, key, tree, mark)
    found = answer(line)
    if found != wanted:
        sys.exit(f"the tables give another answer\nline   {line}\nwanted {wanted}\nfound  {found}")
    CASES.append((line, wanted))


def taken(kind, key, tree, written, mark=ROW_MARK):
    """The row is taken, and its text written so."""
    case(kind, key, tree, line_of(kind, key, written, ""), mark)


def refused(kind, key, tree, fault, mark=ROW_MARK):
    case(kind, key, tree, f"refused {fault}", mark)


def sample_text(kind, carried, size):
    """The tree of a text of that kind that carries a body of that kind, as it is written."""
    record = ROWS[kind][0]
    if not isinstance(record, Carried):
        return sample_record(record, size)
    there = [member for member in record.members if size != LEAST or not member.optional]
    tree = {member.name: sample(member.form, size) for member in there if member.name != "kind"}
    return dict(sorted({**tree, "kind": carried, "body": sample(BODIES[carried], size)}.items()))


PARTIES = ["  /   ", "BE/BEC", "~~/~~~"]
NUMBERS = ["0", "30", "999999999999999999"]
IDS = ["", "A1", "/~`{|}" * 6]
FREE_KEYS = {
    "count": ["serial", "request", "reference"],
    "push": NUMBERS,
    "command": NUMBERS,
    "service": IDS,
    **dict.fromkeys(("reply", "pending", "result"), [f"{p}/{n}" for p, n in zip(PARTIES, NUMBERS)]),
    **dict.fromkeys(("spent", "mark", "reservation"), [f"{p}/{i}" for p, i in zip(PARTIES, IDS)]),
}


def sample_key(kind, tree, size):
    form = ROWS[kind][1]
    return form(tree) if callable(form) else FREE_KEYS[kind][size]


def kinds_carried(kind):
    """The kinds of body that such a row carries, or none alone."""
    return getattr(ROWS[kind][0], "kinds", [None])


def add_rows():
    """Rows are written as they are spelled: the least, a usual and the greatest of each kind and body."""
    for kind in ROWS:
        for carried in kinds_carried(kind):
            for size in (LEAST, USUAL, GREATEST):
                tree = sample_text(kind, carried, size)
                taken(kind, sample_key(kind, tree, size), tree, tree)


def with_credit(tree, **members):
    """A text with these members, in the order of their names."""
    return dict(sorted({**tree, **members}.items()))


NO_TRUTHS = ["x", "true", *map(Number, ("1", "0")), [], {}]


def add_credits():
    """A stored charge detail record says whether it is a credit; of layout 1 a bill need not. A credit names the record that it
    takes back."""
    bill = sample_text("cdr", None, USUAL)
    key = ROWS["cdr"][1](bill)
    without = {name: value for name, value in bill.items() if name != "credit"}
    reference = CDR.TAKEN_BACK.name
    credit = with_credit(bill, credit=True, **{reference: "C1"})
    for absent in (without, with_credit(without, credit=None)):
        for tree in (absent, with_credit(absent, **{reference: "C1"}), with_credit(absent, **{reference: Number("5")})):
            refused("cdr", key, tree, missing("credit"))
            refused("cdr", "no key", tree, missing("credit"))
            taken("cdr", key, tree, bill, ROW_1_MARK)
            refused("cdr", "no key", tree, wrong_form("key"), ROW_1_MARK)
            refused("cdr", key, tree | {"last_updated": None}, missing("last_updated"))
    for mark in (ROW_MARK, ROW_1_MARK):
        for value in (None, "C1", "x" * 40, Number("5"), []):
            taken("cdr", key, with_credit(bill, **{reference: value}), bill, mark)
        taken("cdr", key, bill, bill, mark)
        taken("cdr", key, credit, credit, mark)
        try_credit(key, credit, mark)


def try_credit(key, credit, mark):
    """What is wrong with a credit, behind the faults of the other members and before that of the key."""
    reference = CDR.TAKEN_BACK.name
    for tree in (with_credit(credit, **{reference: None}), {name: credit[name] for name in credit if name != reference}):
        refused("cdr", key, tree, missing(reference), mark)
        refused("cdr", "no key", tree, missing(reference), mark)
    for value in (*other_kinds(CDR.TAKEN_BACK.form), *wrong_values(CDR.TAKEN_BACK.form)[0]):
        refused("cdr", key, with_credit(credit, **{reference: value}), wrong_form(reference), mark)
    for value in NO_TRUTHS:
        for tree in (credit, with_credit(credit, **{reference: None})):
            refused("cdr", "no key", with_credit(tree, credit=value), wrong_form("credit"), mark)
    for member in CDR.members:
        wrong = {member.name: other_kinds(member.form)[0]}
        refused("cdr", key, with_credit(credit, credit="x", **wrong), wrong_form(member.name), mark)
        refused("cdr", key, with_credit(credit, **{reference: None}, **wrong), wrong_form(member.name), mark)
    refused("cdr", "no key", credit, wrong_form("key"), mark)


def add_layout_1():
    """Rows of other kinds than charge detail records are alike in both layouts; and what is no row of either."""
    for kind in ROWS_1:
        tree = sample_text(kind, kinds_carried(kind)[0], USUAL)
        key = sample_key(kind, tree, USUAL)
        taken(kind, key, tree, tree, ROW_1_MARK)
        for text, fault in (("5", wrong_form("line")), ("{", SYNTAX), ('{"last":01}', BAD_NUMBER_TOKEN), (r'{"\u0001":1}', TAGGED_TEXT)):
            refused(kind, key, text, fault, ROW_1_MARK)
        first = ROWS_1[kind][0].members[:1]
        for member in (it for it in first if not it.optional):
            refused(kind, key, tree | {member.name: None}, missing(member.name), ROW_1_MARK)
        if kind != "service":
            refused(kind, "no key/", tree, wrong_form("key"), ROW_1_MARK)
    # A push carries a record as it is sent.
    for credit in ({}, {"credit": True, CDR.TAKEN_BACK.name: "C1"}):
        tree = sample_text("push", "post_cdr", USUAL)
        tree["body"] = with_credit(tree["body"], **credit)
        for mark in (ROW_MARK, ROW_1_MARK):
            taken("push", "7", tree, tree, mark)
            taken("push", "7", {**tree, "body": {"credit": None, **tree["body"]}}, tree, mark)
    for word in ("", "Count", "rows", "put_token"):
        refused(word, "serial", '{"last":1}', UNKNOWN_KIND, ROW_1_MARK)
        refused(word, "", "no text", UNKNOWN_KIND, ROW_1_MARK)


def members_of(kind):
    """The members in the order in which their faults are told, the body behind its kind."""
    for member in ROWS[kind][0].members:
        yield member
        if isinstance(member.form, Kind):
            yield Member("body", BODIES[kinds_carried(kind)[0]])


def add_members():
    """Each member of each text: absent, null, of other kinds, wrong and right."""
    for kind in ROWS:
        tree = sample_text(kind, kinds_carried(kind)[0], USUAL)
        key = sample_key(kind, tree, USUAL)
        # The members of tokens, sessions and charge detail records are tried as those of packets.
        if callable(ROWS[kind][1]):
            continue
        for member in members_of(kind):
            try_member(kind, key, tree, member)
        extra = {"more": [Number("1e400"), {"kind": None}], "": True}
        taken(kind, key, {**extra, **tree}, tree)
        taken(kind, key, dict(reversed(tree.items())), tree)


def try_member(kind, key, tree, member):
    without = {name: value for name, value in tree.items() if name != member.name}
    for absent in (without, tree | {member.name: None}):
        if member.optional:
            taken(kind, key, absent, without)
        else:
            refused(kind, key, absent, missing(member.name))
    for value in other_kinds(member.form):
        refused(kind, key, tree | {member.name: value}, wrong_form(member.name))
    if isinstance(member.form, Record):
        return
    fault = wrong_form(member.name)
    if isinstance(member.form, Word):
        fault = unknown_word(member.name)
    if isinstance(member.form, Kind):
        fault = UNKNOWN_KIND
        words = ["", "ACK", "ack ", "authorize", *BODIES]
        values = [word for word in words if word not in kinds_carried(kind)]
    else:
        values = [value for some in wrong_values(member.form) for value in some]
    for value in values:
        refused(kind, key, tree | {member.name: value}, fault)
    if not isinstance(member.form, Kind):
        for value, written in (both for some in right_values(member.form) for both in some):
            taken(kind, key, tree | {member.name: value}, tree | {member.name: written})


def add_first_faults():
    """Where a member and all behind it are wrong, its fault is told, and the key's is told last."""
    for kind in ROWS:
        tree = sample_text(kind, kinds_carried(kind)[0], USUAL)
        members = list(members_of(kind))
        for number, member in enumerate(members):
            spoiled = tree | {later.name: other_kinds(later.form)[0] for later in members[number:]}
            refused(kind, "no key", spoiled, wrong_form(member.name))
            if not member.optional:
                refused(kind, "no key", {n: v for n, v in spoiled.items() if n != member.name}, missing(member.name))
        refused(kind, "no key/", tree, wrong_form("key")) if kind != "service" else None


def add_kinds():
    """The kind of a row is tried before its text, and the kind of a body before the body."""
    for word in ("", "Count", "COUNT", "counts", "rows", "replies", "put_token", "count "):
        refused(word, "serial", '{"last":1}', UNKNOWN_KIND)
        refused(word, "", "no text", UNKNOWN_KIND)
    for kind in ("reply", "push", "pending", "command"):
        tree = sample_text(kind, kinds_carried(kind)[0], USUAL)
        key = sample_key(kind, tree, USUAL)
        for body in (Number("5"), None, {}, "x"):
            refused(kind, key, tree | {"body": body, "kind": "authorize"}, UNKNOWN_KIND)
            refused(kind, key, tree | {"body": body, "kind": Number("5")}, wrong_form("kind"))


WRONG_NUMBERS = ["", "00", "01", "030", "+1", "-1", "1.0", "1e3", " 1", "1 ", "1000000000000000000", "18446744073709551617", "A"]
WRONG_PARTIES = ["be/BEC", "BE/BeC", "BE/BECX", "BE-BEC", "BEC", "B/BEC", "BE/B\u00e9C", "\u00e9/BEC"]
WRONG_IDS = ["a1", "A1z", "A" * 37, "\u00c9", "A\x7f", "A\x01"]
WRONG_KEYS = {
    "count": ["", "Serial", "SERIAL", "serial ", "serials", "push", "cdrs", "0"],
    "push": WRONG_NUMBERS + ["BE/BEC/1"],
    "command": WRONG_NUMBERS,
    "service": WRONG_IDS,
}
for _kind in ("reply", "pending", "result"):
    WRONG_KEYS[_kind] = [f"BE/BEC/{number}" for number in WRONG_NUMBERS] + [f"{party}/1" for party in WRONG_PARTIES]
    WRONG_KEYS[_kind] += ["", "1", "BE/BEC", "BE/BEC1", "BE/BEC//1", "BE/BEC/1/", "/BE/BEC/1", "BE/BEC\u00e91"]
for _kind in ("spent", "mark", "reservation"):
    WRONG_KEYS[_kind] = [f"BE/BEC/{id}" for id in WRONG_IDS] + [f"{party}/A1" for party in WRONG_PARTIES]
    WRONG_KEYS[_kind] += ["", "A1", "BE/BEC", "BE/BECA1", "BE/BEC-A1"]


def add_keys():
    """Keys that are of no form, and keys of other rows than the text's."""
    for kind, keys in WRONG_KEYS.items():
        tree = sample_text(kind, kinds_carried(kind)[0], USUAL)
        for key in keys:
            refused(kind, key, tree, wrong_form("key"))
    for name in ("serial", "request", "session", "cdr", "reference"):
        taken("count", name, '{"last":5}', '{"last":5}')
    for key in ("BE/BEC/A/B", "BE/BEC//", "A//B/C/", "///////"):
        taken("spent", key, "{}", "{}")
    add_own_keys()


def add_own_keys():
    """The keys of tokens, sessions and charge detail records are those of their texts."""
    for kind in ("token", "session", "cdr"):
        tree = sample_text(kind, None, USUAL) | {"country_code": "Be", "party_id": "bEc"}
        own = ROWS[kind][1](tree)
        taken(kind, own, tree, tree)
        for key in ("", own.lower(), own[1:], own[:-1], own + "X", own + "/", "NL" + own[2:], own[:6], own[:7], own.replace("/", "-")):
            refused(kind, key, tree, wrong_form("key"))
        for name, value in (("country_code", "NL"), ("party_id", "TNM"), ("uid" if kind == "token" else "id", "A2")):
            refused(kind, own, tree | {name: value}, wrong_form("key"))
    token = sample_text("token", None, USUAL) | {"uid": "a/1", "type": "RFID"}
    taken("token", "BE/BEC/RFID/A/1" if token["country_code"] == "BE" else ROWS["token"][1](token), token, token)
    refused("token", ROWS["token"][1](token), token | {"type": "OTHER"}, wrong_form("key"))


def add_texts():
    """Texts that are no object, no JSON, or hold a number or a text that is none."""
    for kind in ROWS:
        for text in ("5", "[]", "null", '"text"', "[{}]"):
            refused(kind, "no key", text, wrong_form("line"))
    for text in ("", " ", "{", "}", "{}{}", "{1:2}", "{'last':1}", '{"last":1,}'):
        refused("count", "serial", text, SYNTAX)
    for text in ('{"last":01}', '{"last":-}', '{"last":1.}'):
        refused("count", "serial", text, BAD_NUMBER_TOKEN)
    refused("result", "BE/BEC/1", r'{"result":"\u0001"}', TAGGED_TEXT)
    taken("count", "serial", ' { "last" : 7 , "last" : 8 } \r', '{"last":8}')
    taken("service", "E1", '{"more":{"deep":[]}}', "{}")


add_rows()
add_credits()
add_layout_1()
add_members()
add_first_faults()
add_kinds()
add_keys()
add_texts()
