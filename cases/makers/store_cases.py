"""The part `stores` of the cases of the program `case_lines`: stores on disks that stop at any call, nodes over them, stores of
which no node is made, and stores of version 1, which are moved to version 2.

A stop before a store is opened leaves it as it was, or as a new one where there was none. So does one while a store of version 1
is opened: it leaves version 1 with its texts, or version 2 with those in their place. One while a commit is made leaves what was
before or what is then; one behind that leaves what is then. All that holds however the stop tears what was not synced.
"""
import datetime
import json
import pathlib
import re
import sys
from decimal import Decimal

from kept_cases import delivery, events_of
from operator_case import moment, text
from stored_case import (
    SITE,
    Operators,
    Providers,
    acknowledged,
    bill,
    command,
    count,
    credit,
    held_bill,
    held_credit,
    held_session,
    mark,
    open_start,
    open_unlock,
    out_of_service,
    own_reference,
    puts,
    reply,
    reserved,
    result_push,
    session,
    session_push,
    settled,
    spent,
    stop_command,
    token_push,
    token_row,
)
from stored_charge import SETUP, rows_of_charge
from stored_rules import Site

CRATES = pathlib.Path(__file__).resolve().parents[2] / "crates"
STRANGER = "AT/XXX"
# The setup of `Operators` and of `Providers`.
BOTH = text({"nodes": [{"party": "BE/BEC", "site": SITE["site"]}, {"party": "NL/TNM"}, {"party": "DE/EMP"}, {"party": "Lu/Lum"},
                       {"party": "FR/FRC", "site": {**SITE["site"], "locations": SITE["site"]["locations"][1:]}}]})
LINES, WANTED = [], []


def line(given, *gives):
    """The next line, and what it gives; an empty line ends that, also where it is nothing."""
    LINES.append(given)
    WANTED.extend([*gives, ""])


def stops(changes):
    """What stops leave while a store is opened, while something is done, and while it is closed."""
    if not changes:
        return ["a stop while it opens leaves before", "a stop while it closes leaves before"]
    return ["a stop while it opens leaves before", "a stop while it works leaves before after", "a stop while it closes leaves after"]


def new_store(setup):
    line("setup " + setup)
    line("new", "a stop while it opens leaves before after", "a stop while it closes leaves after")


def opened(setup):
    """A store without rows, where the stops do not matter."""
    line("setup " + setup)
    line("texts")


def tabbed(row):
    return "\t".join([row[0], row[1], text(row[2])])


def kept(rows):
    """The texts of a store, in the order of their kinds and keys."""
    return ["%s %s %s" % (kind, key, text(tree)) for kind, key, tree in sorted(rows, key=lambda row: row[:2])]


# ---- stops


def commit(stand, put, dropped=()):
    """Rows are put and dropped in one commit. Answers the rows that stand then."""
    for row in put:
        line("put " + tabbed(row))
    for row in dropped:
        line("drop " + tabbed(row))
    line("commit", *stops(True))
    gone = [row[:2] for row in [*put, *dropped]]
    stand = [row for row in stand if row[:2] not in gone] + list(put)
    line("texts", *kept(stand))
    return stand


def commits():
    new_store(BOTH)
    line("texts")
    started = [count("serial", 7), count("session", 1), reply(1), out_of_service("E2"), session(1)]
    rows = commit([], started)
    ended = [count("serial", 9), count("cdr", 1), token_row(), session(1, "COMPLETED", "12.3456", "3.0864"), bill(1), settled(1)]
    rows = commit(rows, ended, [out_of_service("E2")])
    # So many that they are on several pages; then most of them are dropped.
    many = [reply(number, party) for party in ("NL/TNM", "DE/EMP") for number in range(2, 42)]
    rows = commit(rows, many)
    commit(rows, [count("serial", 99)], many[:70])


def charge(party):
    """Each event of the charge, at its node over a store."""
    new_store(SETUP)
    for given, gives, rows in events_of(party):
        line(given, *gives, *rows, *stops("changed" in gives))


def charge_in_lines(party, size):
    """The events of the charge, so many in a line: each line is one transaction. Among them stand events that are malformed or
    refused, which end nothing."""
    new_store(SETUP)
    events = events_of(party)
    odd = text({"event": "tick", "node": party})
    packet = {"body": {"status_code": 1000, "timestamp": moment("10:00:00")}, "from": STRANGER, "kind": "ack", "request": 1,
              "serial": 1, "to": party}
    strange = delivery(party, moment("10:00:00"), text(packet))
    for at in range(0, len(events), size):
        group = events[at:at + size]
        given = [odd, *(it for it, _, _ in group[:1]), strange, *(it for it, _, _ in group[1:])]
        gives = ["refused 4 Missing(at)", *group[0][1], "refused 1 NotForMe", *(it for _, told, _ in group[1:] for it in told)]
        line("[%s]" % ",".join(given), *gives, *group[-1][2], *stops("changed" in gives))


# ---- stores of which no node is made


def store(setup, rows):
    """A store with these rows."""
    opened(setup)
    for row in rows:
        line("text " + tabbed(row))


def found_bad(party, shows):
    """No node of that party is made: one of these rows shows it, for that reason."""
    told = ["%s %s %s" % (kind, key, reason) for kind, key, reason in shows]
    line("\t".join(["reopen " + party, *told]), "bad rows, as told")


def millis(told):
    """The milliseconds from 1970 to a moment."""
    return int(datetime.datetime.fromisoformat(told.replace("Z", "+00:00")).timestamp() * 1000)


def with_numbers(reason, row):
    """The reason as it is told of that row: another price with the row's start, its energy and cost, and the site's price then."""
    if reason != "OtherPrice":
        return reason
    price = Site(SITE).price(row[2]["start_date_time"])
    numbers = {"kwh": row[2]["kwh"], "cost": row[2]["total_cost"]["excl_vat"], "price": str(price)}
    told = ["start_date_time: Moment { millis: %d }" % millis(row[2]["start_date_time"])]
    told += ["%s: E4 { units: %d }" % (name, Decimal(number) * 10**4) for name, number in numbers.items()]
    return "OtherPrice { %s }" % ", ".join(told)


def bad(node, reason, *rows, shows=None):
    """No node is made of these rows: the last one shows it, or one of those of which the places are told."""
    bad_for(node, {place: reason for place in shows or [-1]}, *rows)


def bad_for(node, reasons, *rows):
    """No node is made of these rows: one of these places shows it, each for its reason."""
    party = "BE/BEC" if node is Operators else "NL/TNM"
    names = {REASONS[fault] for fault in node().faults(rows)}
    if names != set(reasons.values()):
        sys.exit(f"other faults than {reasons}: {names}")
    TOLD.update(names)
    store(BOTH, rows)
    found_bad(party, [(*rows[place][:2], with_numbers(reason, rows[place])) for place, reason in reasons.items()])
    line("texts", *kept(rows))


# What is wrong with a row, by the faults of `stored_rules`.
REASONS = {
    "Repeated": "Repeated", "Foreign": "OfOtherRole", "NothingCounted": "NothingCounted", "PushNotGiven": "NotGiven",
    "SessionNotGiven": "NotGiven", "CdrNotGiven": "NotGiven", "CommandNotGiven": "NotGiven", "ReferenceNotGiven": "NotGiven",
    "NumberShared": "NumberShared", "SessionOfOther": "OfOtherParty", "CdrOfOther": "OfOtherParty", "OtherToken": "OfOtherParty",
    "OtherSession": "OfOtherParty", "OtherCdr": "OfOtherParty", "SessionIdNotOwn": "NotOwnId", "CdrIdNotOwn": "NotOwnId",
    "ReferenceNotOwn": "NotOwnReference", "PushToStranger": "UnknownParty", "TokenOfStranger": "UnknownParty",
    "CommandOfStranger": "UnknownParty", "SessionOfStranger": "UnknownParty", "CommandToStranger": "UnknownParty",
    "StartOfOtherToken": "TokenOfOtherParty", "ServiceNowhere": "UnknownEvse", "ReservationNowhere": "UnknownEvse",
    "StartNowhere": "UnknownEvse", "SessionNowhere": "UnknownEvse", "StartAtNoConnector": "UnknownConnector",
    "SessionAtNoConnector": "UnknownConnector", "ReservationElsewhere": "OtherLocation", "StartWithoutEvse": "WithoutPlace",
    "StartWithoutConnector": "WithoutPlace", "ClaimedTwice": "ClaimedTwice", "OpenUnanswered": "Unanswered",
    "ResultUnanswered": "Unanswered", "OpenWithResult": "OpenWithResult", "PushedTwice": "PushedTwice",
    "OfReservation": "ReservationStatus", "CostMissing": "WithoutCost", "OtherPrice": "OtherPrice",
    "ChargedEarly": "EnergyWhilePending", "OtherMoney": "OtherCurrency", "BilledTwice": "BilledTwice",
    "CreditedTwice": "CreditedTwice", "BilledEarly": "BilledEarly", "Unbilled": "Unbilled", "CreditWithoutBill": "CreditWithoutBill",
}
# Those of which a store was told.
TOLD = set()


def bad_operators():
    sessions, cdrs, requests = count("session", 9), count("cdr", 9), count("request", 9)
    done = session(1, "COMPLETED")
    bad(Operators, "OfOtherRole", reply(1), count("reference", 1))
    bad(Operators, "OfOtherRole", reply(1), command(0))
    bad(Operators, "NothingCounted", count("serial", 0))
    bad(Operators, "NotGiven", count("request", 6), result_push(7))
    bad(Operators, "NotGiven", count("session", 6), session(7, "PENDING"))
    bad(Operators, "NotGiven", sessions, done, bill(1))
    bad(Operators, "OfOtherParty", sessions, session(1, party="FR/FRC"))
    bad(Operators, "OfOtherParty", sessions, cdrs, done, bill(1, party="FR/FRC"), shows=[-1])
    bad(Operators, "NotOwnId", sessions, session(1, name="S1"))
    bad(Operators, "UnknownParty", token_row(), token_row(party=STRANGER))
    bad(Operators, "UnknownParty", requests, result_push(1, to=STRANGER))
    bad(Operators, "UnknownParty", reply(1, STRANGER), open_unlock(1, STRANGER))
    bad(Operators, "UnknownParty", sessions, session(1, owner=STRANGER))
    bad(Operators, "TokenOfOtherParty", reply(1), open_start(1, owner="DE/EMP"))
    bad(Operators, "UnknownEvse", out_of_service("E2"), out_of_service("E4"))
    bad(Operators, "UnknownEvse", reserved("R1", "E4", "LOC1"))
    bad(Operators, "OtherLocation", reserved("R1", "E3", "LOC1"))
    bad(Operators, "UnknownEvse", reply(1), open_start(1, "E4"))
    bad(Operators, "UnknownConnector", reply(1), open_start(1, "E1", connector="2"))
    bad(Operators, "WithoutPlace", reply(1), open_start(1, None))
    bad(Operators, "WithoutPlace", reply(1), open_start(1, "E1", connector=None))
    bad(Operators, "UnknownEvse", sessions, session(1, evse="E4"))
    bad(Operators, "UnknownConnector", sessions, session(1, connector="2"))
    bad(Operators, "ClaimedTwice", reserved("R1", "E1"), reserved("R2", "E1"), shows=[0, 1])
    bad(Operators, "ClaimedTwice", sessions, reply(1), session(1), open_start(1, "E1"), shows=[2, 3])
    bad(Operators, "Unanswered", reply(2), open_start(1))
    bad(Operators, "Unanswered", reply(2), settled(1))
    bad(Operators, "OpenWithResult", reply(1), open_unlock(1), settled(1), shows=[1, 2])
    bad(Operators, "PushedTwice", requests, sessions, session_push(1, done), session_push(2, done), shows=[2, 3])
    bad(Operators, "OtherPrice", sessions, session(1, kwh="12.3456", cost="3.0865"))
    bad(Operators, "OtherPrice", sessions, cdrs, session(1, "COMPLETED", "12.3456", "3.7036"), bill(1), shows=[2])
    bad(Operators, "WithoutCost", sessions, session(1, cost=None))
    bad(Operators, "EnergyWhilePending", sessions, session(1, "PENDING", "0.0004", "0.0001"))
    bad(Operators, "OtherCurrency", sessions, session(1, currency="SEK"))
    bad(Operators, "ReservationStatus", sessions, session(1, "RESERVATION"))
    bad(Operators, "BilledTwice", sessions, cdrs, done, bill(1), bill(2, 1), shows=[3, 4])
    bad(Operators, "BilledEarly", sessions, cdrs, session(1, "ACTIVE"), bill(1))
    bad(Operators, "Unbilled", sessions, cdrs, done)
    twice = [sessions, count("cdr", 20), done, session(2, "COMPLETED"), bill(1), bill(2, 2)]
    bad(Operators, "CreditWithoutBill", *twice, credit(2, 1))
    bad(Operators, "CreditWithoutBill", *twice, credit(3, 1))
    bad(Operators, "CreditWithoutBill", *twice, credit(2, 2, taken_back=bill(1)[2]["id"]))
    bad(Operators, "BilledTwice", *twice, bill(3, 1), credit(1), shows=[4, 6])
    both = {4: "BilledTwice", 6: "BilledTwice", 7: "CreditedTwice", 8: "CreditedTwice"}
    bad_for(Operators, both, *twice, bill(3, 1), credit(1), credit(3, 1))
    bad(Operators, "BilledEarly", sessions, cdrs, session(1, "ACTIVE"), bill(1), credit(1), shows=[3, 4])
    bad(Operators, "NotGiven", sessions, done, bill(1), credit(1), shows=[2, 3])
    bad(Operators, "NotOwnId", sessions, cdrs, done, bill(1, name="C1"), credit(1, name="C1-C", taken_back="C1"), shows=[3, 4])


def bad_providers():
    requests, references = count("request", 9), count("reference", 9)
    for row in (out_of_service("E1"), spent(1), mark(), reserved(), settled(1, "BE/BEC"), count("session", 1)):
        bad(Providers, "OfOtherRole", token_row(), row)
    bad(Providers, "NothingCounted", count("reference", 0))
    bad(Providers, "NotGiven", count("request", 2), token_push(3))
    bad(Providers, "NotGiven", count("request", 2), stop_command(3))
    bad(Providers, "NotGiven", requests, command(3, own_reference(1)))
    bad(Providers, "NumberShared", requests, token_push(3), stop_command(3), shows=[1, 2])
    bad(Providers, "OfOtherParty", token_row("AA02"), token_row(party="DE/EMP"))
    bad(Providers, "OfOtherParty", held_session("S2"), held_session(owner="DE/EMP"))
    bad(Providers, "OfOtherParty", held_bill("C2", "S2"), held_bill(owner="DE/EMP"))
    bad(Providers, "NotOwnReference", requests, references, command(3, own_reference(1, "DE/EMP")))
    bad(Providers, "UnknownParty", requests, token_push(1, to=STRANGER))
    bad(Providers, "UnknownParty", requests, stop_command(1, STRANGER))
    bad(Providers, "PushedTwice", requests, token_push(1), token_push(2), shows=[1, 2])
    bad(Providers, "BilledTwice", held_bill(), held_bill("C2", "S1"), shows=[0, 1])
    bad(Providers, "CreditedTwice", held_bill(), held_credit(), held_credit("C2-C", "s1"), shows=[1, 2])
    bad(Providers, "OfOtherParty", held_credit(owner="DE/EMP"))


def each_reason_is_told():
    """Each reason but `Repeated`, since a store has one row of a kind and a key."""
    source = (CRATES / "stored_rows" / "src" / "fault.rt").read_text(encoding="utf-8")
    body = source.split("pub enum BadReason {", 1)[1].split("\n}", 1)[0]
    missing = set(re.findall(r"^    ([A-Z]\w*)(?:,| \{)$", body, re.MULTILINE)) - TOLD - {"Repeated"}
    if missing:
        sys.exit(f"no store is bad for {missing}")


# What may be wrong with rows at a node that did not store them: at an operator a record stands beside no session that is complete,
# and a complete session has no record of the operator's own.
WRONG_ELSEWHERE = {
    "cdr": ["OfOtherParty", "NotOwnId", "NotGiven", "BilledEarly"], "session": ["OfOtherParty", "NotOwnId", "NotGiven", "Unbilled"],
    "command": ["OfOtherRole", "NotOwnReference"], "spent": ["OfOtherRole"], "result": ["OfOtherRole"], "token": ["OfOtherParty"],
}
# Counters of one role.
COUNTERS = ("session", "cdr", "reference")


def wrong_elsewhere(rows):
    counters = [(kind, key, "OfOtherRole") for kind, key, _ in rows if kind == "count" and key in COUNTERS]
    return counters + [(kind, key, reason) for kind, key, _ in rows for reason in WRONG_ELSEWHERE.get(kind, [])]


def of_other_parties():
    """The stores of a charge, as they are opened under each party of a setup."""
    for party in ("BE/BEC", "NL/TNM"):
        rows = rows_of_charge(party).behind[22]
        store(BOTH, rows)
        line("reopen " + party, "reopened %d" % len(rows), *puts(rows))
        for other in sorted({"BE/BEC", "FR/FRC", "NL/TNM", "DE/EMP"} - {party}):
            found_bad(other, wrong_elsewhere(rows))
        line("texts", *kept(rows))


# Texts that are no rows of their kind and key, in either layout.
NO_ROWS = [
    ("session", "BE/BEC/S1", "{"), ("count", "serial", "7"), ("count", "serial", '{"last":01}'), ("count", "serials", '{"last":7}'),
    ("counter", "serial", '{"last":7}'), ("mark", "NL/TNM/R1", "{}"), ("mark", "nl/tnm/R1", '{"number":1}'),
    ("push", "01", '{"body":{},"kind":"ack","to":"NL/TNM"}'), ("service", "E1", ""), ("spent", "NL/TNM", "{}"), ("", "", "{}"),
]


def no_rows():
    """Texts that are no rows, each beside one that is. What is kept stays."""
    good = count("serial", 7)
    unsaid = ("cdr", "BE/BEC/C1", old_text(held_bill()))
    for kind, key, words in [*NO_ROWS, unsaid]:
        opened(BOTH)
        line("text " + tabbed(good))
        line("\t".join(["text " + kind, key, words]))
        for party in ("BE/BEC", "NL/TNM"):
            line("reopen " + party, "store 2 BadRow")
        beside = sorted([("count", "serial", text(good[2])), (kind, key, words)])
        line("texts", *["%s %s %s" % it for it in beside if it[:2] != (kind, key) or it[2] == words])
    # Spaces, and members in another order, make no difference.
    opened(BOTH)
    line('text count\tserial\t { "more" : [ ] , "last" : 7 } ')
    line("reopen NL/TNM", "reopened 1", *puts([good]))


def other_layouts():
    """Stores of other versions are refused, and stay as they are."""
    rows = [count("serial", 7), token_row()]
    store(BOTH, rows)
    line("layout", "version 2")
    for version in (7, 0, 3):
        line("version %d" % version)
        for word in ("reopen", "open"):
            line(word + " NL/TNM", "store 3 OldLayout")
        line("layout", "version %d" % version)
        line("texts", *kept(rows))
    for version in (2, 1):
        line("version %d" % version)
        line("reopen NL/TNM", "reopened 2", *puts(rows))
        line("layout", "version %d" % version)


# ---- stores of version 1


def old_text(row):
    """The text of a row as it is written in layout 1, in which that of a charge detail record is that of a packet."""
    kind, _, tree = row
    is_bill = kind == "cdr" and not tree["credit"]
    return text({name: value for name, value in tree.items() if name != "credit"} if is_bill else tree)


def turned(row):
    """The same with its members in the other order, with spaces, and with others that are read past."""
    members = json.loads(old_text(row), parse_float=Decimal)
    told = ['"%s" : %s' % (name, text(members[name])) for name in sorted(members, reverse=True)]
    return " { %s } " % " , ".join(['"more" : [ ]', *told])


def with_members(row, members):
    """The same with members in front, as they are spelled."""
    return "{" + members + "," + old_text(row)[1:]


def old_store(setup, rows, texts):
    """A store of version 1 with these rows, of which each has that text."""
    opened(setup)
    for row, words in zip(rows, texts):
        line("\t".join(["text " + row[0], row[1], words]))
    line("version 1")
    holds_old(rows, texts)


def holds_old(rows, texts):
    line("layout", "version 1")
    line("texts", *("%s %s %s" % it for it in sorted((row[0], row[1], words) for row, words in zip(rows, texts))))


def holds_new(rows, texts):
    """Records have the texts of today, and the others those that they had."""
    line("layout", "version 2")
    words = [text(row[2]) if row[0] == "cdr" else words for row, words in zip(rows, texts)]
    line("texts", *("%s %s %s" % it for it in sorted((row[0], row[1], words) for row, words in zip(rows, words))))


MOVED = ["opened", "a stop while it opens leaves before after", "a stop while it closes leaves after"]


def moves(party, setup, rows, texts):
    """A store of version 1 is moved where it is opened, and then is one of today."""
    old_store(setup, rows, texts)
    line("reopen " + party, "reopened %d" % len(rows), *puts(rows))
    holds_old(rows, texts)
    line("open " + party, *MOVED)
    holds_new(rows, texts)
    line("reopen " + party, "reopened %d" % len(rows), *puts(rows))
    line("open " + party, "opened", *stops(False))
    holds_new(rows, texts)


def credited(row):
    """The credit of a bill."""
    kind, key, bill = row
    cost = {"excl_vat": -bill["total_cost"]["excl_vat"]}
    taken_back = {"credit": True, "credit_reference_id": bill["id"], "id": bill["id"] + "-C"}
    return kind, key + "-C", {**bill, **taken_back, "last_updated": moment("11:00:00"), "total_cost": cost}


def moved_charges():
    """The stores of a charge with the credit of its bill, and without."""
    for party in ("BE/BEC", "NL/TNM"):
        rows = rows_of_charge(party).behind[22]
        moves(party, SETUP, rows, list(map(old_text, rows)))
        rows = [*rows, *(credited(row) for row in rows if row[0] == "cdr")]
        moves(party, BOTH, rows, list(map(turned, rows)))


def moved_records():
    """Records in each spelling, and so many that they are on several pages."""
    moves("NL/TNM", BOTH, [], [])
    bills = [held_bill("C%d" % number, "S%d" % number) for number in range(1, 6)]
    credits = [held_credit("C%d-C" % number, "S%d" % number, "C%d" % number) for number in range(3, 9)]
    first = [
        with_members(bills[0], '"credit":null'), with_members(bills[1], '"credit":false,"credit_reference_id":5'),
        with_members(bills[2], '"credit_reference_id":"C1"'), with_members(bills[3], '"credit":true,"credit":null'), turned(bills[4]),
    ]
    beside = [count("serial", 7), token_row(), held_session()]
    moves("NL/TNM", BOTH, [*beside, *bills, *credits], [*map(turned, beside), *first, *map(old_text, credits)])
    many = [make(number) for number in range(10, 34) for make in (
        lambda number: held_bill("C%d" % number, "S%d" % number),
        lambda number: held_credit("C%d-C" % number, "S%d" % number, "C%d" % number),
    )]
    moves("NL/TNM", BOTH, many, list(map(old_text, many)))


def moved_by_an_event():
    """An event at a node over a store of version 1: the store is moved, and the credit of its bill is taken."""
    rows = rows_of_charge("NL/TNM").behind[22]
    old_store(SETUP, rows, list(map(old_text, rows)))
    (back,) = [credited(row) for row in rows if row[0] == "cdr"]
    (sent,) = [tree["last"] for kind, key, tree in rows if (kind, key) == ("count", "serial")]
    packet = {"body": back[2], "from": "BE/BEC", "kind": "post_cdr", "request": 9, "serial": 99, "to": "NL/TNM"}
    answer = {"status_code": 1000, "timestamp": moment("11:00:01")}
    ack = {"body": answer, "from": "NL/TNM", "kind": "ack", "request": 9, "serial": sent + 1, "to": "BE/BEC"}
    stand = [row for row in rows if row[:2] != ("count", "serial")]
    stand += [count("serial", sent + 1), back, ("reply", "BE/BEC/9", {"body": answer, "kind": "ack"})]
    given = delivery("NL/TNM", moment("11:00:01"), text(packet))
    line(given, text(ack), "changed", *puts(stand), *stops(True))
    line("layout", "version 2")
    line("texts", *kept(stand))


def not_moved():
    """Texts of which one is no row of layout 1: the store stays, with its version."""
    beside = [count("request", 7), held_bill("C1"), held_session()]
    record = ("cdr", "BE/BEC/C9", old_text(held_bill("C9", "S9")))
    wrong = [
        *NO_ROWS, ("cdr", "BE/BEC/C9", "{"), ("cdr", "BE/BEC/C8", record[2]), ("cdr", "be/bec/C9", record[2]),
        *(("cdr", "BE/BEC/C9", with_members(held_bill("C9", "S9"), members)) for members in (
            '"credit":"x"', '"credit":1', '"credit":true', '"credit":true,"credit_reference_id":null', '"credit":true,"credit_reference_id":5',
        )),
        ("cdr", "BE/BEC/C9", old_text(held_bill("C9", "S9")).replace('"last_updated"', '"updated"')),
        ("push", "3", '{"body":%s,"kind":"post_cdr","to":"BE/BEC"}' % with_members(held_bill("C9", "S9"), '"credit":true')),
    ]
    for kind, key, words in wrong:
        rows = [row for row in beside if row[:2] != (kind, key)]
        rows, texts = [*rows, (kind, key, None)], [*map(old_text, rows), words]
        old_store(BOTH, rows, texts)
        for word in ("reopen NL/TNM", "open NL/TNM", "open BE/BEC"):
            line(word, "store 2 BadRow")
        holds_old(rows, texts)


# The cases in which each allocation fails once: faults/fail_allocations.sh.


def small_old_store(*texts):
    """A store of version 1, told in few lines: each text behind its kind and its key."""
    line("setup " + SETUP)
    line("text " + "\t".join(part for it in texts for part in it))
    line("version 1")


def moved_without_memory():
    rows = [held_bill(), held_credit()]
    small_old_store(*((row[0], row[1], old_text(row)) for row in rows))
    line("reopen NL/TNM", "reopened %d" % len(rows), *puts(rows))


def not_moved_without_memory():
    small_old_store((*held_bill()[:2], old_text(held_bill())), ("cdr", "BE/BEC/C2", "{"))
    line("reopen NL/TNM", "store 2 BadRow")


WITHOUT_MEMORY = [
    ("a store of version 1 is moved, and a provider is made of it", moved_without_memory),
    ("a store of version 1 has a text that is no row", not_moved_without_memory),
]


def cases_without_memory():
    """The cases in which each allocation fails once: of each its name, the lines, and what they must give."""
    return [(name, *recorded(told)) for name, told in WITHOUT_MEMORY]


def recorded(told):
    """What is told in words: the lines, and what they give, which are not kept."""
    lines, wanted = len(LINES), len(WANTED)
    told()
    found = LINES[lines:], WANTED[wanted:]
    del LINES[lines:], WANTED[wanted:]
    return found


def no_lines():
    """What is no line, and no node."""
    line("new", "no setup")
    line("setup {}", "refused 4 Missing(nodes)")
    line("setup " + SETUP)
    line("reopen FR/FRC", "no such node")
    line("reopen", "no such line")
    line("open FR/FRC", "no such node")
    line("[]", "no such node")
    line("[7", "refused 1 Syntax")
    line('{"event":"restart","node":"FR/FRC"}', "no such node")
    line("put result\tNL/TNM/1\t{}", "refused 4 Missing(result)")


def cases():
    """The lines, and what they must give."""
    LINES.clear()
    WANTED.clear()
    no_lines()
    commits()
    for party in ("BE/BEC", "NL/TNM"):
        charge(party)
        for size in (2, 7, 100):
            charge_in_lines(party, size)
    bad_operators()
    bad_providers()
    each_reason_is_told()
    of_other_parties()
    no_rows()
    other_layouts()
    moved_charges()
    moved_records()
    moved_by_an_event()
    not_moved()
    return LINES, WANTED
