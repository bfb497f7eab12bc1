"""The cases of `stored_cases` of rows that are bad: of each reason lists of rows that are bad for it alone, and beside them the
nearest that are not. No reason of `IsBad` may be without such a list."""
import pathlib
import re
import sys

from operator_case import own_id, url
from operator_charge_case import cdr_id, session_id
from stored_case import (
    ALONE,
    Operators,
    Providers,
    acknowledged,
    beside,
    bill,
    command,
    count,
    credit,
    held_bill,
    held_credit,
    held_session,
    makes,
    mark,
    open_start,
    open_unlock,
    out_of_service,
    own_reference,
    push,
    record,
    reply,
    reserved,
    result_push,
    session,
    session_push,
    settled,
    spent,
    stop_command,
    token_push,
    token_row,
)
from stored_rules import LAST_NUMBER

STRANGER = "AT/XXX"
# Of the rows for which one is named another is shown beside it.
SHOWN_BESIDE = {("operator_stored", "ResultOfOpen"): "OpenWithResult", ("operator_stored", "CreditedTwice"): "BilledTwice"}
CRATES = pathlib.Path(__file__).resolve().parents[2] / "crates"


def charged(number=1, of=None, **more):
    """A session that is complete, and its charge detail record."""
    return [session(number, "COMPLETED", **more), bill(number, of or number)]


def repeated_rows(node):
    """Two rows of one kind and key, which differ and which do not."""
    sessions, two = count("session", 9), count("request", 9)
    counted = [count("cdr", 9), sessions, session(1, "COMPLETED")]
    for needed, row, other in (
        ([], count("serial", 1), count("serial", 2)),
        ([], count("request", 1), count("request", 2)),
        ([], count("session", 1), count("session", 2)),
        ([], count("cdr", 1), count("cdr", 2)),
        ([], reply(1), acknowledged(1)),
        ([], token_row("AA01"), token_row("aa01", whitelist="NEVER")),
        ([two], result_push(1), result_push(1, 2, "DE/EMP")),
        ([], out_of_service("E1"), out_of_service("E1")),
        ([], spent(1), spent(1)),
        ([], mark("R1", 1), mark("R1", 2)),
        ([], reserved("R1", "E1"), reserved("R1", "E2")),
        ([reply(1)], open_start(1, "E1"), open_start(1, "E2")),
        ([reply(1)], settled(1), settled(1, word="FAILED")),
        ([sessions], session(1, "ACTIVE"), session(1, "INVALID")),
        (counted, bill(1), bill(1, owner="DE/EMP")),
    ):
        beside(node, [*needed, row], [*needed, row, row], "Repeated")
        if row != other:
            beside(node, [*needed, other], [*needed, row, other], "Repeated")
    makes(node, [mark("R1", 1), mark("R1", 1, "DE/EMP"), mark("R2", 1), reserved("R1"), spent(1), reply(1), reply(1, "DE/EMP")])


def numbers_of_operators(node):
    beside(node, [], [count("reference", 1)], "Foreign")
    beside(node, [], [command(0)], "Foreign")
    for counter in ("serial", "request", "session", "cdr"):
        beside(node, [count(counter, 1)], [count(counter, 0)], "NothingCounted")
        makes(node, [count(counter, LAST_NUMBER)])
    for last in (1, 7, LAST_NUMBER):
        below = [count("request", last - 1)] if last > 1 else []
        beside(node, [count("request", last), result_push(last)], [*below, result_push(last)], "PushNotGiven")
        below = [count("session", last - 1)] if last > 1 else []
        for status in ("PENDING", "INVALID"):
            row = session(last, status)
            beside(node, [count("session", last), row], [*below, row], "SessionNotGiven")
        ended = [count("session", 1), session(1, "COMPLETED"), bill(last)]
        below = [count("cdr", last - 1)] if last > 1 else []
        beside(node, [count("cdr", last), *ended], [*below, *ended], "CdrNotGiven")
    # Numbers of other counters do not count; 0 was given by none.
    others = [count("serial", 9), count("cdr", 9)]
    beside(node, [*others, result_push(0), session(0, "INVALID")], [*others, result_push(1)], "PushNotGiven")


def parties_of_operators(node):
    counted = [count("session", 20), count("cdr", 20), count("request", 20)]
    for status in ("ACTIVE", "INVALID"):
        beside(node, [*counted, session(1, status, party="be/Bec")], [*counted, session(1, status, party="BE/BED")], "SessionOfOther")
    ended = [*counted, session(1, "COMPLETED")]
    beside(node, [*ended, bill(1, party="Be/bEC")], [*ended, bill(1, party="NL/TNM")], "CdrOfOther")
    # Ids: of another letter, of another party, of a number that no counter gives, in capitals, with more behind, and none at all.
    wrong = [own_id(b"A", 10, "BE/BEC"), own_id(b"S", 10, "BE/BED"), own_id(b"S", LAST_NUMBER + 1, "BE/BEC"),
             session_id(10).upper(), session_id(10).replace("-", ""), cdr_id(10), session_id(10)[:-1], "S1", ""]
    for name in wrong:
        beside(node, [*counted, session(10, "PENDING")], [*counted, session(10, "PENDING", name=name)], "SessionIdNotOwn")
    wrong = [own_id(b"A", 10, "BE/BEC"), own_id(b"C", 10, "be/bed"), own_id(b"C", 2**63, "BE/BEC"), cdr_id(10).upper(),
             cdr_id(10) + "-C", session_id(10), "C1", ""]
    for name in wrong:
        beside(node, [*ended, bill(10)], [*ended, bill(10, name=name)], "CdrIdNotOwn")
    for to in (STRANGER, "BE/BEC"):
        beside(node, [*counted, result_push(1, to="lu/LUM")], [*counted, result_push(1, to=to)], "PushToStranger")
        beside(node, [token_row(party="lu/LUM")], [token_row(party=to)], "TokenOfStranger")
        row = open_unlock(1, to)
        beside(node, [reply(1), open_unlock(1)], [reply(1, to), row], "CommandOfStranger")
        beside(node, [*counted, session(1, "INVALID", owner=to)], [*counted, session(1, "PENDING", owner=to)], "SessionOfStranger")
    # Of a stranger may be what is kept of requests, and what has ended.
    rest = [session(2, "COMPLETED", owner=STRANGER), bill(2, 2, owner=STRANGER)]
    makes(node, [*counted, reply(1, STRANGER), settled(1, STRANGER), spent(1, STRANGER), mark("R1", 1, STRANGER),
                 reserved("R1", party=STRANGER), *rest])
    for party, owner in (("NL/TNM", "DE/EMP"), ("DE/EMP", STRANGER)):
        inside = [reply(1, party), open_start(1, party=party, owner=party.lower())]
        beside(node, inside, [reply(1, party), open_start(1, party=party, owner=owner)], "StartOfOtherToken")
    makes(node, [reserved("R1", owner="DE/EMP"), reply(1), open_start(1, "E2", owner="nl/tnm")])


def places_of_operators(node):
    counted, answered = [count("session", 9)], [reply(1), reply(2, "DE/EMP")]
    beside(node, [out_of_service("e3")], [out_of_service("E4")], "ServiceNowhere")
    for evse, where in (("E4", "LOC1"), ("E4", "LOC3"), ("1", "LOC1")):
        beside(node, [reserved("R1", "e3", "loc2")], [reserved("R1", evse, where)], "ReservationNowhere")
    for evse, where in (("E3", "LOC1"), ("E1", "LOC2"), ("E1", "LOC3")):
        beside(node, [reserved("R1", "e3", "loc2")], [reserved("R1", evse, where)], "ReservationElsewhere")
    without = ["StartWithoutEvse", "StartWithoutConnector"]
    starts = {("E4", "1"): ["StartNowhere"], ("E4", "2"): ["StartNowhere"], ("E1", "2"): ["StartAtNoConnector"], (None, "1"): without[:1],
              ("E1", None): without[1:], (None, None): without, ("E4", None): ["StartNowhere", *without[1:]]}
    for (evse, connector), faults in starts.items():
        inside = [reply(1), open_start(1, "e1", connector="1", where="LOC2")]
        beside(node, inside, [reply(1), open_start(1, evse, connector=connector)], *faults)
    # Another command has no place.
    makes(node, [*answered, open_unlock(1, evse_uid="E4", connector_id="2"), open_unlock(2, "DE/EMP", evse_uid="E1")])
    nowhere = "SessionNowhere"
    for evse, connector, fault in (("E4", "1", nowhere), ("E1", "2", "SessionAtNoConnector"), ("", "1", nowhere)):
        for status in ("PENDING", "ACTIVE"):
            inside = [*counted, session(1, status, evse="e1", where="LOC2"), session(2, "INVALID", evse=evse, connector=connector)]
            beside(node, inside, [*counted, session(1, status, evse=evse, connector=connector)], fault)


def claims(node):
    """Each two kinds of claim on one EVSE, beside the same on two."""
    needed = [count("session", 9), reply(1), reply(2), reply(2, "DE/EMP")]
    makers = {
        "start": lambda evse: open_start(1, evse),
        "start of another number": lambda evse: open_start(2, evse),
        "start of another provider": lambda evse: open_start(2, evse, "DE/EMP"),
        "session": lambda evse: session(1, "PENDING", evse=evse),
        "session of another number": lambda evse: session(2, "ACTIVE", evse=evse),
        "reservation": lambda evse: reserved("R1", evse),
        "reservation of another id": lambda evse: reserved("R2", evse),
        "reservation of another provider": lambda evse: reserved("R1", evse, party="DE/EMP"),
    }
    names = list(makers)
    for at, one in enumerate(names):
        for other in names[at + 1 :]:
            inside = [*needed, makers[one]("E1"), makers[other]("E2")]
            beside(node, inside, [*needed, makers[one]("E1"), makers[other]("e1")], "ClaimedTwice")
    # What claims nothing: an EVSE out of service, a session that has ended, another command.
    rest = [count("cdr", 9), out_of_service("E1"), session(3, "INVALID"), *charged(4), open_unlock(2, evse_uid="E1")]
    makes(node, [*needed, *rest, reserved("R1", "E1")])


def commands(node):
    for row, fault in ((open_start(1), "OpenUnanswered"), (open_unlock(1), "OpenUnanswered"), (settled(1), "ResultUnanswered")):
        for given in ([], [reply(2)], [reply(1, "DE/EMP")], [mark("R1", 1)]):
            beside(node, [reply(1), row], [*given, row], fault)
        makes(node, [acknowledged(1), row])
    for row in (open_start(1), open_unlock(1)):
        others = [reply(1), reply(2), reply(1, "DE/EMP"), settled(2), settled(1, "DE/EMP"), row]
        beside(node, others, [*others, settled(1)], "OpenWithResult")


def pushes(node):
    counted = [count("request", 9), count("session", 9)]
    one, two = session(1, "PENDING"), session(2, "ACTIVE", evse="E2")
    older = session(1, "INVALID")
    for other in (session_push(4, one), session_push(4, older), session_push(4, one, "DE/EMP")):
        beside(node, [*counted, session_push(2, one), session_push(4, two)], [*counted, session_push(2, one), other], "PushedTwice")
    # In capitals it is the same session.
    named = [session(10, "ACTIVE"), session(10, "ACTIVE", name=session_id(10).upper()), session(10, "ACTIVE", party="BE/BED")]
    same, apart = ([*counted, session_push(2, named[0]), session_push(3, it)] for it in named[1:])
    beside(node, apart, same, "PushedTwice")
    for other in (token_push(2, to="nl/tnm"), token_push(2, "aa01", "NL/TNM", valid=False)):
        one = token_push(1, to="NL/TNM")
        for apart in (token_push(2, to="DE/EMP"), token_push(2, "AA02", "NL/TNM"), token_push(2, to="NL/TNM", kind="OTHER")):
            beside(node, [*counted, one, apart], [*counted, one, other], "PushedTwice")
    # Results and charge detail records replace nothing.
    bills = [push(3, "post_cdr", record(1)), push(4, "post_cdr", record(1))]
    makes(node, [*counted, result_push(1), result_push(2), *bills])


def sessions(node):
    counted = [count("session", 19), count("cdr", 19)]
    for status in ("PENDING", "ACTIVE", "INVALID"):
        for kwh, right, wrong in (("0.0000", "0.0000", "0.0001"), ("12.3456", "3.0864", "3.0863"), ("0.0007", "0.0001", "0.0002")):
            if status == "PENDING" and kwh != "0.0000":
                beside(node, [*counted, session(1, status)], [*counted, session(1, status, kwh, right)], "ChargedEarly")
                continue
            beside(node, [*counted, session(1, status, kwh, right)], [*counted, session(1, status, kwh, wrong)], "OtherPrice")
        beside(node, [*counted, session(1, status)], [*counted, session(1, status, cost=None)], "CostMissing")
        beside(node, [*counted, session(1, status)], [*counted, session(1, "RESERVATION")], "OfReservation")
    beside(node, [*counted, *charged(1, kwh="0.0003")], [*counted, *charged(1, kwh="0.0003", cost="0.0001")], "OtherPrice")
    beside(node, [*counted, session(1)], [*counted, session(1, "RESERVATION", cost=None)], "OfReservation", "CostMissing")
    beside(node, [*counted, session(1)], [*counted, session(1, "RESERVATION", cost="0.0001")], "OfReservation", "OtherPrice")
    # Prices of the moments: the site's own counts before its first entry, and each entry from its own moment on.
    for began, right, wrong in (("10:00:39", "0.2500", "0.5000"), ("10:00:40", "0.5000", "0.2500"), ("10:00:50", "0.7500", "0.5000")):
        charge = {"kwh": "1.0000", "began": began}
        beside(node, [*counted, session(1, cost=right, **charge)], [*counted, session(1, cost=wrong, **charge)], "OtherPrice")
    # Currencies: one that has ended keeps its own.
    for status in ("PENDING", "ACTIVE"):
        beside(node, [*counted, session(1, status)], [*counted, session(1, status, currency="SEK")], "OtherMoney")
    makes(node, [*counted, session(1, "INVALID", currency="SEK")])
    # Bills.
    two = [*counted, session(1, "COMPLETED"), session(10, "COMPLETED"), bill(1, 10), bill(2, 1)]
    beside(node, two, [*two, bill(3, 10)], "BilledTwice")
    beside(node, two, two[:-1], "Unbilled")
    capitals = bill(1, session_name=session_id(10).upper())
    beside(node, [*counted, session(10, "COMPLETED"), capitals], [*counted, session(10, "COMPLETED"), capitals, bill(2, 10)], "BilledTwice")
    for status in ("PENDING", "ACTIVE", "INVALID"):
        beside(node, [*counted, *charged(1)], [*counted, session(1, status), bill(1)], "BilledEarly")
    beside(node, [*counted, *charged(1)], [*counted, *charged(1), bill(2, 2)], "BilledEarly")
    beside(node, [*counted, *charged(1)], [*counted, bill(1)], "BilledEarly")
    beside(node, [*counted, *charged(1)], [*counted, session(1, "COMPLETED")], "Unbilled")


def credits(node):
    """A credit has its bill, of its session; a session has one bill, and one credit at most."""
    counted = [count("session", 19), count("cdr", 19)]
    one, two = charged(1), charged(10)
    both = [*counted, *one, *two]
    for put in ([credit(1)], [credit(10, 10)], [credit(10, 10), credit(1)]):
        makes(node, [*both, *put])
        makes(node, [*put, *both])
    # The bill is not there, or is of another session, or another is named, or it is spelled otherwise.
    for other in (
        credit(2, 10), credit(1, 10), credit(10, 10, taken_back=cdr_id(1)), credit(1, 10, taken_back=cdr_id(10)),
        credit(10, 10, taken_back=cdr_id(10).upper()), credit(10, 10, taken_back=cdr_id(10) + "-C"), credit(10, 10, taken_back=""),
    ):
        beside(node, [*both, credit(10, 10)], [*both, other], "CreditWithoutBill")
    capitals = credit(10, session_name=session_id(10).upper())
    beside(node, [*both, capitals], [*both, credit(10, session_name=session_id(1))], "CreditWithoutBill")
    beside(node, [*both, credit(1)], [*counted, *one[:1], *two, credit(1)], "CreditWithoutBill", "Unbilled")
    # A credit bills no session.
    beside(node, [*both, credit(1)], [*counted, *two, one[0], bill(2), credit(1)], "CreditWithoutBill")
    twice = [*both, bill(11, 10), credit(10, 10), credit(11, 10)]
    beside(node, [*both, credit(10, 10), credit(1)], twice, "BilledTwice", "CreditedTwice")
    beside(node, [*both, credit(10, 10)], [*both, credit(10, 10), credit(11, 10)], "CreditedTwice", "CreditWithoutBill")
    for status in ("PENDING", "ACTIVE", "INVALID"):
        beside(node, [*both, credit(1)], [*counted, *two, session(1, status), bill(1), credit(1)], "BilledEarly")
    add_ids_of_credits(node, counted, two)


def add_ids_of_credits(node, counted, ended):
    """The id of a credit is that of a bill that the operator makes, and `-C`."""
    complete, of_it = ended
    for name in (cdr_id(10), cdr_id(10) + "-c", cdr_id(10) + "-CC", cdr_id(10) + "C", "-C", "C1-C", ""):
        inside = [*counted, complete, of_it, credit(10, 10)]
        # (that has the key of the bill)
        shared = [complete, bill(11, 10)] if name == cdr_id(10) else ended
        beside(node, inside, [*counted, *shared, credit(10, 10, name=name)], "CdrIdNotOwn", "CreditWithoutBill")
    for name in (own_id(b"C", 10, "BE/BED"), own_id(b"S", 10, "BE/BEC"), own_id(b"C", LAST_NUMBER + 1, "BE/BEC"), "C1", ""):
        outside = [*counted, complete, bill(10, 10, name=name), credit(10, 10, name=name + "-C", taken_back=name)]
        beside(node, [*counted, *ended, credit(10, 10)], outside, "CdrIdNotOwn")
    other = [bill(10, 10, party="FR/FRC"), credit(10, 10, party="FR/FRC")]
    beside(node, [*counted, *ended, credit(10, 10)], [*counted, complete, *other], "CdrOfOther")
    for last in (7, LAST_NUMBER):
        rows = [count("session", 10), complete, bill(last, 10), credit(last, 10)]
        beside(node, [*rows, count("cdr", last)], [*rows, count("cdr", last - 1)], "CdrNotGiven")
    # A push of a credit is one of a record.
    request = count("request", 9)
    sent = [push(8, "post_cdr", record(10, 10)), push(9, "post_cdr", credit(10, 10)[2])]
    makes(node, [*counted, request, *ended, credit(10, 10), *sent])


def kinds_of_providers(node):
    counted = [count("request", 9), count("reference", 9)]
    for row in (count("session", 1), count("cdr", 1), out_of_service("E1"), spent(1), mark(), reserved(), open_unlock(), settled()):
        beside(node, [*counted, reply(1)], [*counted, reply(1), row], "Foreign")
    for counter in ("serial", "request", "reference"):
        beside(node, [count(counter, 1)], [count(counter, 0)], "NothingCounted")
        makes(node, [count(counter, LAST_NUMBER)])
    for needed, row, other in (
        ([], count("serial", 1), count("serial", 2)),
        ([], count("request", 1), count("request", 2)),
        ([], count("reference", 1), count("reference", 2)),
        ([], acknowledged(1, "BE/BEC"), acknowledged(1, "BE/BEC", 2001)),
        ([], token_row("AA01"), token_row("aa01", whitelist="NEVER")),
        (counted, token_push(1), token_push(1, "AA02")),
        (counted, stop_command(1), stop_command(1, "FR/FRC")),
        ([], held_session(status="ACTIVE"), held_session(name="s1", status="INVALID")),
        ([], held_bill(), held_bill(name="c1")),
        ([], held_bill(), held_bill(of="S2")),
    ):
        beside(node, [*needed, row], [*needed, row, row], "Repeated")
        beside(node, [*needed, other], [*needed, row, other], "Repeated")


def numbers_of_providers(node):
    for last in (1, 7, LAST_NUMBER):
        below = [count("request", last - 1)] if last > 1 else []
        beside(node, [count("request", last), token_push(last)], [*below, token_push(last)], "PushNotGiven")
        beside(node, [count("request", last), stop_command(last)], [*below, stop_command(last)], "CommandNotGiven")
        below = [count("reference", last - 1)] if last > 1 else []
        row = command(2, own_reference(last))
        counted = [count("request", 2), count("serial", 9)]
        beside(node, [*counted, count("reference", last), row], [*counted, *below, row], "ReferenceNotGiven")
    beside(node, [token_push(0)], [token_push(0), stop_command(0)], "NumberShared")
    makes(node, [command(0, own_reference(0))])
    counted = [count("request", 19), count("reference", 19)]
    for row in (stop_command(3), command(3), command(3, own_reference(3), result="ACCEPTED")):
        beside(node, [*counted, token_push(2), row], [*counted, token_push(3), row], "NumberShared")
    wrong = [own_id(b"S", 10, "NL/TNM"), own_id(b"A", 10, "NL/TNN"), own_id(b"A", LAST_NUMBER + 1, "NL/TNM"),
             own_reference(10).upper(), own_reference(10).replace("-", ""), own_reference(10)[:-1], "A10", " "]
    for name in wrong:
        beside(node, [*counted, command(3, own_reference(10))], [*counted, command(3, name)], "ReferenceNotOwn")
    # Commands may have one reference; that it is new is no matter of the rows.
    makes(node, [*counted, command(3, own_reference(10)), command(4, own_reference(10), "FR/FRC"), command(5)])


def parties_of_providers(node):
    counted = [count("request", 19), count("reference", 19)]
    for to in (STRANGER, "NL/TNM"):
        beside(node, [*counted, token_push(1, to="fr/FRC")], [*counted, token_push(1, to=to)], "PushToStranger")
        beside(node, [*counted, stop_command(1, "Fr/fRC")], [*counted, stop_command(1, to)], "CommandToStranger")
    # Of a stranger may be what is kept of requests and what was handed over; the tokens are the provider's own, by key.
    makes(node, [acknowledged(1, STRANGER), held_session(party=STRANGER), held_bill(party=STRANGER)])
    makes(node, [token_row(party="nl/tnm"), held_session(owner="Nl/TnM"), held_bill(owner="NL/tnm")])
    for owner in (STRANGER, "BE/BEC", "NL/TNN"):
        beside(node, [token_row("AA02"), token_row()], [token_row("AA02"), token_row(party=owner)], "OtherToken")
        beside(node, [held_session("S2"), held_session()], [held_session("S2"), held_session(owner=owner)], "OtherSession")
        beside(node, [held_bill("C2", "S2"), held_bill()], [held_bill("C2", "S2"), held_bill(owner=owner)], "OtherCdr")
    one = token_push(1)
    for other in (token_push(2, to="be/bec"), token_push(2, "aa01", valid=False)):
        for apart in (token_push(2, to="FR/FRC"), token_push(2, "AA02"), token_push(2, kind="OTHER"), token_push(2, party="NL/TNN")):
            beside(node, [*counted, one, apart], [*counted, one, other], "PushedTwice")
    for apart in (held_bill("C2", "S2"), held_bill("C2", "S1", "FR/FRC"), held_bill("C1", "S1", "FR/FRC")):
        beside(node, [held_bill(), apart], [held_bill(), held_bill("C2", "s1")], "BilledTwice")
    # Of a session there may be a bill and a credit, each with or without the other.
    for rows in ([held_credit()], [held_credit(), held_bill()], [held_credit("C9", taken_back="C8"), held_bill("C2")]):
        makes(node, rows)
        makes(node, [*rows, held_credit("C2-C", "S2"), held_credit("C2-C", "S1", party="FR/FRC"), held_bill("C3", "S3")])
    for other in (held_credit("C2-C", "s1"), held_credit("C2", "S1", taken_back="C2")):
        for beside_it in ([], [held_bill()]):
            apart = [held_credit(), held_credit("C2-C", "S2"), *beside_it]
            beside(node, apart, [held_credit(), other, *beside_it], "CreditedTwice")
    beside(node, [held_credit(), held_bill()], [held_credit("c1"), held_bill()], "Repeated")
    for owner in (STRANGER, "BE/BEC"):
        beside(node, [held_bill(), held_credit()], [held_bill(), held_credit(owner=owner)], "OtherCdr")
    # What is wrong in sessions and records is told when they come, not here.
    makes(node, [held_session(status="RESERVATION"), held_session("S2", cost=None), held_session("S3", cost="9.0000"), held_bill()])
    result = push(1, "command_result", {"response_url": url(1), "result": "ACCEPTED"}, "BE/BEC")
    makes(node, [*counted, result, push(2, "command_result", result[2]["body"], "BE/BEC")])


def add_faults():
    operators = Operators()
    for cases in (repeated_rows, numbers_of_operators, parties_of_operators, places_of_operators, claims, commands, pushes, sessions, credits):
        cases(operators)
    providers = Providers()
    for cases in (kinds_of_providers, numbers_of_providers, parties_of_providers):
        cases(providers)
    for crate in (operators.crate, providers.crate):
        _, reasons = (CRATES / crate / "specs" / "Bad.antt").read_text(encoding="utf-8").split("pub data IsBad", 1)
        for reason in re.findall(r"^  ([A-Z]\w*) :", reasons, re.MULTILINE):
            if (crate, SHOWN_BESIDE.get((crate, reason), reason)) not in ALONE:
                sys.exit(f"no rows of {crate} are bad for {reason} alone")
