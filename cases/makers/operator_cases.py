"""The part `operator` of the cases of the program `case_lines`: events at an operator, and what each must give.

Each case is told in short words here and spelled out by `operator_case`, which knows the rules apart from the code: what is
sent and which rows are put or dropped are written behind each event by hand, and an event behind which nothing stands gives
nothing.
The cases of what charge points report, of time and of restarts are in `operator_time_cases`, those of sessions in
`operator_charge_cases` and `operator_session_cases`, those of bills that are taken back in `operator_credit_cases`,
those of tokens and authorizations in `operator_token_cases` and `operator_deadline_cases`, those of the last numbers and
of a tick that does much in `operator_limit_cases` and `operator_charge_limit_cases`, and those of which EVSE is taken in
`operator_choice_cases`.
"""
from operator_case import (
    CASES,
    LINES,
    OPERATOR,
    PROVIDERS,
    WANTED,
    Case,
    end,
    location,
    moment,
    open_site,
    reference,
    refused,
    text,
    token,
    url,
)
from operator_charge_cases import add_charge_cases
from operator_charge_limit_cases import add_charge_limit_cases
from operator_choice_cases import add_choice_cases
from operator_credit_cases import add_credit_cases
from operator_deadline_cases import add_deadline_cases
from operator_limit_cases import add_limit_cases
from operator_session_cases import add_connectors, add_session_cases, open_site_of_connectors
from operator_time_cases import add_time_cases
from operator_token_cases import add_token_cases

# The cases in which each allocation fails once: faults/fail_allocations.sh.
WITHOUT_MEMORY = [
    "a START that comes again has the same answer",
    "a claimed EVSE is occupied for another provider, and for the same one",
    "a reservation moves to another EVSE, and not to another location",
    "a connector that was unlocked",
    "commands that time out by provider and number, reservations that expire, and then pushes that are due",
    "a tick for which serials are wanting ends nothing, and one that sends nothing needs none",
    "a charge from its start to its bill",
    "readings of one moment, of an earlier one, and of one below the last",
    "a charge from a token that is shown to its bill",
    "a token whose provider is to be asked begins a session by its answer, once",
    "a token whose provider does not answer in time",
    "a bill that was stored is taken back, once",
]


def starts():
    c = Case("a START that comes again has the same answer")
    c.start(1)
    c.started(1, 1, "E1")
    c.start(1, at="10:00:20")
    c.repeated(2, 1, "ACCEPTED")
    c.restart()
    c.start(1, at="10:00:20")
    c.repeated(3, 1, "ACCEPTED")
    c.stored()
    c = Case("a claimed EVSE is occupied for another provider, and for the same one")
    c.start(1)
    c.started(1, 1, "E1")
    c.start(7, party="DE/EMP", uid="DD01")
    c.resulted(2, 1, 7, "EVSE_OCCUPIED", party="DE/EMP")
    c.start(2)
    c.resulted(4, 2, 2, "EVSE_OCCUPIED")
    c.stored()
    c = Case("places that are not known, tokens of others, references that were used")
    c.start(1, place="LOC7")
    c.answered(1, 1, 2003)
    c.start(2, evse="E9")
    c.answered(2, 2, "REJECTED")
    c.start(8, evse="E3")
    c.answered(3, 8, "REJECTED")
    c.start(9, connector="9")
    c.answered(4, 9, "REJECTED")
    c.hear("10:00:00", "start_session", {"response_url": url(3), "token": token("DD01", "DE/EMP"), "location_id": "LOC7"}, 3)
    c.answered(5, 3, 2001)
    c.hear("10:00:09", "start_session", {"response_url": url(3), "token": token("DD01", "DE/EMP"), "location_id": "LOC7"}, 3)
    c.repeated(6, 3, 2001)
    c.start(4)
    c.started(7, 4, "E1")
    c.start(5, evse="E2", ref=4)
    c.answered(8, 5, "REJECTED")
    c.start(6, evse="E2", valid=False)
    c.answered(9, 6, "REJECTED")
    c.command("10:00:00", "start_session", 10, token=token(), location_id="LOC7", connector_id="1")
    c.answered(10, 10, 2001)
    c.hear("10:00:00", "start_session", {"response_url": url(1), "token": token(), "location_id": "LOC1"}, 1, to="FR/FRC")
    refused("1 NotForMe")
    c.hear("10:00:00", "start_session", {"response_url": url(1), "token": token(), "location_id": "LOC1"}, 1, party="AT/XXX")
    refused("1 NotForMe")
    c.stored()
    c = Case("an EVSE out of service is inoperative, and a claim on it stands")
    c.service("E1", False)
    c.put("service", "E1", {})
    c.start(1)
    c.resulted(1, 1, 1, "EVSE_INOPERATIVE")
    c.service("E1", True)
    c.drop("service", "E1")
    c.start(2)
    c.started(3, 2, "E1")
    c.service("e1", False)
    c.put("service", "E1", {})
    c.service("E1", False)
    c.service("E9", False)
    c.start(3)
    c.resulted(4, 2, 3, "EVSE_INOPERATIVE")
    c.stored()
    c = Case("where no EVSE is named, one out of service is passed over")
    c.service("E1", False)
    c.put("service", "E1", {})
    c.start(1, evse=None)
    c.started(1, 1, "E2")
    c.start(2, evse=None)
    c.resulted(2, 1, 2, "EVSE_OCCUPIED")
    c.service("E2", False)
    c.put("service", "E2", {})
    c.start(3, evse=None)
    c.resulted(4, 2, 3, "EVSE_INOPERATIVE")
    c.stored()


def orders_of_starts():
    c = Case("a reference is spent however it is spelled, and for its own provider alone")
    c.start(1)
    c.started(1, 1, "E1")
    place = {"location_id": "LOC1", "evse_uid": "E2", "connector_id": "1"}
    c.command("10:00:00", "start_session", 2, token=token(), authorization_reference=reference(1).upper(), **place)
    c.answered(2, 2, "REJECTED")
    theirs = token("DD01", "DE/EMP")
    c.command("10:00:00", "start_session", 3, "DE/EMP", token=theirs, authorization_reference=reference(1), **place)
    c.reply(3, 3, "ACCEPTED", party="DE/EMP")
    c.counted(3)
    c.kept(3, "DE/EMP")
    c.opened(3, "10:00:30", "E2", "DE/EMP")
    c.put("spent", "DE/EMP/%s" % reference(1).upper(), {})
    c.stored()
    c = Case("what else is wrong with a start is told before an EVSE out of service, and that before one that is occupied")
    c.service("E1", False)
    c.put("service", "E1", {})
    c.start(1, valid=False)
    c.answered(1, 1, "REJECTED")
    c.start(2, connector="9")
    c.answered(2, 2, "REJECTED")
    c.start(3, evse="E2")
    c.started(3, 3, "E2")
    c.start(4, ref=3)
    c.answered(4, 4, "REJECTED")
    c.start(5, evse="E2", ref=3)
    c.answered(5, 5, "REJECTED")
    c.start(6, evse="E2", valid=False)
    c.answered(6, 6, "REJECTED")
    c.service("E2", False)
    c.put("service", "E2", {})
    c.start(7, evse="E2")
    c.resulted(7, 1, 7, "EVSE_INOPERATIVE")
    c.start(8, evse=None, valid=False)
    c.answered(9, 8, "REJECTED")
    c.start(9, evse=None)
    c.resulted(10, 2, 9, "EVSE_INOPERATIVE")
    c.stored()


def refusals_of_starts():
    c = Case("of a start what gives 2001 is told before an unknown location, and that before what is REJECTED")
    c.start(1)
    c.started(1, 1, "E1")
    # The token is not valid, or the reference is spent, or both.
    c.start(2, place="LOC7", valid=False)
    c.answered(2, 2, 2003)
    c.start(3, place="LOC7", ref=1)
    c.answered(3, 3, 2003)
    c.start(4, place="LOC7", evse=None, ref=1, valid=False)
    c.answered(4, 4, 2003)
    # The token is another provider's, or a connector is named without an EVSE.
    theirs = token("DD01", "DE/EMP", valid=False)
    wrong = [
        {"location_id": "LOC7", "token": theirs},
        {"location_id": "LOC1", "token": theirs, "evse_uid": "E2", "connector_id": "1"},
        {"location_id": "LOC1", "token": theirs, "evse_uid": "E9"},
        {"location_id": "LOC7", "token": token(valid=False), "connector_id": "1"},
        {"location_id": "LOC1", "token": token(valid=False), "connector_id": "9"},
    ]
    for number, members in enumerate(wrong, 5):
        c.command("10:00:00", "start_session", number, authorization_reference=reference(1), **members)
        c.answered(number, number, 2001)
    c.stored()


def starts_and_reservations():
    c = Case("a reservation at another location serves no start, and stands")
    c.reservation(1, 1, 1, "R1", "E3", "11:00:00", place="LOC2")
    c.start(2)
    c.started(3, 2, "E1")
    c.start(3, evse=None)
    c.started(4, 3, "E2")
    c.start(4, place="LOC2", evse="E1")
    c.answered(5, 4, "REJECTED")
    c.start(5, evse=None)
    c.resulted(6, 2, 5, "EVSE_OCCUPIED")
    c.start(6, place="LOC2", evse=None)
    c.started(8, 6, "E3", used="R1")
    c.stored()
    c = Case("a reservation on an EVSE out of service serves no start that names it, and stands")
    c.reservation(1, 1, 1, "R1", "E1", "11:00:00")
    c.service("E1", False)
    c.put("service", "E1", {})
    c.start(2)
    c.resulted(3, 2, 2, "EVSE_INOPERATIVE")
    c.start(3, party="DE/EMP", uid="DD01")
    c.resulted(5, 3, 3, "EVSE_INOPERATIVE", party="DE/EMP")
    c.service("E1", True)
    c.drop("service", "E1")
    c.start(4)
    c.started(7, 4, "E1", used="R1")
    c.stored()


def reservations():
    c = Case("a reservation moves to another EVSE, and not to another location")
    c.reserve(1, "R1", "E1", "11:00:00")
    c.resulted(1, 1, 1, "ACCEPTED", [lambda: c.marked("R1", 1), lambda: c.reserved("R1", "E1", "11:00:00")])
    c.reserve(2, "R1", "E2", "12:00:00", at="10:00:01")
    c.resulted(3, 2, 2, "ACCEPTED", [lambda: c.marked("R1", 2), lambda: c.reserved("R1", "E2", "12:00:00")], at="10:00:01")
    c.start(1, party="DE/EMP", uid="DD01")
    c.started(5, 1, "E1", party="DE/EMP")
    c.reserve(3, "R1", "E3", "12:00:00", place="LOC2")
    c.answered(6, 3, "REJECTED")
    c.reserve(1, "R1", "E1", "11:00:00", at="10:00:09")
    c.repeated(7, 1, "ACCEPTED")
    c.stored()
    c = Case("a cancel that overtakes its reserve")
    c.cancel(5, "R1")
    c.resulted(1, 1, 5, "UNKNOWN_RESERVATION", [lambda: c.marked("R1", 5)])
    c.reserve(4, "R1", "E1", "11:00:00")
    c.answered(3, 4, "REJECTED")
    c.cancel(3, "r1")
    c.answered(4, 3, "REJECTED")
    c.reserve(6, "R1", "E1", "11:00:00")
    c.resulted(5, 2, 6, "ACCEPTED", [lambda: c.marked("R1", 6), lambda: c.reserved("R1", "E1", "11:00:00")])
    c.cancel(7, "R1")
    c.resulted(7, 3, 7, "ACCEPTED", [lambda: c.marked("R1", 7), lambda: c.drop("reservation", "NL/TNM/R1")])
    c.start(1, party="DE/EMP", uid="DD01")
    c.started(9, 1, "E1", party="DE/EMP")
    c.stored()
    c = Case("a reservation that is used by its token, and by no other")
    c.reserve(1, "R1", "E1", "11:00:00")
    c.resulted(1, 1, 1, "ACCEPTED", [lambda: c.marked("R1", 1), lambda: c.reserved("R1", "E1", "11:00:00")])
    c.start(7, party="DE/EMP", uid="AA01")
    c.resulted(3, 2, 7, "EVSE_OCCUPIED", party="DE/EMP")
    c.start(3, uid="AA02")
    c.resulted(5, 3, 3, "EVSE_OCCUPIED")
    c.start(4, kind="APP_USER")
    c.resulted(7, 4, 4, "EVSE_OCCUPIED")
    c.start(2, uid="aa01")
    c.started(9, 2, "E1", used="R1")
    c.cancel(9, "R1")
    c.resulted(10, 5, 9, "UNKNOWN_RESERVATION", [lambda: c.marked("R1", 9)])
    c.stored()
    c = Case("where no EVSE is named, the one that is reserved for the token goes before one that is unclaimed")
    c.reserve(1, "R1", "E2", "11:00:00")
    c.resulted(1, 1, 1, "ACCEPTED", [lambda: c.marked("R1", 1), lambda: c.reserved("R1", "E2", "11:00:00")])
    c.start(2, evse=None)
    c.started(3, 2, "E2", used="R1")
    c.stored()
    c = Case("a reservation on an EVSE out of service is passed over, and stands")
    c.reserve(1, "R1", "E1", "11:00:00")
    c.resulted(1, 1, 1, "ACCEPTED", [lambda: c.marked("R1", 1), lambda: c.reserved("R1", "E1", "11:00:00")])
    c.service("E1", False)
    c.put("service", "E1", {})
    c.start(2, evse=None)
    c.started(3, 2, "E2")
    c.service("E1", True)
    c.drop("service", "E1")
    c.start(3, evse=None)
    c.started(4, 3, "E1", used="R1")
    c.stored()
    c = Case("an EVSE that is claimed is not reserved, and the mark stays")
    c.start(1)
    c.started(1, 1, "E1")
    c.reserve(4, "R1", "E1", "11:00:00")
    c.resulted(2, 1, 4, "EVSE_OCCUPIED", [lambda: c.marked("R1", 4)])
    c.reserve(3, "R1", "E2", "11:00:00")
    c.answered(4, 3, "REJECTED")
    c.reserve(5, "R2", None, "11:00:00")
    c.resulted(5, 2, 5, "ACCEPTED", [lambda: c.marked("R2", 5), lambda: c.reserved("R2", "E2", "11:00:00")])
    c.reserve(6, "R2", None, "12:00:00")
    c.resulted(7, 3, 6, "ACCEPTED", [lambda: c.marked("R2", 6), lambda: c.reserved("R2", "E2", "12:00:00")])
    c.reserve(7, "R3", None, "12:00:00")
    c.resulted(9, 4, 7, "EVSE_OCCUPIED", [lambda: c.marked("R3", 7)])
    c.service("E2", False)
    c.put("service", "E2", {})
    c.reserve(8, "R2", "E2", "13:00:00")
    c.resulted(11, 5, 8, "EVSE_INOPERATIVE", [lambda: c.marked("R2", 8)])
    c.stored()
    c = Case("what is wrong with a reservation")
    c.reserve(1, "R1", "E1", "11:00:00", uid="DD01", owner="DE/EMP")
    c.answered(1, 1, 2001)
    c.reserve(2, "R1", "E1", "11:00:00", place="LOC9")
    c.answered(2, 2, 2003)
    c.reserve(3, "R1", "E3", "11:00:00")
    c.answered(3, 3, "REJECTED")
    c.reserve(4, "R1", "E1", "11:00:00", valid=False)
    c.answered(4, 4, "REJECTED")
    c.reserve(5, "R1", "E1", "10:00:00")
    c.answered(5, 5, "REJECTED")
    for uid in ["E1", "E2"]:
        c.service(uid, False)
        c.put("service", uid, {})
    c.reserve(6, "R1", None, "11:00:00")
    c.resulted(6, 1, 6, "EVSE_INOPERATIVE", [lambda: c.marked("R1", 6)])
    c.service("E2", True)
    c.drop("service", "E2")
    c.reservation(8, 2, 7, "R1", "E2", "11:00:00")
    c.service("E2", False)
    c.put("service", "E2", {})
    c.reserve(8, "R1", None, "12:00:00")
    c.resulted(10, 3, 8, "EVSE_INOPERATIVE", [lambda: c.marked("R1", 8)])
    c.stored()


def orders_of_reservations():
    c = Case("marks and reservations of one provider are nothing to another")
    c.unknown(1, 1, 5)
    c.reservation(3, 2, 4, "R1", "E1", "11:00:00", party="DE/EMP", user="DD01")
    c.unknown(5, 3, 6)
    c.reservation(7, 4, 7, "R1", "E3", "11:00:00", place="LOC2")
    c.cancel(5, "r1", party="DE/EMP")
    ends = [lambda: c.marked("R1", 5, "DE/EMP"), lambda: c.drop("reservation", "DE/EMP/R1")]
    c.resulted(9, 5, 5, "ACCEPTED", ends, party="DE/EMP")
    c.reserve(8, "R1", "E1", "11:00:00")
    c.answered(11, 8, "REJECTED")
    c.stored()
    c = Case("what else is wrong with a reservation is told before an EVSE out of service")
    c.reservation(1, 1, 2, "R1", "E3", "11:00:00", place="LOC2")
    for uid in ["E1", "E2"]:
        c.service(uid, False)
        c.put("service", uid, {})
    c.reserve(3, "R1", "E1", "12:00:00")
    c.answered(3, 3, "REJECTED")
    c.reserve(1, "R1", "E3", "12:00:00", place="LOC2")
    c.answered(4, 1, "REJECTED")
    c.reserve(4, "R2", "E1", "09:59:59.999")
    c.answered(5, 4, "REJECTED")
    c.reserve(5, "R2", "E1", "10:00:00.001", valid=False)
    c.answered(6, 5, "REJECTED")
    c.reserve(6, "R2", "E1", "10:00:00.001")
    c.resulted(7, 2, 6, "EVSE_INOPERATIVE", [lambda: c.marked("R2", 6)])
    c.reserve(7, "R1", None, "12:00:00")
    c.answered(9, 7, "REJECTED")
    c.service("E3", False)
    c.put("service", "E3", {})
    c.reserve(8, "R1", "E3", "12:00:00", place="LOC2")
    c.resulted(10, 3, 8, "EVSE_INOPERATIVE", [lambda: c.marked("R1", 8)])
    c.cancel(7, "R3")
    c.repeated(12, 7, "REJECTED")
    c.cancel(9, "R1")
    c.resulted(13, 4, 9, "ACCEPTED", [lambda: c.marked("R1", 9), lambda: c.drop("reservation", "NL/TNM/R1")])
    c.reserve(10, "R1", "E1", "12:00:00")
    c.resulted(15, 5, 10, "EVSE_INOPERATIVE", [lambda: c.marked("R1", 10)])
    c.stored()


def refusals_of_reservations():
    c = Case("of a reservation a foreign token is told before an unknown location, and that before what is REJECTED")
    c.unknown(1, 1, 5)
    # The token is not valid, the reservation would be over, the number is below the mark, or all of these.
    c.reserve(10, "R1", "E1", "11:00:00", place="LOC9", valid=False)
    c.answered(3, 10, 2003)
    c.reserve(11, "R1", None, "10:00:00", place="LOC9")
    c.answered(4, 11, 2003)
    c.reserve(4, "R1", "E1", "11:00:00", place="LOC9")
    c.answered(5, 4, 2003)
    c.reserve(3, "R1", None, "09:00:00", place="LOC9", valid=False)
    c.answered(6, 3, 2003)
    # The token is another provider's.
    c.reserve(12, "R1", "E1", "11:00:00", place="LOC9", uid="DD01", owner="DE/EMP")
    c.answered(7, 12, 2001)
    c.reserve(2, "R1", "E1", "09:00:00", place="LOC9", uid="DD01", owner="DE/EMP", valid=False)
    c.answered(8, 2, 2001)
    c.reserve(1, "R1", "E9", "09:00:00", uid="DD01", owner="DE/EMP", valid=False)
    c.answered(9, 1, 2001)
    # None of them set the mark, nor does one that is REJECTED.
    c.reserve(13, "R1", "E1", "10:00:00")
    c.answered(10, 13, "REJECTED")
    c.reservation(11, 2, 6, "R1", "E1", "11:00:00")
    c.stored()


def others():
    c = Case("an unlock beside another provider's claim")
    c.unlock(1)
    c.reply(1, 1, "ACCEPTED")
    c.counted(1)
    c.kept(1)
    c.opened(1, "10:00:30")
    c.start(1, party="DE/EMP", uid="DD01")
    c.started(2, 1, "E1", party="DE/EMP")
    c.unlock(2)
    c.answered(3, 2, "REJECTED")
    c.unlock(2, party="DE/EMP")
    c.reply(4, 2, "ACCEPTED", party="DE/EMP")
    c.counted(4)
    c.kept(2, "DE/EMP")
    c.opened(2, "10:00:30", party="DE/EMP")
    c.unlock(3, place="LOC9")
    c.answered(5, 3, 2003)
    c.unlock(4, evse="E3")
    c.answered(6, 4, "REJECTED")
    c.unlock(5, connector="2")
    c.answered(7, 5, "REJECTED")
    c.stored()
    c = Case("an unlock at an EVSE that is reserved, or out of service")
    c.reservation(1, 1, 1, "R1", "E1", "11:00:00")
    c.service("E1", False)
    c.put("service", "E1", {})
    c.unlock(1, party="DE/EMP")
    c.answered(3, 1, "REJECTED", party="DE/EMP")
    c.unlock(2)
    c.unlocking(4, 2)
    c.service("E2", False)
    c.put("service", "E2", {})
    c.unlock(2, party="DE/EMP", evse="E2")
    c.unlocking(5, 2, party="DE/EMP")
    c.stored()
    c = Case("a session that is not known")
    c.stop(2, "S1")
    c.answered(1, 2, "UNKNOWN_SESSION")
    c.stored()
    c = Case("only the addressee's acknowledgement, of status 1000 and under its number, ends a push")
    c.cancel(5, "R1")
    c.resulted(1, 1, 5, "UNKNOWN_RESERVATION", [lambda: c.marked("R1", 5)])
    c.ack(1, party="DE/EMP")
    c.ack(1, status=2001)
    c.ack(2)
    c.ack(5)
    c.ack(1)
    c.drop("push", "1")
    c.ack(1)
    c.cancel(5, "R1")
    c.repeated(3, 5, "ACCEPTED")
    c.stored()


def cases_without_memory():
    """The cases in which each allocation fails once: of each its name, the lines, behind the site line, and what they must give."""
    ends = CASES[1:] + [("", len(LINES), len(WANTED))]
    return [
        (name, LINES[:1] + LINES[line:next_line], WANTED[want:next_want])
        for (name, line, want), (_, next_line, next_want) in zip(CASES, ends)
        if name in WITHOUT_MEMORY
    ]


def cases():
    """The lines, and what they must give."""
    site = {"currency": "EUR", "locations": [location("LOC1", ["E1", "E2"]), location("LOC2", ["E3"])], "price": 0.25}
    open_site(text({"at": moment("10:00:00"), "party": OPERATOR, "providers": PROVIDERS, "site": site}))
    starts()
    orders_of_starts()
    refusals_of_starts()
    starts_and_reservations()
    reservations()
    orders_of_reservations()
    refusals_of_reservations()
    others()
    add_time_cases()
    add_charge_cases()
    add_session_cases()
    add_token_cases()
    add_deadline_cases()
    add_charge_limit_cases()
    add_credit_cases()
    add_limit_cases()
    open_site_of_connectors()
    add_connectors()
    add_choice_cases()
    end()
    return LINES, WANTED
