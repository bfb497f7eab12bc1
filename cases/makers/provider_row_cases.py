"""The cases of rows of which a provider is made, and of rows that are those of no provider."""
from operator_case import moment, stored_record, token
from provider_case import Case, cdr, credit, refused, session

BAD = "7 BadRows"


def reference(number, party="414e4c54-4e4d"):
    """The authorization reference that NL/TNM gives by a number."""
    return "%s-0000-%s-%s" % (party, ("%016x" % number)[:4], ("%016x" % number)[4:])


def count(counter, last):
    return "count", counter, {"last": last}


def reply(number, party="BE/BEC", code=2001):
    return "reply", "%s/%d" % (party, number), {"body": {"status_code": code, "timestamp": moment("10:00:00")}, "kind": "command_response"}


def held(uid="AA01", key=None, **more):
    return "token", "NL/TNM/RFID/%s" % (key or uid), {**token(uid), **more}


def held_session(name="S1", party="BE/BEC", **more):
    return "session", "%s/%s" % (party, name), session(name, party=party, **more)


def held_cdr(name="C1", of="S1", party="BE/BEC"):
    return "cdr", "%s/%s" % (party, name), stored_record(cdr(name, of, party=party))


def held_credit(name="C1-C", of="S1", party="BE/BEC"):
    return "cdr", "%s/%s" % (party, name), credit(name, of, party=party)


def push(number, uid="AA01", to="BE/BEC", **more):
    return "push", str(number), {"body": {**token(uid), **more}, "kind": "put_token", "to": to}


def command(number, kind, body, to):
    url = "https://node.invalid/%d" % number
    return "command", str(number), {"body": {"response_url": url, **body}, "kind": kind, "to": to}


def stop(number, to="BE/BEC"):
    return command(number, "stop_session", {"session_id": "S1"}, to)


def start(number, given=None):
    body = {"token": token(), "location_id": "LOC1", "evse_uid": "E1", "connector_id": "1"}
    return command(number, "start_session", {**body, "authorization_reference": given} if given else body, "BE/BEC")


GOOD = [
    held(), push(3), push(4, "AA02"), push(5, to="FR/FRC"), stop(6), start(7, reference(2)), start(8), held_session(),
    held_session("S2"), held_cdr(), held_cdr("C2", "S2"), held_cdr("C2", party="FR/FRC"), held_credit(), reply(1), reply(1, "FR/FRC"),
    count("serial", 9), count("request", 8), count("reference", 2),
]

MADE = {
    "no rows at all": [],
    "rows of every kind": GOOD,
    "the same rows, the counters first": GOOD[::-1],
    "a push to an operator in small letters": [push(3, to="be/bec"), count("request", 3)],
    "a push of one token to each of two operators": [count("request", 3), push(3), push(2, to="FR/FRC")],
    "a charge detail record without its session": [held_cdr()],
    "a credit without its bill": [held_credit()],
    "a credit before its bill": [held_credit(), held_cdr()],
    "a bill before its credit": [held_cdr(), held_credit()],
    "credits of two operators": [held_credit(), held_credit(party="FR/FRC")],
}

REFUSED = {
    "a row of an operator": [*GOOD, ("service", "E1", {})],
    "a result": [*GOOD, ("result", "NL/TNM/1", {"result": "ACCEPTED"})],
    "a counter of sessions": [count("session", 3)],
    "a counter of charge detail records": [count("cdr", 3)],
    "a counter that gave no number": [count("serial", 0)],
    "a counter twice": [count("serial", 1), count("request", 3), count("serial", 1)],
    "a reply twice": [reply(1), reply(2), reply(1, code=2000)],
    "a token twice": [held(), held(valid=False)],
    "a token twice, in other letters": [held("aa01", "AA01"), held()],
    "a push twice": [count("request", 3), push(3), push(3, "AA02")],
    "a command twice": [count("request", 3), stop(3), start(3)],
    "a session twice": [held_session(), held_session(status="COMPLETED")],
    "a charge detail record twice": [held_cdr(), held_cdr(of="S2")],
    "a push whose number was not given": [push(4), count("request", 3)],
    "a push where no number was given": [push(1)],
    "a command whose number was not given": [stop(4), count("request", 3)],
    "a reference that was not given": [start(7, reference(2)), count("reference", 1), count("request", 7)],
    "a reference where none was given": [start(7, reference(1)), count("request", 7)],
    "a number of a push and a command": [stop(3), push(3), count("request", 3)],
    "a reference that is no id": [start(3, "ref-1"), count("request", 3), count("reference", 2)],
    "a reference of another party": [start(3, reference(2, "41444545-4d50")), count("request", 3), count("reference", 2)],
    "a reference in capitals": [start(3, reference(2).upper()), count("request", 3), count("reference", 2)],
    "a push to another than the operators": [push(3, to="DE/EMP"), count("request", 3)],
    "a command to another than the operators": [stop(3, "DE/EMP"), count("request", 3)],
    "two pushes of one token to one operator": [push(3), push(2, valid=False), count("request", 3)],
    "two charge detail records of one session": [held_cdr(), held_cdr("C2")],
    "two credits of one session": [held_credit(), held_cdr(), held_credit("C2-C")],
    "a bill and a credit of one id": [held_cdr("C1"), held_credit("C1")],
}


def add_spellings():
    """What was stored is sent again to its operator as the provider spells it; the row stays as it is."""
    c = Case("requests that were stored are sent again to their operators as the provider spells them")
    rows = [held(), push(3, to="be/bEC"), stop(4, "Be/bec"), stop(5, "fr/FRC"), count("request", 5), count("serial", 9)]
    c.made(rows)
    for (kind, number, row), operator in zip(rows[1:4], ("BE/BEC", "BE/BEC", "FR/FRC"), strict=True):
        c.requests[int(number)] = (row["kind"], row["body"], operator)
    c.tick("10:00:00")
    c.resent(10, 3, 4, 5)
    c.ack(3, party="Be/bec", at="10:00:01")
    c.drop("push", "3")
    c.tick("10:00:10")
    c.resent(13, 4, 5)
    c.stored()


def add_row_cases():
    add_spellings()
    for name, rows in MADE.items():
        c = Case("a provider of " + name)
        c.made(rows)
        c.stored()
    for name, rows in REFUSED.items():
        c = Case("no provider of " + name)
        c.made(rows)
        refused(BAD)
