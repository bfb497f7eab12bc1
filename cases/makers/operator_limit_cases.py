"""The cases of `operator_cases` in which numbers are used up, and in which one tick does a hundred things of each kind.

How the numbers come to their end is no part of a case: rows of counters are given, as if they had been stored.
"""
from operator_case import OPERATOR, PROVIDERS, Case, location, moment, open_part, refused, text, token, url

# The last number that a counter gives.
LAST = 10**18 - 1
USED_UP = "2 NumbersUsedUp"

USERS = {"NL/TNM": "AA01", "DE/EMP": "DD01", "Lu/Lum": "LL01"}


def add_last_serials():
    c = Case("no packet goes beyond the last serial: what would send one is refused and changes nothing, and the rest goes on")
    c.given("serial", LAST)
    c.start(1)
    refused(USED_UP)
    c.start(1)
    refused(USED_UP)
    c.cancel(5, "R1")
    refused(USED_UP)
    c.stop(6, "S1")
    refused(USED_UP)
    c.unlock(7)
    refused(USED_UP)
    c.hear("10:00:00", "start_session", {"response_url": url(1), "token": token(), "location_id": "LOC1"}, 1, to="FR/FRC")
    refused("1 NotForMe")
    c.ack(1)
    c.about("refuses", 1)
    c.tick("12:00:00")
    c.service("E1", False)
    c.put("service", "E1", {})
    c.stored()
    c = Case("the last serial is given once")
    c.given("serial", LAST - 1)
    c.cancel(5, "R1")
    refused(USED_UP)
    c.start(1)
    c.started(LAST, 1, "E1")
    c.start(1, at="10:00:20")
    refused(USED_UP)
    c.about("accepts", 1)
    refused(USED_UP)
    c.about("refuses", 2)
    c.about("refuses", 1)
    refused(USED_UP)
    c.report("fault", "10:00:05", evse_uid="E1")
    refused(USED_UP)
    c.tick("10:00:29.999")
    c.tick("10:00:30")
    refused(USED_UP)
    c.stored()


def add_ticks_without_serials():
    c = Case("a tick for which serials are wanting ends nothing, and one that sends nothing needs none")
    c.given("serial", LAST - 7)
    c.reservation(LAST - 6, 1, 1, "R1", "E1", "10:10:00")
    c.reservation(LAST - 4, 2, 2, "R2", "E2", "10:20:00")
    c.acked(1)
    c.acked(2)
    c.unlock(3, place="LOC2", evse="E3")
    c.unlocking(LAST - 2, 3)
    c.unlock(4, place="LOC2", evse="E3", at="10:30:00")
    c.unlocking(LAST - 1, 4, deadline="10:30:30", at="10:30:00")
    c.tick("10:30:30")
    refused(USED_UP)
    c.stored()
    c.about("unlocked", 3, at="10:30:31")
    c.finished(LAST, [(3, 3, "ACCEPTED", "NL/TNM")])
    c.acked(3, at="10:30:32")
    c.tick("10:15:00")
    c.finished(LAST + 1, expired=["NL/TNM/R1"])
    c.restart()
    c.tick("10:20:00")
    c.finished(LAST + 1, expired=["NL/TNM/R2"])
    c.tick("10:30:30")
    refused(USED_UP)
    c.stored()
    c = Case("a push is not sent again where no serial is left, and may still be acknowledged")
    c.given("serial", LAST - 3)
    c.unknown(LAST - 2, 1, 5)
    c.tick("10:00:10")
    c.finished(LAST, again=[1])
    c.tick("10:00:20")
    refused(USED_UP)
    c.restart()
    c.tick("10:00:00")
    refused(USED_UP)
    c.acked(1)
    c.tick("10:00:20")
    c.stored()


def add_no_requests():
    c = Case("where no request is left, only what makes one is refused")
    c.given("request", LAST)
    c.start(1)
    c.started(1, 1, "E1")
    c.start(7, party="DE/EMP", uid="DD01")
    refused(USED_UP)
    c.reserve(2, "R1", "E2", "11:00:00")
    refused(USED_UP)
    c.cancel(3, "R1")
    refused(USED_UP)
    c.start(8, party="DE/EMP", uid="DD01", evse="E2")
    c.started(2, 8, "E2", party="DE/EMP")
    c.unlock(4, place="LOC2", evse="E3")
    c.unlocking(3, 4)
    c.about("unlocked", 4)
    refused(USED_UP)
    c.start(1, at="10:00:20")
    c.repeated(4, 1, "ACCEPTED")
    c.stop(5, "S1")
    c.answered(5, 5, "UNKNOWN_SESSION")
    c.ack(LAST)
    c.tick("10:00:30")
    refused(USED_UP)
    c.stored()


def add_last_requests():
    c = Case("the last request is made once: two commands time out in one tick or not at all")
    c.given("request", LAST - 1)
    c.given("serial", 6)
    c.unlock(1)
    c.unlocking(7, 1)
    c.unlock(2)
    c.unlocking(8, 2)
    c.tick("10:00:30")
    refused(USED_UP)
    c.about("unlocked", 1, at="10:00:31")
    c.finished(9, [(LAST, 1, "ACCEPTED", "NL/TNM")])
    c.tick("10:00:30")
    refused(USED_UP)
    c.about("refuses", 2, at="10:00:31")
    refused(USED_UP)
    c.stored()
    c = Case("a push of the last number is sent again, until it is acknowledged")
    c.given("request", LAST - 1)
    c.unknown(1, LAST, 5)
    c.tick("10:00:10")
    c.finished(3, again=[LAST])
    c.acked(LAST)
    c.cancel(6, "R1")
    refused(USED_UP)
    c.tick("11:00:00")
    c.stored()


class Many:
    """A case of many commands of three providers in turn: it counts this operator's packets and requests."""

    def __init__(self, name):
        self.case = Case(name)
        self.serial = self.request = 0

    def reserve(self, k, number, name, uid, expiry, at):
        party = PROVIDERS[k % 3]
        self.case.reservation(self.serial + 1, self.request + 1, number, name, uid, expiry, at, party, USERS[party])
        self.serial += 2
        self.request += 1
        return "%s/%s" % (party.upper(), name)

    def cancel(self, k, number, name, at):
        self.case.unknown(self.serial + 1, self.request + 1, number, name, at, PROVIDERS[k % 3])
        self.serial += 2
        self.request += 1
        return self.request

    def start(self, k, number, uid, at, deadline):
        party = PROVIDERS[k % 3]
        self.serial += 1
        self.case.start(number, at, party, USERS[party], "LOC2", uid)
        self.case.started(self.serial, number, uid, deadline, None, at, party)
        return party, number

    def unlock(self, k, number, at, deadline):
        party = PROVIDERS[k % 3]
        self.serial += 1
        self.case.unlock(number, at, party, "LOC3", "G1")
        self.case.unlocking(self.serial, number, deadline, at, party)
        return party, number

    def tick(self, at, commands=(), expired=(), again=()):
        """Commands time out, by their providers and then their numbers; reservations expire; and pushes are sent again."""
        self.case.tick(at)
        commands = sorted(commands, key=lambda command: (command[0].upper(), command[1]))
        ends = [(self.request + k, number, "TIMEOUT", party) for k, (party, number) in enumerate(commands, 1)]
        self.case.finished(self.serial + 1, ends, expired, again)
        self.serial += len(ends) + len(again)
        self.request += len(ends)
        return [request for request, *_ in ends]


def open_large_site():
    uids = [["E%d" % k for k in range(1, 106)], ["F%d" % k for k in range(1, 56)], ["G1"]]
    places = [location("LOC%d" % k, evses) for k, evses in enumerate(uids, 1)]
    site = {"currency": "EUR", "locations": places, "price": 0.25}
    open_part(text({"at": moment("10:00:00"), "party": OPERATOR, "providers": PROVIDERS, "site": site}))


def add_large_tick():
    many = Many("one tick ends a hundred commands and a hundred reservations, and sends a hundred pushes again")
    c = many.case
    # The numbers of a provider do not come in their order.
    numbers = [1 + 37 * k % 101 for k in range(100)]
    # The last hundred reservations expire at or before the tick.
    expiries = ["10:01:00.001"] * 5 + ["10:01:00"] * 20 + ["10:00:%d" % (40 + k * 7 % 20) for k in range(80)]
    booked = [
        many.reserve(k, 1000 + k, "R%d" % k, "E%d" % (k + 1), expiry, "10:00:%02d" % (k // 10))
        for k, expiry in enumerate(expiries)
    ]
    answered = [3, 50, 77, 104, 105]
    for request in answered:
        c.acked(request, "10:00:15", PROVIDERS[(request - 1) % 3])
    due = [request for request in range(1, 106) if request not in answered]
    ended = [many.start(k, numbers[k], "F%d" % (k + 1), "10:00:20", "10:00:50") for k in range(50)]
    ended += [many.unlock(k, numbers[k], "10:00:30", "10:01:00") for k in range(50, 100)]
    later = [many.start(k, 300 + k, "F%d" % (k + 1), "10:00:31", "10:01:01") for k in range(50, 55)]
    much_later = [many.unlock(k, 400 + k, "10:00:55", "10:01:25") for k in range(5)]
    cancelled = [many.cancel(k, 500 + k, "X%d" % k, "10:00:55") for k in range(3)]
    timeouts = many.tick("10:01:00", ended, booked[5:], due)
    assert len(timeouts) == len(booked[5:]) == len(due) == 100
    c.tick("10:01:00")
    later_timeouts = many.tick("10:01:05", later, booked[:5], cancelled)
    many.tick("10:01:10", again=due + timeouts)
    many.tick("10:01:15", again=cancelled + later_timeouts)
    # What ended holds no EVSE.
    many.reserve(1, 2000, "R0", "E6", "11:00:00", "10:01:16")
    many.start(1, 600, "F1", "10:01:16", "10:01:46")
    c.restart()
    again = due + cancelled + timeouts + later_timeouts + [many.request]
    many.tick("10:01:25", much_later, again=sorted(again))
    c.stored()


def add_limit_cases():
    add_last_serials()
    add_ticks_without_serials()
    add_no_requests()
    add_last_requests()
    open_large_site()
    add_large_tick()
