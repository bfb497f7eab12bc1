"""The part `woven` of the cases of the program `case_lines`: one run of their world made of the histories of several nodes.

The events are those of the charge of `kept_cases` at each of its two nodes. The order in which they are woven is found here once
more, by the rule: in the order of the nodes each goes on up to the first delivery whose packet its sender has not sent yet, round
by round. Beside the charge stand histories that are no run: a packet came that was never sent, or was sent otherwise; and two
nodes of which each waits for what the other sends later.
"""
import json
from itertools import takewhile

from kept_cases import PARTIES, SETUP, delivery, events_of
from operator_case import moment, text

LINES, WANTED = [], []


def line(given, *gives):
    """The next line, and what it gives; an empty line ends that, also where it is nothing."""
    LINES.append(given)
    WANTED.extend([*gives, ""])


def opened(*parties):
    line("setup " + SETUP)
    for party in parties:
        line("open " + party)


def told(given):
    """How an event is told: its node and its word, and of a delivery what is delivered."""
    event = json.loads(given)
    word = event["event"]
    if word == "deliver":
        return "%s deliver %s %d" % (event["node"], event["packet"]["from"], event["packet"]["serial"])
    own = ("submit", "token", "service", "credit", "tick", "restart", "refused")
    return "%s %s" % (event["node"], word if word in own else "charger")


def woven(parties, entries):
    """The lines of the run, of entries that are each a line and the packets that it sends, by their parties."""
    places, sent, run = dict.fromkeys(parties, 0), set(), []

    def can_go_on(party):
        if places[party] == len(entries[party]):
            return False
        event = json.loads(entries[party][places[party]][0])
        return event["event"] != "deliver" or (event["packet"]["from"], event["packet"]["serial"]) in sent

    while any(can_go_on(party) for party in parties):
        for party in parties:
            while can_go_on(party):
                given, gives = entries[party][places[party]]
                run += [told(given), *gives]
                sent |= {(packet["from"], packet["serial"]) for packet in map(json.loads, gives)}
                places[party] += 1
    assert all(places[party] == len(entries[party]) for party in parties)
    return run


def charge(*parties):
    """The whole charge, in the order of the nodes that are given."""
    opened(*parties)
    entries = {party: [(given, gives[:-1]) for given, gives, _ in events_of(party)] for party in parties}
    for party in parties:
        for given, gives in entries[party]:
            line(given, *gives)
    line("weave", *woven(parties, entries))


def ack(sender, receiver, serial, request):
    """A packet that answers a request that was never made."""
    body = {"status_code": 1000, "timestamp": moment("10:00:00")}
    return text({"body": body, "from": sender, "kind": "ack", "request": request, "serial": serial, "to": receiver})


def never_sent():
    """NL/TNM got a packet of BE/BEC that this never sent; the first one of them is told, nodes in order."""
    opened("BE/BEC", "NL/TNM")
    line(delivery("NL/TNM", moment("10:00:00"), ack("BE/BEC", "NL/TNM", 9, 1)))
    line(delivery("NL/TNM", moment("10:00:00"), ack("BE/BEC", "NL/TNM", 8, 1)))
    line("weave", "1 NeverSent(BE/BEC 9)")
    line(delivery("BE/BEC", moment("10:00:00"), ack("NL/TNM", "BE/BEC", 7, 1)))
    line("weave", "1 NeverSent(NL/TNM 7)")


def without_its_sender():
    """A node alone: what it got is of no history; without a delivery it is a run."""
    opened("NL/TNM")
    given, gives, _ = events_of("NL/TNM")[0]
    line(given, *gives[:-1])
    line("weave", *woven(["NL/TNM"], {"NL/TNM": [(given, gives[:-1])]}))
    line(delivery("NL/TNM", moment("10:00:00"), ack("BE/BEC", "NL/TNM", 1, 1)))
    line("weave", "1 NeverSent(BE/BEC 1)")
    opened()
    line("weave")


def differs():
    """BE/BEC got NL/TNM's first packet with another request number."""
    opened(*PARTIES)
    given, gives, _ = events_of("NL/TNM")[0]
    line(given, *gives[:-1])
    packet = json.loads(gives[0])
    assert packet["serial"] == 1 and packet["kind"] == "put_token"
    line(delivery("BE/BEC", moment("10:00:00"), ack("NL/TNM", "BE/BEC", 1, 9)))
    line("weave", "2 Differs(NL/TNM 1)")


def differs_in_a_record(said, other, end="12:00:00"):
    """NL/TNM got a charge detail record that says something other at one place, and nothing else differs up to that
    moment."""
    opened(*PARTIES)
    serials = set()
    for party in PARTIES:
        for given, gives, _ in takewhile(lambda it: json.loads(it[0])["at"] < moment(end), events_of(party)):
            if party == "NL/TNM" and '"kind":"post_cdr"' in given and said in given:
                assert given.count(said) == 1
                given = given.replace(said, other)
                serials.add(json.loads(given)["packet"]["serial"])
            line(given, *gives[:-1])
    (serial,) = serials
    line("weave", "2 Differs(BE/BEC %d)" % serial)


def differs_in_credits():
    """A bill came as a credit; a credit came as one of another bill, or of another cost."""
    bill, credit = '"country_code":"BE","currency"', '"credit_reference_id":"43424542-4543-0000-0000-000000000001"'
    differs_in_a_record(bill, '"country_code":"BE","credit":true,"credit_reference_id":"C1","currency"', "11:00:00")
    differs_in_a_record(credit, '"credit_reference_id":"C1"')
    differs_in_a_record('"excl_vat":-3.0864', '"excl_vat":-3.0865')


def no_order():
    """Each of two nodes begins with what the other sends by its next event, or by that very one."""
    stored, put = events_of("NL/TNM")[0][:2]
    got, acknowledged = events_of("BE/BEC")[0][:2]
    opened(*PARTIES)
    line(delivery("NL/TNM", moment("09:58:00"), acknowledged[0]))
    line(stored, *put[:-1])
    line(got, *acknowledged[:-1])
    line("weave", "3 NoOrder(0 0)")


def cases():
    """The lines, and what they give."""
    charge("BE/BEC", "NL/TNM")
    charge("NL/TNM", "BE/BEC")
    never_sent()
    without_its_sender()
    differs()
    differs_in_credits()
    no_order()
    return LINES, WANTED


def cases_without_memory():
    """The cases in which each allocation fails once: of each its name, the lines, and what they must give."""
    lines, wanted = len(LINES), len(WANTED)
    parties = ("NL/TNM", "BE/BEC")
    entries = {party: [(given, gives[:-1]) for given, gives, _ in events_of(party)[:1]] for party in parties}
    opened(*parties)
    for party in parties:
        line(*[item for given, gives in entries[party] for item in (given, *gives)])
    line("weave", *woven(parties, entries))
    found = [("two nodes with one event each, whose histories are made into one run", LINES[lines:], WANTED[wanted:])]
    del LINES[lines:], WANTED[wanted:]
    return found
