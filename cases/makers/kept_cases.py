"""The part `kept_nodes` of the cases of the program `case_lines`: nodes over keepers in lists, and what then happens at them.

The events are those of the charge of `stored_charge` at each of its two nodes, with the packets and rows that are told there, and
behind them one request that comes again: they go through; they go on over what is kept behind each event; and each of their commits
is refused in turn, and finds no memory in turn. All that is so of the same events in lines of several, each with one commit. Beside
them stand events that change nothing.
"""
import re

from operator_case import moment, text, token
from stored_case import puts
from stored_charge import REPLIES, SETUP, rows_of_charge

PARTIES = ("BE/BEC", "NL/TNM")
REFUSED = "store 1 Refused"
STARVED = "store 4 Memory"
LINES, WANTED = [], []


def line(given, *gives):
    """The next line, and what it gives; an empty line ends that, also where it is nothing."""
    LINES.append(given)
    WANTED.extend([*gives, ""])


def delivery(party, at, packet):
    """The line in which a packet is delivered to a node."""
    return '{"at":"%s","event":"deliver","node":"%s","packet":%s}' % (at, party, packet)


def events_of(party):
    """The events of the charge at a node: of each its line, what it gives, and the rows that stand behind it."""
    events = []

    def step(node, event_line, sent, rows):
        if not event_line.startswith("{"):
            event_line = delivery(party, *event_line.split(" ", 1))
        events.append((event_line, [*sent, "changed" if rows else "unchanged"], puts(node.listed())))

    rows_of_charge(party, step)
    return [*events, repeated(events)]


def repeated(events):
    """The last request that was answered comes once more: its reply is sent again, under the next serial, and nothing else happens."""
    sent = sum(len(gives) - 1 for _, gives, _ in events)
    answered = [(given, gives[0]) for given, gives, _ in events if any('"kind":"%s"' % kind in gives[0] for kind in REPLIES)]
    given, reply = answered[-1]
    counted = 'put count serial {"last":%d}'
    rows = [counted % (sent + 1) if row == counted % sent else row for row in events[-1][2]]
    return given, [re.sub(r'"serial":\d+', '"serial":%d' % (sent + 1), reply), "changed"], rows


def opened(party, setup=SETUP):
    line("setup " + setup)
    line("open " + party)
    line("stored")


def reopened(party, rows):
    line("reopen " + party, "reopened %d" % len(rows), *rows)


def charge(party):
    """It goes through."""
    opened(party)
    for given, gives, rows in events_of(party):
        line(given, *gives)
        line("stored", *rows)


def charge_with_reopenings(party):
    """Behind each event the node ends, and goes on from what is kept."""
    opened(party)
    line("reopen " + party, "reopened 0")
    for given, gives, rows in events_of(party):
        line(given, *gives)
        line("reopen " + party, "reopened %d" % len(rows))
        line("stored", *rows)


def charge_with_a_refusal(party, number, events, word="refuse", gives_then=REFUSED):
    """The commit of that number is refused, or finds no memory: all is as before. The same event again gives what it gives without
    that, and so does what follows."""
    opened(party)
    line("%s %d" % (word, number))
    commits = 0
    for given, gives, _ in events:
        if "changed" in gives:
            commits += 1
        if "changed" in gives and commits == number:
            line(given, gives_then)
        line(given, *gives)
    line("stored", *events[-1][2])


def each_commit_refused(party):
    events = events_of(party)
    commits = [at for at, (_, gives, _) in enumerate(events) if "changed" in gives]
    for number, at in enumerate(commits, 1):
        # (two events more follow, where there are any)
        charge_with_a_refusal(party, number, events[: at + 3])
        charge_with_a_refusal(party, number, events[: at + 3], "starve", STARVED)


def refused_again_and_again(party):
    """Each commit of the charge is refused twice in a row before it is made."""
    opened(party)
    for given, gives, _ in events_of(party):
        for _ in range(2 if "changed" in gives else 0):
            line("refuse 1")
            line(given, REFUSED)
        line(given, *gives)
    line("stored", *events_of(party)[-1][2])


def in_lines(party, size):
    """The events of the charge with so many in a line, and of each line what it gives and the rows behind it. Each begins with an
    event that is malformed."""
    events, odd = events_of(party), text({"event": "tick", "node": party})
    groups = [events[at:at + size] for at in range(0, len(events), size)]
    return [("[%s]" % ",".join([odd, *(given for given, _, _ in group)]),
             ["refused 4 Missing(at)", *(it for _, gives, _ in group for it in gives)], group[-1][2]) for group in groups]


def charge_in_lines(party, size):
    """It goes through, and each commit is refused in turn: then nothing of its line is kept. The line again gives what it gives."""
    groups = in_lines(party, size)
    opened(party)
    for given, gives, rows in groups:
        line(given, *gives)
        line("stored", *rows)
    for word, gives_then in (("refuse", REFUSED), ("starve", STARVED)):
        for number in range(1, len(groups) + 1):
            charge_with_a_refusal(party, number, groups, word, gives_then)


def told_but_none():
    """What changes nothing, and is not asked of the keeper, though its next commit would be refused."""
    at = moment("10:32:00")
    stranger = token(party="DE/EMP")
    order = {"event": "submit", "node": "NL/TNM", "at": at, "operator": "FR/FRC", "order": "stop_session", "session_id": "S1"}
    none = {
        "BE/BEC": [({"event": "token", "node": "BE/BEC", "at": at, "token": token()}, "skipped"),
                   ({"event": "starts", "node": "BE/BEC", "at": at, "evse_uid": "E1"}, "unchanged"),
                   ({"event": "restart", "node": "BE/BEC"}, "unchanged"),
                   ({"event": "refused", "node": "BE/BEC"}, "unchanged")],
        "NL/TNM": [({"event": "starts", "node": "NL/TNM", "at": at, "evse_uid": "E1"}, "skipped"),
                   ({"event": "service", "node": "NL/TNM", "evse_uid": "E1", "in_service": False}, "skipped"),
                   (order, "refused 5 UnknownOperator"),
                   ({**order, "operator": "BE/BEC", "order": "reserve_now", "expiry_date": at, "location_id": "LOC1",
                     "reservation_id": "R1", "token_type": "RFID", "token_uid": "ZZ"}, "refused 6 UnknownToken"),
                   ({"event": "token", "node": "NL/TNM", "at": at, "token": stranger}, "refused 1 NotForMe"),
                   ({"event": "tick", "node": "NL/TNM", "at": at}, "unchanged")],
    }
    for party, happenings in none.items():
        events = events_of(party)
        first, second = [at for at, (_, gives, _) in enumerate(events) if "changed" in gives][:2]
        opened(party)
        for given, gives, _ in events[: second + 1]:
            line(given, *gives)
        line("refuse 1")
        for event, word in happenings:
            line(text(event), word)
        line("stored", *events[second][2])
        # The refusal is still to come.
        for given, gives, rows in events[second + 1 :]:
            if "changed" in gives:
                line(given, REFUSED)
            line(given, *gives)
            line("stored", *rows)
            if "changed" in gives:
                break


def no_nodes():
    """What is no line, and no node."""
    line("stored", "no node")
    line("open BE/BEC", "no setup")
    line("setup {}", "refused 4 Missing(nodes)")
    line("setup " + SETUP)
    line("open FR/FRC", "no such node")
    line("close BE/BEC", "no such node")
    line('{"event":"restart","node":"BE/BEC"}', "no node")
    # Parties are compared without case.
    line("open be/bec")
    line('{"event":"restart"}', "refused 4 Missing(node)")
    line("stored")


def lines_without_memory(party):
    """The charge in lines of several events."""
    groups = in_lines(party, 8)
    opened(party)
    for given, gives, _ in groups:
        line(given, *gives)
    line("stored", *groups[-1][2])


def without_memory(party):
    """The charge, and then the node of what is kept, at which the last request comes again."""
    events = events_of(party)
    opened(party)
    for given, gives, _ in events:
        line(given, *gives)
    line("reopen " + party, "reopened %d" % len(events[-1][2]))
    line("stored", *events[-1][2])


# The cases in which each allocation fails once: faults/fail_allocations.sh.
WITHOUT_MEMORY = [
    ("a charge at an operator over its keeper, which is then opened again", lambda: without_memory("BE/BEC")),
    ("a charge at a provider over its keeper, which is then opened again", lambda: without_memory("NL/TNM")),
    ("a charge at an operator in lines of several events", lambda: lines_without_memory("BE/BEC")),
    ("a charge at a provider in lines of several events", lambda: lines_without_memory("NL/TNM")),
]


def cases_without_memory():
    """The cases in which each allocation fails once: of each its name, the lines, and what they must give."""
    return [(name, *recorded(told)) for name, told in WITHOUT_MEMORY]


def recorded(told):
    """What is told in words: the lines, and what they give, which are not kept."""
    lines, wanted = len(LINES), len(WANTED)
    told()
    found = LINES[lines:], WANTED[wanted:]
    del LINES[lines:], WANTED[wanted:]
    return found


def cases():
    """The lines, and what they must give."""
    LINES.clear()
    WANTED.clear()
    no_nodes()
    for party in PARTIES:
        charge(party)
        charge_with_reopenings(party)
        each_commit_refused(party)
        refused_again_and_again(party)
        for size in (4, 9):
            charge_in_lines(party, size)
    told_but_none()
    return LINES, WANTED
