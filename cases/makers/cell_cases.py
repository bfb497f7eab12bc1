"""The part `cells` of the cases of the program `case_lines`: nodes with the history of all that happened at them, alone and behind
a desk, and receipts.

The events are those of the charge of `kept_cases` at each of its two nodes: each is entered, also where it changes nothing. An
event that is refused is not. A history takes 100,000 entries.
"""
import json

from kept_cases import PARTIES, REFUSED, SETUP, events_of
from operator_case import moment, text

LINES, WANTED = [], []
MOST_ENTRIES = 100_000
MISSING = "passes are missing"


def line(given, *gives):
    """The next line, and what it gives; an empty line ends that, also where it is nothing."""
    LINES.append(given)
    WANTED.extend([*gives, ""])


def opened(party):
    line("setup " + SETUP)
    line("open " + party, "fresh 0")


def charge(party):
    """Each event is entered with its packets; then receipts are compared with the history."""
    opened(party)
    events = events_of(party)
    for place, (given, gives, _) in enumerate(events):
        line(given, *gives[:-1], "entry %d" % place)
    audits(len(events), next(at for at, (_, gives, _) in enumerate(events) if len(gives) > 1))
    line("reopen " + party, "again 0")
    line("audit", "audited 0")
    line("times 1 " + events[-1][0], "again 1")


def audits(entries, silent):
    line("audit", "audited %d" % entries)
    line("audit beyond", "missing %d" % entries)
    line("audit twice 1", "differs 1")
    line("audit silent %d" % silent, "differs %d" % silent)


def what_changes_nothing():
    """An event of the other role and `refused` are entries; an event that the node refuses is none."""
    at = moment("10:32:00")
    opened("NL/TNM")
    line(text({"event": "starts", "node": "NL/TNM", "at": at, "evse_uid": "E1"}), "entry 0")
    line(text({"event": "refused", "node": "NL/TNM"}), "entry 1")
    line(text({"event": "submit", "node": "NL/TNM", "at": at, "operator": "FR/FRC", "order": "stop_session", "session_id": "S1"}),
         "refused 5 UnknownOperator")
    line(text({"event": "tick", "node": "NL/TNM", "at": at}), "entry 2")
    line("audit", "audited 3")


def held():
    """The lines of README: the first node of the setup, an event for which it sends something, one that it refuses, none."""
    first = json.loads(SETUP)["nodes"][0]["party"]
    given, gives, _ = events_of(first)[0]
    line("hold " + SETUP + "\t" + given, *gives[:-1])
    line("hold " + SETUP, "none")


def desk_of_two_passes():
    """Each call has the next place; a desk closes with both passes alone; the receipts are the history."""
    tick = text({"event": "tick", "node": "NL/TNM", "at": moment("10:32:00")})
    opened("NL/TNM")
    line("desk 3 " + tick, *("place %d, seen %d" % (at, at + 1) for at in range(3)), MISSING, "audited 3", "fresh 3")
    line("audit", "audited 3")
    line("desk 1 " + tick, "place 3, seen 4", MISSING, "audited 1", "fresh 4")
    order = text({"event": "submit", "node": "NL/TNM", "at": moment("10:32:00"), "operator": "FR/FRC", "order": "stop_session",
                  "session_id": "S1"})
    line("desk 2 " + order, *["refused 5 UnknownOperator"] * 2, MISSING, "audited 0", "fresh 4")
    line("reopen NL/TNM", "again 0")
    line("desk 1 " + tick, "place 0, seen 1", MISSING, "audited 1", "again 1")


def called(events, refused=None):
    """The calls of a desk, one for each event, and what they give. The commit of one event is refused, if so told: all is as
    before, and that event comes again."""
    lines, gives = [], []
    for place, (given, sent, _) in enumerate(events):
        if place == refused:
            lines.append(given)
            gives.append(REFUSED)
        lines.append(given)
        gives += [*sent[:-1], "place %d, seen %d" % (place, place + 1)]
    line("calls " + "\t".join(lines), *gives, MISSING, "audited %d" % len(events), "fresh %d" % len(events))


def goes_on(party, events, number):
    """What is kept of so many events is what the node is then made of: the next event gives what it gives without a stop."""
    line("reopen " + party, "again 0")
    for given, gives, _ in events[number : number + 1]:
        line(given, *gives[:-1], "entry 0")


def charge_behind_a_desk(party):
    """Two passes bring the events of the charge in turn: the packets are those of a node without a desk."""
    opened(party)
    called(events_of(party))
    goes_on(party, [], 0)


def each_commit_refused_behind_a_desk(party):
    """Each commit of the charge is refused in turn."""
    events = events_of(party)
    commits = [at for at, (_, gives, _) in enumerate(events) if "changed" in gives]
    for number, at in enumerate(commits, 1):
        opened(party)
        line("refuse %d" % number)
        called(events[: at + 2], at)
        goes_on(party, events, at + 2)


def calls_until_a_history_is_full():
    """Each of 100,000 calls of one desk is entered, and the next one is refused."""
    opened("BE/BEC")
    told = range(9_999, MOST_ENTRIES, 10_000)
    line("busy %d %s" % (MOST_ENTRIES + 1, text({"event": "refused", "node": "BE/BEC"})),
         *("place %d, seen %d" % (at, at + 1) for at in told), "full", MISSING, "audited %d" % MOST_ENTRIES, "fresh %d" % MOST_ENTRIES)


def full_history():
    """The last entry is entered, and no more: the packets of an event that is not entered are not sent."""
    opened("BE/BEC")
    first = events_of("BE/BEC")[0]
    line("times %d %s" % (MOST_ENTRIES - 1, text({"event": "refused", "node": "BE/BEC"})), "fresh %d" % (MOST_ENTRIES - 1))
    line(first[0], *first[1][:-1], "entry %d" % (MOST_ENTRIES - 1))
    line(first[0], "full")
    line("times 2 " + text({"event": "refused", "node": "BE/BEC"}), "full", "fresh %d" % MOST_ENTRIES)
    line("desk 1 " + text({"event": "refused", "node": "BE/BEC"}), "full", MISSING, "audited 0", "fresh %d" % MOST_ENTRIES)
    line("audit", "audited %d" % MOST_ENTRIES)
    line("reopen BE/BEC", "again 0")


def cases():
    """The lines, and what they give."""
    for party in PARTIES:
        charge(party)
    what_changes_nothing()
    held()
    desk_of_two_passes()
    for party in PARTIES:
        charge_behind_a_desk(party)
        each_commit_refused_behind_a_desk(party)
    full_history()
    calls_until_a_history_is_full()
    return LINES, WANTED


def without_memory(party):
    """The charge, and then the node of what is kept."""
    opened(party)
    for place, (given, gives, _) in enumerate(events_of(party)):
        line(given, *gives[:-1], "entry %d" % place)
    line("reopen " + party, "again 0")


def desk_without_memory(party):
    """Three calls of a desk of two passes, which is then closed, and an audit; and then the node of what is kept."""
    events = events_of(party)
    opened(party)
    called(events[:3])
    goes_on(party, events, 3)


def cases_without_memory():
    """The cases in which each allocation fails once: of each its name, the lines, and what they must give."""
    found = []
    for name, told in (
        ("a charge at %s with its history, which is then opened again", without_memory),
        ("three calls of a desk of %s, which is then opened again", desk_without_memory),
    ):
        for party in PARTIES:
            lines, wanted = len(LINES), len(WANTED)
            told(party)
            found.append((name % party, LINES[lines:], WANTED[wanted:]))
            del LINES[lines:], WANTED[wanted:]
    return found
