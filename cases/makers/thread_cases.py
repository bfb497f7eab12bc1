"""The part `threads` of the cases of the program `case_lines`: the nodes of a setup on threads, over links that lose and repeat.

Which thread comes first is not told, so a case has only what each order of the threads gives.
"""
from operator_case import moment, text, token
from world_case import site

SETUP = text({"nodes": [
    {"party": "BE/BEC", "site": site("BE/BEC", "EUR", 0.25, LOC1=["E1", "E2"], LOC2=["E3"])},
    {"party": "FR/FRC", "site": site("FR/FRC", "EUR", 0.25, LOC9=["F1"])},
    {"party": "NL/TNM"}, {"party": "DE/EMP"}]})
LINES, WANTED = [], []


def line(given, *gives):
    """The next line, and what it gives; an empty line ends that, also where it is nothing."""
    LINES.append(given)
    WANTED.extend([*gives, ""])


def event(kind, party, **members):
    line(text({"event": kind, "node": party, "at": moment("10:00:00"), **members}))


def token_told():
    event("token", "NL/TNM", token=token("AA01"))


def ran(rounds, woven, **counts):
    """A run gives of each node as many receipts as entries, and the histories are woven into as many events as these are."""
    assert woven == sum(counts.values())
    gives = ["%s: entries %d, receipts %d" % (party.replace("_", "/"), number, number) for party, number in counts.items()]
    line("run %d" % rounds, *gives, "woven %d" % woven)


def two_nodes_meet():
    """An operator and a provider are each in a call while the other is."""
    line("setup " + SETUP)
    event("tick", "BE/BEC")
    event("tick", "NL/TNM")
    line("meet BE/BEC NL/TNM", "met")


def order_comes_twice():
    """A token goes to both operators, and then an order to one. Each packet comes twice, and each delivery is an entry: the two
    acknowledgements and the answer, of which a request that is repeated gets one of its own, also come twice."""
    line("setup " + SETUP)
    token_told()
    event("submit", "NL/TNM", operator="BE/BEC", order="start_session", token_uid="AA01", token_type="RFID", location_id="LOC1",
          evse_uid="E1", connector_id="1")
    line("every twice")
    # each operator gets the token twice and answers each of them; one gets the order twice and answers each of them; the
    # provider has two events of its own, and each of the six answers comes to it twice
    ran(10, 20, BE_BEC=4, FR_FRC=2, NL_TNM=14, DE_EMP=0)
    line("deliveries BE/BEC NL/TNM 3", "2")
    line("deliveries FR/FRC NL/TNM 3", "0")


def two_nodes():
    """A token goes to the one operator, and comes twice; so does each acknowledgement. Two nodes, in three rounds at most."""
    line("setup " + text({"nodes": [
        {"party": "BE/BEC", "site": site("BE/BEC", "EUR", 0.25, LOC1=["E1"])}, {"party": "NL/TNM"}]}))
    token_told()
    line("every twice")
    ran(5, 7, BE_BEC=2, NL_TNM=5)


def all_is_lost():
    """Where each packet is lost, the event of the node is the only entry."""
    line("setup " + SETUP)
    token_told()
    line("every drop")
    ran(3, 1, BE_BEC=0, FR_FRC=0, NL_TNM=1, DE_EMP=0)
    line("deliveries BE/BEC NL/TNM 1", "0")


def held_back():
    """A packet that is held is delivered behind those of the next round: in one round it does not come, in two it does."""
    for rounds, operators in ((1, 0), (2, 1)):
        line("setup " + SETUP)
        token_told()
        line("every hold")
        ran(rounds, 1 + 2 * operators, BE_BEC=operators, FR_FRC=operators, NL_TNM=1, DE_EMP=0)


def cases():
    """The lines, and what they give."""
    two_nodes_meet()
    order_comes_twice()
    two_nodes()
    all_is_lost()
    held_back()
    return LINES, WANTED


def cases_without_memory():
    """The case in which each allocation fails once: its name, the lines, and what they must give. (Which allocation has a number
    depends on the threads, but each number is one.)"""
    lines, wanted = len(LINES), len(WANTED)
    two_nodes()
    found = [("a token at two nodes on threads, where each packet comes twice", LINES[lines:], WANTED[wanted:])]
    del LINES[lines:], WANTED[wanted:]
    return found
