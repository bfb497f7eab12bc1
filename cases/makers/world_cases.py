"""The part `worlds` of the cases of the program `case_lines`: events in worlds of nodes, and what is then asked of them.

What each line must give is told behind it by hand: of an event the rows that it changes, by their kinds and keys, and how many
packets it sends. The events of a charge are those of the example `play/charge`, and those by which its bill is taken back are the
further ones of `stores/credit_with_a_store`; the packets that they send are the next ones of these examples.
"""
import pathlib

from operator_case import moment, own_id, reference, text, token
from world_case import World, site

EXAMPLES = pathlib.Path(__file__).resolve().parents[2] / "examples"


def example(name):
    """The input lines of an example, and the packets that its output has."""
    texts = [EXAMPLES.joinpath(name, file).read_text(encoding="utf-8") for file in ("in.jsonl", "out")]
    given, gives = (text.splitlines() for text in texts)
    return given, [line for line in gives if line.startswith("{")]


(SETUP, *CHARGE), PACKETS = example("play/charge")
WHOLE, WHOLE_PACKETS = example("stores/credit_with_a_store")
CREDIT, CREDIT_PACKETS = WHOLE[len(CHARGE) + 1 :], WHOLE_PACKETS[len(PACKETS) :]
assert WHOLE == [SETUP, *CHARGE, *CREDIT] and WHOLE_PACKETS == [*PACKETS, *CREDIT_PACKETS]
SESSION = own_id(b"S", 1, "BE/BEC")
BILL = own_id(b"C", 1, "BE/BEC")
PENDING = "PENDING 0.0000 2025-01-01T10:00:05Z"
ACTIVE = "ACTIVE 0.0000 2025-01-01T10:00:10Z"
METERED = "ACTIVE 12.3456 2025-01-01T10:30:00Z"
COMPLETED = "COMPLETED 12.3456 2025-01-01T10:30:10Z"
PAST = [PENDING, ACTIVE, METERED, COMPLETED]
LINES, WANTED = [], []

# Of each event of the charge, how many packets it sends and the rows that it changes.
COUNTED = ["put count serial", "put count request"]
HELD = "put session BE/BEC/" + SESSION.upper()
STEPS = [
    # The token is stored, pushed, taken and acknowledged.
    (1, [*COUNTED, "put token NL/TNM/RFID/AA01", "put push 1"]),
    (1, ["put count serial", "put reply NL/TNM/1", "put token NL/TNM/RFID/AA01"]),
    (0, ["drop push 1"]),
    # A session is ordered; the command is sent, taken and answered.
    (1, [*COUNTED, "put count reference", "put command 2"]),
    (1, ["put count serial", "put reply NL/TNM/2", "put pending NL/TNM/2", "put spent NL/TNM/" + reference(1).upper()]),
    (0, ["put command 2"]),
    # It is carried out: its result and the session are pushed, taken and acknowledged.
    (2, [*COUNTED, "drop pending NL/TNM/2", "put result NL/TNM/2", "put push 1", "put count session", HELD, "put push 2"]),
    (1, ["put count serial", "put reply BE/BEC/1", "put command 2"]),
    (1, ["put count serial", "put reply BE/BEC/2", HELD]),
    (0, ["drop push 1"]),
    (0, ["drop push 2"]),
    # It starts, and is metered.
    (1, [*COUNTED, HELD, "put push 3"]),
    (1, ["put count serial", "put reply BE/BEC/3", HELD]),
    (0, ["drop push 3"]),
    (1, [*COUNTED, HELD, "put push 4"]),
    (1, ["put count serial", "put reply BE/BEC/4", HELD]),
    (0, ["drop push 4"]),
    # It stops, and its charge detail record is pushed behind its last version.
    (2, [*COUNTED, HELD, "put push 5", "put count cdr", "put cdr BE/BEC/" + BILL.upper(), "put push 6"]),
    (1, ["put count serial", "put reply BE/BEC/5", HELD]),
    (1, ["put count serial", "put reply BE/BEC/6", "put cdr BE/BEC/" + BILL.upper()]),
    (0, ["drop push 5"]),
    (0, ["drop push 6"]),
    # Nothing is due.
    (0, []),
    (0, []),
]
# Of each event by which the bill is taken back, behind the charge, the same.
CREDIT_ROW = "put cdr BE/BEC/" + BILL.upper() + "-C"
CREDIT_STEPS = [
    # The credit is made and pushed; ordered again it is not, and no other session has a bill.
    (1, [*COUNTED, CREDIT_ROW, "put push 7"]),
    (0, []),
    (0, []),
    # It comes twice, and so does its acknowledgement.
    (1, ["put count serial", "put reply BE/BEC/7", CREDIT_ROW]),
    (1, ["put count serial"]),
    (0, ["drop push 7"]),
    (0, []),
    # Ordered once more it is not made; nothing is due.
    (0, []),
    (0, []),
    (0, []),
]
# The credit came, so that nothing is owed, behind so many of these.
CREDITED_AFTER = 4
# Behind so many events of the charge its session has one version more, and behind so many it is owed.
VERSIONS_AFTER = [7, 12, 15, 18]
OWED_AFTER = 20


def line(given, *gives):
    """The next line, and what it gives; an empty line ends that, also where it is nothing."""
    LINES.append(given)
    WANTED.extend([*gives, ""])


def told(word, packets, rows):
    """What is told of a step, behind a word: its packets, and its rows in order of their lines."""
    return [f"{word} {len(rows)} {len(packets)}", *packets, *sorted(rows)]


def opened(setup=SETUP):
    line("open " + setup)


def event(word, packets=(), rows=(), **members):
    line(text(members), *told(word, packets, rows))


def past(versions, operator="BE/BEC", session=SESSION):
    line(f"past {operator} {session}", *versions)


def owed(amount, provider="NL/TNM", operator="BE/BEC", currency="EUR"):
    line(f"settlement {provider} {operator} {currency}", str(amount))


def charge(last=len(CHARGE)):
    """The events of the charge up to that one, with what is asked behind each."""
    packets = iter(PACKETS)
    for count, (given, (number, rows)) in enumerate(zip(CHARGE[:last], STEPS), 1):
        sent = [next(packets) for _ in range(number)]
        line(given, *told("stepped", sent, rows))
        past([version for version, after in zip(PAST, VERSIONS_AFTER) if after <= count])
        owed(30864 if OWED_AFTER <= count else 0)


def taken_back():
    """The bill of the charge is taken back: what was owed is taken off, once. The session keeps its past."""
    packets = iter(CREDIT_PACKETS)
    for count, (given, (number, rows)) in enumerate(zip(CREDIT, CREDIT_STEPS), 1):
        line(given, *told("stepped", [next(packets) for _ in range(number)], rows))
        past(PAST)
        owed(0 if CREDITED_AFTER <= count else 30864)


def nobody_has_a_past():
    """Of whom or of what there is nothing."""
    past([], session=own_id(b"S", 2, "BE/BEC"))
    past([], session=SESSION[:-1])
    past([], session="")
    past([], operator="FR/FRC")
    past([], operator="NL/TNM")
    owed(0, provider="DE/EMP")
    owed(0, provider="BE/BEC")
    owed(0, operator="FR/FRC")
    owed(0, operator="NL/TNM")
    owed(0, currency="USD")
    owed(0, currency="")


def events_of_no_node():
    """Each is behind a step that sent a packet and changed a row, and is told of with none."""
    at = moment("10:32:00")
    again = text({"body": {"status_code": 1000, "timestamp": moment("10:30:10")}, "from": "NL/TNM", "kind": "ack", "request": 6,
                  "serial": 8, "to": "BE/BEC"})
    passed = [
        # There is no node of that party.
        ("skipped", {"event": "tick", "node": "FR/FRC", "at": at}),
        # The role of that node has no such event.
        ("skipped", {"event": "token", "node": "BE/BEC", "at": at, "token": token()}),
        ("skipped", {"event": "credit", "node": "NL/TNM", "at": at, "session_id": SESSION}),
        ("skipped", {"event": "starts", "node": "NL/TNM", "at": at, "evse_uid": "E1"}),
        ("skipped", {"event": "service", "node": "NL/TNM", "evse_uid": "E1", "in_service": False}),
        # That packet was not sent, was sent to another node, or is of no node.
        ("skipped", {"event": "deliver", "node": "NL/TNM", "at": at, "from": "BE/BEC", "serial": 9}),
        ("skipped", {"event": "deliver", "node": "NL/TNM", "at": at, "from": "BE/BEC", "serial": 0}),
        ("skipped", {"event": "deliver", "node": "BE/BEC", "at": at, "from": "BE/BEC", "serial": 1}),
        ("skipped", {"event": "deliver", "node": "NL/TNM", "at": at, "from": "FR/FRC", "serial": 1}),
        # The node refuses it.
        ("refused 5 UnknownOperator", {"event": "submit", "node": "NL/TNM", "at": at, "operator": "FR/FRC",
                                       "order": "stop_session", "session_id": SESSION}),
        # There is no bill to take back; its storing was refused; nothing is due; the node starts again.
        ("stepped", {"event": "credit", "node": "BE/BEC", "at": at, "session_id": SESSION[:-1]}),
        ("stepped", {"event": "refused", "node": "NL/TNM"}),
        ("stepped", {"event": "tick", "node": "BE/BEC", "at": at}),
        ("stepped", {"event": "restart", "node": "BE/BEC"}),
        ("stepped", {"event": "restart", "node": "NL/TNM"}),
    ]
    for serial, (word, members) in enumerate(passed, 9):
        # The record comes once more, and the kept reply is sent again.
        packet = again.replace('"serial":8', f'"serial":{serial}')
        event("stepped", [packet], ["put count serial"], event="deliver", node="NL/TNM", at=at, **{"from": "BE/BEC"}, serial=8)
        line("told", *told("told", [packet], ["put count serial"]))
        event(word, **members)
        line("told", *told("told", [], []))


def starts_again():
    """Both nodes start again behind each event of the charge, which sends and changes what it does without that."""
    packets = iter(PACKETS)
    opened()
    nodes = ["BE/BEC", "NL/TNM"]
    for given, (number, rows) in zip(CHARGE, STEPS):
        line(given, *told("stepped", [next(packets) for _ in range(number)], rows))
        for node in nodes:
            event("stepped", event="restart", node=node)
        nodes.reverse()
    past(PAST)
    owed(30864)
    goes_on(9)
    line("run")
    past(PAST)
    owed(30864)


def credits_start_again():
    """The whole charge, and its bill is taken back, where both nodes start again behind each event; and at once."""
    opened()
    packets = iter(WHOLE_PACKETS)
    for given, (number, rows) in zip([*CHARGE, *CREDIT], [*STEPS, *CREDIT_STEPS]):
        line(given, *told("stepped", [next(packets) for _ in range(number)], rows))
        for node in ("NL/TNM", "BE/BEC"):
            event("stepped", event="restart", node=node)
    for at_once in (False, True):
        if at_once:
            line("run")
        past(PAST)
        owed(0)


def play(world):
    """Opens a world, and lets its events happen."""
    opened(world.setup)
    go_on(world)


def go_on(world):
    """Lets the events of a world happen that were not told yet."""
    for given, packets, rows in world.events[world.told :]:
        line(given, *told("stepped", packets, rows))
    world.told = len(world.events)


BELGIAN = ("BE/BEC", site("BE/BEC", "EUR", 0.25, LOC1=["E1", "E2"]))
FRENCH = ("FR/FRC", site("FR/FRC", "CHF", 0.3, LOC9=["F1"]))
NORWEGIAN = ("NO/ONO", site("NO/ONO", "NOK", 0.3, LOC9=["F1"]))
DUTCH, GERMAN = ("NL/TNM", None), ("DE/EMP", None)


def charges_at_two_operators(**members):
    """Two operators and two providers, of which none stands beside its like in the setup: each token goes to both
    operators, in the order of the setup, and one provider charges at both."""
    world = World(FRENCH, DUTCH, BELGIAN, GERMAN, **members)
    dutch = world.token("NL/TNM", "AA01", "09:00:00")
    german = world.token("DE/EMP", "DD01", "09:00:01")
    world.charge("NL/TNM", "BE/BEC", dutch, "LOC1", "E1", 10, "12.3456", "3.0864")
    world.charge("DE/EMP", "FR/FRC", german, "LOC9", "F1", 11, "10.0000", "3.0000")
    world.charge("NL/TNM", "FR/FRC", dutch, "LOC9", "F1", 12, "0.0005", "0.0001")
    return world


def two_operators():
    play(charges_at_two_operators())
    past(PAST)
    for number, hour, kwh in [(1, "T11:", "10.0000"), (2, "T12:", "0.0005")]:
        versions = [version.replace("T10:", hour).replace("12.3456", kwh) for version in PAST]
        past(versions, "FR/FRC", own_id(b"S", number, "FR/FRC"))
    debts = [("NL/TNM", "FR/FRC", "CHF", 1), ("NL/TNM", "BE/BEC", "EUR", 30864), ("DE/EMP", "FR/FRC", "CHF", 30000),
             ("DE/EMP", "BE/BEC", "EUR", 0), ("NL/TNM", "FR/FRC", "EUR", 0), ("NL/TNM", "BE/BEC", "CHF", 0)]
    for provider, operator, currency, amount in debts:
        owed(amount, provider, operator, currency)
    line("run")
    for provider, operator, currency, amount in debts:
        owed(amount, provider, operator, currency)


def service_of_an_evse():
    """An EVSE goes out of service, at which a start finds it inoperative, and comes back, at which one takes it."""
    world = World(BELGIAN, DUTCH)
    served(world, world.token("NL/TNM", "AA01", "09:00:00"), 10)
    play(world)


def served(world, stored, hour):
    dutch, belgian = world.nodes["NL/TNM"], world.nodes["BE/BEC"]
    world.service("BE/BEC", "e2", False)
    world.inoperative(dutch, belgian, stored, "LOC1", "E2", "%d:00:00" % hour)
    world.service("BE/BEC", "E2", True)
    world.started(dutch, belgian, stored, "LOC1", "E2", "%d:00:10" % hour)


def credits_at_two_operators():
    """Bills are taken back, and one credit comes before its bill: each counts once, at its operator alone. Parties are
    spelled in another case, and so are sessions (whose ids have letters at one of the operators)."""
    world = World(NORWEGIAN, DUTCH, BELGIAN, GERMAN, spell=str.lower)
    dutch = world.token("NL/TNM", "AA01", "09:00:00")
    german = world.token("DE/EMP", "DD01", "09:00:01")
    first = world.charge("NL/TNM", "NO/ONO", dutch, "LOC9", "F1", 10, "12.3456", "3.7036", bill_comes=False)
    second = world.charge("DE/EMP", "BE/BEC", german, "LOC1", "E1", 11, "10.0000", "2.5000")
    third = world.charge("NL/TNM", "BE/BEC", dutch, "LOC1", "E1", 12, "0.0005", "0.0001")
    debts = {("NL/TNM", "NO/ONO", "NOK"): 0, ("NL/TNM", "BE/BEC", "EUR"): 1, ("DE/EMP", "BE/BEC", "EUR"): 25000,
             ("DE/EMP", "NO/ONO", "NOK"): 0}
    opened(world.setup)

    def owing(*key, amount=0):
        go_on(world)
        if key:
            debts[key] = amount
        for (provider, operator, currency), it in debts.items():
            owed(it, provider, operator, currency)

    owing()
    world.credit_none("BE/BEC", own_id(b"S", 3, "BE/BEC"), "12:59:59")
    world.credit_none("BE/BEC", first.body["session_id"], "12:59:59")
    back = world.credit(first, "13:00:00")
    world.credit_none("NO/ONO", first.body["session_id"], "13:00:00")
    owing()
    end = world.take(back, "13:00:01")
    owing("NL/TNM", "NO/ONO", "NOK", amount=-37036)
    world.take_again(back, "13:00:01", "13:00:02")
    owing()
    world.take(first, "13:00:03")
    owing("NL/TNM", "NO/ONO", "NOK")
    world.take_again(first, "13:00:03", "13:00:04")
    world.take_again(back, "13:00:01", "13:00:04")
    end()
    world.credit_none("NO/ONO", first.body["session_id"].upper(), "13:00:05")
    owing()
    small, large = world.credit(third, "13:00:06"), world.credit(second, "13:00:06")
    world.take(large, "13:00:07")()
    owing("DE/EMP", "BE/BEC", "EUR")
    world.take(small, "13:00:07")()
    owing("NL/TNM", "BE/BEC", "EUR")
    line("run")
    owing()


def other_spellings():
    """Nothing is other where events spell their parties in another case: packets and rows are as the setup has them."""
    play(charges_at_two_operators(spell=str.lower))
    owed(30864, "nl/tnm", "be/bec", "EUR")


def add_worlds():
    line("told", "no world")
    opened()
    line("told", *told("told", [], []))
    past([])
    owed(0)
    nobody_has_a_past()
    # Step by step.
    charge()
    past(PAST, operator="be/bec")
    owed(30864, provider="nl/tnm", operator="be/bec")
    nobody_has_a_past()
    events_of_no_node()
    past(PAST)
    owed(30864)
    # And all these events at once: of a run neither packets nor changes are told.
    line("run")
    line("told", *told("told", [], []))
    past(PAST)
    owed(30864)
    nobody_has_a_past()
    # It goes on from there.
    goes_on(24)
    opened()
    charge()
    taken_back()
    line("run")
    past(PAST)
    owed(0)
    # Up to a step that sends a packet and changes rows; no event at all.
    opened()
    charge(OWED_AFTER)
    line("run")
    line("told", *told("told", [], []))
    past(PAST)
    owed(30864)
    opened()
    line("run")
    line("told", *told("told", [], []))
    past([])
    owed(0)
    starts_again()
    credits_start_again()
    two_operators()
    credits_at_two_operators()
    service_of_an_evse()
    other_spellings()


def goes_on(serial):
    """The session stays as it is, and the kept reply is sent again, by that serial."""
    at = moment("10:33:00")
    event("stepped", event="stops", node="BE/BEC", at=at, evse_uid="E1")
    packet = text({"body": {"status_code": 1000, "timestamp": moment("10:30:10")}, "from": "NL/TNM", "kind": "ack", "request": 6,
                   "serial": serial, "to": "BE/BEC"})
    event("stepped", [packet], ["put count serial"], event="deliver", node="NL/TNM", at=at, **{"from": "BE/BEC"}, serial=8)
    past(PAST)
    owed(30864)


def cases():
    """The lines, and what they must give."""
    LINES.clear()
    WANTED.clear()
    add_worlds()
    return LINES, WANTED
