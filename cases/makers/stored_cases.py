"""The part `nodes` of the cases of the program `case_lines`: nodes that are made of rows, and what then happens at them.

Each list of rows is told with why it is bad, if it is, and the rules in `stored_rules` find it once more; some lists are drawn, and
these rules alone tell of them. The lists that are bad, and those beside them, are in `stored_faults`, a charge at nodes that are
made again behind each event in `stored_charge`. The cases of the parts `operator` and `provider` that begin with rows, or in which
a node starts again, are here once more, with the node made of its rows in place of that; and of what each other case there stores
a node is made.
"""
import json
import random
import re
from decimal import Decimal

import operator_case
import operator_cases
import provider_case
import provider_cases
from operator_case import OPERATOR, moment, text
from stored_case import (
    LINES,
    WANTED,
    Operators,
    Providers,
    acknowledged,
    bill,
    command,
    count,
    credit,
    held_bill,
    held_credit,
    held_session,
    line,
    make,
    makes,
    mark,
    open_start,
    open_unlock,
    out_of_service,
    own_reference,
    puts,
    reply,
    reserved,
    result_push,
    session,
    session_push,
    settled,
    spent,
    start_body,
    stop_command,
    tell,
    token_push,
    token_row,
)
from stored_charge import STAGES, add_charge, rows_of_charge
from stored_faults import add_faults
from stored_rules import LAST_NUMBER

DRAWN = 400
# Of the rows of other cases a node is made where they are no more.
MOST_ROWS = 12


def packet(kind, body, number, sender="NL/TNM", to=OPERATOR, at="10:00:20"):
    return "%s %s" % (moment(at), text({"body": body, "from": sender, "kind": kind, "request": number, "serial": 1, "to": to}))


def serials_that_are_used_up():
    """The last serial is given, and then none: a step that would send a packet is refused, and changes nothing."""
    node, start = Operators(), packet("start_session", start_body(1), 1)
    last = [count("serial", LAST_NUMBER)]
    makes(node, last)
    line(start, "refused 2 NumbersUsedUp")
    line("stored", *puts(last))
    line("again", "made", *puts(last))
    line(start, "refused 2 NumbersUsedUp")
    makes(node, [count("serial", LAST_NUMBER - 1)])
    (answered,) = [reply(1)]
    body = {**answered[2]["body"], "timestamp": moment("10:00:20")}
    answer = {"body": body, "from": OPERATOR, "kind": "command_response", "request": 1, "serial": LAST_NUMBER, "to": "NL/TNM"}
    opened = open_start(1)
    opened[2]["deadline"] = moment("10:00:50")
    rows = [*last, ("reply", "NL/TNM/1", {"body": body, "kind": "command_response"}), opened, spent(1)]
    line(start, text(answer), *puts(rows))
    line("stored", *puts(rows))
    line("again", "made", *puts(rows))
    line(start, "refused 2 NumbersUsedUp")
    line("stored", *puts(rows))


def nodes_without_rows():
    for node in (Operators(), Providers(), Providers(("NL/TNM",))):
        makes(node, [])
        line("stored")
        line("again", "made")


def many_rows():
    """Some two hundred rows, their counters last, in three orders and in one that is drawn; without a counter they are bad."""
    told, sent = [], []
    for at in range(1, 41):
        told += [mark("R%d" % at, at), settled(at), spent(at), result_push(at), acknowledged(at)]
        sent += [token_push(2 * at, "T%d" % at), command(2 * at - 1, own_reference(at)), token_row("T%d" % at)]
    operators = Operators(), [*told, count("serial", 90), count("request", 40)], "PushNotGiven"
    providers = Providers(), [*sent, count("request", 80), count("reference", 40)], "ReferenceNotGiven"
    for node, rows, fault in (operators, providers):
        makes(node, rows)
        places = list(range(len(rows)))
        random.Random(1).shuffle(places)
        make(node, rows, places, ())
        line("again", "made", *puts(rows))
        make(node, rows, [at for at in places if at != len(rows) - 1], (fault,))


def no_nodes():
    """What is no node, and no row, and what is asked of a node that is not."""
    line("make", "no node")
    line("stored", "no node")
    line("again", "no node")
    line("operator {}")
    line("make", "refused 4 Missing(at)")
    line("provider NL/TNM\tBE/BEC\tbe/bec")
    line("make", "no such parties")
    tell(Operators(), [settled(1)])
    line("make 1", "no such row")
    line("make x", "no such row")
    line("row result\tNL/TNM/1\t{}", "refused 4 Missing(result)")
    # A node stands until another is made, or rows are refused, or it is about another.
    line("make", "made")
    line("stored")
    line("make 0", "refused 7 BadRows")
    line("stored", "no node")
    line("make", "made")
    tell(Providers())
    line("stored", "no node")


def drawn(node, counters, pool):
    """Rows that are drawn out of these, mostly with the counters before them; the rules tell of which a node is made."""
    draw = random.Random(7)
    rows = [*counters, *pool]
    tell(node, rows)
    for _ in range(DRAWN):
        places = [at for at in range(len(counters)) if draw.random() < 0.9]
        places += draw.choices(range(len(counters), len(rows)), k=draw.randint(1, 5))
        draw.shuffle(places)
        make(node, rows, places)


def drawn_of_operators():
    done, other = session(1, "COMPLETED"), session(2, "COMPLETED", evse="E3")
    live = session(3, "ACTIVE", "12.3456", "3.0864", evse="E2")
    pool = [
        reply(1), reply(2), reply(1, "DE/EMP"), token_row(), token_row(party="DE/EMP"), out_of_service("E1"), spent(1), mark(),
        result_push(1), result_push(9), session_push(3, done), session_push(4, done), session_push(5, live), reserved(),
        reserved("R2", "E3", "LOC2"), reserved("R3", "E2"), open_start(1), open_start(2, "E2"), open_start(1, "E3", "DE/EMP"),
        open_unlock(2), settled(1), settled(2), settled(1, "DE/EMP"), done, other, live, session(4, "PENDING"),
        session(5, "INVALID"), session(9, "INVALID"), session(1, "INVALID", party="DE/EMP"), bill(1), bill(2, 2), bill(3, 2),
        bill(9, 3), token_row(party="AT/XXX"), command(1), credit(1), credit(2, 2), credit(3, 2), credit(1, 2), credit(9, 3),
    ]
    drawn(Operators(), [count("serial", 7), count("request", 6), count("session", 6), count("cdr", 6)], pool)


def drawn_of_providers():
    pool = [
        reply(1, "BE/BEC"), reply(2, "FR/FRC"), token_row(), token_row("AA02"), token_push(1), token_push(2),
        token_push(3, to="FR/FRC"), token_push(4, "AA02"), token_push(9, "AA03"), command(1, own_reference(1)),
        command(2, own_reference(2), result="ACCEPTED"), command(4), command(5, own_reference(9)), command(6, "A1"),
        stop_command(3), stop_command(5), stop_command(6, "AT/XXX"), held_session(), held_session("S2"),
        held_session(party="FR/FRC"), held_bill(), held_bill("C2"), held_bill("C3", "S2"), held_bill(party="FR/FRC"), spent(1),
        reserved(), settled(1, "BE/BEC"), token_row(party="DE/EMP"), held_session("S3", owner="DE/EMP"),
        held_bill("C4", "S4", owner="DE/EMP"), held_credit(), held_credit("C2-C"), held_credit("C3-C", "S3"), held_credit("C2"),
    ]
    drawn(Providers(), [count("serial", 7), count("request", 6), count("reference", 6)], pool)


# ---- the cases of the other parts


def told_in(part):
    """The cases of a part: of each how its node is opened, and its lines with what they give."""
    blocks, block = [], []
    for gives in part.WANTED:
        if gives == "":
            blocks.append(block)
            block = []
        else:
            block.append(gives)
    blocks = iter(blocks)
    opening, found = "", []
    for at, given in enumerate(part.LINES, 1):
        if at in part.OPENED:
            opening = opening if given.startswith("kept ") else given
        elif not given.startswith("\f"):
            gives = next(blocks)
            if given == "fresh":
                found.append((opening, []))
            # (that part makes a provider again in its own way)
            elif given != "again":
                found[-1][1].append((given, gives))
    return found


def read_row(gives):
    kind, key, tree = re.fullmatch(r"put (\S+) (.*?) (\{.*)", gives).groups()
    return kind, key, json.loads(tree, parse_float=Decimal)


def is_restart(given, gives):
    return given.startswith('{"') and not gives and json.loads(given)["event"] == "restart"


def go_on(node, lines):
    """A case that begins with rows that stand, of which the node is made, or has a restart, in whose place it is made again. There
    is no more to tell where rows come later, or these are bad."""
    rows = []
    while lines and lines[0][0].startswith("row "):
        kind, key, tree = lines.pop(0)[0].removeprefix("row ").split("\t", 2)
        rows.append((kind, key, json.loads(tree, parse_float=Decimal)))
    tell(node, rows)
    make(node, rows, range(len(rows)))
    if any(given.startswith("row ") for given, _ in lines) or node.faults(rows):
        return
    stand = {row[:2]: row for row in rows}
    for given, gives in lines:
        for change in gives if given != "stored" else []:
            if change.startswith("put "):
                row = read_row(change)
                stand[row[:2]] = row
            if change.startswith("drop "):
                del stand[tuple(change.split(" ", 2)[1:])]
        if is_restart(given, gives):
            line("again", "made", *puts(stand.values()))
        else:
            line(given, *gives)


def add_cases_of(part, node_of, most):
    """The cases that begin with rows or have a restart, and a node made of what each other stores at its end, where that is at most
    so many rows. Cases in which a provider is made of rows there need not be here too."""
    for opening, lines in told_in(part):
        if any(given == "made" for given, _ in lines):
            continue
        if lines[0][0].startswith("row ") or any(is_restart(given, gives) for given, gives in lines):
            go_on(node_of(opening), list(lines))
        elif lines[-1][0] == "stored" and len(lines[-1][1]) <= most:
            rows = [read_row(gives) for gives in lines[-1][1]]
            tell(node_of(opening), rows)
            make(node_of(opening), rows, range(len(rows)))


def operators_of(opening):
    return Operators(json.loads(opening))


def providers_of(opening):
    return Providers(opening.split("\t"))


# ---- all of them


# The cases in which each allocation fails once: faults/fail_allocations.sh.
WITHOUT_MEMORY = [
    ("an operator is made of the rows of a charge, and again", lambda: stage("BE/BEC", "COMPLETED, with its record")),
    ("a provider is made of the rows of a charge, and again", lambda: stage("NL/TNM", "the record is held")),
]


def cases_without_memory():
    """The cases in which each allocation fails once: of each its name, the lines, and what they must give."""
    return [(name, *recorded(told)) for name, told in WITHOUT_MEMORY]


def recorded(told):
    """What is told in words: the lines, and what they give, which are not kept."""
    lines, wanted = len(LINES), len(WANTED)
    told()
    found = LINES[lines:], WANTED[wanted:]
    del LINES[lines:], WANTED[wanted:]
    return found


def stage(party, name):
    """A node is made of the rows of a stage of the charge, and made again; and then of one row less, which are bad."""
    node = rows_of_charge(party)
    rows = node.behind[STAGES[party][name]]
    tell(node.opening, rows)
    make(node.opening, rows, range(len(rows)), ())
    line("again", "made", *puts(rows))
    make(node.opening, rows, [at for at in range(len(rows)) if rows[at][:2] != ("count", "request")])


def cases():
    """The lines, and what they must give."""
    if not operator_case.LINES:
        operator_cases.cases()
    if not provider_case.LINES:
        provider_cases.cases()
    no_nodes()
    nodes_without_rows()
    serials_that_are_used_up()
    many_rows()
    add_faults()
    add_charge()
    drawn_of_operators()
    drawn_of_providers()
    add_cases_of(operator_case, operators_of, MOST_ROWS)
    add_cases_of(provider_case, providers_of, MOST_ROWS)
    return LINES, WANTED
