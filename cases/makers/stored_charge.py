"""The cases of `stored_cases` of a charge whose bill is taken back: that of the example `credit_with_a_store`, at each of its two
nodes alone, which is made again of its rows behind each event; and nodes that are made of the rows of its stages.

The events and the packets are those of the example, and the kinds and keys of the rows those that `world_cases` tells; the texts
of the rows are what the packets carry.
"""
import json
from decimal import Decimal

from operator_case import moment, stored_record
from stored_case import Operators, Providers, line, make, makes, puts, session, session_push, tell
from world_cases import CREDIT_STEPS, SETUP, STEPS, WHOLE, WHOLE_PACKETS

REPLIES = ["ack", "command_response"]
PUSHES = ["put_token", "put_session", "post_cdr", "command_result"]
# The stages: behind so many events, by the node of the last of them.
STAGES = {
    "BE/BEC": {"a token is known": 2, "the start is open": 5, "PENDING": 7, "PENDING, acknowledged": 11, "ACTIVE": 12,
               "metered": 15, "COMPLETED, with its record": 18, "all acknowledged": 22, "the record is taken back": 25,
               "the credit is acknowledged": 30},
    "NL/TNM": {"the token waits": 1, "the command waits": 4, "the command is answered": 6, "it has a result": 8,
               "the record is held": 20, "the credit is held": 28},
}


def read(text):
    return json.loads(text, parse_float=Decimal)


class Node:
    """A node of the charge: the rows that stand, and how many packets it sent."""

    def __init__(self, opening):
        self.opening = opening
        self.rows = {}
        self.sent = 0
        self.request = 0
        # The rows that stood behind so many events of the charge.
        self.behind = {}

    def listed(self):
        return [(kind, key, tree) for (kind, key), tree in self.rows.items()]

    def tree(self, kind, key, sent, came):
        """The text of a row that a step puts, by the packets that it sends and the one that came."""
        carried = {packet["kind"]: packet for packet in [*came, *sent]}
        if kind == "count":
            return {"last": {"serial": self.sent, "request": self.request}.get(key, 1)}
        if kind == "token":
            return carried["put_token"]["body"]
        if kind == "session":
            return carried["put_session"]["body"]
        if kind == "cdr":
            return stored_record(carried["post_cdr"]["body"])
        if kind == "reply":
            return next({"body": it["body"], "kind": it["kind"]} for it in sent if it["kind"] in REPLIES)
        if kind == "push":
            (found,) = [it for it in sent if it["kind"] in PUSHES and it["request"] == int(key)]
            return {name: found[name] for name in ("body", "kind", "to")}
        if kind == "result":
            return {"result": carried["command_result"]["body"]["result"]}
        if kind == "pending":
            there = {"connector_id": "1", "deadline": moment("10:00:30"), "evse_uid": "E1"}
            return {**there, "body": carried["start_session"]["body"], "kind": "start_session"}
        return self.command(key, carried) if kind == "command" else {}

    def command(self, key, carried):
        if "start_session" in carried:
            return {name: carried["start_session"][name] for name in ("body", "kind", "to")}
        row = dict(self.rows[("command", key)])
        if "command_response" in carried:
            row["answer"] = carried["command_response"]["body"]
        else:
            row["result"] = carried["command_result"]["body"]["result"]
        return row

    def step(self, changes, sent, came):
        """The rows that a step changes, each as its line."""
        self.sent += len(sent)
        own = [packet["request"] for packet in sent if packet["kind"] not in REPLIES]
        self.request = max([self.request, *own])
        lines = []
        for change in changes:
            word, kind, key = change.split(" ", 2)
            if word == "drop":
                del self.rows[(kind, key)]
                lines.append(change)
            else:
                row = (kind, key, self.tree(kind, key, sent, came))
                self.rows[(kind, key)] = row[2]
                lines.extend(puts([row]))
        return sorted(lines)


def nodes_of_charge():
    operator, provider = read(SETUP)["nodes"]
    site_line = {"at": moment("09:00:00"), "party": operator["party"], "providers": [provider["party"]], "site": operator["site"]}
    return {operator["party"]: Node(Operators(site_line)), provider["party"]: Node(Providers((provider["party"], operator["party"])))}


def steps_of_charge():
    """Of each event its node, its line there, the packet that comes if one does, those that are sent, and the rows that change."""
    packets = iter(WHOLE_PACKETS)
    by_serial = {}
    for event_line, (number, changes) in zip(WHOLE[1:], [*STEPS, *CREDIT_STEPS]):
        event = read(event_line)
        sent = [next(packets) for _ in range(number)]
        by_serial.update({(read(it)["from"], read(it)["serial"]): it for it in sent})
        came = []
        if event["event"] == "deliver":
            came = [by_serial[(event["from"], event["serial"])]]
            event_line = "%s %s" % (event["at"], came[0])
        yield event["node"], event_line, came, sent, changes


def rows_of_charge(party, on_step=lambda node, event_line, sent, rows: None):
    """One of the nodes of the charge, with its rows behind each event; of each event at it, `on_step` has the line, the packets that
    are sent and the rows that change."""
    node = nodes_of_charge()[party]
    for count, (of, event_line, came, sent, changes) in enumerate(steps_of_charge(), 1):
        if of == party:
            on_step(node, event_line, sent, node.step(changes, [read(it) for it in sent], [read(it) for it in came]))
        node.behind[count] = node.listed()
    return node


def charge_at(party):
    """The charge at one of its nodes, which is made again behind each event."""
    opening = nodes_of_charge()[party].opening
    tell(opening)
    make(opening, [], [], ())

    def step(node, event_line, sent, rows):
        line(event_line, *sent, *rows)
        line("again", "made", *puts(node.listed()))

    return rows_of_charge(party, step)


def one_row_wanting(node, rows):
    """Each row is left out in turn, and then each is there twice."""
    tell(node, rows)
    places = list(range(len(rows)))
    for place in places:
        make(node, rows, [it for it in places if it != place])
        make(node, rows, [*places[::-1], place], ("Repeated",))


def invalid(node):
    """The session of the charge as it ends without a start, and the EVSE is free again."""
    rows = [row for row in node.behind[11] if row[0] != "session"]
    (charging,) = [tree for kind, _, tree in node.behind[11] if kind == "session"]
    ended = {**charging, "status": "INVALID", "end_date_time": moment("10:00:20"), "last_updated": moment("10:00:20")}
    key = next(key for kind, key, _ in node.behind[11] if kind == "session")
    rows = [("count", "request", {"last": 3}) if row[:2] == ("count", "request") else row for row in rows]
    rows += [("session", key, ended), session_push(3, ("session", key, ended))]
    makes(node.opening, rows)
    other = session(2, "PENDING", evse="E1")
    counted = [("count", "session", {"last": 2}) if row[:2] == ("count", "session") else row for row in rows]
    makes(node.opening, [*counted, other])
    going = [row for row in counted if row[0] not in ("session", "push")]
    makes(node.opening, [*going, ("session", key, charging), other], "ClaimedTwice")


def add_charge():
    for party, stages in STAGES.items():
        node = charge_at(party)
        for behind in stages.values():
            makes(node.opening, node.behind[behind])
        one_row_wanting(node.opening, node.behind[20])
        if party == "BE/BEC":
            invalid(node)
            one_row_wanting(node.opening, node.behind[7])
