"""What the cases of `stored_cases` are told in: rows, the nodes that are made of them, and what then happens."""
import sys
from decimal import Decimal

from operator_case import OPERATOR, PROVIDERS, location, moment, own_id, reference, stored_record, text, token, url
from operator_charge_case import cdr_id, halves, named, place, session_id
from provider_case import OPERATORS, PROVIDER
from stored_rules import operator_faults, provider_faults

SITE = {"at": moment("10:00:00"), "party": OPERATOR, "providers": PROVIDERS,
        "site": {"currency": "EUR", "locations": [location("LOC1", ["E1", "E2"]), location("LOC2", ["E3"])], "price": 0.25,
                 "prices": [{"price": 0.5, "start_date_time": moment("10:00:40")}, {"price": 0.75, "start_date_time": moment("10:00:50")}]}}
LINES, WANTED = [], []
# The faults that some rows had alone, by the crate whose definition names them.
ALONE = set()


def line(given, *gives):
    """The next line, and what it gives; an empty line ends that, also where it is nothing."""
    LINES.append(given)
    WANTED.extend([*gives, ""])


def puts(rows):
    """The lines of rows, as if each were put, sorted."""
    return sorted("put %s %s %s" % (kind, key, text(tree)) for kind, key, tree in rows)


class Operators:
    """Rows of an operator of a site."""

    crate = "operator_stored"

    def __init__(self, site_line=None):
        self.site_line = site_line or SITE
        self.opening = "operator " + text(self.site_line)

    def faults(self, rows):
        return operator_faults(self.site_line, rows)


class Providers:
    """Rows of a provider with certain operators."""

    crate = "provider_stored"

    def __init__(self, parties=(PROVIDER, *OPERATORS)):
        self.parties = parties
        self.opening = "provider " + "\t".join(parties)

    def faults(self, rows):
        return provider_faults(self.parties, rows)


def tell(node, rows=()):
    """From here on it is about such a node, with these rows."""
    line(node.opening)
    for kind, key, tree in rows:
        line("row %s\t%s\t%s" % (kind, key, text(tree)))


def make(node, rows, places, wanted=None):
    """A node is made of the rows of these places, if they have no faults; where these are told, the rules must find just them."""
    given = [rows[at] for at in places]
    faults = node.faults(given)
    if wanted is not None and faults != set(wanted):
        sys.exit(f"other faults than {wanted}: {faults}, of rows\n" + "\n".join(puts(given)))
    if len(faults) == 1:
        ALONE.update((node.crate, fault) for fault in faults)
    gives = ["refused 7 BadRows"] if faults else ["made", *puts(given)]
    line(" ".join(["make", *map(str, places)]), *gives)


def orders(places):
    """The places as they are, reversed, and with the first half behind the second."""
    found = []
    for order in (places, places[::-1], places[len(places) // 2 :] + places[: len(places) // 2]):
        if order not in found:
            found.append(order)
    return found


def makes(node, rows, *faults):
    """A node is made of all these rows, or they have just these faults."""
    tell(node, rows)
    for order in orders(list(range(len(rows)))):
        make(node, rows, order, faults)


def beside(node, inside, outside, *faults):
    """A node is made of the rows `inside`; those `outside`, which differ a little, have just these faults."""
    rows = []
    for row in [*inside, *outside]:
        if row not in rows:
            rows.append(row)
    tell(node, rows)
    for listed, wanted in ((inside, ()), (outside, faults)):
        for order in orders([rows.index(row) for row in listed]):
            make(node, rows, order, wanted)


# ---- rows of both roles


def count(counter, last):
    return ("count", counter, {"last": last})


def numbered(party, number):
    return "%s/%d" % (party.upper(), number)


def reply(number, party="NL/TNM", answer="ACCEPTED"):
    body = {"data": {"result": answer, "timeout": 30}, "status_code": 1000, "timestamp": moment("10:00:00")}
    return ("reply", numbered(party, number), {"body": body, "kind": "command_response"})


def acknowledged(number, party="NL/TNM", status=1000):
    body = {"status_code": status, "timestamp": moment("10:00:00")}
    return ("reply", numbered(party, number), {"body": body, "kind": "ack"})


def token_row(uid="AA01", party="NL/TNM", **more):
    tree = token(uid, party, **more)
    return ("token", "/".join([tree["country_code"], tree["party_id"], tree["type"], tree["uid"]]).upper(), tree)


def push(number, kind, body, to="NL/TNM"):
    return ("push", "%d" % number, {"body": body, "kind": kind, "to": to})


def result_push(number, of=1, to="NL/TNM", word="ACCEPTED"):
    return push(number, "command_result", {"response_url": url(of, to), "result": word}, to)


def own_row(kind, tree):
    return (kind, "/".join([tree["country_code"], tree["party_id"], tree["id"]]).upper(), tree)


def session(number=1, status="ACTIVE", kwh="0.0000", cost="0.0000", evse="E1", connector="1", owner="NL/TNM", party=OPERATOR,
            name=None, where="LOC1", began="10:00:05", currency="EUR"):
    tree = {
        **halves(party), "auth_method": "WHITELIST", "cdr_token": named(token(party=owner)), "connector_id": connector,
        "currency": currency, "evse_uid": evse, "id": session_id(number) if name is None else name, "kwh": Decimal(kwh),
        "last_updated": moment("10:00:10"), "location_id": where, "start_date_time": moment(began), "status": status,
    }
    if status in ("COMPLETED", "INVALID"):
        tree["end_date_time"] = moment("10:00:10")
    if cost is not None:
        tree["total_cost"] = {"excl_vat": Decimal(cost)}
    return own_row("session", tree)


def record(number=1, of=1, party=OPERATOR, name=None, session_name=None, owner="NL/TNM"):
    """A charge detail record as a packet has it."""
    period = {"dimensions": [{"type": "ENERGY", "volume": Decimal("0.0000")}], "start_date_time": moment("10:00:05")}
    return {
        **halves(party), "auth_method": "WHITELIST", "cdr_location": place(), "cdr_token": named(token(party=owner)),
        "charging_periods": [period], "currency": "EUR", "end_date_time": moment("10:00:10"),
        "id": cdr_id(number) if name is None else name, "last_updated": moment("10:00:10"),
        "session_id": session_id(of) if session_name is None else session_name, "start_date_time": moment("10:00:05"),
        "total_cost": {"excl_vat": Decimal("0.0000")}, "total_energy": Decimal("0.0000"), "total_time": Decimal("0.0013"),
    }


def bill(*numbers, **more):
    return own_row("cdr", stored_record(record(*numbers, **more)))


def credit(number=1, of=1, name=None, taken_back=None, **more):
    """The credit of the bill of that number, unless another is told."""
    name, taken_back = (cdr_id(number) + "-C" if name is None else name), (cdr_id(number) if taken_back is None else taken_back)
    return own_row("cdr", {**record(number, of, name=name, **more), "credit": True, "credit_reference_id": taken_back})


def session_push(number, row, to="NL/TNM"):
    return push(number, "put_session", row[2], to)


# ---- rows of an operator


def start_body(number, party="NL/TNM", evse="E1", connector="1", where="LOC1", owner=None):
    return {"authorization_reference": reference(number, party), "connector_id": connector, "evse_uid": evse,
            "location_id": where, "response_url": url(number, party), "token": token(party=owner or party)}


def open_start(number=1, evse="E1", party="NL/TNM", connector="1", **more):
    tree = {"body": start_body(number, party, evse or "E1", connector or "1", **more), "deadline": moment("10:00:30"),
            "kind": "start_session"}
    if evse:
        tree["evse_uid"] = evse
    if connector:
        tree["connector_id"] = connector
    return ("pending", numbered(party, number), tree)


def open_unlock(number=1, party="NL/TNM", **more):
    body = {"connector_id": "1", "evse_uid": "E1", "location_id": "LOC1", "response_url": url(number, party)}
    tree = {"body": body, "deadline": moment("10:00:30"), "kind": "unlock_connector", **more}
    return ("pending", numbered(party, number), tree)


def settled(number=1, party="NL/TNM", word="ACCEPTED"):
    return ("result", numbered(party, number), {"result": word})


def spent(number=1, party="NL/TNM"):
    return ("spent", "%s/%s" % (party.upper(), reference(number, party).upper()), {})


def mark(name="R1", number=1, party="NL/TNM"):
    return ("mark", "%s/%s" % (party.upper(), name.upper()), {"number": number})


def reserved(name="R1", evse="E1", where="LOC1", party="NL/TNM", owner=None, until="11:00:00"):
    tree = {"evse_uid": evse, "expiry_date": moment(until), "location_id": where, "token": token(party=owner or party)}
    return ("reservation", "%s/%s" % (party.upper(), name.upper()), tree)


def out_of_service(evse):
    return ("service", evse.upper(), {})


# ---- rows of a provider


def command(number, name=None, to="BE/BEC", **more):
    """A start that was sent, with that authorization reference."""
    body = {"location_id": "LOC1", "response_url": url(number), "token": token()}
    if name:
        body["authorization_reference"] = name
    return ("command", "%d" % number, {"body": body, "kind": "start_session", "to": to, **more})


def stop_command(number, to="BE/BEC"):
    body = {"response_url": url(number), "session_id": "S1"}
    return ("command", "%d" % number, {"body": body, "kind": "stop_session", "to": to})


def token_push(number, uid="AA01", to="BE/BEC", party="NL/TNM", **more):
    return push(number, "put_token", token(uid, party, **more), to)


def held_session(name="S1", party="BE/BEC", **more):
    return session(party=party, name=name, **more)


def held_bill(name="C1", of="S1", party="BE/BEC", **more):
    return bill(party=party, name=name, session_name=of, **more)


def held_credit(name="C1-C", of="S1", taken_back="C1", party="BE/BEC", **more):
    return credit(party=party, name=name, session_name=of, taken_back=taken_back, **more)


def own_reference(number, party=PROVIDER):
    return own_id(b"A", number, party)
