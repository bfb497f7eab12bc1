"""Of which rows a node is made, by rules of its own: `operator_faults` and `provider_faults` give why rows are those of no
operator of a site, and of no provider with certain operators (the reasons of `IsBad`, by its names). Written from the rules
(docs/STORE.md, "A node made again of its rows"), with searches from end to end.

A row is its kind, its key and the tree of its text.
"""
import re
from decimal import Decimal

from operator_case import own_id

LAST_NUMBER = 10**18 - 1
COMMAND_OF_START = "start_session"


def party_of(tree):
    """The key of the party that a tree names by two members."""
    return f"{tree['country_code']}/{tree['party_id']}".upper()


def number_of(letter, party, name):
    """The number of which a party made an id, if it did."""
    if not re.fullmatch("[0-9a-f-]{36}", name):
        return None
    number = int(name.replace("-", "")[16:], 16)
    return number if number <= LAST_NUMBER and own_id(letter, number, party) == name else None


def session_number(party, session):
    return number_of(b"S", party, session["id"])


def record_number(party, record):
    """The number of which a party made the id of a charge detail record, if it did. The id of a credit is that of its bill and `-C`."""
    bill, end = (record["id"][:-2], record["id"][-2:]) if record["credit"] else (record["id"], "-C")
    return number_of(b"C", party, bill) if end == "-C" else None


def owner_and_rest(key):
    """The party of a key, and what stands behind it."""
    return key[:6], key[7:]


def of_kind(rows, kind):
    return [(key, tree) for name, key, tree in rows if name == kind]


def is_given(rows, counter, number):
    """The counter gave a number as high as that one, if it is one."""
    return number == 0 or any(key == counter and tree["last"] >= number for key, tree in of_kind(rows, "count"))


def subject(tree):
    """What a push is the newest state of."""
    body = tree["body"]
    if tree["kind"] == "put_session":
        return ("session", party_of(body), body["id"].upper())
    if tree["kind"] == "put_token":
        return ("token", tree["to"].upper(), party_of(body), body["type"], body["uid"].upper())
    return None


def pairs(values):
    """Each two of them, in the order in which they stand."""
    return [(values[i], values[j]) for i in range(len(values)) for j in range(i + 1, len(values))]


def shared_faults(rows, peers, foreign):
    """What is asked of rows of either role."""
    counts = of_kind(rows, "count")
    pushes = of_kind(rows, "push")
    if any(one[:2] == other[:2] for one, other in pairs(rows)):
        yield "Repeated"
    if any(foreign(kind, key) for kind, key, _ in rows):
        yield "Foreign"
    if any(tree["last"] == 0 for _, tree in counts):
        yield "NothingCounted"
    if not all(is_given(rows, "request", int(key)) for key, _ in pushes):
        yield "PushNotGiven"
    if any(tree["to"].upper() not in peers for _, tree in pushes):
        yield "PushToStranger"
    told = [(key, subject(tree)) for key, tree in pushes if subject(tree)]
    if any(one[0] != other[0] and one[1] == other[1] for one, other in pairs(told)):
        yield "PushedTwice"


# ---- an operator


def is_live(session):
    return session["status"] in ("PENDING", "ACTIVE")


class Site:
    """The EVSEs of a site line, by their keys: of each the location and the connectors."""

    def __init__(self, line):
        self.operator = line["party"].upper()
        self.providers = [name.upper() for name in line["providers"]]
        self.site = line["site"]
        self.evses = {}
        for location in line["site"]["locations"]:
            for evse in location["evses"]:
                connectors = [connector["id"].upper() for connector in evse["connectors"]]
                self.evses[evse["uid"].upper()] = (location["id"].upper(), connectors)

    def has(self, evse):
        return evse.upper() in self.evses

    def lacks_connector(self, evse, connector):
        """The EVSE is of the site, and the connector none of it."""
        return self.has(evse) and connector.upper() not in self.evses[evse.upper()][1]

    def is_elsewhere(self, evse, location):
        """The EVSE is of the site, and not at that location."""
        return self.has(evse) and self.evses[evse.upper()][0] != location.upper()

    def price(self, at):
        """That of the last entry that begins by the moment, and the site's own where there is none."""
        begun = [it["price"] for it in self.site.get("prices") or [] if it["start_date_time"] <= at]
        return begun[-1] if begun else self.site["price"]

    def cost(self, tree):
        """Of a session, in ten-thousandths, rounded down."""
        price = self.price(tree["start_date_time"])
        return int(Decimal(tree["kwh"]) * 10**4) * int(Decimal(str(price)) * 10**4) // 10**4


def claims(kind, key, tree):
    """The EVSE that a row claims and what it claims it as, in a list, or none."""
    if kind == "pending" and tree["kind"] == COMMAND_OF_START and "evse_uid" in tree:
        return [(tree["evse_uid"].upper(), ("start", key))]
    if kind == "reservation":
        return [(tree["evse_uid"].upper(), ("reserved", key))]
    if kind == "session" and is_live(tree):
        return [(tree["evse_uid"].upper(), ("live", party_of(tree["cdr_token"]), tree["id"].upper()))]
    return []


def is_foreign_to_operator(kind, key):
    return kind == "command" or (kind, key) == ("count", "reference")


def own_faults(rows, site, kind, number, name):
    """What is asked of the ids of sessions, and of those of charge detail records, whose numbers that finds."""
    trees = [tree for _, tree in of_kind(rows, kind)]
    numbers = [number(site.operator, tree) for tree in trees]
    if any(party_of(tree) != site.operator for tree in trees):
        yield f"{name}OfOther"
    if None in numbers:
        yield f"{name}IdNotOwn"
    if not all(is_given(rows, kind, number) for number in numbers if number is not None):
        yield f"{name}NotGiven"


def command_faults(rows, site):
    replies = {key for key, _ in of_kind(rows, "reply")}
    results = {key for key, _ in of_kind(rows, "result")}
    commands = of_kind(rows, "pending")
    starts = [(key, tree) for key, tree in commands if tree["kind"] == COMMAND_OF_START]
    if any(owner_and_rest(key)[0] not in site.providers for key, _ in commands):
        yield "CommandOfStranger"
    if any(party_of(tree["body"]["token"]) != owner_and_rest(key)[0] for key, tree in starts):
        yield "StartOfOtherToken"
    places = [(tree.get("evse_uid"), tree.get("connector_id")) for _, tree in starts]
    if any(evse is None for evse, _ in places):
        yield "StartWithoutEvse"
    if any(connector is None for _, connector in places):
        yield "StartWithoutConnector"
    if any(evse is not None and not site.has(evse) for evse, _ in places):
        yield "StartNowhere"
    if any(None not in place and site.lacks_connector(*place) for place in places):
        yield "StartAtNoConnector"
    if any(key not in replies for key, _ in commands):
        yield "OpenUnanswered"
    if results - replies:
        yield "ResultUnanswered"
    if any(key in results for key, _ in commands):
        yield "OpenWithResult"


def place_faults(rows, site):
    live = [tree for _, tree in of_kind(rows, "session") if is_live(tree)]
    reserved = [tree for _, tree in of_kind(rows, "reservation")]
    if any(party_of(tree) not in site.providers for _, tree in of_kind(rows, "token")):
        yield "TokenOfStranger"
    if any(party_of(tree["cdr_token"]) not in site.providers for tree in live):
        yield "SessionOfStranger"
    if any(key not in site.evses for key, _ in of_kind(rows, "service")):
        yield "ServiceNowhere"
    if not all(site.has(tree["evse_uid"]) for tree in reserved):
        yield "ReservationNowhere"
    if any(site.is_elsewhere(tree["evse_uid"], tree["location_id"]) for tree in reserved):
        yield "ReservationElsewhere"
    if not all(site.has(tree["evse_uid"]) for tree in live):
        yield "SessionNowhere"
    if any(site.lacks_connector(tree["evse_uid"], tree["connector_id"]) for tree in live):
        yield "SessionAtNoConnector"
    made = [claim for row in rows for claim in claims(*row)]
    if any(one[0] == other[0] and one[1] != other[1] for one, other in pairs(made)):
        yield "ClaimedTwice"


def bill_faults(rows, site):
    sessions = [tree for _, tree in of_kind(rows, "session")]
    records = [tree for _, tree in of_kind(rows, "cdr")]
    told = [(tree["id"].upper(), tree["session_id"].upper(), tree["credit"]) for tree in records]
    ended = [tree["id"].upper() for tree in sessions if tree["status"] == "COMPLETED"]
    costs = [(tree, tree["total_cost"]["excl_vat"]) for tree in sessions if "total_cost" in tree]
    if any(tree["status"] == "RESERVATION" for tree in sessions):
        yield "OfReservation"
    if len(costs) < len(sessions):
        yield "CostMissing"
    if any(tree["status"] == "PENDING" and Decimal(tree["kwh"]) for tree in sessions):
        yield "ChargedEarly"
    if any(int(Decimal(cost) * 10**4) != site.cost(tree) for tree, cost in costs):
        yield "OtherPrice"
    if any(tree["status"] in ("PENDING", "ACTIVE") and tree["currency"] != site.site["currency"] for tree in sessions):
        yield "OtherMoney"
    yield from {again(one[2]) for one, other in pairs(told) if one[0] != other[0] and one[1:] == other[1:]}
    if any(session not in ended for _, session, _ in told):
        yield "BilledEarly"
    if any(session not in [it for _, it, is_credit in told if not is_credit] for session in ended):
        yield "Unbilled"
    bills = [tree for tree in records if not tree["credit"]]
    if any(tree["credit"] and not any(takes_back(tree, bill) for bill in bills) for tree in records):
        yield "CreditWithoutBill"


def again(is_credit):
    """What two bills, or two credits, of one session are."""
    return "CreditedTwice" if is_credit else "BilledTwice"


def takes_back(credit, bill):
    """It is the credit of that bill."""
    of_it = credit["credit_reference_id"] == bill["id"] and credit["id"] == bill["id"] + "-C"
    return of_it and credit["session_id"].upper() == bill["session_id"].upper()


def operator_faults(site_line, rows):
    site = Site(site_line)
    return {
        *shared_faults(rows, site.providers, is_foreign_to_operator),
        *own_faults(rows, site, "session", session_number, "Session"),
        *own_faults(rows, site, "cdr", record_number, "Cdr"),
        *command_faults(rows, site),
        *place_faults(rows, site),
        *bill_faults(rows, site),
    }


# ---- a provider


OPERATORS_KINDS = ["service", "spent", "mark", "reservation", "pending", "result"]


def is_foreign_to_provider(kind, key):
    return kind in OPERATORS_KINDS or kind == "count" and key in ("session", "cdr")


def provider_faults(parties, rows):
    """Of the parties the first is the provider's."""
    provider, *operators = [name.upper() for name in parties]
    commands = of_kind(rows, "command")
    numbers = {key for key, _ in commands}
    bodies = [tree["body"] for _, tree in commands]
    references = [body["authorization_reference"] for body in bodies if "authorization_reference" in body]
    made = [number_of(b"A", provider, name) for name in references]
    records = [tree for _, tree in of_kind(rows, "cdr")]
    told = [(party_of(tree), tree["id"].upper(), tree["session_id"].upper(), tree["credit"]) for tree in records]
    faults = set(shared_faults(rows, operators, is_foreign_to_provider))
    if not all(is_given(rows, "request", int(key)) for key, _ in commands):
        faults.add("CommandNotGiven")
    if None in made:
        faults.add("ReferenceNotOwn")
    if not all(is_given(rows, "reference", number) for number in made if number is not None):
        faults.add("ReferenceNotGiven")
    if any(key in numbers for key, _ in of_kind(rows, "push")):
        faults.add("NumberShared")
    if any(tree["to"].upper() not in operators for _, tree in commands):
        faults.add("CommandToStranger")
    alike = [(one, other) for one, other in pairs(told) if one[0] == other[0] and one[2:] == other[2:]]
    faults.update(again(one[3]) for one, other in alike if one[1] != other[1])
    if any(party_of(tree) != provider for _, tree in of_kind(rows, "token")):
        faults.add("OtherToken")
    if any(party_of(tree["cdr_token"]) != provider for _, tree in of_kind(rows, "session")):
        faults.add("OtherSession")
    if any(party_of(tree["cdr_token"]) != provider for tree in records):
        faults.add("OtherCdr")
    return faults
