"""What worlds of several nodes are told in: whole exchanges, such as a token that goes to each operator, or a charge
from its order to its bill.

Each event is told with the packets that it must send and the rows that it must change, by their kinds and keys. Each
node counts its own packets and requests, and what is delivered is named by its sender and the number under which it was
sent.
"""
from collections import namedtuple
from decimal import Decimal

from operator_case import location, moment, own_id, reference, text, token, url
from operator_charge_case import credit_of, halves, named, place

COUNTED = ["put count serial", "put count request"]
# A charge detail record: the nodes, and how it is pushed, which is its serial, its request and the row that it puts.
Record = namedtuple("Record", "provider operator body push")


def own_evse(operator, given):
    return {**given, "evse_id": "%s*%s" % (operator.upper().replace("/", "*"), given.get("evse_uid", given.get("uid")))}


def site(operator, currency, price, **locations):
    """The site of an operator: of each location the uids of its EVSEs."""
    made = [location(name, uids) for name, uids in locations.items()]
    for it in made:
        it["evses"] = [own_evse(operator, evse) for evse in it["evses"]]
    return {"currency": currency, "locations": made, "price": price}


class Node:
    """A node as it is spelled in the setup, and the last number of each of its counters."""

    def __init__(self, party, its_site):
        self.party, self.site, self.key = party, its_site, party.upper()
        self.serial = self.request = self.reference = self.session = self.cdr = 0

    def next_requests(self, count):
        first = self.request + 1
        self.request += count
        return list(range(first, self.request + 1))


class World:
    """The events of a world so far: of each its line, its packets and its rows. Parties are spelled by `spell`."""

    def __init__(self, *nodes, spell=str):
        self.nodes = {party: Node(party, its_site) for party, its_site in nodes}
        told = [{"party": party, **({"site": its_site} if its_site else {})} for party, its_site in nodes]
        self.setup = text({"nodes": told})
        self.spell = spell
        self.events = []
        # How many of these were told.
        self.told = 0

    def operators(self):
        return [it for it in self.nodes.values() if it.site]

    def send(self, sender, to, kind, body, request):
        """The next packet of a node."""
        sender.serial += 1
        ends = {"from": sender.party, "to": to.party}
        return text({**ends, "body": body, "kind": kind, "request": request, "serial": sender.serial})

    def happens(self, node, event, packets, rows, **members):
        self.events.append((text({"event": event, "node": self.spell(node.party), **members}), packets, rows))

    def deliver(self, node, sender, serial, clock, packets, rows):
        named_by = {"from": self.spell(sender.party), "serial": serial}
        self.happens(node, "deliver", packets, rows, at=moment(clock), **named_by)

    def acknowledge(self, node, sender, serial, request, clock, row):
        """A push comes, which puts that row, and its acknowledgement comes back."""
        ack = self.send(node, sender, "ack", {"status_code": 1000, "timestamp": moment(clock)}, request)
        rows = ["put count serial", "put reply %s/%d" % (sender.key, request), row]
        self.deliver(node, sender, serial, clock, [ack], rows)
        return lambda own=node.serial: self.deliver(sender, node, own, clock, [], ["drop push %d" % request])

    def token(self, party, uid, clock):
        """A provider stores a token, and hands it to each operator, in the order of the setup."""
        provider, given = self.nodes[party], token(uid, party)
        row = "put token %s/RFID/%s" % (provider.key, uid)
        first, operators = provider.serial + 1, self.operators()
        requests = provider.next_requests(len(operators))
        stored = {**given, "last_updated": moment(clock)}
        packets = [self.send(provider, to, "put_token", stored, request) for to, request in zip(operators, requests)]
        pushes = ["put push %d" % request for request in requests]
        self.happens(provider, "token", packets, [*COUNTED, row, *pushes], at=moment(clock), token=given)
        for serial, (operator, request) in enumerate(zip(operators, requests), first):
            self.acknowledge(operator, provider, serial, request, clock, row)()
        return stored

    def order(self, provider, operator, stored, there, clock):
        """A start is ordered and sent. Answers its number and the reference."""
        provider.reference += 1
        number, = provider.next_requests(1)
        spent = reference(provider.reference, provider.party)
        body = {**there, "authorization_reference": spent, "response_url": url(number, provider.key), "token": stored}
        order = {"order": "start_session", "token_type": stored["type"], "token_uid": stored["uid"], **there}
        packet = self.send(provider, operator, "start_session", body, number)
        rows = [*COUNTED, "put count reference", "put command %d" % number]
        self.happens(provider, "submit", [packet], rows, at=moment(clock), operator=self.spell(operator.party), **order)
        return number, spent

    def respond(self, operator, provider, number, clock):
        """The response ACCEPTED to a command."""
        body = {"data": {"result": "ACCEPTED", "timeout": 30}, "status_code": 1000, "timestamp": moment(clock)}
        return self.send(operator, provider, "command_response", body, number)

    def result(self, operator, provider, number, word):
        """The result of a command, as a push. Answers the push's number too."""
        request, = operator.next_requests(1)
        body = {"response_url": url(number, provider.key), "result": word}
        return request, self.send(operator, provider, "command_result", body, request)

    def started(self, provider, operator, stored, location_id, evse, clock):
        """A start is ordered, taken and answered. Answers its number and the reference."""
        there = {"connector_id": "1", "evse_uid": evse, "location_id": location_id}
        number, spent = self.order(provider, operator, stored, there, clock)
        key = "%s/%d" % (provider.key, number)
        response = self.respond(operator, provider, number, clock)
        rows = ["put count serial", "put reply " + key, "put pending " + key]
        rows += ["put spent %s/%s" % (provider.key, spent.upper())]
        self.deliver(operator, provider, provider.serial, clock, [response], rows)
        self.deliver(provider, operator, operator.serial, clock, [], ["put command %d" % number])
        return number, spent

    def inoperative(self, provider, operator, stored, location_id, evse, clock):
        """A start is ordered of an EVSE that is out of service: it is answered, and its result follows."""
        there = {"connector_id": "1", "evse_uid": evse, "location_id": location_id}
        number, _ = self.order(provider, operator, stored, there, clock)
        key, first = "%s/%d" % (provider.key, number), operator.serial + 1
        response = self.respond(operator, provider, number, clock)
        request, result = self.result(operator, provider, number, "EVSE_INOPERATIVE")
        rows = [*COUNTED, "put reply " + key, "put result " + key, "put push %d" % request]
        self.deliver(operator, provider, provider.serial, clock, [response, result], rows)
        self.deliver(provider, operator, first, clock, [], ["put command %d" % number])
        self.acknowledge(provider, operator, first + 1, request, clock, "put command %d" % number)()

    def service(self, party, evse, works):
        verb = "drop" if works else "put"
        rows = ["%s service %s" % (verb, evse.upper())]
        self.happens(self.nodes[party], "service", [], rows, evse_uid=evse, in_service=works)

    def version(self, operator, provider, session, extra=()):
        """A version of a session is stored, pushed and taken. Answers its push and what acknowledges it."""
        request, = operator.next_requests(1)
        packet = self.send(operator, provider, "put_session", session, request)
        held = "put session %s/%s" % (operator.key, session["id"].upper())
        return packet, [*COUNTED, held, "put push %d" % request, *extra], (operator.serial, request, held)

    def charge(self, party, at_party, stored, location_id, evse, hour, kwh, cost, bill_comes=True):
        """A charge of half an hour by a token that was stored, from its order to its bill, which comes or does not.
        Answers the bill."""
        provider, operator = self.nodes[party], self.nodes[at_party]
        clock = lambda rest: "%02d:%s" % (hour, rest)
        number, spent = self.started(provider, operator, stored, location_id, evse, clock("00:00"))
        operator.session += 1
        session = {
            **halves(operator.party), "auth_method": "COMMAND", "authorization_reference": spent,
            "cdr_token": named(stored), "connector_id": "1", "currency": operator.site["currency"], "evse_uid": evse,
            "id": own_id(b"S", operator.session, operator.party), "kwh": Decimal("0.0000"),
            "last_updated": moment(clock("00:05")), "location_id": location_id,
            "start_date_time": moment(clock("00:05")), "status": "PENDING",
            "total_cost": {"excl_vat": Decimal("0.0000")},
        }
        # It is carried out: its result and the session are pushed, taken and acknowledged.
        key = "%s/%d" % (provider.key, number)
        request, result = self.result(operator, provider, number, "ACCEPTED")
        came = (operator.serial, request, "put command %d" % number)
        packet, rows, pushed = self.version(operator, provider, session, ["put count session"])
        rows += ["drop pending " + key, "put result " + key, "put push %d" % request]
        about = {"provider": self.spell(provider.party), "number": number}
        self.happens(operator, "accepts", [result, packet], rows, at=moment(clock("00:05")), **about)
        self.take_all(provider, operator, clock("00:05"), [came, pushed])
        # It starts, and is metered.
        start = moment(clock("00:10"))
        session = {**session, "last_updated": start, "start_date_time": start, "status": "ACTIVE"}
        self.report(operator, provider, "starts", clock("00:10"), session, evse_uid=evse)
        metered = {"kwh": Decimal(kwh), "total_cost": {"excl_vat": Decimal(cost)}}
        session = {**session, **metered, "last_updated": moment(clock("30:00"))}
        self.report(operator, provider, "meter", clock("30:00"), session, evse_uid=evse, kwh=Decimal(kwh))
        # It stops, and its charge detail record is pushed behind its last version.
        stop = moment(clock("30:10"))
        session = {**session, "end_date_time": stop, "last_updated": stop, "status": "COMPLETED"}
        packet, rows, pushed = self.version(operator, provider, session)
        body = self.bill(operator, session)
        bill, posted, billed = self.post(operator, provider, body)
        rows += ["put count cdr", *posted]
        self.happens(operator, "stops", [packet, bill], rows, at=stop, evse_uid=evse)
        self.take_all(provider, operator, clock("30:10"), [pushed, billed] if bill_comes else [pushed])
        return Record(provider, operator, body, billed)

    def bill(self, operator, session):
        """The bill of a completed session."""
        operator.cdr += 1
        start, energy = session["start_date_time"], session["kwh"]
        names = ["country_code", "party_id", "auth_method", "authorization_reference", "cdr_token", "currency",
                 "start_date_time", "end_date_time", "last_updated", "total_cost"]
        return {
            **{name: session[name] for name in names},
            "cdr_location": own_evse(operator.party, place(session["evse_uid"], session["location_id"])),
            "charging_periods": [{"dimensions": [{"type": "ENERGY", "volume": energy}], "start_date_time": start}],
            "id": own_id(b"C", operator.cdr, operator.party), "session_id": session["id"], "total_energy": energy,
            "total_time": Decimal("0.5000"),
        }

    def post(self, operator, provider, body):
        """A charge detail record is stored and pushed. Answers its packet, these rows, and how it is pushed."""
        request, = operator.next_requests(1)
        packet = self.send(operator, provider, "post_cdr", body, request)
        row = "put cdr %s/%s" % (operator.key, body["id"].upper())
        return packet, [row, "put push %d" % request], (operator.serial, request, row)

    def credit(self, bill, clock):
        """A bill is taken back; its session is named in capitals. Answers the credit."""
        provider, operator = bill.provider, bill.operator
        body = credit_of(bill.body, clock)
        packet, rows, pushed = self.post(operator, provider, body)
        session = body["session_id"].upper()
        self.happens(operator, "credit", [packet], [*COUNTED, *rows], at=moment(clock), session_id=session)
        return Record(provider, operator, body, pushed)

    def credit_none(self, party, session, clock):
        """A credit is ordered where there is no bill to take back."""
        self.happens(self.nodes[party], "credit", [], [], at=moment(clock), session_id=session)

    def take(self, record, clock):
        """A bill or a credit comes, is held and acknowledged. Answers what ends its push."""
        serial, request, row = record.push
        return self.acknowledge(record.provider, record.operator, serial, request, clock, row)

    def take_again(self, record, first, clock):
        """It comes once more, and gets the acknowledgement that it got first."""
        serial, request, _ = record.push
        body = {"status_code": 1000, "timestamp": moment(first)}
        ack = self.send(record.provider, record.operator, "ack", body, request)
        self.deliver(record.provider, record.operator, serial, clock, [ack], ["put count serial"])

    def report(self, operator, provider, event, clock, session, **members):
        """A report makes a version of a session."""
        packet, rows, pushed = self.version(operator, provider, session)
        self.happens(operator, event, [packet], rows, at=moment(clock), **members)
        self.take_all(provider, operator, clock, [pushed])

    def take_all(self, provider, operator, clock, pushes):
        """A provider takes these pushes, each told by serial, number and the row that it puts; then they end."""
        for end in [self.acknowledge(provider, operator, *push[:2], clock, push[2]) for push in pushes]:
            end()
