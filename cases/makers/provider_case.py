"""What the cases of `provider_cases` are told in: events at a provider, and what each must give."""
import json
from decimal import Decimal

from operator_case import moment, reference, stored_record, text, token

PROVIDER = "NL/TNM"
OPERATORS = ["BE/BEC", "FR/FRC"]
LINES, WANTED = [], []
# Of each case, its name, and the places of its first line and of the first line that it wants. A case without a name stands
# where a further part of the input begins.
CASES = []
# The places behind the lines that name the parties, which give nothing.
OPENED = []
# The last number that a counter gives.
LAST = 10**18 - 1
USED_UP = "2 NumbersUsedUp"


def url(number, provider=PROVIDER):
    return f"https://node.invalid/{provider}/{number}"


def halves(party):
    country, name = party.split("/")
    return {"country_code": country, "party_id": name}


def cdr_token(uid="AA01", party=PROVIDER):
    return {**halves(party), "contract_id": "NL-TNM-000001", "type": "RFID", "uid": uid}


def session(name="S1", status="ACTIVE", updated="10:00:10", kwh="0.0000", party="BE/BEC", owner=PROVIDER, **more):
    return {
        **halves(party), "auth_method": "COMMAND", "cdr_token": cdr_token(party=owner), "connector_id": "1", "currency": "EUR",
        "evse_uid": "E1", "id": name, "kwh": Decimal(kwh), "last_updated": moment(updated), "location_id": "LOC1",
        "start_date_time": moment("10:00:05"), "status": status, **more,
    }


def cdr(name="C1", of="S1", cost="3.0864", currency="EUR", party="BE/BEC", owner=PROVIDER, **more):
    place = {
        "address": "Korenmarkt 1", "city": "Gent", "connector_format": "SOCKET", "connector_id": "1",
        "connector_power_type": "AC_3_PHASE", "connector_standard": "IEC_62196_T2",
        "coordinates": {"latitude": "51.05421", "longitude": "3.72180"}, "country": "BEL", "evse_id": "BE*BEC*E1",
        "evse_uid": "E1", "id": "LOC1",
    }
    period = {"dimensions": [{"type": "ENERGY", "volume": Decimal("12.3456")}], "start_date_time": moment("10:00:10")}
    return {
        **halves(party), "auth_method": "COMMAND", "authorization_reference": reference(1), "cdr_location": place,
        "cdr_token": cdr_token(party=owner), "charging_periods": [period], "currency": currency,
        "end_date_time": moment("10:30:10"), "id": name, "last_updated": moment("10:30:10"), "session_id": of,
        "start_date_time": moment("10:00:10"), "total_cost": {"excl_vat": Decimal(cost)},
        "total_energy": Decimal("12.3456"), "total_time": Decimal("0.5000"), **more,
    }


def credit(name="C1-C", of="S1", cost="-3.0864", currency="EUR", taken_back="C1", **more):
    """The charge detail record that takes back the one of that id."""
    return cdr(name, of, cost, currency, credit=True, credit_reference_id=taken_back, last_updated=moment("11:00:00"), **more)


def version(uid, updated, **more):
    """A token as it is stored, of that `last_updated`."""
    return {**token(uid, **more), "last_updated": moment(updated)}


def open_parties(provider, operators, end_before=True):
    """Begins a further part of the input, with that provider and those operators."""
    if end_before:
        end()
        CASES.append(("", len(LINES), len(WANTED)))
        LINES.append("\fprovider")
    LINES.append("\t".join([provider, *operators]))
    OPENED.append(len(LINES))


def enter(line):
    """The next line. What is told from here on is what it gives; an empty line ends that, also where nothing is told."""
    end()
    LINES.append(line)


def end():
    """Ends what the last line gives, which of a line of parties is nothing. The rows of a step are told in any order, and
    wanted sorted, behind its packets."""
    if len(LINES) in OPENED:
        return
    first = len(WANTED)
    while first and WANTED[first - 1].startswith(("put ", "drop ")):
        first -= 1
    WANTED[first:] = sorted(WANTED[first:])
    WANTED.append("")


def refused(fault):
    WANTED.append("refused " + fault)


class Case:
    """What has been said so far to one provider: it counts the rows that stand."""

    def __init__(self, name, provider=PROVIDER, operators=()):
        self.name = name
        self.provider = provider
        self.operators = list(operators) or OPERATORS
        enter("fresh")
        CASES.append((name, len(LINES) - 1, len(WANTED)))
        self.rows = {}
        # Of each request that was answered its reply, and of each own request its kind, body and addressee.
        self.replies = {}
        self.requests = {}

    # What happens.

    def hear(self, kind, body, number, at="10:00:00", party="BE/BEC", to=None):
        packet = {"body": body, "from": party, "kind": kind, "request": number, "serial": 1, "to": to or self.provider}
        enter("%s %s" % (moment(at), text(packet)))

    def result(self, number, of, word, at="10:00:00", party="BE/BEC", to_url=None):
        """Request `number` brings the result of the command `of`."""
        self.hear("command_result", {"response_url": to_url or url(of, self.provider), "result": word}, number, at, party)

    def response(self, of, answer="ACCEPTED", at="10:00:00", party="BE/BEC"):
        body = {"status_code": answer if isinstance(answer, int) else 1000, "timestamp": moment(at)}
        if not isinstance(answer, int):
            body.update(data={"result": answer, "timeout": 30})
        self.said = body
        self.hear("command_response", body, of, at, party)

    def put_session(self, number, held, at="10:00:00", party="BE/BEC"):
        self.hear("put_session", held, number, at, party)

    def post_cdr(self, number, record, at="10:00:00", party="BE/BEC"):
        self.hear("post_cdr", record, number, at, party)

    def authorize(self, number, uid, at="10:00:00", party="BE/BEC", **members):
        self.hear("authorize", {"token_uid": uid, **members}, number, at, party)

    def ack(self, number, status=1000, at="10:00:00", party="BE/BEC"):
        self.hear("ack", {"status_code": status, "timestamp": moment(at)}, number, at, party)

    def event(self, event, **members):
        enter(text({"event": event, "node": self.provider, **members}))

    def token(self, at, given):
        self.event("token", at=moment(at), token=given)

    def submit(self, at, operator, order, **members):
        self.ordered = (order, members)
        self.event("submit", at=moment(at), operator=operator, order=order, **members)

    def start(self, at="10:00:00", operator="BE/BEC", uid="AA01", kind="RFID", place="LOC1", **members):
        self.submit(at, operator, "start_session", token_uid=uid, token_type=kind, location_id=place, **members)

    def reserve(self, at="10:00:00", operator="BE/BEC", uid="AA01", kind="RFID", **members):
        self.submit(at, operator, "reserve_now", token_uid=uid, token_type=kind, location_id="LOC1",
                    expiry_date=moment("11:00:00"), reservation_id="R1", **members)

    def stop(self, at="10:00:00", operator="BE/BEC", name="S1"):
        self.submit(at, operator, "stop_session", session_id=name)

    def cancel(self, at="10:00:00", operator="BE/BEC", name="R1"):
        self.submit(at, operator, "cancel_reservation", reservation_id=name)

    def unlock(self, at="10:00:00", operator="BE/BEC"):
        self.submit(at, operator, "unlock_connector", location_id="LOC1", evse_uid="E1", connector_id="1")

    def tick(self, at):
        self.event("tick", at=moment(at))

    def restart(self):
        self.event("restart")

    def given(self, counter, last):
        """The row of a counter stands from here on, though no step put it."""
        row = text({"last": last})
        enter("row count\t%s\t%s" % (counter, row))
        self.rows[("count", counter)] = row

    def made(self, rows):
        """A provider is made of rows, each of which is a kind, a key and its members."""
        for kind, key, members in rows:
            end()
            LINES.append("kept %s\t%s\t%s" % (kind, key, text(members)))
            OPENED.append(len(LINES))
        enter("made")
        self.rows = {(kind, key): text(members) for kind, key, members in rows}

    # What the provider sends, and the rows that it puts.

    def sent(self, serial, number, kind, body, to):
        packet = {"body": body, "from": self.provider, "kind": kind, "request": number, "serial": serial, "to": to}
        WANTED.append(text(packet))

    def put(self, kind, key, row):
        self.rows[(kind, key)] = text(row)
        WANTED.append("put %s %s %s" % (kind, key, text(row)))

    def drop(self, kind, key):
        del self.rows[(kind, key)]
        WANTED.append("drop %s %s" % (kind, key))

    def stored(self):
        """All rows that stand, of which a provider is made again."""
        enter("again")
        self.stands()

    def stands(self):
        """All rows that stand."""
        enter("stored")
        for kind, key in self.rows:
            WANTED.append("put %s %s %s" % (kind, key, self.rows[(kind, key)]))

    def owed(self, operator, currency, amount):
        enter("settlement %s\t%s" % (operator, currency))
        WANTED.append(amount)

    def counted(self, **last):
        for counter, number in last.items():
            self.put("count", counter, {"last": number})

    # Whole answers.

    def answered(self, serial, number, kind, body, party="BE/BEC"):
        """A new reply, which is kept."""
        self.replies[(party, number)] = (kind, body)
        self.sent(serial, number, kind, body, party)
        self.counted(serial=serial)
        self.put("reply", "%s/%d" % (party.upper(), number), {"body": body, "kind": kind})

    def acked(self, serial, number, status=1000, at="10:00:00", party="BE/BEC"):
        self.answered(serial, number, "ack", {"status_code": status, "timestamp": moment(at)}, party)

    def authorized(self, serial, number, allowed, asked=None, ref=None, at="10:00:00", party="BE/BEC"):
        """The answer for a token; a number is that of the refusal."""
        if isinstance(allowed, int):
            body = {"status_code": allowed, "timestamp": moment(at)}
        else:
            body = {"data": {"allowed": allowed, "token": asked}, "status_code": 1000, "timestamp": moment(at)}
        if ref is not None:
            body["data"]["authorization_reference"] = reference(ref, self.provider.upper())
        self.answered(serial, number, "authorization", body, party)
        if ref is not None:
            self.counted(reference=ref)

    def again(self, serial, number, party="BE/BEC"):
        """A kept reply again."""
        kind, body = self.replies[(party, number)]
        self.sent(serial, number, kind, body, party)
        self.counted(serial=serial)

    def held(self, value):
        """A session or a charge detail record is held."""
        key = ("%s/%s/%s" % (value["country_code"], value["party_id"], value["id"])).upper()
        if "session_id" in value:
            self.put("cdr", key, stored_record(value))
        else:
            self.put("session", key, value)

    def commanded(self, serial, number, carried=None, ref=None, to="BE/BEC"):
        """The order that was submitted last is sent as a command, a start or a reservation with that token."""
        kind, members = self.ordered
        body = {name: value for name, value in members.items() if name not in ("token_uid", "token_type")}
        body.update(response_url=url(number, self.provider))
        if carried is not None:
            body.update(token=carried)
        if ref is not None:
            body.update(authorization_reference=reference(ref, self.provider.upper()))
        self.requests[number] = (kind, body, to)
        self.sent(serial, number, kind, body, to)
        self.counted(serial=serial, request=number)
        if ref is not None:
            self.counted(reference=ref)
        self.put("command", "%d" % number, {"body": body, "kind": kind, "to": to})

    def command_row(self, number, **more):
        """The row of a command with its response (`answer`) or result beside what it has."""
        row = json.loads(self.rows[("command", "%d" % number)], parse_float=Decimal)
        self.put("command", "%d" % number, {**row, **more})

    def versioned(self, serial, number, stored, replaced=(), operators=None):
        """A version of a token is stored and pushed to each operator, from that serial and that request number on; pushes of
        those numbers are replaced."""
        operators = self.operators if operators is None else operators
        for count, operator in enumerate(operators):
            self.requests[number + count] = ("put_token", stored, operator)
            self.sent(serial + count, number + count, "put_token", stored, operator)
        if operators:
            self.counted(serial=serial + len(operators) - 1, request=number + len(operators) - 1)
        key = "%s/%s/%s/%s" % (stored["country_code"], stored["party_id"], stored["type"], stored["uid"])
        self.put("token", key.upper(), stored)
        for count, operator in enumerate(operators):
            self.put("push", "%d" % (number + count), {"body": stored, "kind": "put_token", "to": operator})
        for old in replaced:
            self.drop("push", "%d" % old)

    def resent(self, serial, *numbers):
        """Requests are sent again, from that serial on."""
        for count, number in enumerate(numbers):
            kind, body, to = self.requests[number]
            self.sent(serial + count, number, kind, body, to)
        self.counted(serial=serial + len(numbers) - 1)

    def new_token(self, serial, number, uid="AA01", at="09:59:00", **more):
        """A token is given and stored; it answers the version."""
        self.token(at, token(uid, self.provider.upper(), **more))
        stored = version(uid, at, party=self.provider.upper(), **more)
        self.versioned(serial, number, stored)
        return stored
