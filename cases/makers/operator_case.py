"""What the cases of `operator_cases` are told in: events at an operator, and what each must give."""
import json
import re

OPERATOR = "BE/BEC"
# As the site spells them.
PROVIDERS = ["NL/TNM", "DE/EMP", "Lu/Lum"]
LINES, WANTED = [], []
# Of each case, its name, and the places of its first line and of the first line that it wants. A case without a name stands
# where a further part of the input begins.
CASES = []
# The places behind the site lines, which give nothing.
OPENED = []


def text(value):
    """A JSON text with the members of objects in the order of their names, and decimals as they are spelled."""
    written = json.dumps(value, separators=(",", ":"), sort_keys=True, default=lambda number: f"decimal {number}")
    return re.sub(r'"decimal (.*?)"', r"\1", written)


def evse(uid):
    connector = {"format": "SOCKET", "id": "1", "power_type": "AC_3_PHASE", "standard": "IEC_62196_T2"}
    return {"connectors": [connector], "evse_id": "BE*BEC*" + uid, "uid": uid}


def location(name, uids):
    return {"address": "Korenmarkt 1", "city": "Gent", "country": "BEL", "evses": [evse(uid) for uid in uids], "id": name,
            "latitude": "51.05421", "longitude": "3.72180"}


def moment(clock):
    """A moment of the day on which the cases are, or of another that is told."""
    return (clock if "T" in clock else "2025-01-01T" + clock) + "Z"


def token(uid="AA01", party="NL/TNM", valid=True, kind="RFID", whitelist="ALWAYS"):
    country, name = party.split("/")
    return {"contract_id": "%s-%s-000001" % (country, name), "country_code": country, "issuer": name,
            "last_updated": "2025-01-01T09:00:00Z", "party_id": name, "type": kind, "uid": uid, "valid": valid,
            "whitelist": whitelist}


def own_id(letter, number, party):
    """The id of that letter and number of a party: of a session (S), a charge detail record (C), an authorization (A)."""
    data = letter + party.upper().replace("/", "", 1).encode() + b"\0\0" + number.to_bytes(8, "big")
    digits = data.hex()
    return "-".join([digits[:8], digits[8:12], digits[12:16], digits[16:20], digits[20:]])


def reference(number, party="NL/TNM"):
    return own_id(b"A", number, party)


def stored_record(record):
    """The text of the row of a charge detail record that a packet has: it also says so where that is no credit."""
    return {"credit": False, **record}


def url(number, party="NL/TNM"):
    return "https://node.invalid/%s/%d" % (party, number)


# The last command that was sent under each number, so that its rows can be told.
BODIES = {}


def open_site(line):
    """The site line of the operator of the lines that follow."""
    LINES.append(line)
    OPENED.append(len(LINES))


def open_part(line):
    """Begins a further part of the input, with that site line."""
    end()
    CASES.append(("", len(LINES), len(WANTED)))
    LINES.append("\foperator")
    open_site(line)


def enter(line):
    """The next line. What is told from here on is what it gives; an empty line ends that, also where nothing is told."""
    end()
    LINES.append(line)


def end():
    """Ends what the last line gives, which of a site line is nothing. The rows of a step, and those of `stored`, are told in any
    order, and wanted sorted, behind the packets of the step; of a row that is told more than once the last counts."""
    if len(LINES) in OPENED:
        return
    first = len(WANTED)
    while first and WANTED[first - 1] != "":
        first -= 1
    rows = {line.split(" {", 1)[0]: line for line in WANTED[first:] if line.startswith(("put ", "drop "))}
    packets = [line for line in WANTED[first:] if not line.startswith(("put ", "drop "))]
    WANTED[first:] = [*packets, *sorted(rows.values()), ""]


class Case:
    """What has been said so far to one operator: it counts the sender's packets and this operator's rows of counters."""

    def __init__(self, name):
        self.name = name
        enter("fresh")
        CASES.append((name, len(LINES) - 1, len(WANTED)))
        self.pushes = {}
        self.rows = {}
        # How a provider spells itself, where it is not as the site does.
        self.spelled = {}

    def hear(self, clock, kind, body, number, party="NL/TNM", to=OPERATOR):
        sender = self.spelled.get(party, party)
        packet = {"body": body, "from": sender, "kind": kind, "request": number, "serial": 1, "to": to}
        enter("%s %s" % (moment(clock), text(packet)))

    def command(self, clock, kind, number, party="NL/TNM", **members):
        body = dict(members, response_url=url(number, party))
        BODIES[(party, number)] = (kind, body)
        self.hear(clock, kind, body, number, party)

    def start(self, number, at="10:00:00", party="NL/TNM", uid="AA01", place="LOC1", evse="E1", ref=None, valid=True,
              connector="1", kind="RFID"):
        members = {"token": token(uid, party, valid, kind), "location_id": place,
                   "authorization_reference": reference(number if ref is None else ref, party)}
        if evse:
            members.update(evse_uid=evse)
            if connector:
                members.update(connector_id=connector)
        self.command(at, "start_session", number, party, **members)

    def reserve(self, number, name, evse, expiry, at="10:00:00", party="NL/TNM", uid="AA01", place="LOC1", valid=True,
                owner=None):
        members = {"token": token(uid, owner or party, valid), "expiry_date": moment(expiry), "reservation_id": name,
                   "location_id": place}
        if evse:
            members.update(evse_uid=evse)
        self.command(at, "reserve_now", number, party, **members)

    def cancel(self, number, name, at="10:00:00", party="NL/TNM"):
        self.command(at, "cancel_reservation", number, party, reservation_id=name)

    def stop(self, number, session, at="10:00:00", party="NL/TNM"):
        self.command(at, "stop_session", number, party, session_id=session)

    def unlock(self, number, at="10:00:00", party="NL/TNM", place="LOC1", evse="E1", connector="1"):
        self.command(at, "unlock_connector", number, party, location_id=place, evse_uid=evse, connector_id=connector)

    def ack(self, number, at="10:00:00", party="NL/TNM", status=1000):
        self.hear(at, "ack", {"status_code": status, "timestamp": moment(at)}, number, party)

    def service(self, uid, works):
        self.event(event="service", node=OPERATOR, evse_uid=uid, in_service=works)

    def event(self, **members):
        enter(text(members))

    def report(self, event, at, **members):
        self.event(event=event, node=OPERATOR, at=moment(at), **members)

    def about(self, event, number, at="10:00:05", party="NL/TNM"):
        """A report about the command of that number of a provider."""
        self.report(event, at, provider=party, number=number)

    def tick(self, at):
        self.report("tick", at)

    def restart(self):
        self.event(event="restart", node=OPERATOR)

    def given(self, counter, last):
        """The row of a counter stands from here on, though no step put it."""
        row = text({"last": last})
        enter("row count\t%s\t%s" % (counter, row))
        self.rows[("count", counter)] = row

    # What the operator sends, and the rows that it puts.

    def reply(self, serial, number, answer, at="10:00:00", party="NL/TNM"):
        if isinstance(answer, int):
            body = {"status_code": answer, "timestamp": moment(at)}
        else:
            body = {"data": {"result": answer, "timeout": 30}, "status_code": 1000, "timestamp": moment(at)}
        self.body = body
        self.sent(serial, number, "command_response", body, party)

    def result(self, serial, request, number, word, party="NL/TNM"):
        body = {"response_url": url(number, party), "result": word}
        self.pushes[request] = ("command_result", body, party)
        self.sent(serial, request, "command_result", body, party)

    def sent(self, serial, request, kind, body, party):
        packet = {"body": body, "from": OPERATOR, "kind": kind, "request": request, "serial": serial, "to": party}
        WANTED.append(text(packet))

    def put(self, kind, key, row):
        self.rows[(kind, key)] = text(row)
        WANTED.append("put %s %s %s" % (kind, key, text(row)))

    def drop(self, kind, key):
        del self.rows[(kind, key)]
        WANTED.append("drop %s %s" % (kind, key))

    def stored(self):
        """All rows that stand."""
        enter("stored")
        for kind, key in self.rows:
            WANTED.append("put %s %s %s" % (kind, key, self.rows[(kind, key)]))

    def counted(self, serial, request=None):
        self.put("count", "serial", {"last": serial})
        if request is not None:
            self.put("count", "request", {"last": request})

    def kept(self, number, party="NL/TNM"):
        self.put("reply", "%s/%d" % (party.upper(), number), {"body": self.body, "kind": "command_response"})

    def marked(self, name, number, party="NL/TNM"):
        self.put("mark", "%s/%s" % (party.upper(), name), {"number": number})

    def reserved(self, name, uid, expiry, place="LOC1", user="AA01", party="NL/TNM"):
        row = {"evse_uid": uid, "expiry_date": moment(expiry), "location_id": place, "token": token(user, party)}
        self.put("reservation", "%s/%s" % (party.upper(), name), row)

    def opened(self, number, deadline, uid=None, party="NL/TNM", connector="1"):
        kind, body = BODIES[(party, number)]
        row = {"body": body, "deadline": moment(deadline), "kind": kind}
        if uid:
            row.update(evse_uid=uid, connector_id=connector)
        self.put("pending", "%s/%d" % (party.upper(), number), row)

    def spent(self, number, party="NL/TNM"):
        self.put("spent", "%s/%s" % (party.upper(), reference(number, party).upper()), {})

    def pushed(self, request):
        kind, body, party = self.pushes[request]
        self.put("push", "%d" % request, {"body": body, "kind": kind, "to": party})

    def ended(self, request, number, word, party="NL/TNM"):
        self.pushed(request)
        self.put("result", "%s/%d" % (party.upper(), number), {"result": word})

    # Whole answers.

    def answered(self, serial, number, answer, at="10:00:00", party="NL/TNM"):
        """A response alone, which is kept."""
        self.reply(serial, number, answer, at, party)
        self.counted(serial)
        self.kept(number, party)

    def repeated(self, serial, number, answer, at="10:00:00", party="NL/TNM"):
        """A kept response again."""
        self.reply(serial, number, answer, at, party)
        self.counted(serial)

    def started(self, serial, number, uid, deadline="10:00:30", used=None, at="10:00:00", party="NL/TNM", ref=None):
        """ACCEPTED, and the start is open."""
        self.reply(serial, number, "ACCEPTED", at, party)
        self.counted(serial)
        self.kept(number, party)
        if used:
            self.drop("reservation", "%s/%s" % (party.upper(), used))
        self.opened(number, deadline, uid, party)
        self.spent(number if ref is None else ref, party)

    def unlocking(self, serial, number, deadline="10:00:30", at="10:00:00", party="NL/TNM"):
        """ACCEPTED, and the unlock is open."""
        self.answered(serial, number, "ACCEPTED", at, party)
        self.opened(number, deadline, party=party)

    def resulted(self, serial, request, number, word, rows=(), at="10:00:00", party="NL/TNM"):
        """ACCEPTED, and then that result; `rows` writes the rows between."""
        self.reply(serial, number, "ACCEPTED", at, party)
        reply = self.body
        self.result(serial + 1, request, number, word, party)
        self.body = reply
        self.counted(serial + 1, request)
        self.kept(number, party)
        for row in rows:
            row()
        self.ended(request, number, word, party)

    def reservation(self, serial, request, number, name, uid, expiry, at="10:00:00", party="NL/TNM", user="AA01", place="LOC1"):
        """A RESERVE_NOW comes, and is accepted."""
        self.reserve(number, name, uid, expiry, at, party, user, place)
        rows = [lambda: self.marked(name, number, party), lambda: self.reserved(name, uid, expiry, place, user, party)]
        self.resulted(serial, request, number, "ACCEPTED", rows, at, party)

    def unknown(self, serial, request, number, name="R1", at="10:00:00", party="NL/TNM"):
        """A CANCEL_RESERVATION comes, of a reservation that does not stand."""
        self.cancel(number, name, at, party)
        self.resulted(serial, request, number, "UNKNOWN_RESERVATION", [lambda: self.marked(name, number, party)], at, party)

    def acked(self, number, at="10:00:00", party="NL/TNM"):
        """An acknowledgement comes that ends a push."""
        self.ack(number, at, party)
        self.drop("push", "%d" % number)

    def finished(self, serial, ends=(), expired=(), again=()):
        """What a report or a tick comes to. Commands end: each is told as the request that its result is, its number, the
        result and its provider. Reservations expire: each is told by its key. Pushes are sent again: each is told by its
        number, and has the body that it had first. The first packet has that serial."""
        last = serial - 1
        for request, number, word, party in ends:
            last += 1
            self.result(last, request, number, word, party)
        for request in again:
            last += 1
            assert ("push", "%d" % request) in self.rows
            kind, body, party = self.pushes[request]
            self.sent(last, request, kind, body, party)
        for request, number, word, party in ends:
            self.drop("pending", "%s/%d" % (party.upper(), number))
            self.ended(request, number, word, party)
        for key in expired:
            self.drop("reservation", key)
        if last >= serial:
            self.put("count", "serial", {"last": last})
        if ends:
            self.put("count", "request", {"last": ends[-1][0]})


def refused(fault):
    WANTED.append("refused " + fault)
