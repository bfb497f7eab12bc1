"""What the cases of sessions, tokens and authorizations at an operator are told in, beside `operator_case`."""
from decimal import Decimal

from operator_case import OPERATOR, PROVIDERS, Case, enter, moment, own_id, reference, stored_record, text, token

LAST_MOMENT = "9999-12-31T23:59:59.999"


def session_id(number):
    return own_id(b"S", number, OPERATOR)


def cdr_id(number):
    return own_id(b"C", number, OPERATOR)


def halves(party):
    country, name = party.split("/")
    return {"country_code": country, "party_id": name}


def named(given):
    """A token as sessions name it."""
    return {name: given[name] for name in ("country_code", "party_id", "uid", "type", "contract_id")}


def place(uid="E1", location="LOC1"):
    """A place as charge detail records name it: connector 1 of an EVSE of the sites of `operator_case`."""
    return {
        "address": "Korenmarkt 1", "city": "Gent", "connector_format": "SOCKET", "connector_id": "1",
        "connector_power_type": "AC_3_PHASE", "connector_standard": "IEC_62196_T2",
        "coordinates": {"latitude": "51.05421", "longitude": "3.72180"}, "country": "BEL", "evse_id": "BE*BEC*" + uid,
        "evse_uid": uid, "id": location,
    }


def bill_of(last, number, hours, at_place=None):
    """The charge detail record of that number, of a session by its last version."""
    names = ["country_code", "party_id", "auth_method", "authorization_reference", "cdr_token", "currency",
             "start_date_time", "end_date_time", "total_cost", "last_updated"]
    period = {"dimensions": [{"type": "ENERGY", "volume": last["kwh"]}], "start_date_time": last["start_date_time"]}
    return {
        **{name: last[name] for name in names if name in last},
        "id": cdr_id(number), "session_id": last["id"], "charging_periods": [period], "total_energy": last["kwh"],
        "cdr_location": at_place or place(last["evse_uid"], last["location_id"]), "total_time": Decimal(hours),
    }


def credit_of(bill, updated):
    """The credit that takes that bill back, updated at a moment."""
    cost = {"excl_vat": -bill["total_cost"]["excl_vat"]}
    taken = {"credit": True, "credit_reference_id": bill["id"], "id": bill["id"] + "-C", "total_cost": cost}
    return {**bill, **taken, "last_updated": moment(updated)}


class Charging(Case):
    """A case that also has the newest version of each session by its number, the request that each was pushed as, and
    the bill of each that is completed, with the provider that it was sent to."""

    def __init__(self, name, currency="EUR"):
        super().__init__(name)
        self.currency = currency
        self.sessions = {}
        self.pushed_as = {}
        self.bills = {}

    # What happens.

    def put_token(self, number, given, at="10:00:00", party="NL/TNM"):
        self.hear(at, "put_token", given, number, party)

    def authorization(self, number, answer="ALLOWED", given=None, ref=None, at="10:00:02", party="NL/TNM"):
        """The answer to that request about a token; a number is its status."""
        body = {"status_code": answer if isinstance(answer, int) else 1000, "timestamp": moment(at)}
        if not isinstance(answer, int):
            body["data"] = {"allowed": answer, "token": given or token("AA03", whitelist="NEVER")}
            if ref is not None:
                body["data"]["authorization_reference"] = ref if isinstance(ref, str) else reference(ref, party)
        self.hear(at, "authorization", body, number, party)

    def swipe(self, uid="AA01", evse="E1", at="10:00:00", kind="RFID", connector="1"):
        self.report("swipe", at, evse_uid=evse, connector_id=connector, token_uid=uid, token_type=kind)

    def starts(self, at="10:00:10", evse="E1"):
        self.report("starts", at, evse_uid=evse)

    def meter(self, kwh, at, evse="E1"):
        self.report("meter", at, evse_uid=evse, kwh=Decimal(kwh))

    def stops(self, at, evse="E1"):
        self.report("stops", at, evse_uid=evse)

    def fault(self, at, evse="E1"):
        self.report("fault", at, evse_uid=evse)

    def credit(self, session=1, at="11:00:00"):
        """The bill of the session of that number, or of that id, is to be taken back."""
        self.report("credit", at, session_id=session_id(session) if isinstance(session, int) else session)

    # What stands, though no step put it.

    def stands(self, kind, key, row):
        """That row stands from here on."""
        enter("row %s\t%s\t%s" % (kind, key, text(row)))
        self.rows[(kind, key)] = text(row)

    def has_session(self, number, request, to="NL/TNM", **members):
        """A version of a session at E1 stands, with its push as that request, whose provider may be spelled otherwise."""
        version = {**self.first_version(number, token(), "E1", "09:00:00", reference(77)), **members}
        self.sessions[number] = version
        self.pushed_as[number] = request
        self.pushes[request] = ("put_session", version, "NL/TNM")
        self.stands("session", "%s/%s" % (OPERATOR, version["id"].upper()), version)
        self.stands("push", "%d" % request, {"body": version, "kind": "put_session", "to": to})

    def has_bill(self, number=1, given=None, updated="09:30:00", session=None, **members):
        """A session that is completed stands, and its bill, both acknowledged. The session may have another id, and the
        bill other members, than the operator would give them."""
        given, session = given or token(), session or session_id(number)
        first = self.first_version(number, given, "E1", "09:00:00", reference(77))
        ended = {"kwh": Decimal("4.0000"), "total_cost": {"excl_vat": Decimal("1.0000")}, "status": "COMPLETED",
                 "end_date_time": moment("09:30:00"), "last_updated": moment(updated), "id": session}
        self.sessions[number] = {**first, **ended}
        self.stands("session", "%s/%s" % (OPERATOR, session.upper()), self.sessions[number])
        bill = bill_of(self.sessions[number], number, "0.5000")
        self.has_record(number, "%(country_code)s/%(party_id)s" % given, {**bill, **members})

    def has_record(self, number, party, record):
        """A charge detail record of a session stands, which was sent to that provider."""
        if "credit" not in record:
            self.bills[number] = (record, party)
        self.stands("cdr", "%s/%s" % (OPERATOR, record["id"].upper()), stored_record(record))

    # What the operator sends, and the rows that it puts.

    def acknowledged(self, serial, number, status=1000, at="10:00:00", party="NL/TNM"):
        """A new acknowledgement, which is kept."""
        self.body = {"status_code": status, "timestamp": moment(at)}
        self.sent(serial, number, "ack", self.body, party)
        self.counted(serial)
        self.put("reply", "%s/%d" % (party.upper(), number), {"body": self.body, "kind": "ack"})

    def acknowledged_again(self, serial, number, status=1000, at="10:00:00", party="NL/TNM"):
        """A kept acknowledgement again."""
        self.sent(serial, number, "ack", {"status_code": status, "timestamp": moment(at)}, party)
        self.counted(serial)

    def holds(self, given):
        """The row of a token."""
        key = "%s/%s/%s/%s" % (given["country_code"], given["party_id"], given["type"], given["uid"])
        self.put("token", key.upper(), given)

    def new_token(self, serial, number, given, at="10:00:00", party="NL/TNM"):
        """A token comes, and is acknowledged and stored."""
        self.put_token(number, given, at, party)
        self.acknowledged(serial, number, at=at, party=party)
        self.holds(given)

    def asked(self, serial, request, uid="AA03", evse="E1", party="NL/TNM", kind="RFID", location="LOC1"):
        """The provider of a token is asked."""
        there = {"evse_uids": [evse], "location_id": location}
        self.sent(serial, request, "authorize", {"location": there, "token_uid": uid, "type": kind}, party)
        self.counted(serial, request)

    def pushes_one(self, serial, request, kind, body, party):
        """A push is made."""
        self.pushes[request] = (kind, body, party)
        self.sent(serial, request, kind, body, party)
        self.counted(serial, request)
        self.pushed(request)

    def version(self, serial, request, number, at, **members):
        """A version of a session is stored and pushed in place of an older one; `at` is its `last_updated`."""
        newest = {**self.sessions[number], **members, "last_updated": moment(at)}
        self.sessions[number] = newest
        told = newest["cdr_token"]
        party = next(it for it in PROVIDERS if it.upper() == ("%(country_code)s/%(party_id)s" % told).upper())
        self.put("session", "%s/%s" % (OPERATOR, newest["id"].upper()), newest)
        older = self.pushed_as.get(number)
        if ("push", "%s" % older) in self.rows:
            self.drop("push", "%d" % older)
        self.pushed_as[number] = request
        self.pushes_one(serial, request, "put_session", newest, party)

    def first_version(self, number, given, evse, at, ref, how="COMMAND", location="LOC1", connector="1"):
        """The session of that number as it begins, without its `last_updated`."""
        version = {
            **halves(OPERATOR), "auth_method": how, "cdr_token": named(given), "connector_id": connector,
            "currency": self.currency, "evse_uid": evse, "id": session_id(number), "kwh": Decimal("0.0000"),
            "location_id": location, "start_date_time": moment(at), "status": "PENDING",
            "total_cost": {"excl_vat": Decimal("0.0000")},
        }
        return version if ref is None else {**version, "authorization_reference": ref}

    def began(self, serial, request, number, given=None, evse="E1", at="10:00:05", how="COMMAND", ref=None, location="LOC1",
              connector="1", used=None):
        """The session of that number begins, for that token and with that reference; `used` is the key of the reservation that it
        uses."""
        self.sessions[number] = self.first_version(number, given or token(), evse, at, ref, how, location, connector)
        if used:
            self.drop("reservation", used)
        self.put("count", "session", {"last": number})
        self.version(serial, request, number, at)

    def carried_out(self, serial, request, number, command, at="10:00:05", party="NL/TNM", uid="AA01", ref=None, **members):
        """An open start is carried out: its result, and then the session of that number."""
        self.finished(serial, [(request, command, "ACCEPTED", party)])
        spent = reference(command if ref is None else ref, party)
        self.began(serial + 1, request + 1, number, token(uid, party), at=at, ref=spent, **members)

    def charging(self, at="10:00:05", evse="E1", place_name="LOC1"):
        """Command 1 of NL/TNM starts session 1, the first packets being 1 to 3 and the first requests 1 and 2."""
        self.start(1, evse=evse, place=place_name)
        self.started(1, 1, evse)
        self.about("accepts", 1, at=at)
        self.carried_out(2, 1, 1, 1, at=at, evse=evse, location=place_name)

    def became_active(self, serial, request, number=1, at="10:00:10"):
        self.version(serial, request, number, at, status="ACTIVE", start_date_time=moment(at))

    def metered(self, serial, request, kwh, cost, updated, number=1):
        self.version(serial, request, number, updated, kwh=Decimal(kwh), total_cost={"excl_vat": Decimal(cost)})

    def voided(self, serial, request, updated, ended=None, number=1):
        self.version(serial, request, number, updated, status="INVALID", end_date_time=moment(ended or updated))

    def completed(self, serial, request, updated, hours, ended=None, number=1, cdr=1, at_place=None):
        """The session of that number is complete, and its charge detail record, of the number `cdr`, is pushed and stored."""
        self.version(serial, request, number, updated, status="COMPLETED", end_date_time=moment(ended or updated))
        record = bill_of(self.sessions[number], cdr, hours, at_place)
        self.put("count", "cdr", {"last": cdr})
        self.bills[number] = (record, self.pushes[request][2])
        self.posts(serial + 1, request + 1, *self.bills[number])
        return text(record)

    def posts(self, serial, request, record, party):
        """A charge detail record is stored and pushed."""
        self.put("cdr", "%s/%s" % (OPERATOR, record["id"].upper()), stored_record(record))
        self.pushes_one(serial, request, "post_cdr", record, party)

    def credited(self, serial, request, updated="11:00:00", number=1):
        """The bill of the session of that number is taken back: its credit is stored and pushed."""
        bill, party = self.bills[number]
        credit = credit_of(bill, updated)
        self.posts(serial, request, credit, party)
        return text(credit)
