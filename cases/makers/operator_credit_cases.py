"""The cases of `operator_cases` in which bills are taken back: which may be, what their credits are, when an order is
refused, and what becomes of a credit that is sent.

An order beside which nothing is told gives neither a packet nor a row.
"""
from decimal import Decimal

from operator_case import WANTED, refused, token
from operator_charge_case import LAST_MOMENT, Charging, cdr_id, credit_of, session_id
from operator_limit_cases import LAST, USED_UP

STAMP_END = "3 StampEnd"
# The packet of a credit, of the bill of `operator_charge_cases`, byte for byte.
CREDIT_LINE = (
    '{"body":{"auth_method":"COMMAND","authorization_reference":"414e4c54-4e4d-0000-0000-000000000001",'
    '"cdr_location":{"address":"Korenmarkt 1","city":"Gent","connector_format":"SOCKET","connector_id":"1",'
    '"connector_power_type":"AC_3_PHASE","connector_standard":"IEC_62196_T2","coordinates":{"latitude":"51.05421",'
    '"longitude":"3.72180"},"country":"BEL","evse_id":"BE*BEC*E1","evse_uid":"E1","id":"LOC1"},"cdr_token":'
    '{"contract_id":"NL-TNM-000001","country_code":"NL","party_id":"TNM","type":"RFID","uid":"AA01"},'
    '"charging_periods":[{"dimensions":[{"type":"ENERGY","volume":12.3456}],"start_date_time":"2025-01-01T10:00:10Z"}],'
    '"country_code":"BE","credit":true,"credit_reference_id":"43424542-4543-0000-0000-000000000001","currency":"EUR",'
    '"end_date_time":"2025-01-01T10:30:10Z","id":"43424542-4543-0000-0000-000000000001-C",'
    '"last_updated":"2025-01-01T11:00:00Z","party_id":"BEC","session_id":"53424542-4543-0000-0000-000000000001",'
    '"start_date_time":"2025-01-01T10:00:10Z","total_cost":{"excl_vat":-3.0864},"total_energy":12.3456,'
    '"total_time":0.5000},"from":"BE/BEC","kind":"post_cdr","request":7,"serial":8,"to":"NL/TNM"}'
)


def billed(name):
    """A case that begins with a charge up to its bill, of the first reference and the third request: packets 1 to 7,
    and requests 1 to 6."""
    c = Charging(name)
    c.start(3, ref=1)
    c.started(1, 3, "E1", ref=1)
    c.about("accepts", 3)
    c.carried_out(2, 1, 1, 3, ref=1)
    c.starts()
    c.became_active(4, 3)
    c.meter("12.3456", "10:30:00")
    c.metered(5, 4, "12.3456", "3.0864", "10:30:00")
    c.stops("10:30:10")
    c.completed(6, 5, "10:30:10", "0.5000")
    return c


def stored_bill(name, serial=9, request=9, **members):
    """A case that begins with the rows of a session that was billed."""
    c = Charging(name)
    for counter, last in [("session", 1), ("cdr", 1), ("serial", serial), ("request", request)]:
        c.stands("count", counter, {"last": last})
    c.has_bill(**members)
    return c


def add_orders():
    c = billed("a bill is taken back by one credit, however often that is ordered")
    c.credit()
    c.credited(8, 7)
    assert CREDIT_LINE in WANTED
    c.credit()
    c.credit(at="10:00:00")
    c.credit(at="11:00:10")
    c.restart()
    c.credit(at="11:30:00")
    c.stored()
    c = Charging("a session that was not completed has no bill that is taken back")
    for session in ["S9", "", session_id(1)]:
        c.credit(session)
    c.charging()
    c.credit()
    c.starts()
    c.became_active(4, 3)
    c.credit()
    c.stops("10:30:10")
    c.completed(5, 4, "10:30:10", "0.5000")
    for session in [session_id(2), cdr_id(1), session_id(1)[:-1]]:
        c.credit(session)
    c.start(2, evse="E2")
    c.started(7, 2, "E2")
    c.about("accepts", 2)
    c.carried_out(8, 6, 2, 2, evse="E2")
    c.stops("10:31:00", "E2")
    c.voided(10, 8, "10:31:00", number=2)
    c.credit(2)
    c.credit()
    c.credited(11, 9)
    c.credit(2)
    c.stored()


def add_two_providers():
    c = Charging("the bills of two providers are taken back, and a credit takes no number of a bill")
    c.charging()
    c.starts()
    c.became_active(4, 3)
    c.stops("10:00:46")
    c.completed(5, 4, "10:00:46", "0.0100")
    theirs = token("DD01", "DE/EMP")
    c.new_token(7, 1, theirs, party="DE/EMP")
    c.swipe("DD01", "E2", "10:01:00")
    c.began(8, 6, 2, theirs, "E2", "10:01:00", "WHITELIST")
    c.starts("10:01:10", "E2")
    c.became_active(9, 7, 2, "10:01:10")
    c.meter("4.0000", "10:02:00", "E2")
    c.metered(10, 8, "4.0000", "1.0000", "10:02:00", 2)
    c.stops("10:02:10", "E2")
    c.completed(11, 9, "10:02:10", "0.0166", number=2, cdr=2)
    c.credit(2, "10:03:00")
    c.credited(13, 11, "10:03:00", 2)
    c.credit(1, "10:03:00")
    c.credited(14, 12, "10:03:00", 1)
    c.start(2, at="10:04:00")
    c.started(15, 2, "E1", deadline="10:04:30", at="10:04:00")
    c.about("accepts", 2, at="10:04:05")
    c.carried_out(16, 13, 3, 2, at="10:04:05")
    c.starts("10:04:10")
    c.became_active(18, 15, 3, "10:04:10")
    c.stops("10:04:46")
    c.completed(19, 16, "10:04:46", "0.0100", number=3, cdr=3)
    c.credit(2, "10:05:00")
    c.credit(3, "10:05:00")
    c.credited(21, 18, "10:05:00", 3)
    c.stored()


def add_members():
    moments = [
        ("10:30:09.999", "10:30:10.001"), ("10:30:10", "10:30:10.001"), ("10:30:10.001", "10:30:10.001"),
        ("10:30:10.002", "10:30:10.002"), ("1970-01-01T00:00:00", "10:30:10.001"), (LAST_MOMENT, LAST_MOMENT),
    ]
    for at, updated in moments:
        c = billed("a credit that is ordered at %s is later than its bill of 10:30:10" % at)
        c.credit(at=at)
        c.credited(8, 7, updated)
        c.stored()
    c = Charging("a credit names its bill as that is spelled, and goes to the provider as the site spells it")
    start = {"token": token("lL01", "lu/LUM"), "location_id": "loc2", "evse_uid": "e3", "connector_id": "1"}
    c.command("10:00:00", "start_session", 1, "Lu/Lum", authorization_reference="Ref-1", **start)
    c.reply(1, 1, "ACCEPTED", party="Lu/Lum")
    c.counted(1)
    c.kept(1, "Lu/Lum")
    c.opened(1, "10:00:30", "E3", "Lu/Lum")
    c.put("spent", "LU/LUM/REF-1", {})
    c.about("accepts", 1, party="Lu/Lum")
    c.finished(2, [(1, 1, "ACCEPTED", "Lu/Lum")])
    c.began(3, 2, 1, token("lL01", "lu/LUM"), "E3", ref="Ref-1", location="LOC2")
    c.starts(evse="E3")
    c.became_active(4, 3)
    c.stops("10:00:46", "E3")
    c.completed(5, 4, "10:00:46", "0.0100")
    c.credit()
    c.credited(7, 6)
    c.stored()


def add_pushes_of_credits():
    c = billed("a credit is sent until it is acknowledged, and so is its bill")
    c.acked(1, at="10:30:11")
    c.acked(5, at="10:30:11")
    c.credit()
    c.credited(8, 7)
    c.tick("11:00:09.999")
    c.finished(9, again=[6])
    c.tick("11:00:10")
    c.finished(10, again=[7])
    c.ack(7, at="11:00:11", party="DE/EMP")
    c.ack(7, at="11:00:11", status=2001)
    c.ack(8, at="11:00:11")
    c.restart()
    c.tick("11:00:12")
    c.finished(11, again=[6, 7])
    c.acked(7, at="11:00:13")
    c.ack(7, at="11:00:13")
    c.tick("11:00:22")
    c.finished(13, again=[6])
    c.acked(6, at="11:00:23")
    c.credit(at="11:00:24")
    c.tick("12:00:00")
    c.stored()


def add_numbers():
    for counter, used in [("serial", "serial"), ("request", "request of an operator's own")]:
        c = billed("where no %s is left, no bill is taken back, and other orders are not refused" % used)
        c.given(counter, LAST)
        c.credit()
        refused(USED_UP)
        c.credit(2)
        c.credit("S9")
        c.restart()
        c.credit(at="12:00:00")
        refused(USED_UP)
        c.stored()
    c = billed("the last serial and the last request are those of a credit")
    c.given("serial", LAST - 1)
    c.given("request", LAST - 1)
    c.credit()
    c.credited(LAST, LAST)
    c.credit()
    c.stored()


def add_last_moments():
    c = Charging("a bill of the last moment has no later credit, which is told before that no number is left")
    c.charging()
    c.starts("9999-12-31T23:59:59.998")
    c.became_active(4, 3, at="9999-12-31T23:59:59.998")
    c.stops(LAST_MOMENT)
    c.completed(5, 4, LAST_MOMENT, "0.0000")
    for at in ["11:00:00", LAST_MOMENT]:
        c.credit(at=at)
        refused(STAMP_END)
    for counter in ["request", "serial"]:
        c.given(counter, LAST)
        c.credit()
        refused(STAMP_END)
    c.credit(2)
    c.stored()
    c = Charging("a bill of the moment before the last is taken back at the last")
    c.charging()
    c.starts("9999-12-31T23:59:59.997")
    c.became_active(4, 3, at="9999-12-31T23:59:59.997")
    c.stops("9999-12-31T23:59:59.998")
    c.completed(5, 4, "9999-12-31T23:59:59.998", "0.0000")
    c.credit()
    c.credited(7, 6, LAST_MOMENT)
    c.credit()
    c.stored()


def add_stored_bills():
    """The rows of a bill are given, as if they had been stored."""
    c = stored_bill("a bill that was stored is taken back, once")
    c.credit()
    c.credited(10, 10)
    c.credit()
    c.restart()
    c.credit()
    c.stored()
    for counter in ["serial", "request"]:
        c = stored_bill("where the last %s was stored, a stored bill is not taken back" % counter, **{counter: LAST})
        c.credit()
        refused(USED_UP)
        c.stored()
    for serial, request in [(9, 9), (LAST, 9), (9, LAST), (LAST, LAST)]:
        name = "a stored bill of the last moment, where serial %d and request %d were given" % (serial, request)
        c = stored_bill(name, serial, request, updated=LAST_MOMENT)
        c.credit()
        refused(STAMP_END)
        c.credit("S9")
        c.stored()
    name = "a bill whose credit was stored is not taken back, also where no number and no moment is left"
    c = stored_bill(name, LAST, LAST, updated=LAST_MOMENT)
    c.has_record(1, "NL/TNM", credit_of(c.bills[1][0], LAST_MOMENT))
    c.credit()
    c.restart()
    c.credit(at=LAST_MOMENT)
    c.stored()
    stranger = token("XX01", "AT/XXX")
    for name, more in [("", {}), (" of the last moment", {"serial": LAST, "updated": LAST_MOMENT})]:
        c = stored_bill("a bill%s of a party that is no provider is not taken back" % name, given=stranger, **more)
        c.credit()
        c.stored()
    for cost in ["-0.0001", "0.0000", "-99999999999.9999", "99999999999.9999"]:
        c = stored_bill("a stored bill of %s is taken back" % cost, total_cost={"excl_vat": Decimal(cost)})
        c.credit()
        c.credited(10, 10)
        c.stored()


def add_other_ids():
    """Ids of sessions and records that no operator makes: rows of which no node is made."""
    c = stored_bill("a bill is not taken back where the id of its credit would be longer than 39", id="B" * 38)
    c.credit()
    c.stored()
    c = stored_bill("a bill with an id of 37 characters is taken back", id="b" * 37)
    c.credit()
    c.credited(10, 10)
    c.stored()
    c = stored_bill("a bill is not taken back where another record has the id that its credit would have", id="B1")
    c.has_bill(2, id="b1-c")
    c.credit()
    c.credit(2)
    c.credited(10, 10, number=2)
    c.credit()
    c.stored()
    name = "a session is named in any case, and its credit spells it as its bill does"
    c = stored_bill(name, session="Session-1", session_id="sESSION-1")
    c.credit("sessioN-1")
    c.credited(10, 10)
    c.credit("SESSION-1")
    c.credit("SESSION-11")
    c.stored()
    c = stored_bill("of a session with two bills none is taken back", id="B1")
    c.has_record(1, "NL/TNM", {**c.bills[1][0], "id": "B2"})
    c.credit()
    c.stored()
    c = stored_bill("a session with a credit of another id is not taken back, spelled as it may be", id="B1", session="s1")
    c.has_record(1, "NL/TNM", {**credit_of(c.bills[1][0], "10:00:00"), "id": "X", "session_id": "S1"})
    c.credit("s1")
    c.stored()


def add_credit_cases():
    add_orders()
    add_two_providers()
    add_members()
    add_pushes_of_credits()
    add_numbers()
    add_last_moments()
    add_stored_bills()
    add_other_ids()
