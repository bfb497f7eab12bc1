"""Records as the rows of the cases of the books have them, and how they are spelled."""

import datetime

from packet_forms import Number, spell

FIRST = datetime.datetime(2025, 1, 1, 10, tzinfo=datetime.timezone.utc)
LAST_MOMENT = "9999-12-31T23:59:59.999Z"
LAST_NUMBER = 10**18 - 1


def moment(seconds, millis=0):
    """The moment so many seconds and milliseconds after 2025-01-01T10:00:00Z."""
    at = FIRST + datetime.timedelta(seconds=seconds, milliseconds=millis)
    fraction = f".{at.microsecond // 1000:03}" if at.microsecond else ""
    return at.strftime("%Y-%m-%dT%H:%M:%S") + fraction + "Z"


def decimal(units):
    """A number of that many ten-thousandths."""
    sign = "-" if units < 0 else ""
    return f"{sign}{abs(units) // 10_000}.{abs(units) % 10_000:04}"


def number(units):
    return Number(decimal(units))


def whole(count):
    return Number(str(count))


def text(tree):
    """The text that is written for a tree: members in the byte order of their names, and none that is absent."""
    return spell(ordered(tree))


def ordered(tree):
    if isinstance(tree, dict):
        return {name: ordered(tree[name]) for name in sorted(tree) if tree[name] is not None}
    if isinstance(tree, list):
        return [ordered(one) for one in tree]
    return tree


def party_members(party):
    return {"country_code": party[:2], "party_id": party[3:]}


def token(party="NL/TNM", uid="AA01", **members):
    given = {
        "type": "RFID",
        "contract_id": "C1",
        "issuer": "I1",
        "valid": True,
        "whitelist": "ALWAYS",
        "last_updated": moment(-3600),
    }
    return {**party_members(party), "uid": uid, **given, **members}


def token_key(tree):
    return "/".join((tree["country_code"], tree["party_id"], tree["type"], tree["uid"])).upper()


def cdr_token(party="NL/TNM"):
    return {**party_members(party), "uid": "AA01", "type": "RFID", "contract_id": "C1"}


def session(identity="S1", party="BE/BEC", provider="NL/TNM", kwh=0, cost=0, **members):
    """A version of a session, of an energy and a cost in ten-thousandths; no cost where it is None."""
    given = {
        "start_date_time": moment(0),
        "auth_method": "COMMAND",
        "authorization_reference": "ref-1",
        "location_id": "LOC1",
        "evse_uid": "E1",
        "connector_id": "1",
        "currency": "EUR",
        "status": "PENDING",
        "last_updated": moment(0),
    }
    counted = {"kwh": number(kwh), "total_cost": None if cost is None else {"excl_vat": number(cost)}}
    return {**party_members(party), "id": identity, "cdr_token": cdr_token(provider), **given, **counted, **members}


def own_key(tree):
    """The key of a session's or a charge detail record's row."""
    return "/".join((tree["country_code"], tree["party_id"], tree["id"])).upper()


LOCATION = {
    "id": "LOC1",
    "address": "Korenmarkt 1",
    "city": "Gent",
    "country": "BEL",
    "coordinates": {"latitude": "51.05421", "longitude": "3.72180"},
    "evse_uid": "E1",
    "evse_id": "BE*BEC*E1",
    "connector_id": "1",
    "connector_standard": "IEC_62196_T2",
    "connector_format": "SOCKET",
    "connector_power_type": "AC_3_PHASE",
}


def cdr(identity="C1", session_id="S1", party="BE/BEC", provider="NL/TNM", kwh=123_456, cost=30_864, hours=5_000, **members):
    """A charge detail record of an energy, a cost and a time in ten-thousandths, as its row has it. It is a bill."""
    start = members.get("start_date_time", moment(0))
    period = {"start_date_time": start, "dimensions": [{"type": "ENERGY", "volume": number(kwh)}]}
    given = {
        "start_date_time": start,
        "end_date_time": moment(1800),
        "session_id": session_id,
        "auth_method": "COMMAND",
        "authorization_reference": "ref-1",
        "credit": False,
        "cdr_location": LOCATION,
        "currency": "EUR",
        "charging_periods": [period],
        "total_cost": {"excl_vat": number(cost)},
        "total_energy": number(kwh),
        "total_time": number(hours),
        "last_updated": moment(1800),
    }
    return {**party_members(party), "id": identity, "cdr_token": cdr_token(provider), **given, **members}


def credit(identity="C1-C", session_id="S1", taken_back="C1", cost=-30_864, **members):
    """The credit that takes back the record of that id."""
    taken = {"credit": True, "credit_reference_id": taken_back, "last_updated": moment(3600)}
    return cdr(identity, session_id, **{"cost": cost, **taken, **members})


def in_packet(record):
    """A charge detail record as a packet has it, which says no more of a bill."""
    return record | {"credit": record["credit"] or None}


def reservation(evse="E1", location="LOC1", expiry=3600, **members):
    return {"evse_uid": evse, "expiry_date": moment(expiry), "location_id": location, "token": token(**members)}


def reply(kind="ack", status=1000, at=0):
    body = {"status_code": Number(str(status)), "timestamp": moment(at)}
    if kind == "command_response" and status == 1000:
        body["data"] = {"result": "ACCEPTED", "timeout": Number("30")}
    return {"kind": kind, "body": body}


def stop(identity="S1"):
    return {"kind": "stop_session", "body": {"response_url": "https://node.invalid/1", "session_id": identity}}


def start():
    body = {"response_url": "https://node.invalid/1", "token": token(), "location_id": "LOC1"}
    return {"kind": "start_session", "body": body}


def pending(command, deadline, evse=None, connector=None):
    return {**command, "deadline": moment(deadline), "evse_uid": evse, "connector_id": connector}


def push(to, kind, body):
    return {"to": to, "kind": kind, "body": body}


def result(word="ACCEPTED"):
    return {"response_url": "https://node.invalid/1", "result": word}


def evse(uid, connectors):
    one = {"format": "SOCKET", "power_type": "AC_3_PHASE", "standard": "IEC_62196_T2"}
    return {"uid": uid, "evse_id": f"BE*BEC*{uid}", "connectors": [{"id": name, **one} for name in connectors]}


def location(identity, evses):
    at = {"address": "Korenmarkt 1", "city": "Gent", "country": "BEL", "latitude": "51.05421", "longitude": "3.72180"}
    return {"id": identity, **at, "evses": evses}


def site_line(locations):
    site = {"currency": "EUR", "price": Number("0.25"), "locations": locations}
    return {"at": moment(0), "party": "BE/BEC", "providers": ["NL/TNM", "DE/EMP"], "site": site}
