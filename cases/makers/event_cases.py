"""The cases of `packet_cases` that are setup lines and event lines: `CASES` has each line, behind `setup ` or `event `, and what it
must give, `taken` or why it is refused. `packet_cases` writes them behind its own."""
import json

def dump(value):
    return json.dumps(value, separators=(",", ":"), ensure_ascii=False)

class Raw(str):
    pass

def text(members):
    return "{" + ",".join(dump(name) + ":" + (value if isinstance(value, Raw) else dump(value)) for name, value in members.items()) + "}"

CASES = []


def case(kind, line, answer):
    CASES.append((f"{kind} {line}", answer if answer == "taken" else f"refused {answer}"))


AT = "2025-01-01T10:00:00Z"
TOKEN = {"contract_id": "NL-TNM-000001", "country_code": "NL", "issuer": "TNM", "last_updated": "2025-01-01T09:00:00Z", "party_id": "TNM", "type": "RFID", "uid": "AA01", "valid": True, "whitelist": "ALWAYS"}
CI, PARTY, MOMENT, WHOLE, QUANTITY, TRUTH, WORD, OBJECT = range(8)
least = {CI: "", PARTY: "BE/BEC", MOMENT: "1970-01-01T00:00:00Z", WHOLE: 0, QUANTITY: Raw("0.0000"), TRUTH: False, WORD: "OTHER"}
most = {CI: "~" * 36, PARTY: "~~/~~~", MOMENT: "9999-12-31T23:59:59.999Z", WHOLE: 999999999999999999, QUANTITY: Raw("99999999999.9999"), TRUTH: True, WORD: "AD_HOC_USER"}
wrong = {
    CI: ["~" * 37, "\u00e9", "a\u007fb", 1, True, [], {}],
    PARTY: ["BEBEC", "BE-BEC", "B/BEC", "BE/BECX", "BE/B\u00e9C", "", 1, False, []],
    MOMENT: ["2025-02-29T00:00:00Z", "2025-01-01", "1969-12-31T23:59:59Z", "2025-01-01T10:00:00+01:00", "2025-01-01T10:00:60Z", "", 1, {}],
    WHOLE: ["1", -1, Raw("1.0"), Raw("1e3"), 1000000000000000000, True],
    QUANTITY: ["1", Raw("-0.0001"), Raw("-1.5"), Raw("1e3"), Raw("100000000000"), Raw("1234567890123456"), False],
    TRUTH: ["true", 1, 0, "", []],
    WORD: [1, True, [], {}],
    OBJECT: ["AA01", 1, True, []],
}

ORDERS = {
    "start_session": [("token_uid", CI), ("token_type", WORD), ("location_id", CI), ("evse_uid", CI, "?"), ("connector_id", CI, "?")],
    "stop_session": [("session_id", CI)],
    "reserve_now": [("token_uid", CI), ("token_type", WORD), ("expiry_date", MOMENT), ("reservation_id", CI), ("location_id", CI), ("evse_uid", CI, "?")],
    "cancel_reservation": [("reservation_id", CI)],
    "unlock_connector": [("location_id", CI), ("evse_uid", CI), ("connector_id", CI)],
}
COMMAND = [("provider", PARTY), ("number", WHOLE)]
EVENTS = {
    "token": [("at", MOMENT), ("token", OBJECT)],
    "service": [("evse_uid", CI), ("in_service", TRUTH)],
    "swipe": [("at", MOMENT), ("evse_uid", CI), ("connector_id", CI), ("token_uid", CI), ("token_type", WORD)],
    "accepts": [("at", MOMENT)] + COMMAND,
    "refuses": [("at", MOMENT)] + COMMAND,
    "unlocked": [("at", MOMENT)] + COMMAND,
    "starts": [("at", MOMENT), ("evse_uid", CI)],
    "stops": [("at", MOMENT), ("evse_uid", CI)],
    "fault": [("at", MOMENT), ("evse_uid", CI)],
    "meter": [("at", MOMENT), ("evse_uid", CI), ("kwh", QUANTITY)],
    "credit": [("at", MOMENT), ("session_id", CI)],
    "deliver": [("at", MOMENT), ("from", PARTY), ("serial", WHOLE)],
    "tick": [("at", MOMENT)],
    "restart": [],
    "refused": [],
}
KINDS = [(name, None, [("node", PARTY)] + members) for name, members in EVENTS.items()]
KINDS += [("submit", name, [("node", PARTY), ("at", MOMENT), ("operator", PARTY)] + members) for name, members in ORDERS.items()]

def line_of(event, order, members, values):
    line = {"event": event}
    for member in members:
        name = member[0]
        if name in values:
            line[name] = values[name]
    if order is not None:
        line["order"] = order
    return line

for event, order, members in KINDS:
    def full(table):
        return {m[0]: (TOKEN if m[1] == OBJECT else table[m[1]]) for m in members}
    case("event", text(line_of(event, order, members, full(most))), "taken")
    required = [m for m in members if len(m) == 2]
    case("event", text(line_of(event, order, required, full(least))), "taken")
    case("event", text({**line_of(event, order, members, full(most)), "more": [1, {"at": None}]}), "taken")
    base = full(most)
    for member in members:
        name, form, optional = member[0], member[1], len(member) == 3
        without = {k: v for k, v in base.items() if k != name}
        case("event", text(line_of(event, order, members, without)), "taken" if optional else f"4 Missing({name})")
        case("event", text(line_of(event, order, members, {**base, name: None})), "taken" if optional else f"4 Missing({name})")
        for value in wrong[form]:
            case("event", text(line_of(event, order, members, {**base, name: value})), f"5 WrongForm({name})")
        if form == WORD:
            for value in ["", "rfid", "RFID "]:
                case("event", text(line_of(event, order, members, {**base, name: value})), f"6 UnknownWord({name})")
        if form == OBJECT:
            for part in ["country_code", "party_id", "uid", "type", "contract_id", "issuer", "valid", "whitelist", "last_updated"]:
                case("event", text(line_of(event, order, members, {**base, name: {k: v for k, v in TOKEN.items() if k != part}})), f"4 Missing({part})")
    # the order in which faults are told: all members but those before this one are absent
    for i, member in enumerate(members):
        if len(member) == 2:
            kept = {m[0]: base[m[0]] for m in members[:i]}
            case("event", text(line_of(event, order, members, kept)), f"4 Missing({member[0]})")
    # no moment is looked at
    if event in ("service", "restart", "refused"):
        for value in [None, 1, "no moment", {}]:
            case("event", text({**line_of(event, order, members, base), "at": value}), "taken")

case("event", text({"event": "ticks"}), "7 UnknownKind")
case("event", text({"event": "Tick", "node": 1}), "7 UnknownKind")
case("event", text({"event": "", "node": "BE/BEC", "at": AT}), "7 UnknownKind")
case("event", text({"event": "charger", "node": "BE/BEC", "at": AT}), "7 UnknownKind")
case("event", text({"node": "BE/BEC", "at": AT}), "4 Missing(event)")
case("event", text({"event": None, "node": "BE/BEC", "at": AT}), "4 Missing(event)")
for value in [1, True, [], {}]:
    case("event", text({"event": value, "node": "BE/BEC", "at": AT}), "5 WrongForm(event)")
submit = {"event": "submit", "node": "NL/TNM", "at": AT, "operator": "BE/BEC"}
for value in ["command_response", "put_token", "ack", "", "Start_session", "unlock"]:
    case("event", text({**submit, "order": value}), "7 UnknownKind")
case("event", text({**submit, "operator": 1, "order": "ack"}), "5 WrongForm(operator)")
case("event", text(submit), "4 Missing(order)")
case("event", text({**submit, "order": None}), "4 Missing(order)")
for value in [1, True, [], {}]:
    case("event", text({**submit, "order": value}), "5 WrongForm(order)")
for line in ["[]", "1", "null", "\"tick\"", "true"]:
    case("event", line, "5 WrongForm(line)")
case("event", "", "1 Syntax")
case("event", "{\"event\":\"tick\"", "1 Syntax")
case("event", "{\"event\":\"tick\",\"at\":01}", "2 BadNumberToken")
case("event", "{\"event\":\"\\u0001tick\"}", "3 TaggedText")
# of a repeated name the last counts
case("event", "{\"event\":\"ack\",\"event\":\"tick\",\"node\":\"BE/BEC\",\"at\":null,\"at\":\"" + AT + "\"}", "taken")
# decimals are cut, and not rounded
case("event", text({"event": "meter", "node": "BE/BEC", "at": AT, "evse_uid": "E1", "kwh": Raw("-0.00001")}), "taken")
case("event", text({"event": "meter", "node": "BE/BEC", "at": AT, "evse_uid": "E1", "kwh": Raw("12.34567")}), "taken")

# a run from the stored token to the packet that comes three times
for members in [
    {"event": "token", "node": "NL/TNM", "at": "2025-01-01T09:59:00Z", "token": TOKEN},
    {"event": "submit", "node": "NL/TNM", "at": AT, "operator": "BE/BEC", "order": "start_session", "token_uid": "AA01", "token_type": "RFID", "location_id": "LOC1", "evse_uid": "E1", "connector_id": "1"},
    {"event": "deliver", "node": "BE/BEC", "at": AT, "from": "NL/TNM", "serial": 3},
    {"event": "accepts", "node": "BE/BEC", "at": "2025-01-01T10:00:05Z", "provider": "NL/TNM", "number": 3},
    {"event": "starts", "node": "BE/BEC", "at": "2025-01-01T10:00:10Z", "evse_uid": "E1"},
    {"event": "meter", "node": "BE/BEC", "at": "2025-01-01T10:30:00Z", "evse_uid": "E1", "kwh": Raw("12.3456")},
    {"event": "stops", "node": "BE/BEC", "at": "2025-01-01T10:30:10Z", "evse_uid": "E1"},
    {"event": "deliver", "node": "NL/TNM", "at": "2025-01-01T10:31:00Z", "from": "BE/BEC", "serial": 7},
    {"event": "deliver", "node": "NL/TNM", "at": "2025-01-01T10:31:00Z", "from": "BE/BEC", "serial": 7},
    {"event": "deliver", "node": "NL/TNM", "at": "2025-01-01T10:31:00Z", "from": "BE/BEC", "serial": 7},
]:
    case("event", text(members), "taken")

# ---- setups
def evse(uid, evse_id):
    return {"connectors": [{"format": "SOCKET", "id": "1", "power_type": "AC_3_PHASE", "standard": "IEC_62196_T2"}], "evse_id": evse_id, "uid": uid}
def location(name, evses):
    return {"address": "Korenmarkt 1", "city": "Gent", "country": "BEL", "evses": evses, "id": name, "latitude": "51.05421", "longitude": "3.72180"}
def site(locations):
    return {"currency": "EUR", "price": 0.25, "locations": locations}
BEC = {"party": "BE/BEC", "site": site([location("LOC1", [evse("E1", "BE*BEC*E1"), evse("E2", "BE*BEC*E2")]), location("LOC2", [evse("E3", "BE*BEC*E3")])])}
FRC = {"party": "FR/FRC", "site": site([location("LOC9", [evse("F1", "FR*FRC*F1")])])}
TNM, EMP = {"party": "NL/TNM"}, {"party": "DE/EMP"}
def setup(nodes, answer):
    case("setup", text({"nodes": nodes}), answer)
setup([BEC, FRC, TNM, EMP], "taken")
setup([TNM], "taken")
setup([BEC], "taken")
setup([BEC, {**BEC, "party": "FR/FRC"}], "taken")
setup([{"party": f"NL/P{n:02}"} for n in range(64)], "taken")
setup([{"party": f"NL/P{n:02}"} for n in range(65)], "5 WrongForm(nodes)")
setup([None] * 65, "5 WrongForm(nodes)")
setup([], "5 WrongForm(nodes)")
for value in [{}, "NL/TNM", 1, True]:
    setup(value, "5 WrongForm(nodes)")
setup(None, "4 Missing(nodes)")
case("setup", "{}", "4 Missing(nodes)")
for value in [None, 1, "NL/TNM", [], True]:
    setup([value], "5 WrongForm(nodes)")
    setup([TNM, value], "5 WrongForm(nodes)")
setup([{"party": 1}, None], "5 WrongForm(party)")
setup([TNM, {**TNM, "site": None}], "5 WrongForm(party)")
setup([{**TNM, "site": None}], "taken")
setup([TNM, EMP, {"party": "nl/tnm"}], "5 WrongForm(party)")
setup([BEC, {"party": "be/Bec", "site": 1}], "5 WrongForm(party)")
setup([{}], "4 Missing(party)")
setup([{"party": None}], "4 Missing(party)")
for value in wrong[PARTY]:
    setup([{"party": value}], "5 WrongForm(party)")
for value in [1, "site", True, []]:
    setup([{"party": "BE/BEC", "site": value}], "5 WrongForm(site)")
setup([{"party": "BE/BEC", "site": {}}], "4 Missing(currency)")
setup([{"party": "BE/BEC", "site": {"currency": "EUR"}}], "4 Missing(price)")
setup([{"party": "BE/BEC", "site": {"currency": "EUR", "price": 10001}}], "5 WrongForm(price)")
setup([{"party": "BE/BEC", "site": {"currency": "EUR", "price": 1}}], "4 Missing(locations)")
setup([{"party": "BE/BEC", "site": site([])}], "5 WrongForm(locations)")
PRICES = [{"start_date_time": "2025-01-01T10:00:00Z", "price": 0.3}, {"start_date_time": "2025-01-01T10:00:00.001Z", "price": 10000}]
setup([{**BEC, "site": {**BEC["site"], "prices": PRICES}}, {**FRC, "site": {**FRC["site"], "prices": PRICES[:1]}}, TNM], "taken")
setup([{**BEC, "site": {**BEC["site"], "prices": None}}, {**FRC, "site": {**FRC["site"], "prices": []}}], "taken")
setup([{"party": "BE/BEC", "site": {"currency": "EUR", "price": 1, "prices": {}}}], "5 WrongForm(prices)")
setup([{"party": "BE/BEC", "site": {"currency": "EUR", "price": 1, "prices": [1]}}], "5 WrongForm(prices)")
setup([{"party": "BE/BEC", "site": {"currency": "EUR", "price": 1, "prices": [{}]}}], "4 Missing(start_date_time)")
setup([{"party": "BE/BEC", "site": {"currency": "EUR", "price": 1, "prices": PRICES[::-1]}}], "5 WrongForm(start_date_time)")
setup([{"party": "BE/BEC", "site": {"currency": "EUR", "price": 1, "prices": [{**PRICES[0], "price": 10001}]}}], "5 WrongForm(price)")
setup([{"party": "BE/BEC", "site": {"currency": "EUR", "price": 1, "prices": PRICES}}], "4 Missing(locations)")
setup([{"party": "BE/BEC", "site": site([location("LOC1", [evse("E1", "A")]), location("loc1", [evse("E2", "B")])])}], "5 WrongForm(id)")
setup([{"party": "BE/BEC", "site": site([location("LOC1", [evse("E1", "A")]), location("LOC2", [evse("e1", "B")])])}], "5 WrongForm(uid)")
setup([{"party": "BE/BEC", "site": site([location("LOC1", [])])}], "5 WrongForm(evses)")
case("setup", text({"nodes": [TNM], "at": 1, "more": None}), "taken")
for line in ["[]", "null", "1"]:
    case("setup", line, "5 WrongForm(line)")
case("setup", "", "1 Syntax")
