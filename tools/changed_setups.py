"""What a setup may change between two runs of `node` over one store. Stores are made by plays, and each is opened with a
setup that differs: all its rows are taken then, or one of them is refused. docs/NODE.md has this as a table.
"""
import copy
import json
import os
import shutil
import subprocess

OPERATOR, PROVIDER, OTHER_OPERATOR, OTHER_PROVIDER = "BE/BEC", "NL/TNM", "FR/FRC", "DE/EMP"
# The file of each in the folder of a play.
FILES = {OPERATOR: "node1.db", PROVIDER: "node2.db"}


def line_of(tree):
    return json.dumps(tree, separators=(",", ":")) + "\n"


def evse(uid, *connectors):
    form = {"format": "SOCKET", "power_type": "AC_3_PHASE", "standard": "IEC_62196_T2"}
    return {"connectors": [{"id": it, **form} for it in connectors], "evse_id": f"BE*BEC*{uid}", "uid": uid}


def site(location, *evses, currency="EUR", price=0.25):
    place = {"address": "Korenmarkt 1", "city": "Gent", "country": "BEL", "latitude": "51.05421", "longitude": "3.72180"}
    return {"currency": currency, "price": price, "locations": [{"id": location, "evses": [*evses], **place}]}


# The setup of each play.
SETUP = {"nodes": [
    {"party": OPERATOR, "site": site("LOC1", evse("E1", "1", "2"), evse("E2", "1"))}, {"party": PROVIDER},
    {"party": OTHER_OPERATOR, "site": site("LOC9", evse("F1", "1"))}, {"party": OTHER_PROVIDER},
]}

# ---- what happens in a play: events, what the links bring, and which packets they lose

TO_OPERATOR, ALL, LOSE, LOSE_BILL = "to the operator", "all", "lose", "lose the bill"


def event(kind, node, **members):
    return {"event": kind, "node": node, **members}


def token(party, uid):
    country, name = party.split("/")
    one = {"uid": uid, "contract_id": f"{country}-{name}-000001", "country_code": country, "party_id": name, "issuer": name}
    one |= {"type": "RFID", "valid": True, "whitelist": "ALWAYS", "last_updated": "2025-01-01T09:00:00Z"}
    return event("token", party, token=one)


def order(kind, **members):
    named = {"token_uid": "AA01", "token_type": "RFID", "location_id": "LOC1", "evse_uid": "E1", **members}
    return event("submit", PROVIDER, operator=OPERATOR, order=kind, **named)


def at_evse(kind, **members):
    return event(kind, OPERATOR, evse_uid="E1", **members)


TWO_TOKENS = [token(PROVIDER, "AA01"), token(OTHER_PROVIDER, "DD01")]
SWIPE = [at_evse("swipe", connector_id="1", token_uid="AA01", token_type="RFID"), ALL]
CHARGE = [at_evse("starts"), at_evse("meter", kwh=12.3456), ALL]
RESERVE = [order("reserve_now", expiry_date="2025-01-01T11:00:00Z", reservation_id="R1"), TO_OPERATOR]
START = [order("start_session", connector_id="1"), TO_OPERATOR]
# (the token's request has the number 1 at the one operator and 2 at the other)
BEGIN = [*START, ALL, event("accepts", OPERATOR, provider=PROVIDER, number=3), ALL]

KNOWN, LOST = [*TWO_TOKENS, ALL], [*TWO_TOKENS, LOSE]
STAGES = {
    "nothing": [],
    "tokens": KNOWN,
    "a token that waits": TWO_TOKENS,
    "an EVSE out of service": [at_evse("service", in_service=False)],
    "a reservation": [*KNOWN, *RESERVE],
    "an open start": [*KNOWN, *START],
    "a session without energy": [*KNOWN, *BEGIN],
    "a session": [*KNOWN, *BEGIN, *CHARGE],
    "an ended session": [*KNOWN, *BEGIN, *CHARGE, at_evse("stops"), ALL],
    "a session by a swipe": [*KNOWN, *SWIPE, *CHARGE],
    "an ended session by a swipe": [*KNOWN, *SWIPE, *CHARGE, at_evse("stops"), ALL],
    # the same where the operator has no token
    "a reservation alone": [*LOST, *RESERVE, ALL],
    "an open start alone": [*LOST, *START],
    "a session alone": [*LOST, *BEGIN, *CHARGE],
    "an ended session alone": [*LOST, *BEGIN, *CHARGE, at_evse("stops"), ALL],
    "a bill that waits": [*LOST, *BEGIN, *CHARGE, at_evse("stops"), LOSE_BILL, ALL],
}


class Play:
    """A play with stores, whose links bring packets when they are told to."""

    def __init__(self, program, folder):
        pipes = {"stdin": subprocess.PIPE, "stdout": subprocess.PIPE, "text": True}
        self.program, self.seconds, self.sent = subprocess.Popen([program, "play", "--store", folder], **pipes), 0, []
        self.give(SETUP)

    def give(self, tree):
        """Gives a line, and another that is `skipped`, behind all that the first one gives."""
        self.program.stdin.write(line_of(tree) + line_of(event("restart", "no/bdy")))
        self.program.stdin.flush()
        while (line := self.program.stdout.readline()) != "skipped\n":
            packet = json.loads(line)
            self.sent.append({name: packet[name] for name in ("from", "to", "serial", "kind")})

    def happen(self, it):
        self.seconds += 1
        at = f"2025-01-01T10:{self.seconds // 60:02}:{self.seconds % 60:02}Z"
        self.give({**it, "at": at})

    def bring(self, *parties):
        """Brings all that was sent to these parties, and what is sent for that."""
        while to := [it for it in self.sent if it["to"] in parties]:
            self.sent.remove(to[0])
            self.happen(event("deliver", to[0]["to"], **{"from": to[0]["from"], "serial": to[0]["serial"]}))

    def go(self, step):
        if isinstance(step, dict):
            self.happen(step)
        elif step == TO_OPERATOR:
            self.bring(OPERATOR)
        elif step == ALL:
            self.bring(OPERATOR, PROVIDER, OTHER_OPERATOR, OTHER_PROVIDER)
        else:
            self.sent = [it for it in self.sent if step == LOSE_BILL and it["kind"] != "post_cdr"]

    def end(self):
        with self.program as program:
            program.stdin.close()
            program.stdout.read()


def make_stores(program, room):
    """The folder of each stage's stores."""
    folders = {}
    for name, steps in STAGES.items():
        folders[name] = os.path.join(room, name.replace(" ", "_"))
        os.mkdir(folders[name])
        play = Play(program, folders[name])
        for step in steps:
            play.go(step)
        play.end()
    return folders


# ---- how a setup differs

def with_site(**members):
    """The operator's site has another currency or price."""
    return lambda nodes: nodes[0]["site"].update(members)


def later(moment, price=0.3):
    """An entry of `prices`."""
    return {"start_date_time": moment, "price": price}


def with_prices(*entries, **members):
    """The operator's prices change at moments."""
    return with_site(prices=[*entries], **members)


def with_place(location="LOC1", uid="E1", connector="1"):
    """Its location, its first EVSE or a connector of that has another name."""
    return lambda nodes: nodes[0]["site"].update(site(location, evse(uid, connector, "2"), evse("E2", "1")))


def with_another(party, **site_of):
    return lambda nodes: nodes.append({"party": party, **site_of})


def without(party):
    return lambda nodes: nodes.remove(next(it for it in nodes if it["party"] == party))


def renamed(old, new):
    return lambda nodes: next(it for it in nodes if it["party"] == old).update(party=new)


def in_lower_case(nodes):
    for it in nodes:
        it["party"] = it["party"].lower()


# ---- what must come of it: nothing where all rows are taken, or else which row is refused, and why

SETUP_OF_STORE = "give the setup of the store"
NO_PARTY = f"it is of or to a party that the setup has not: {SETUP_OF_STORE}"
NO_EVSE = f"the setup's site has no such EVSE: {SETUP_OF_STORE}"
NO_CONNECTOR = f"the setup's site has the EVSE, and no such connector of it: {SETUP_OF_STORE}"
OTHER_LOCATION = f"the setup's site has the EVSE, at another location than it names: {SETUP_OF_STORE}"
# When the session of the stages begins, by the play's own clock, and the second behind it.
BEGAN, AFTER = "2025-01-01T10:00:19Z", "2025-01-01T10:00:20Z"


def other_price(began):
    return (
        f"it began at {began}, and its cost 3.0864 for 12.3456 kWh is not that of the setup's price then, 0.3000 a kWh: another "
        f"price made it; {SETUP_OF_STORE}, and change a price by an entry of `prices` alone"
    )


OTHER_CURRENCY = (
    "the session has not ended, and is in another currency than the setup's: give the currency of the store until all its "
    "sessions have ended"
)
OTHER_PARTY = "it is of another party than this node's: name the party whose store this is"
OTHER_ROLE = "a node of this role stores no such row: name the party whose store this is"

SERVICE, RESERVATION, OPEN, COMMAND = "service E1", "reservation NL/TNM/R1", "pending NL/TNM/3", "command 3"
SESSION = "session BE/BEC/53424542-4543-0000-0000-000000000001"
TAKEN = None


def taken(*stages):
    return dict.fromkeys(stages, TAKEN)


# of which node, what changes, and what comes of it at each stage
CHANGES = [
    (OPERATOR, "another price", with_site(price=0.3), {
        **taken("nothing", "tokens", "a reservation", "an open start", "a session without energy"),
        "a session": (SESSION, other_price(BEGAN)), "an ended session": (SESSION, other_price(BEGAN)),
    }),
    (OPERATOR, "another price from a later moment on", with_prices(later("2025-01-01T11:00:00Z")), taken(*STAGES)),
    (OPERATOR, "another price from the start of the session on", with_prices(later(BEGAN)), {
        **taken("a session without energy"), "a session": (SESSION, other_price(BEGAN)), "an ended session": (SESSION, other_price(BEGAN)),
    }),
    (OPERATOR, "the price of before until after the start", with_prices(later("1970-01-01T00:00:00Z", 0.25), later(AFTER), price=0.4), taken(*STAGES)),
    (OPERATOR, "another currency", with_site(currency="CHF"), {
        **taken("tokens", "an open start", "an ended session"), "a session without energy": (SESSION, OTHER_CURRENCY),
        "a session": (SESSION, OTHER_CURRENCY),
    }),
    (OPERATOR, "another name of an EVSE", with_place(uid="E9"), {
        **taken("nothing", "tokens", "an ended session"), "an EVSE out of service": (SERVICE, NO_EVSE), "a reservation": (RESERVATION, NO_EVSE),
        "an open start": (OPEN, NO_EVSE), "a session without energy": (SESSION, NO_EVSE), "a session": (SESSION, NO_EVSE),
    }),
    (OPERATOR, "another name of a connector", with_place(connector="7"), {
        **taken("tokens", "an EVSE out of service", "a reservation", "an ended session"),
        "an open start": (OPEN, NO_CONNECTOR), "a session": (SESSION, NO_CONNECTOR),
    }),
    (OPERATOR, "another name of a location", with_place(location="LOC2"), {
        **taken("tokens", "an EVSE out of service", "an open start", "a session", "an ended session"), "a reservation": (RESERVATION, OTHER_LOCATION),
    }),
    (OPERATOR, "a provider more", with_another("AT/NEW"), taken("nothing", "tokens", "a reservation", "a session", "an ended session")),
    (OPERATOR, "a provider less", without(PROVIDER), {
        **taken("nothing", "a reservation alone", "an ended session alone"), "tokens": ("token NL/TNM/RFID/AA01", NO_PARTY),
        "an open start alone": (OPEN, NO_PARTY), "a session alone": (SESSION, NO_PARTY), "a bill that waits": ("push 6", NO_PARTY),
    }),
    (OPERATOR, "another party of its own", renamed(OPERATOR, "BE/XXX"), {
        **taken("nothing", "tokens", "a reservation", "an open start"), "a session": (SESSION, OTHER_PARTY),
    }),
    (OPERATOR, "the other role", lambda nodes: nodes[0].pop("site"), {**taken("nothing"), "an EVSE out of service": (SERVICE, OTHER_ROLE)}),
    (OPERATOR, "parties in lower case", in_lower_case, taken(*STAGES)),
    (PROVIDER, "an operator more", with_another("AT/NEW", site=site("LOC7", evse("G1", "1"))), taken("nothing", "tokens", "a session", "an ended session")),
    (PROVIDER, "an operator less", without(OPERATOR), {
        **taken("nothing", "tokens", "a session by a swipe", "an ended session by a swipe"), "a token that waits": ("push 1", NO_PARTY),
        "an open start": (COMMAND, NO_PARTY), "a session": (COMMAND, NO_PARTY), "an ended session": (COMMAND, NO_PARTY),
    }),
    (PROVIDER, "another party of its own", renamed(PROVIDER, "NL/XXX"), {**taken("nothing"), "tokens": ("token NL/TNM/RFID/AA01", OTHER_PARTY)}),
    (PROVIDER, "another price of an operator", with_site(price=0.3), taken("an open start", "a session", "an ended session")),
    (PROVIDER, "other places of an operator", with_place("LOC2", "E9", "7"), taken("an open start", "a session", "an ended session")),
    (PROVIDER, "parties in lower case", in_lower_case, taken(*STAGES)),
]


def trials(program, room):
    """Of each change at each of its stages: what it is, the party of the node, its store, the setup, and what is refused."""
    folders = make_stores(program, room)
    for party, name, change, stages in CHANGES:
        nodes = copy.deepcopy(SETUP["nodes"])
        own = next(it for it in nodes if it["party"] == party)
        change(nodes)
        for stage, wanted in stages.items():
            store = os.path.join(room, f"{party} {name} {stage}.db".replace("/", "_").replace(" ", "_"))
            shutil.copy(os.path.join(folders[stage], FILES[party]), store)
            yield f"{name}, at {party} with {stage}", own["party"], store, line_of({"nodes": nodes}), wanted and ": ".join(wanted)
