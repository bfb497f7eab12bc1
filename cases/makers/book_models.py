"""Sequences of calls that are drawn, with what plain models answer: lists and sorted dicts, searched from end to end. The draws are
the same in each run."""

import random

from book_values import (
    cdr,
    decimal,
    evse,
    location,
    moment,
    own_key,
    pending,
    push,
    reservation,
    session,
    site_line,
    stop,
    text,
    token,
    token_key,
)

PARTIES = ("NL/TNM", "DE/EMP", "FR/FRC")
CALLS = 400


def any_case(draw, name):
    """The text in a case that is drawn."""
    return draw.choice((name, name.lower(), name.upper()))


def with_row(words, kind, key, tree):
    return f"{words} kind={kind} key={key}\t{text(tree)}"


# Prices of a kilowatt-hour, in ten-thousandths.
PRICES = (0, 1, 2_500, 3_333, 100_000_000)


class Sessions:
    """One session after the other. The price at which it is charged is that of the moment at which its charging begins."""

    def __init__(self, draw):
        self.draw, self.version, self.price = draw, None, 0

    def call(self):
        draw = self.draw
        if self.version is None or draw.random() < 0.05:
            return self.start()
        at, version = draw.randrange(0, 4_000_000), dict(self.version)
        call = draw.choice(("activate", "void", "meter", "meter", "meter", "meter", "complete", "copy"))
        line = f"session {call} at={moment(0, at)}"
        if call == "copy":
            return line, self.told(version)
        kwh = version["energy"] + draw.choice((-1, 0, 0, 1, 9_999, 123_456, 40_000_000))
        if call == "meter":
            line += f" kwh={decimal(kwh)}"
            if kwh < 0:
                return line, "not a call"
        wanted = "PENDING" if call in ("activate", "void") else "ACTIVE"
        if version["status"] != wanted:
            return line, "other state"
        if call == "meter" and kwh < version["energy"]:
            return line, "no such reading"
        if call == "activate":
            self.price = draw.choice(PRICES)
            line += f" price={decimal(self.price)}"
            version |= {"status": "ACTIVE", "start": at}
        elif call == "meter":
            version |= {"energy": kwh}
        else:
            version |= {"status": "INVALID" if call == "void" else "COMPLETED", "end": max(at, version["start"])}
        version["updated"] = max(at, version["updated"] + 1)
        self.version = version
        return line, self.told(version)

    def start(self):
        at, self.price = self.draw.randrange(0, 4_000_000), self.draw.choice(PRICES)
        self.version = {"status": "PENDING", "start": at, "end": None, "energy": 0, "updated": at}
        line = f"session start at={moment(0, at)} price={decimal(self.price)}"
        return with_row(line, "session", "BE/BEC/S1", session()), self.told(self.version)

    def told(self, version):
        return text(session(
            kwh=version["energy"],
            cost=version["energy"] * self.price // 10_000,
            status=version["status"],
            start_date_time=moment(0, version["start"]),
            end_date_time=None if version["end"] is None else moment(0, version["end"]),
            last_updated=moment(0, version["updated"]),
        ))


class Places:
    """The claims and the service of EVSEs."""

    def __init__(self, draw):
        self.draw, self.claims, self.out = draw, {}, set()
        self.locations = [[f"E{place}{k}" for k in range(1, draw.randrange(2, 8))] for place in range(5)]
        self.opened = False

    def call(self):
        if not self.opened:
            self.opened = True
            places = [location(f"LOC{k}", [evse(uid, "1") for uid in uids]) for k, uids in enumerate(self.locations)]
            return f"site open\t{text(site_line(places))}", "done"
        draw = self.draw
        place = draw.randrange(5)
        uid = draw.choice([*self.locations[place], "E99"])
        known = uid != "E99"
        call = draw.choice(("claim", "claim", "claim", "change", "put", "release", "in", "out", "claim_of", "in_service", "free_at"))
        line = f"site {call} evse={any_case(draw, uid)}"
        if call == "free_at":
            free = [one for one in self.locations[place] if one not in self.claims and one not in self.out]
            return f"site free_at location={any_case(draw, f'LOC{place}')}", (free or ["none"])[0]
        if call in ("claim", "change", "put"):
            return self.claim(call, line, uid, known)
        if call == "release":
            self.claims.pop(uid, None)
            return line, "done"
        if call == "claim_of":
            return line, self.claims.get(uid, "none")
        if call == "in_service":
            return line, "yes" if known and uid not in self.out else "no"
        if not known:
            return line, "2 UnknownEvse"
        (self.out.discard if call == "in" else self.out.add)(uid)
        return line, "done"

    def claim(self, call, line, uid, known):
        kind, party = self.draw.choice(("start", "session", "reservation")), self.draw.choice(PARTIES)
        named = str(self.draw.randrange(10**18)) if kind == "start" else f"X{self.draw.randrange(99)}"
        line += f" as={kind} party={party} {'number' if kind == 'start' else 'id'}={named}"
        if call == "claim":
            for applies, refusal in (
                (not known, "2 UnknownEvse"), (uid in self.claims, "3 Claimed"), (uid in self.out, "4 OutOfService"),
            ):
                if applies:
                    return line, refusal
        elif not known or (call == "change" and uid not in self.claims):
            return line, "none"
        self.claims[uid] = f"{kind} {party} {named}"
        return line, "done"


class Reservations:
    def __init__(self, draw):
        self.draw, self.marks, self.standing = draw, {}, {}

    def call(self):
        draw = self.draw
        party, identity, counted = draw.choice(PARTIES), f"R{draw.randrange(8)}", draw.randrange(60)
        key = (party, identity)
        call = draw.choice(("reserve", "reserve", "reserve", "note", "cancel", "use", "standing", "mark", "expire", "expired"))
        line = f"reservation {call} party={party} id={any_case(draw, identity)}"
        if call == "standing":
            return line, text(self.standing[key]) if key in self.standing else "none"
        if call == "mark":
            return line, str(self.marks.get(key, "none"))
        if call == "use":
            return self.use(party)
        if call in ("expire", "expired"):
            return self.expire(call)
        stale = counted < self.marks.get(key, 0)
        if call == "reserve":
            tree = reservation(
                f"E{draw.randrange(4)}", f"LOC{draw.randrange(2)}", draw.randrange(100), uid=f"T{draw.randrange(2)}",
            )
            line = with_row(f"reservation reserve number={counted}", "reservation", f"{party}/{identity}", tree)
            if stale:
                return line, "1 Stale"
            if key in self.standing and self.standing[key]["location_id"] != tree["location_id"]:
                return line, "2 OtherLocation"
            self.marks[key], self.standing[key] = counted, tree
            return line, "done"
        line += f" number={counted}"
        if stale:
            return line, "1 Stale"
        self.marks[key] = counted
        if call == "note":
            return line, "done"
        ended = self.standing.pop(key, None)
        return line, text(ended) if ended else "none"

    def use(self, party):
        draw = self.draw
        place, uid, evse_uid = f"LOC{draw.randrange(2)}", f"T{draw.randrange(2)}", draw.choice(("", "E1", "E2"))
        line = f"reservation use party={party} location={any_case(draw, place)} uid={any_case(draw, uid)} evse={evse_uid}"
        fitting = [
            (tree["evse_uid"], key)
            for key, tree in self.standing.items()
            if key[0] == party and tree["location_id"] == place and tree["token"]["uid"] == uid and evse_uid in ("", tree["evse_uid"])
        ]
        return line, text(self.standing.pop(min(fitting)[1])) if fitting else "none"

    def expire(self, call):
        at = moment(self.draw.randrange(60))
        ended = sorted((tree["expiry_date"], key) for key, tree in self.standing.items() if tree["expiry_date"] <= at)
        if call == "expire":
            for _, key in ended:
                del self.standing[key]
        return f"reservation {call} at={at}", " ".join([str(len(ended)), *("/".join(key) for _, key in ended)])


class Tokens:
    def __init__(self, draw):
        self.draw, self.held, self.given = draw, {}, 0

    def call(self):
        draw = self.draw
        party, uid, kind = draw.choice(PARTIES), f"T{draw.randrange(4)}", draw.choice(("RFID", "RFID", "APP_USER"))
        call = draw.choice(("put", "put", "store", "find", "decide", "authorize", "issue_reference"))
        key = (kind, uid, party)
        line = f"token {call} party={party} uid={any_case(draw, uid)} type={kind}"
        if call == "put" or call == "store":
            whitelist = draw.choice(("ALWAYS", "ALLOWED", "ALLOWED_OFFLINE", "NEVER"))
            tree = token(
                party, any_case(draw, uid), type=kind, whitelist=whitelist, valid=draw.random() < 0.7,
                last_updated=moment(draw.randrange(40)), issuer=f"I{draw.randrange(9)}",
            )
            return self.put(key, tree) if call == "put" else self.store(key, tree)
        if call == "find":
            return line, text(self.held[key]) if key in self.held else "none"
        if call == "decide":
            return self.decide(kind, uid)
        if call == "authorize":
            if key not in self.held:
                return line, "1 UnknownToken"
            if not self.held[key]["valid"]:
                return line, f"blocked {text(self.held[key])}"
            return line, f"{self.reference(party)} {text(self.held[key])}"
        return line, self.reference(party)

    def reference(self, party):
        self.given += 1
        digits = f"{(b'A' + party.replace('/', '').encode()).hex()}0000{self.given:016x}"
        return f"{self.given} {digits[:8]}-{digits[8:12]}-{digits[12:16]}-{digits[16:20]}-{digits[20:]}"

    def put(self, key, tree):
        sender = self.draw.choice((key[2], key[2], key[2], "BE/BEC"))
        line = with_row(f"token put party={sender}", "token", token_key(tree), tree)
        if sender != key[2]:
            return line, "2 WrongParty"
        if key in self.held and self.held[key]["last_updated"] >= tree["last_updated"]:
            return line, "kept"
        self.held[key] = tree
        return line, "stored"

    def store(self, key, tree):
        second = self.draw.randrange(40)
        line = with_row(f"token store at={moment(second)}", "token", token_key(tree), tree)
        stamp = moment(second)
        if key in self.held and self.held[key]["last_updated"] >= stamp:
            held = self.held[key]["last_updated"]
            seconds, _, millis = held[17:-1].partition(".")
            stamp = moment(int(seconds), int(millis or 0) + 1)
        self.held[key] = tree | {"last_updated": stamp}
        return line, text(self.held[key])

    def decide(self, kind, uid):
        provider = self.draw.choice((None, *PARTIES))
        line = f"token decide type={kind} uid={any_case(self.draw, uid)}" + (f" provider={provider}" if provider else "")
        shown = [key for key in self.held if key[:2] == (kind, uid) and provider in (None, key[2])]
        if not shown:
            return line, "nothing"
        tree = self.held[min(shown)]
        if tree["whitelist"] in ("ALLOWED_OFFLINE", "NEVER"):
            return line, f"ask {text(tree)}"
        return line, f"begin {text(tree)}" if tree["valid"] else "nothing"


class Commands:
    def __init__(self, draw):
        self.draw, self.open, self.results = draw, {}, {}

    def call(self):
        draw = self.draw
        party, counted = draw.choice(PARTIES), draw.randrange(40)
        key = (party, counted)
        call = draw.choice(("open", "open", "settle", "answered", "opened", "due"))
        line = f"command {call} party={party} number={counted}"
        if call == "open":
            deadline = draw.randrange(50)
            line = with_row("command open", "pending", f"{party}/{counted}", pending(stop(), deadline))
            if key in self.open or key in self.results:
                return line, "1 AlreadyOpen"
            self.open[key] = deadline
            return line, "done"
        if call == "settle":
            word = draw.choice(("ACCEPTED", "FAILED", "TIMEOUT"))
            if key in self.results:
                return f"{line} as={word}", "2 Settled"
            self.open.pop(key, None)
            self.results[key] = word
            return f"{line} as={word}", "done"
        if call == "answered":
            return line, self.results.get(key, "none")
        if call == "opened":
            return line, f"stop_session {1_735_725_600_000 + self.open[key] * 1000}" if key in self.open else "none"
        at = draw.randrange(50)
        due = sorted(key for key, deadline in self.open.items() if deadline <= at)
        return f"command due at={moment(at)}", " ".join([str(len(due)), *(f"{party}/{counted}" for party, counted in due)])


class Inboxes:
    FINAL = ("COMPLETED", "INVALID")

    def __init__(self, draw):
        self.draw, self.sessions, self.cdrs, self.costs = draw, {}, {}, {}

    def call(self):
        draw = self.draw
        party, identity = draw.choice(PARTIES), f"S{draw.randrange(6)}"
        call = draw.choice(("session", "session", "cdr", "cdr", "cdr", "held", "held_cdr", "owed"))
        if call == "held":
            tree = self.sessions.get((party, identity))
            return f"inbox held sender={party} id={any_case(draw, identity)}", text(tree) if tree else "none"
        if call == "held_cdr":
            tree = self.cdrs.get((party, identity))
            return f"inbox held_cdr sender={party} cdr={any_case(draw, identity)}", text(tree) if tree else "none"
        if call == "owed":
            currency = draw.choice(("EUR", "USD"))
            owed = [self.costs[key] for key, tree in self.cdrs.items() if (key[0], tree["currency"]) == (party, currency)]
            return f"inbox owed sender={party} currency={currency}", decimal(sum(owed))
        sender, own = draw.choice((party, party, party, "AT/AAA")), draw.choice(("NL/TNM", "NL/TNM", "DE/EMP"))
        if call == "session":
            tree = session(
                any_case(draw, identity), party, own, kwh=draw.randrange(9), last_updated=moment(draw.randrange(30)),
                status=draw.choice(("PENDING", "ACTIVE", "ACTIVE", "ACTIVE", "COMPLETED", "INVALID")),
            )
            line = with_row(f"inbox take sender={sender}", "session", own_key(tree), tree)
            return line, self.take_session((party, identity), tree, sender == party and own == "NL/TNM")
        cost = draw.choice((-50_000, 0, 30_864, 10**15 - 1))
        taken = draw.choice(({}, {}, {"credit": True, "credit_reference_id": f"S{draw.randrange(6)}"}))
        tree = cdr(identity, f"X{draw.randrange(6)}", party, own, cost=cost, currency=draw.choice(("EUR", "USD")), **taken)
        if draw.random() < 0.3 and (party, identity) in self.cdrs:
            tree, own, cost = self.cdrs[party, identity], "NL/TNM", self.costs[party, identity]
        line = with_row(f"inbox take sender={sender}", "cdr", own_key(tree), tree)
        return line, self.take_cdr((party, identity), tree, cost, sender == party and own == "NL/TNM")

    def take_session(self, key, tree, fits):
        if not fits:
            return "1 WrongParty"
        held = self.sessions.get(key)
        if held and (held["status"] in self.FINAL or held["last_updated"] >= tree["last_updated"]):
            return "kept"
        self.sessions[key] = tree
        return "taken"

    def take_cdr(self, key, tree, cost, fits):
        if not fits:
            return "1 WrongParty"
        # (one of that id, or of that session that is alike a credit or not)
        like = (key[0], tree["session_id"], tree["credit"])
        same = [held for other, held in self.cdrs.items() if other == key or (other[0], held["session_id"], held["credit"]) == like]
        if any(text(held) != text(tree) for held in same):
            return "conflict"
        if same:
            return "kept"
        self.cdrs[key], self.costs[key] = tree, cost
        return "taken"


class Outboxes:
    def __init__(self, draw):
        self.draw, self.pushes, self.last = draw, {}, 0

    def call(self):
        draw = self.draw
        to, counted = draw.choice(PARTIES), draw.randrange(1, 30)
        call = draw.choice(("row", "row", "replaced", "ack", "ack", "is_to", "get", "unacked", "take_number", "drop"))
        line = f"outbox {call} party={any_case(draw, to)} number={counted}"
        if call == "take_number":
            self.last += 1
            return line, str(self.last)
        if call == "unacked":
            return line, "".join(f"{key} {self.pushes[key]['to']} " for key in sorted(self.pushes)) + "."
        if call == "get":
            return line, text(self.pushes[counted]) if counted in self.pushes else "none"
        if call == "is_to":
            return line, "yes" if self.is_to(to, counted) else "no"
        if call == "ack" or call == "drop":
            if call == "drop" or self.is_to(to, counted):
                self.pushes.pop(counted, None)
            return line, "done"
        if draw.random() < 0.5:
            tree = push(to, "put_token", token(draw.choice(PARTIES), f"T{draw.randrange(2)}"))
        else:
            tree = push(to, "put_session", session(f"S{draw.randrange(4)}", last_updated=moment(draw.randrange(9))))
        line = with_row(f"outbox {call}", "push", str(counted), tree)
        about = self.subject(tree)
        alike = next((key for key, other in self.pushes.items() if self.subject(other) == about), None)
        if call == "replaced":
            return line, "none" if alike is None else str(alike)
        if counted > self.last or alike not in (None, counted):
            return line, "may not"
        self.pushes[counted] = tree
        return line, "done"

    def is_to(self, to, counted):
        return counted in self.pushes and self.pushes[counted]["to"] == to

    def subject(self, tree):
        """A session of its operator, or a token at the operator that it goes to."""
        body = tree["body"]
        return (tree["to"], token_key(body)) if tree["kind"] == "put_token" else own_key(body)


def add_drawn(case):
    """Adds sequences of each kind."""
    for model in (Sessions, Places, Reservations, Tokens, Commands, Inboxes, Outboxes):
        for seed in range(2):
            case("fresh", "done")
            calls = model(random.Random(seed))
            for _ in range(CALLS):
                case(*calls.call())
