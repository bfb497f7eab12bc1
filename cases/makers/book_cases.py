"""The part `books` of the cases of the program `case_lines`: calls on a session, a site and the books, and what each must answer.

Each case says what it must answer, by the rules of docs/PROTOCOL.md. Behind these come sequences of calls that are drawn, with
the answers of the plain models of `book_models`. Each answer is one line, but for rows, whose number comes first.
"""

from book_case import CASES, case, fresh, with_row
from book_life_cases import SITE, add_lives_and_sites
from book_models import add_drawn
from book_values import (
    LAST_MOMENT,
    LAST_NUMBER,
    LOCATION,
    cdr,
    credit,
    decimal,
    in_packet,
    moment,
    number,
    own_key,
    pending,
    push,
    reply,
    reservation,
    result,
    session,
    start,
    stop,
    text,
    token,
    token_key,
    whole,
)


# Reservations


def reserve(numbered, tree, wanted="done", party="NL/TNM", identity="R1"):
    with_row(f"reservation reserve number={numbered}", "reservation", f"{party}/{identity}", tree, wanted)


def add_reservations():
    """A reservation is replaced, is at one location, is cancelled, used and expires; an older request is stale."""
    fresh()
    one, two = reservation("E1", expiry=3600), reservation("E2", "loc1", 7200)
    reserve(1, one)
    reserve(2, two)
    case("reservation standing id=r1", text(two))
    case("reservation use location=LOC1 uid=AA01 evse=E1", "none")
    reserve(3, reservation("E3", "LOC2", 7200), "2 OtherLocation")
    reserve(1, reservation("E3", "LOC2", 7200), "1 Stale")
    case("reservation mark id=R1", "2")
    case("reservation standing id=R1", text(two))
    reserve(2, two)
    case("reservation use location=LOC1 uid=aa01 evse=e2", text(two))
    case("reservation use location=LOC1 uid=AA01", "none")
    case("reservation mark id=R1", "2")
    reserve(1, one, "1 Stale")
    reserve(2, reservation("E3", "LOC2", 7200))
    case("reservation cancel id=R1 number=2", text(reservation("E3", "LOC2", 7200)))
    fresh()
    case("reservation mark id=R1", "none")
    case("reservation cancel id=R1 number=5", "none")
    case("reservation mark id=R1", "5")
    reserve(4, one, "1 Stale")
    case("reservation standing id=R1", "none")
    reserve(5, one)
    case("reservation note id=R1 number=4", "1 Stale")
    case("reservation note id=R1 number=5", "done")
    case("reservation note id=R1 number=6", "done")
    case("reservation cancel id=R1 number=5", "1 Stale")
    reserve(5, one, "1 Stale")
    case("reservation standing id=R1", text(one))
    case("reservation cancel id=R1 number=6", text(one))
    case("reservation cancel id=R1 number=6", "none")
    case(f"reservation note id=R1 number={LAST_NUMBER}", "done")
    case(f"reservation cancel id=R1 number={LAST_NUMBER - 1}", "1 Stale")
    reserve(LAST_NUMBER, one)
    case("reservation note party=DE/EMP id=R1 number=0", "done")
    case("reservation mark party=DE/EMP id=R1", "0")
    case("reservation standing party=DE/EMP id=R1", "none")


def add_expiries():
    fresh()
    reserve(1, reservation("E1", expiry=3600))
    reserve(2, reservation("E2", expiry=7200))
    case(f"reservation expire at={moment(7199, 999)}", "0")
    case(f"reservation expired at={moment(7200)}", "1 NL/TNM/R1")
    case(f"reservation expire at={moment(7200)}", "1 NL/TNM/R1")
    case(f"reservation expire at={moment(7200)}", "0")
    case("reservation standing id=R1", "none")
    case("reservation mark id=R1", "2")
    reserve(1, reservation("E1", expiry=50), identity="R4")
    reserve(1, reservation("E2", expiry=40), identity="R5")
    reserve(1, reservation("E3", expiry=40), party="DE/EMP", identity="R9")
    reserve(1, reservation("E4", expiry=40), identity="R3")
    case(f"reservation expired at={moment(49)}", "3 DE/EMP/R9 NL/TNM/R3 NL/TNM/R5")
    case(f"reservation expired at={moment(39)}", "0")
    case(f"reservation expire at={LAST_MOMENT}", "4 DE/EMP/R9 NL/TNM/R3 NL/TNM/R5 NL/TNM/R4")
    case(f"reservation expire at={LAST_MOMENT}", "0")


def add_uses():
    """By provider, token, type, location and EVSE."""
    fresh()
    rfid, app = reservation("E1"), reservation("E2", type="APP_USER")
    reserve(1, rfid)
    reserve(1, app, identity="R2")
    reserve(1, reservation("E3", "LOC2"), identity="R3")
    for words in ("party=DE/EMP uid=AA01", "uid=AA02", "uid=AA01 type=OTHER", "uid=AA01 type=APP_USER evse=E1", "uid=AA01 evse=E2"):
        case(f"reservation use location=LOC1 {words}", "none")
        case(f"reservation first location=LOC1 {words}", "none")
    case("reservation use location=LOC3 uid=AA01", "none")
    case("reservation serves id=R1 uid=aa01", "yes")
    case("reservation serves id=R1 uid=AA02", "no")
    case("reservation serves id=R1 uid=AA01 type=APP_USER", "no")
    case("reservation serves party=DE/EMP id=R1 uid=AA01", "no")
    case("reservation serves id=R9 uid=AA01", "no")
    case("reservation first location=loc1 uid=AA01 type=APP_USER", text(app))
    case("reservation use location=loc1 uid=AA01 type=APP_USER evse=E2", text(app))
    case("reservation use location=LOC1 uid=AA01 type=APP_USER", "none")
    case("reservation use location=LOC1 uid=AA01", text(rfid))
    case("reservation use location=LOC1 uid=AA01", "none")
    case("reservation standing id=R3", text(reservation("E3", "LOC2")))
    fresh()
    for identity, place in (("R3", "E1"), ("R1", "E2"), ("R2", "E1")):
        reserve(1, reservation(place), identity=identity)
    case("reservation first location=LOC1 uid=AA01 evse=E2", text(reservation("E2")))
    case("reservation next location=LOC1 uid=AA01 evse=E1 id=R2", text(reservation("E1")))
    case("reservation next location=LOC1 uid=AA01 evse=E1 id=R3", text(reservation("E2")))
    case("reservation next location=LOC1 uid=AA01 evse=E2 id=R1", "none")
    case("reservation use location=LOC1 uid=AA01", text(reservation("E1")))
    case("reservation standing id=R2", "none")
    case("reservation standing id=R3", text(reservation("E1")))


def add_reservation_rows():
    fresh()
    case("reservation rows", "0")
    reserve(7, reservation("E1"))
    case("reservation note party=DE/EMP id=R9 number=8", "done")
    with_row("reservation row", "mark", "NL/TNM/R5", {"number": whole(6)}, "done")
    with_row("reservation row", "reservation", "NL/TNM/R4", reservation("E2"), "done")
    with_row("reservation row", "service", "E1", {}, "done")
    has_rows(
        "reservation",
        ("mark", "DE/EMP/R9", {"number": whole(8)}),
        ("mark", "NL/TNM/R1", {"number": whole(7)}),
        ("mark", "NL/TNM/R5", {"number": whole(6)}),
        ("reservation", "NL/TNM/R1", reservation("E1")),
        ("reservation", "NL/TNM/R4", reservation("E2")),
    )
    case("reservation cancel id=R5 number=5", "1 Stale")


def has_rows(book, *listed):
    """The book has these rows, and so has its copy, and a new book to which they are added, the counters first."""
    wanted = "\n".join([str(len(listed))] + [f"{kind} {key} {text(tree)}" for kind, key, tree in listed])
    case(f"{book} rows", wanted)
    case(f"{book} copy", wanted)
    fresh()
    case(f"{book} rows", "0")
    for kind, key, tree in sorted(reversed(listed), key=lambda row: row[0] != "count"):
        with_row(f"{book} row", kind, key, tree, "done")
    case(f"{book} rows", wanted)


# Tokens


def put(tree, wanted, party="NL/TNM"):
    with_row(f"token put party={party}", "token", token_key(tree), tree, wanted)


def store(at, tree, wanted):
    with_row(f"token store at={at}", "token", token_key(tree), tree, wanted)


def reference(counted, party="NL/TNM"):
    """The reference of a provider by its count."""
    digits = f"{(b'A' + party[:2].encode() + party[3:].encode()).hex()}0000{counted:016x}"
    return f"{counted} {digits[:8]}-{digits[8:12]}-{digits[12:16]}-{digits[16:20]}-{digits[20:]}"


def add_tokens():
    """A token that is sent once more, or late, does not take the place of the newer one."""
    fresh()
    first = token()
    later = token(uid="aa01", whitelist="NEVER", last_updated=moment(-3600, 1))
    put(first, "2 WrongParty", "DE/EMP")
    case("token find uid=AA01", "none")
    put(first, "stored", "nl/tnm")
    put(first, "kept")
    put(first | {"valid": False}, "kept")
    case("token find uid=aa01", text(first))
    put(later, "stored")
    put(later, "kept")
    put(first, "kept")
    case("token find uid=AA01", text(later))
    case("token find uid=AA01 party=DE/EMP", "none")
    case("token find uid=AA01 type=OTHER", "none")
    case("token find uid=AA02", "none")
    case("token decide uid=AA01", f"ask {text(later)}")
    put(later, "2 WrongParty", "DE/EMP")
    last = token(last_updated=LAST_MOMENT)
    put(last, "stored")
    put(last | {"valid": False}, "kept")
    put(later, "kept")
    case("token find uid=AA01", text(last))


def add_swipes():
    fresh()
    for place, whitelist in enumerate(("ALWAYS", "ALLOWED", "ALLOWED_OFFLINE", "NEVER")):
        for valid in (True, False):
            one = token(uid=f"T{place}{int(valid)}", whitelist=whitelist, valid=valid)
            put(one, "stored")
            wanted = ("begin" if valid else "nothing") if place < 2 else "ask"
            case(f"token decide uid={one['uid']}", wanted if wanted == "nothing" else f"{wanted} {text(one)}")
            case(f"token decide uid={one['uid']} type=APP_USER", "nothing")
            case(f"token decide uid={one['uid']} provider=DE/EMP", "nothing")
    case("token decide uid=ZZ", "nothing")
    fresh()
    ours, theirs, other = token(), token("de/EMP"), token("DE/EMP", type="OTHER", whitelist="NEVER")
    put(ours, "stored")
    case("token decide uid=AA01", f"begin {text(ours)}")
    put(theirs, "stored", "DE/EMP")
    put(other, "stored", "DE/EMP")
    case("token decide uid=AA01", f"begin {text(theirs)}")
    case("token decide uid=AA01 provider=NL/TNM", f"begin {text(ours)}")
    case("token decide uid=AA01 provider=de/emp", f"begin {text(theirs)}")
    case("token decide uid=AA01 provider=FR/FRC", "nothing")
    case("token decide uid=AA01 type=OTHER", f"ask {text(other)}")
    put(theirs | {"valid": False, "last_updated": moment(0)}, "stored", "DE/EMP")
    case("token decide uid=AA01", "nothing")
    case("token decide uid=AA01 provider=NL/TNM", f"begin {text(ours)}")


def add_authorizations():
    """A valid token is allowed, each time with a new reference; one that is not valid is blocked."""
    fresh()
    nine = moment(-3600)
    valid, blocked, app = token(), token(uid="AA04", valid=False), token(type="APP_USER")
    for one in (valid, blocked, app):
        store(nine, one, text(one))
    case("token references", "0")
    case("token authorize uid=AA01", f"{reference(1)} {text(valid)}")
    case("token authorize uid=aa01 party=nl/tnm", f"{reference(2)} {text(valid)}")
    case("token authorize uid=AA04", f"blocked {text(blocked)}")
    case("token authorize uid=ZZ", "1 UnknownToken")
    case("token authorize uid=AA01 type=OTHER", "1 UnknownToken")
    case("token authorize uid=AA01 party=DE/EMP", "1 UnknownToken")
    case("token references", "2")
    case("token authorize uid=AA01 type=APP_USER", f"{reference(3)} {text(app)}")
    case("token authorize uid=AA01 type=RFID", f"{reference(4)} {text(valid)}")
    case("token issue_reference", reference(5))
    case("token issue_reference party=de/emp", reference(6, "DE/EMP"))
    with_row("token row", "count", "reference", {"last": whole(LAST_NUMBER - 1)}, "done")
    case("token authorize uid=AA01", f"{reference(LAST_NUMBER)} {text(valid)}")
    case("token issue_reference", "3 NumbersUsedUp")
    case("token authorize uid=AA01", "3 NumbersUsedUp")
    case("token authorize uid=AA04", f"blocked {text(blocked)}")
    case("token authorize uid=ZZ", "1 UnknownToken")
    case("token references", str(LAST_NUMBER))
    has_rows(
        "token",
        ("count", "reference", {"last": whole(LAST_NUMBER)}),
        ("token", "NL/TNM/APP_USER/AA01", app),
        ("token", "NL/TNM/RFID/AA01", valid),
        ("token", "NL/TNM/RFID/AA04", blocked),
    )
    with_row("token row", "count", "request", {"last": whole(3)}, "done")
    with_row("token row", "count", "reference", {"last": whole(9)}, "done")
    case("token issue_reference", reference(10))


def add_own_tokens():
    """A provider's token that is stored again at the same moment, or an earlier one, is a millisecond newer."""
    fresh()
    one = token()
    for at, stored in (
        (moment(-3600), moment(-3600)),
        (moment(-3600), moment(-3600, 1)),
        (moment(-7200), moment(-3600, 2)),
        (moment(0), moment(0)),
        (LAST_MOMENT, LAST_MOMENT),
    ):
        store(at, one, text(one | {"last_updated": stored}))
        case("token find uid=AA01", text(one | {"last_updated": stored}))
    store(moment(0), one, "none")
    store(LAST_MOMENT, one | {"valid": False}, "none")
    case("token find uid=AA01", text(one | {"last_updated": LAST_MOMENT}))


# Commands


def open_command(party, counted, tree, wanted="done"):
    with_row("command open", "pending", f"{party}/{counted}", tree, wanted)


def add_commands():
    """A command is opened once, and settled once; its result stays."""
    fresh()
    open_command("NL/TNM", 3, pending(stop(), 30))
    open_command("NL/TNM", 3, pending(stop("S2"), 60), "1 AlreadyOpen")
    case("command opened number=3", f"stop_session {millis(30)}")
    case("command opened number=4", "none")
    case("command opened number=3 party=DE/EMP", "none")
    case("command answered number=3", "none")
    case("command settle number=3 as=FAILED", "done")
    case("command opened number=3", "none")
    case("command settle number=3 as=TIMEOUT", "2 Settled")
    open_command("NL/TNM", 3, pending(stop(), 30), "1 AlreadyOpen")
    case("command answered number=3", "FAILED")
    case("command answered number=3 party=DE/EMP", "none")
    case("command settle number=9 as=ACCEPTED", "done")
    open_command("NL/TNM", 9, pending(stop(), 30), "1 AlreadyOpen")
    case("command settle number=8 as=DONE", "not a call")
    case("command answered number=8", "none")
    open_command("NL/TNM", 5, pending(start(), 30), "not a call")
    open_command("NL/TNM", 5, pending(start(), 30, "E1"), "not a call")
    open_command("NL/TNM", 5, pending(start(), 30, "E1", "2"))
    case("command opened number=5", f"start_session {millis(30)} E1 2")
    for counted, word in enumerate((
        "ACCEPTED", "CANCELED_RESERVATION", "EVSE_OCCUPIED", "EVSE_INOPERATIVE", "FAILED", "NOT_SUPPORTED", "REJECTED", "TIMEOUT",
        "UNKNOWN_RESERVATION",
    ), 20):
        case(f"command settle number={counted} as={word}", "done")
        case(f"command answered number={counted}", word)


def millis(seconds):
    return 1_735_725_600_000 + seconds * 1000


def add_due():
    """Those that are due come by provider and number, whatever their deadlines, and a deadline at the moment is due."""
    fresh()
    case(f"command due at={LAST_MOMENT}", "0")
    open_command("DE/EMP", 9, pending(stop(), 30))
    open_command("NL/TNM", 2, pending(stop(), 40))
    case(f"command due at={moment(29, 999)}", "0")
    case(f"command due at={moment(30)}", "1 DE/EMP/9")
    case(f"command due at={moment(40)}", "2 DE/EMP/9 NL/TNM/2")
    open_command("DE/EMP", 1, pending(stop(), 40))
    open_command("DE/EMP", 10, pending(stop(), 35))
    case(f"command due at={moment(40)}", "4 DE/EMP/1 DE/EMP/9 DE/EMP/10 NL/TNM/2")
    case("command settle party=DE/EMP number=9 as=TIMEOUT", "done")
    case(f"command due at={moment(40)}", "3 DE/EMP/1 DE/EMP/10 NL/TNM/2")
    with_row("command row", "pending", "DE/EMP/1", pending(stop(), 50), "done")
    case(f"command due at={moment(40)}", "2 DE/EMP/10 NL/TNM/2")
    case(f"command due at={moment(50)}", "3 DE/EMP/1 DE/EMP/10 NL/TNM/2")


def keep(party, counted, tree, wanted="done"):
    with_row("command keep", "reply", f"{party}/{counted}", tree, wanted)


def add_replies():
    """A reply is kept for its sender and its number alone."""
    fresh()
    one, other = reply(), reply("command_response")
    keep("NL/TNM", 1, one)
    keep("NL/TNM", 1, other, "kept")
    case("command kept number=1", text(one))
    case("command kept number=1 party=nl/tnm", text(one))
    case("command kept number=2", "none")
    case("command kept number=1 party=DE/EMP", "none")
    keep("DE/EMP", 1, other)
    keep("NL/TNM", LAST_NUMBER, reply("command_response", 2001))
    case("command kept number=1 party=DE/EMP", text(other))
    case(f"command kept number={LAST_NUMBER}", text(reply("command_response", 2001)))
    open_command("NL/TNM", 1, pending(stop(), 30))
    case("command settle number=1 as=ACCEPTED", "done")
    case("command kept number=1", text(one))
    open_command("DE/EMP", 4, pending(stop(), 30))
    has_rows(
        "command",
        ("reply", "DE/EMP/1", other),
        ("reply", "NL/TNM/1", one),
        ("reply", f"NL/TNM/{LAST_NUMBER}", reply("command_response", 2001)),
        ("pending", "DE/EMP/4", pending(stop(), 30)),
        ("result", "NL/TNM/1", {"result": "ACCEPTED"}),
    )
    case(f"command due at={moment(30)}", "1 DE/EMP/4")


# What is handed over


def take(tree, wanted, own="NL/TNM", sender="BE/BEC"):
    kind = "cdr" if "session_id" in tree else "session"
    with_row(f"inbox take party={own} sender={sender}", kind, own_key(tree), tree, wanted)


def add_versions():
    """A version that comes late, one of the same moment, and one after the last are not taken."""
    fresh()

    def version(status, second, **members):
        return session(status=status, last_updated=moment(second), **members)

    taken = version("ACTIVE", 30)
    take(version("PENDING", 10), "taken")
    take(taken, "taken", "nl/tnm", "be/bec")
    take(taken, "kept")
    take(version("ACTIVE", 20), "kept")
    take(version("COMPLETED", 30), "kept")
    case("inbox held id=s1", text(taken))
    case("inbox held id=S1 sender=FR/FRC", "none")
    case("inbox held id=S2", "none")
    ended = version("COMPLETED", 40)
    take(ended, "taken")
    take(version("ACTIVE", 50), "kept")
    take(version("INVALID", 60), "kept")
    take(version("COMPLETED", 60, kwh=1), "kept")
    case("inbox held id=S1", text(ended))
    take(version("INVALID", 10, identity="S2"), "taken")
    take(version("ACTIVE", 20, identity="s2"), "kept")
    take(version("PENDING", 10, identity="S3", provider="DE/EMP"), "1 WrongParty")
    take(version("PENDING", 10, identity="S3"), "1 WrongParty", sender="FR/FRC")
    take(version("PENDING", 10, identity="S3"), "1 WrongParty", own="DE/EMP")
    case("inbox held id=S3", "none")
    take(version("PENDING", 10, identity="S1", party="FR/FRC"), "taken", sender="FR/FRC")
    case("inbox held id=S1", text(ended))
    last = session("S4", status="ACTIVE", last_updated=LAST_MOMENT)
    take(last, "taken")
    take(last | {"status": "COMPLETED"}, "kept")


def owed(wanted, sender="BE/bec", currency="EUR"):
    case(f"inbox owed sender={sender} currency={currency}", wanted)


DIFFERENCES = {
    "start_date_time": moment(1),
    "end_date_time": moment(1801),
    "auth_method": "WHITELIST",
    "authorization_reference": "ref-2",
    "cdr_location": LOCATION | {"city": "Brugge"},
    "currency": "USD",
    "charging_periods": cdr(kwh=1)["charging_periods"],
    "total_cost": {"excl_vat": number(30_865)},
    "total_energy": number(1),
    "total_time": number(1),
    "last_updated": moment(1801),
    "session_id": "S2",
    "id": "c1",
    "credit": True,
}


def add_cdrs():
    """A record counts once, however often it comes; one that differs in a member, or is of the same session, is in conflict."""
    fresh()
    one = cdr()
    owed("0.0000")
    take(one, "taken")
    owed("3.0864")
    take(one, "kept")
    owed("3.0864")
    for name, value in DIFFERENCES.items():
        take(one | {name: value, "credit_reference_id": "C1"}, "conflict")
    for name, value in LOCATION.items():
        other = {"latitude": "1", "longitude": "2"} if name == "coordinates" else f"{value[:-1]}#"[:3]
        take(one | {"cdr_location": LOCATION | {name: other}}, "conflict")
    for name, value in (("uid", "AA02"), ("type", "OTHER"), ("contract_id", "C2"), ("country_code", "nl")):
        take(one | {"cdr_token": one["cdr_token"] | {name: value}}, "conflict")
    take(one | {"authorization_reference": None}, "conflict")
    take(one | {"charging_periods": one["charging_periods"] * 2}, "conflict")
    take(one | {"country_code": "be"}, "conflict")
    take(one | {"session_id": "s1"}, "conflict")
    take(cdr("C2", "s1"), "conflict")
    take(cdr("C2", "S1"), "conflict")
    owed("3.0864")
    case("inbox held_cdr cdr=c1", text(one))
    case("inbox held_cdr cdr=C2", "none")
    case("inbox held_cdr cdr=C1 sender=FR/FRC", "none")
    take(cdr("C3", "S3"), "1 WrongParty", sender="FR/FRC")
    take(cdr("C3", "S3", provider="DE/EMP"), "1 WrongParty")
    take(cdr("C3", "S3"), "1 WrongParty", own="DE/EMP")
    take(cdr("C4", "S4", currency="eur", cost=7), "taken")
    owed("3.0864")
    owed("0.0007", currency="eur")
    take(cdr("C5", "S5", cost=-50_000), "taken")
    owed("-1.9136")
    take(cdr("C1", "S1", party="FR/FRC", cost=1), "taken", sender="fr/frc")
    owed("-1.9136")
    owed("0.0001", sender="FR/FRC")
    owed("0.0000", sender="DE/EMP")
    take(cdr("C6", "S6", cost=10**15 - 1), "taken")
    take(cdr("C7", "S7", cost=10**15 - 1), "taken")
    owed(decimal(2 * 10**15 - 2 - 19_136))
    take(cdr("C8", "S8", cost=1 - 10**15), "taken")
    owed(decimal(10**15 - 1 - 19_136))


def add_credits():
    """Of a session a bill and a credit are taken, in either order; any other of that session is in conflict."""
    fresh()
    one, other = credit(), cdr()
    take(one, "taken")
    owed("-3.0864")
    take(one, "kept")
    owed("-3.0864")
    take(other, "taken")
    owed("0.0000")
    for held in (one, other):
        take(held, "kept")
    other_members = DIFFERENCES | {"id": "c1-c", "credit": False, "credit_reference_id": "c1", "last_updated": moment(1800)}
    for name, value in other_members.items():
        take(one | {name: value}, "conflict")
    take(one | {"credit_reference_id": "C2"}, "conflict")
    for more in (credit("C2-C"), credit("C9", "s1", "C9"), cdr("C2"), cdr("C2", "s1", cost=-30_864)):
        take(more, "conflict")
    # An id is of one record, whether or not it is a credit.
    for more in (cdr("C1-C", "S2"), credit("C1", "S2", "C0"), cdr("c1-c", "S2")):
        take(more, "conflict")
    owed("0.0000")
    case("inbox held_cdr cdr=c1-c", text(one))
    case("inbox held_cdr cdr=C1", text(other))
    add_more_credits(one)


def add_more_credits(one):
    """Credits of other sessions, operators and currencies, and of other parties' tokens."""
    take(cdr("C2", "S2", cost=7), "taken")
    take(credit("C2-C", "s2", "C2", cost=-7), "taken")
    owed("0.0000")
    take(credit("C1-C", "S1", party="FR/FRC", cost=-1), "taken", sender="fr/frc")
    take(cdr("C1", "S1", party="FR/FRC", cost=1), "taken", sender="FR/FRC")
    take(credit("C2-C", "S1", party="FR/FRC", cost=-1), "conflict", sender="FR/FRC")
    owed("0.0000", sender="FR/FRC")
    take(credit("C3-C", "S3", "C3"), "1 WrongParty", sender="FR/FRC")
    take(credit("C3-C", "S3", "C3", provider="DE/EMP"), "1 WrongParty")
    take(credit("C3-C", "S3", "C3"), "1 WrongParty", own="DE/EMP")
    case("inbox held_cdr cdr=C3-C", "none")
    # What a credit says of its bill is not compared with it.
    take(credit("C4-C", "S4", "C4", cost=-5, currency="USD"), "taken")
    take(cdr("C4", "S4", cost=5), "taken")
    take(credit("C5", "S5", "C6", cost=9), "taken")
    owed("0.0014")
    owed("-0.0005", currency="USD")
    take(credit("C7-C", "S7", "C7", cost=1 - 10**15), "taken")
    take(credit("C8-C", "S8", "C8", cost=1 - 10**15), "taken")
    owed(decimal(14 + 2 - 2 * 10**15))
    rows = (cdr("C1", "S1"), one, credit("C2-C", "S2", "C2"))
    fresh()
    for tree in rows:
        with_row("inbox row", "cdr", own_key(tree), tree, "done")
    owed("-3.0864")
    take(cdr("C9"), "conflict")
    take(credit("C9-C", "s2"), "conflict")
    take(cdr("C2", "S2"), "taken")
    owed("0.0000")


def add_settlements():
    """What is owed by a list: each record counts, as often as it stands there."""
    fresh()
    case("bills settle", ".")
    for one in (
        cdr("C1", "S1"),
        cdr("C1", "S1"),
        cdr("C2", "S2", cost=-1, currency="USD"),
        cdr("C3", "S3", party="be/bec", cost=6),
        cdr("C4", "S4", party="AT/AAA", cost=5),
    ):
        with_row("bills add", "cdr", own_key(one), one, "done")
    case("bills settle", "AT/AAA EUR 0.0005 BE/BEC EUR 6.1734 BE/BEC USD -0.0001 .")
    for one in (credit(), credit("C4-C", "S4", "C4", party="AT/AAA", cost=-7), credit("C9-C", "S9", party="FR/FRC", currency="SEK")):
        with_row("bills add", "cdr", own_key(one), one, "done")
    case("bills settle", "AT/AAA EUR -0.0002 BE/BEC EUR 3.0870 BE/BEC USD -0.0001 FR/FRC SEK -3.0864 .")


def push_row(counted, tree, wanted="done"):
    with_row("outbox row", "push", str(counted), tree, wanted)


def counter(last, wanted="done"):
    with_row("outbox row", "count", "request", {"last": whole(last)}, wanted)


def replaces(tree, wanted):
    with_row("outbox replaced", "push", "99", tree, wanted)


def add_outbox():
    """Pushes stand until their addressee acknowledges their number. Each has a number that was given, and no two are about
    the same."""
    fresh()
    case("outbox last_number", "0")
    case("outbox take_number", "1")
    case("outbox take_number", "2")
    case("outbox last_number", "2")
    case("outbox unacked", ".")
    session_push = push("NL/TNM", "put_session", session())
    token_push = push("BE/BEC", "put_token", token())
    result_push, cdr_push = push("NL/TNM", "command_result", result()), push("NL/TNM", "post_cdr", in_packet(cdr()))
    push_row(4, session_push, "may not")
    counter(12)
    for counted, one in ((4, session_push), (3, token_push), (5, result_push), (12, cdr_push)):
        push_row(counted, one)
    push_row(11, push("NL/TNM", "post_cdr", credit()))
    case("outbox get number=11", text(push("NL/TNM", "post_cdr", credit())))
    case("outbox drop number=11", "done")
    case("outbox last_number", "12")
    counter(11, "may not")
    push_row(6, push("DE/EMP", "put_session", session("s1", status="ACTIVE")), "may not")
    push_row(13, result_push, "may not")
    case("outbox unacked", "3 BE/BEC 4 NL/TNM 5 NL/TNM 12 NL/TNM .")
    case("outbox get number=4", text(session_push))
    case("outbox get number=12", text(cdr_push))
    case("outbox get number=6", "none")
    replaces(push("DE/EMP", "put_session", session("s1", status="ACTIVE")), "4")
    replaces(push("NL/TNM", "put_session", session("S2")), "none")
    replaces(push("NL/TNM", "put_session", session(party="FR/FRC")), "none")
    replaces(push("be/bec", "put_token", token(uid="aa01", valid=False)), "3")
    replaces(push("FR/FRC", "put_token", token()), "none")
    replaces(push("BE/BEC", "put_token", token(type="OTHER")), "none")
    replaces(push("BE/BEC", "put_token", token("DE/EMP")), "none")
    replaces(result_push, "none")
    replaces(cdr_push, "none")
    case("outbox is_to party=nl/tnm number=4", "yes")
    case("outbox is_to party=BE/BEC number=4", "no")
    case("outbox is_to party=NL/TNM number=6", "no")
    case("outbox ack party=BE/BEC number=4", "done")
    case("outbox ack party=NL/TNM number=6", "done")
    case("outbox unacked", "3 BE/BEC 4 NL/TNM 5 NL/TNM 12 NL/TNM .")
    case("outbox ack party=nl/tnm number=4", "done")
    case("outbox ack party=NL/TNM number=4", "done")
    case("outbox unacked", "3 BE/BEC 5 NL/TNM 12 NL/TNM .")
    replaces(push("NL/TNM", "put_session", session("S1")), "none")
    case("outbox drop number=5", "done")
    case("outbox drop number=5", "done")
    case("outbox unacked", "3 BE/BEC 12 NL/TNM .")
    push_row(3, session_push)
    case("outbox get number=3", text(session_push))
    replaces(token_push, "none")
    replaces(session_push, "3")
    counter(LAST_NUMBER - 1)
    with_row("outbox row", "count", "serial", {"last": whole(5)}, "done")
    case("outbox take_number", str(LAST_NUMBER))
    case("outbox take_number", "2 NumbersUsedUp")
    case("outbox last_number", str(LAST_NUMBER))


def add_inbox_rows():
    """An inbox has the rows that are added, and so has its copy."""
    fresh()
    case("inbox rows", "0")
    one, other, bill, back = session(), session("S2", status="COMPLETED"), cdr(), credit()
    with_row("inbox row", "session", own_key(one), one, "done")
    with_row("inbox row", "session", own_key(other), other, "done")
    with_row("inbox row", "cdr", own_key(back), back, "done")
    with_row("inbox row", "cdr", own_key(bill), bill, "done")
    records = [("cdr", own_key(bill), bill), ("cdr", own_key(back), back)]
    has_rows("inbox", ("session", own_key(one), one), ("session", own_key(other), other), *records)


def add_pushes():
    """A new push has the next number, and the one that it replaces ends; it is due until it is sent, and 10 s after that."""
    fresh()
    session_push = push("NL/TNM", "put_session", session())
    newer = push("NL/TNM", "put_session", session("s1", status="ACTIVE"))
    token_push, result_push = push("BE/BEC", "put_token", token()), push("NL/TNM", "command_result", result())
    with_row("outbox push", "push", "9", session_push, "1")
    with_row("outbox push", "push", "9", token_push, "2")
    with_row("outbox push", "push", "9", result_push, "3")
    case("outbox due at=1970-01-01T00:00:00Z", "3 1 2 3")
    case(f"outbox sent number=1 at={moment(0)}", "done")
    case(f"outbox sent number=3 at={moment(1)}", "done")
    case(f"outbox sent number=7 at={moment(1)}", "done")
    case(f"outbox due at={moment(0, 9999)}", "1 2")
    case(f"outbox due at={moment(0, 10000)}", "2 1 2")
    case(f"outbox due at={moment(0, 10999)}", "2 1 2")
    case(f"outbox copy_due at={moment(0, 10999)}", "2 1 2")
    case(f"outbox due at={moment(0, 11000)}", "3 1 2 3")
    case(f"outbox sent number=1 at={moment(5)}", "done")
    case(f"outbox due at={moment(0, 14999)}", "2 2 3")
    case(f"outbox due at={moment(0, 15000)}", "3 1 2 3")
    case("outbox restart", "done")
    case("outbox due at=1970-01-01T00:00:00Z", "3 1 2 3")
    case("outbox sent number=2 at=9999-12-31T23:59:59.999Z", "done")
    case("outbox due at=9999-12-31T23:59:59.998Z", "2 1 3")
    case("outbox due at=9999-12-31T23:59:59.999Z", "3 1 2 3")
    with_row("outbox push", "push", "9", newer, "4")
    case("outbox unacked", "2 BE/BEC 3 NL/TNM 4 NL/TNM .")
    with_row("outbox push", "push", "9", result_push, "5")
    case("outbox unacked", "2 BE/BEC 3 NL/TNM 4 NL/TNM 5 NL/TNM .")
    case("outbox ack party=NL/TNM number=3", "done")
    case("outbox due at=9999-12-31T23:59:59.998Z", "2 4 5")
    has_rows("outbox", ("count", "request", {"last": whole(5)}), ("push", "2", token_push), ("push", "4", newer), ("push", "5", result_push))
    fresh()
    counter(LAST_NUMBER - 1)
    with_row("outbox push", "push", "9", session_push, str(LAST_NUMBER))
    with_row("outbox push", "push", "9", token_push, "2 NumbersUsedUp")
    case("outbox unacked", f"{LAST_NUMBER} NL/TNM .")


def sent(command, answer=None, outcome=None):
    return {**command, "answer": answer, "result": outcome, "to": "BE/BEC"}


def waits(*numbers):
    for counted in range(1, 5):
        case(f"outbox waits number={counted}", "yes" if counted in numbers else "no")


def add_sent_commands():
    """A command that was sent stays, and waits until its answer or its result comes. Its number is no push's."""
    fresh()
    one, two, token_push = sent(stop()), sent(stop("S2")), push("BE/BEC", "put_token", token())
    with_row("outbox send", "command", "9", one, "1")
    with_row("outbox send", "command", "9", two, "2")
    with_row("outbox push", "push", "9", token_push, "3")
    case("outbox unacked", "3 BE/BEC .")
    case("outbox command number=2", text(two))
    case("outbox command number=3", "none")
    case("outbox get number=2", "none")
    waits(1, 2, 3)
    case("outbox due at=1970-01-01T00:00:00Z", "3 1 2 3")
    case(f"outbox sent number=1 at={moment(0)}", "done")
    case(f"outbox due at={moment(0, 9999)}", "2 2 3")
    case(f"outbox due at={moment(0, 10000)}", "3 1 2 3")
    case("outbox ack party=BE/BEC number=1", "done")
    waits(1, 2, 3)
    case("outbox drop number=1", "may not")
    push_row(1, token_push, "may not")
    with_row("outbox row", "command", "3", one, "may not")
    with_row("outbox row", "command", "4", one, "may not")
    counter(2, "may not")
    case("outbox settle number=1 as=ACCEPTED", "done")
    waits(2, 3)
    case(f"outbox due at={moment(0, 10000)}", "2 2 3")
    case("outbox command number=1", text(sent(stop(), outcome="ACCEPTED")))
    case("outbox settle number=3 as=FAILED", "done")
    case(f"outbox refuse number=4 at={moment(3)}", "done")
    waits(2, 3)
    with_row("outbox row", "command", "2", sent(stop("S2"), reply("command_response")["body"]), "done")
    waits(3)
    with_row("outbox row", "command", "2", two, "done")
    waits(2, 3)
    case(f"outbox sent number=2 at={moment(1)}", "done")
    case(f"outbox refuse number=2 at={moment(3)}", "done")
    waits(3)
    case("outbox restart", "done")
    case("outbox due at=9999-12-31T23:59:59.999Z", "1 3")
    refused = {"status_code": whole(2001), "timestamp": moment(3)}
    has_rows(
        "outbox", ("count", "request", {"last": whole(3)}), ("push", "3", token_push),
        ("command", "1", sent(stop(), outcome="ACCEPTED")), ("command", "2", sent(stop("S2"), refused)),
    )
    waits(3)
    fresh()
    counter(LAST_NUMBER - 1)
    with_row("outbox send", "command", "9", one, str(LAST_NUMBER))
    with_row("outbox send", "command", "9", two, "2 NumbersUsedUp")
    case(f"outbox waits number={LAST_NUMBER}", "yes")


# Lines that are no calls


def add_other_lines():
    fresh()
    for line in (
        "reservation", "reservation reserve", "nothing note id=R1", "reservation note id", "reservation note id=R1 number=x",
        "reservation note number=-1", "reservation note size=3", "token find type=rfid", f"reservation note id={'x' * 37}",
        "reservation note party=NL/TN", "command due at=2025-01-01", "session meter", "bills add\t{}", "token put\t{}",
        "inbox take kind=session key=BE/BEC/S1\t{}", "inbox take kind=token key=NL/TNM/RFID/AA01\t" + text(token() | {"uid": None}),
        "command row kind=result key=NL/TNM/01\t{\"result\":\"FAILED\"}", "outbox nothing", "inbox nothing", "token nothing",
        "command nothing", "bills nothing", "bills settle=1", "session", "site open", "reservation reserve number=1",
        "site nothing\t" + text(SITE), "bills row kind=count key=serial\t{\"last\":1}",
        "token put kind=count key=serial\t{\"last\":1}", "outbox keep kind=reply key=NL/TNM/1\t" + text(reply()),
        "inbox put kind=token key=NL/TNM/RFID/AA01\t" + text(token()),
        "token put kind=cdr key=BE/BEC/C1\t" + text(cdr()), "bills take kind=cdr key=BE/BEC/C1\t" + text(cdr()),
    ):
        case(line, {"session meter": "no session", "site open": "no site"}.get(line, "not a call"))
    case("  ", "not a call")
    case("bills settle", ".")
    case("command kept number=1", "none")


def cases():
    """The lines, and what each must answer."""
    for add in (
        add_lives_and_sites, add_reservations,
        add_expiries, add_uses, add_reservation_rows, add_tokens, add_swipes, add_authorizations, add_own_tokens, add_commands,
        add_due, add_replies, add_versions, add_cdrs, add_credits, add_settlements, add_outbox, add_inbox_rows, add_pushes,
        add_sent_commands, add_other_lines,
    ):
        add()
    add_drawn(case)
    return [line for line, _ in CASES], [wanted for _, wanted in CASES]
