"""The cases of the books that are calls on a session and on the places of a site."""

from book_case import case, fresh, with_row
from book_values import (
    LAST_MOMENT,
    LOCATION,
    cdr,
    decimal,
    evse,
    location,
    moment,
    number,
    own_key,
    session,
    site_line,
    text,
)

# Sessions


def begin(tree, at=moment(0), price="0.25"):
    """A session is started that is opened as a version is."""
    wanted = text({**tree, "start_date_time": at, "last_updated": at})
    with_row(f"session start at={at} price={price}", "session", own_key(tree), tree, wanted)


def add_lives():
    """From the first version to the last, with clocks that stand still and go back."""
    fresh()
    case("session tell", "no session")
    with_row("session bill", "cdr", "BE/BEC/C1", cdr(), "no session")
    begin(session())
    case(f"session meter at={moment(5)} kwh=1", "other state")
    case(f"session complete at={moment(5)}", "other state")
    case("session tell", text(session()))
    case("session copy", text(session()))
    active = session(status="ACTIVE", start_date_time=moment(5), last_updated=moment(5))
    case(f"session activate at={moment(5)} price=0.25", text(active))
    case(f"session activate at={moment(6)} price=0.25", "other state")
    case(f"session void at={moment(6)}", "other state")
    for at, kwh, stamp in (
        (moment(300), 300_000, moment(300)),
        (moment(300), 300_000, moment(300, 1)),
        (moment(240), 300_000, moment(300, 2)),
        (moment(360), 360_000, moment(360)),
        (moment(360), 360_001, moment(360, 1)),
    ):
        active |= session(kwh=kwh, cost=kwh // 4) | {"status": "ACTIVE", "start_date_time": moment(5), "last_updated": stamp}
        case(f"session meter at={at} kwh={decimal(kwh)}", text(active))
    case(f"session meter at={moment(400)} kwh=36.0000", "no such reading")
    case(f"session meter at={moment(400)} kwh=0", "no such reading")
    case("session copy", text(active))
    ended = active | {"status": "COMPLETED", "end_date_time": moment(1800), "last_updated": moment(1800)}
    case(f"session complete at={moment(1800)}", text(ended))
    for call in ("activate", "void", "meter", "complete"):
        case(f"session {call} at={moment(1900)} kwh=40", "other state")
    case("session copy", text(ended))
    case("session tell", text(ended))


def add_ends():
    """A session that is void, and ends at a moment before the start."""
    fresh()
    begin(session())
    void = session(status="INVALID", end_date_time=moment(30), last_updated=moment(30))
    case(f"session void at={moment(30)}", text(void))
    for call in ("activate", "void", "meter", "complete"):
        case(f"session {call} at={moment(40)}", "other state")
    case("session copy", text(void))
    begin(session())
    case(f"session void at={moment(-1)}", text(session(status="INVALID", end_date_time=moment(0), last_updated=moment(0, 1))))
    begin(session())
    case(f"session void at={moment(0)}", text(session(status="INVALID", end_date_time=moment(0), last_updated=moment(0, 1))))
    begin(session())
    active = session(status="ACTIVE", start_date_time=moment(-60), last_updated=moment(0, 1))
    case(f"session activate at={moment(-60)} price=0.25", text(active))
    ended = active | {"status": "COMPLETED", "end_date_time": moment(-60), "last_updated": moment(0, 2)}
    case(f"session complete at={moment(-90)}", text(ended))


def add_last_moments():
    """No version follows one that was updated at the last moment."""
    before, first = "9999-12-31T23:59:59.998Z", "1970-01-01T00:00:00Z"
    fresh()
    begin(session(), LAST_MOMENT)
    still = text(session(start_date_time=LAST_MOMENT, last_updated=LAST_MOMENT))
    for call in ("activate", "void"):
        case(f"session {call} at={moment(0)}", "1 StampEnd")
        case(f"session {call} at={LAST_MOMENT}", "1 StampEnd")
        case("session tell", still)
    begin(session(), before)
    active = session(status="ACTIVE", start_date_time=moment(0), last_updated=LAST_MOMENT)
    case(f"session activate at={moment(0)} price=0.25", text(active))
    case(f"session meter at={moment(1)} kwh=1", "1 StampEnd")
    case(f"session meter at={moment(1)} kwh=1000000.0001", "no such reading")
    case(f"session complete at={moment(1)}", "1 StampEnd")
    with_row(f"session bill at={moment(1)}", "cdr", "BE/BEC/C1", cdr(), "1 StampEnd")
    case("session tell", text(active))
    begin(session(), before)
    case(f"session activate at={LAST_MOMENT} price=0.25", text(active | {"start_date_time": LAST_MOMENT}))
    begin(session(), first)
    case(f"session activate at={first} price=0.25", text(active | {"start_date_time": first, "last_updated": "1970-01-01T00:00:00.001Z"}))
    case(f"session complete at={LAST_MOMENT}", text(session(
        status="COMPLETED", start_date_time=first, end_date_time=LAST_MOMENT, last_updated=LAST_MOMENT
    )))


COSTS = (
    (123_456, 2_500, 30_864),
    (3, 2_500, 0),
    (4, 2_500, 1),
    (9_999, 9_999, 9_998),
    (1, 10_000, 1),
    (10_000_000_000, 100_000_000, 100_000_000_000_000),
    (10_000_000_000, 0, 0),
    (9_999_999_999, 100_000_000, 99_999_999_990_000),
    (0, 100_000_000, 0),
)


def add_costs():
    """Costs are rounded down; a reading above 1,000,000 kWh, and a price above 10,000.0000 or below 0, is none."""
    for kwh, price, cost in COSTS:
        fresh()
        begin(session(), price=decimal(price))
        case(f"session activate at={moment(0)} price={decimal(price)}", text(session(status="ACTIVE", last_updated=moment(0, 1))))
        metered = session(kwh=kwh, cost=cost, status="ACTIVE", last_updated=moment(0, 2))
        case(f"session meter at={moment(0)} kwh={decimal(kwh)}", text(metered))
        case(f"session meter at={moment(0)} kwh=1000000.0001", "no such reading")
        case(f"session meter at={moment(0)} kwh=99999999999.9999", "no such reading")
        case(f"session meter at={moment(0)} kwh=-0.0001", "not a call")
        case("session tell", text(metered))
        with_row(f"session resume price={decimal(price)}", "session", "BE/BEC/S1", metered, "resumed")
        case("session tell", text(metered))
        dearer = metered | {"total_cost": {"excl_vat": number(cost + 1)}}
        with_row(f"session resume price={decimal(price)}", "session", "BE/BEC/S1", dearer, "handed back")
        cheaper = metered | {"total_cost": {"excl_vat": number(cost - 1)}}
        with_row(f"session resume price={decimal(price)}", "session", "BE/BEC/S1", cheaper, "handed back")
        case("session tell", text(metered))
    for price in ("10000.0001", "-0.0001", "1e2", ""):
        case(f"session resume price={price}", "not a call")


def add_resumed():
    """A stored version is the newest of its session again, where it has its cost, has no energy while it is PENDING, and is
    no reservation's."""
    fresh()
    for status in ("PENDING", "ACTIVE", "COMPLETED", "INVALID"):
        charged = {} if status == "PENDING" else {"kwh": 10_000, "cost": 2_500}
        stored = session(status=status, last_updated=moment(7), **charged)
        with_row("session resume price=0.25", "session", "BE/BEC/S1", stored, "resumed")
        case("session tell", text(stored))
        # (nothing costs nothing at any price)
        with_row("session resume price=0.2501", "session", "BE/BEC/S1", stored, "handed back" if charged else "resumed")
        case("session copy", text(stored))
        with_row("session resume price=0.25", "session", "BE/BEC/S1", stored | {"total_cost": None}, "handed back")
        wanted = {
            "PENDING": text(stored | {"status": "ACTIVE", "start_date_time": moment(8), "last_updated": moment(8)}),
        }.get(status, "other state")
        case(f"session activate at={moment(8)} price=0.25", wanted)
    early = session(status="PENDING", kwh=10_000, cost=2_500)
    with_row("session resume price=0.25", "session", "BE/BEC/S1", early, "handed back")
    with_row("session resume price=0.25", "session", "BE/BEC/S1", session(status="RESERVATION"), "handed back")
    active = session(status="ACTIVE", kwh=10_000, cost=2_500)
    with_row("session resume price=0.25", "session", "BE/BEC/S1", active, "resumed")
    case(f"session meter at={moment(9)} kwh=0.9999", "no such reading")
    case(f"session meter at={moment(9)} kwh=1", text(active | {"last_updated": moment(9)}))
    most = session(status="ACTIVE", kwh=10**15 - 1, cost=10**15 - 1)
    with_row("session resume price=1", "session", "BE/BEC/S1", most, "resumed")
    with_row("session resume price=10000", "session", "BE/BEC/S1", most, "handed back")
    case(f"session meter at={moment(9)} kwh=1000000", "no such reading")


def bill(end, wanted, identity="C9", place=LOCATION):
    """The session is completed, and its record has the id and the location of another."""
    other = cdr(identity, "S9", "FR/FRC", cost=-1, cdr_location=place)
    with_row(f"session bill at={end}", "cdr", own_key(other), other, wanted)


def add_bills():
    """The record of a completed session."""
    for end, hours in ((1800, 5_000), (0, 0), (1, 2), (36, 100), (3600, 10_000), (86_400 * 365, 8_760 * 10_000)):
        fresh()
        begin(session())
        case(f"session activate at={moment(0)} price=0.25", text(session(status="ACTIVE", last_updated=moment(0, 1))))
        metered = session(kwh=123_456, cost=30_864, status="ACTIVE", last_updated=moment(0, 2))
        case(f"session meter at={moment(0)} kwh=12.3456", text(metered))
        stamp = moment(end) if end else moment(0, 3)
        bill(moment(end), text(cdr("C9", end_date_time=moment(end), hours=hours, last_updated=stamp)))
        case(f"session complete at={moment(end)}", "other state")
        bill(moment(end), "other state")
        case("session tell", text(metered | {"status": "COMPLETED", "end_date_time": moment(end), "last_updated": stamp}))
    first = "1970-01-01T00:00:00Z"
    fresh()
    begin(session(authorization_reference=None), first)
    bill(moment(0), "other state")
    case(f"session activate at={first} price=0.25", text(session(
        authorization_reference=None, status="ACTIVE", start_date_time=first, last_updated="1970-01-01T00:00:00.001Z"
    )))
    hours = 253_402_300_799_999 // 360
    ended = cdr("C9", kwh=0, cost=0, hours=hours, start_date_time=first, end_date_time=LAST_MOMENT, last_updated=LAST_MOMENT)
    elsewhere = LOCATION | {"id": "LOC2", "evse_uid": "E3", "city": "Brugge"}
    bill(LAST_MOMENT, text(ended | {"authorization_reference": None, "cdr_location": elsewhere}), place=elsewhere)


# Sites


SITE = site_line([location("LOC1", [evse("E1", "12"), evse("E2", "1")]), location("LOC2", [evse("E3", "3")])])


def add_site():
    fresh()
    case("site claim_of evse=E1", "no site")
    case("site open\t{}", "not a call")
    case(f"site open\t{text(SITE)}", "done")
    for line, wanted in (
        ("location location=loc1", "LOC1"),
        ("location location=LOC7", "1 UnknownLocation"),
        ("free_at location=LOC1", "E1"),
        ("free_at location=LOC7", "none"),
        ("claim evse=e1 as=start party=nl/tnm number=1", "done"),
        ("claim evse=E1 as=start number=2", "3 Claimed"),
        ("may_claim evse=E1", "3 Claimed"),
        ("claim_of evse=E1", "start NL/TNM 1"),
        ("free_at location=LOC1", "E2"),
        ("change evse=E1 as=session party=DE/EMP id=s1", "done"),
        ("claim_of evse=e1", "session DE/EMP S1"),
        ("change evse=E2 as=session id=S2", "none"),
        ("claim_of evse=E2", "none"),
        ("out evse=E2", "done"),
        ("out evse=E2", "done"),
        ("in_service evse=E2", "no"),
        ("free_at location=LOC1", "none"),
        ("free_at location=LOC2", "E3"),
        ("claim evse=E2 as=start number=3", "4 OutOfService"),
        ("may_claim evse=E2", "4 OutOfService"),
        ("works location=LOC1", "yes"),
        ("works location=LOC1 evse=E2", "no"),
        ("works location=LOC1 evse=E1", "yes"),
        ("works location=LOC1 evse=E3", "no"),
        ("works location=LOC7", "none"),
        ("out evse=E1", "done"),
        ("claim_of evse=E1", "session DE/EMP S1"),
        ("works location=LOC1", "no"),
        ("works location=LOC2", "yes"),
        ("in_service evse=E1", "no"),
        ("claim evse=E1 as=reservation id=R1", "3 Claimed"),
        ("change evse=E1 as=reservation id=r1", "done"),
        ("claim_of evse=E1", "reservation NL/TNM R1"),
        ("release evse=E1", "done"),
        ("claim_of evse=E1", "none"),
        ("release evse=E1", "done"),
        ("free_at location=LOC1", "none"),
        ("claim evse=E1 as=start number=4", "4 OutOfService"),
        ("in evse=E1", "done"),
        ("free_at location=LOC1", "E1"),
        ("in_service evse=E1", "yes"),
        ("may_claim evse=E1", "done"),
        ("claim evse=E1 as=reservation id=R2", "done"),
        ("free_at location=loc1", "none"),
        ("in evse=E2", "done"),
        ("free_at location=loc1", "E2"),
        ("claim evse=E9 as=start number=1", "2 UnknownEvse"),
        ("may_claim evse=E9", "2 UnknownEvse"),
        ("in evse=E9", "2 UnknownEvse"),
        ("out evse=E9", "2 UnknownEvse"),
        ("in_service evse=E9", "no"),
        ("claim_of evse=E9", "none"),
        ("change evse=E9 as=start number=1", "none"),
        ("put evse=E9 as=start number=1", "none"),
        ("release evse=E9", "done"),
        ("out evse=E3", "done"),
        ("put evse=E3 as=start number=999999999999999999", "done"),
        ("claim_of evse=E3", "start NL/TNM 999999999999999999"),
        ("put evse=E3 as=session id=S9", "done"),
        ("claim_of evse=E3", "session NL/TNM S9"),
        ("in evse=E3", "done"),
        ("free_at location=LOC2", "none"),
        ("release evse=E3", "done"),
        ("free_at location=LOC2", "E3"),
        ("claim evse=E3 as=nothing", "not a call"),
        ("claim evse=E3 as=start number=1000000000000000000", "not a call"),
    ):
        case(f"site {line}", wanted)


def add_places():
    """Which EVSE and connector are found, and which of these are free."""
    fresh()
    case(f"site open\t{text(SITE)}", "done")
    for line, wanted in (
        ("place location=LOC1", "E1 1"),
        ("place location=LOC1 evse=e1 connector=2", "E1 2"),
        ("place location=LOC1 evse=E1 connector=3", "none"),
        ("place location=LOC1 evse=E3", "none"),
        ("place location=LOC2 evse=E3", "E3 3"),
        ("place location=LOC9 evse=E3", "none"),
        ("place location=LOC1 connector=1", "not a call"),
        ("free_place location=LOC1 evse=E1", "E1 1"),
        ("free_place location=LOC1 evse=E1 connector=2", "E1 2"),
        ("claim evse=E1 as=start number=1", "done"),
        ("place location=LOC1 evse=E1", "E1 1"),
        ("free_place location=LOC1 evse=E1", "none"),
        ("free_place location=LOC1", "E2 1"),
        ("out evse=E2", "done"),
        ("free_place location=LOC1", "none"),
        ("free_place location=LOC1 evse=E2", "none"),
        ("free_place location=LOC2", "E3 3"),
    ):
        case(f"site {line}", wanted)
    case(f"site open\t{text(SITE)}", "done")
    case("site claim_of evse=E1", "none")
    case("site free_place location=LOC1", "E1 1")


def add_lives_and_sites():
    for add in (add_lives, add_ends, add_last_moments, add_costs, add_resumed, add_bills, add_site, add_places):
        add()
