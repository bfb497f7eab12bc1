"""The part `calls` of the cases of the program `case_lines`: calls of texts, moments, numbers, tables and keepers, each with what it
must answer.

Moments in milliseconds are those of Python's calendar, and the ids are the forms that docs/PROTOCOL.md gives.
"""
from datetime import datetime, timezone

LAST_MOMENT = 253402300799999
MOST_UNITS = 10**15 - 1


def millis(*moment, milli=0):
    """A moment of UTC in milliseconds since 1970."""
    return int(datetime(*moment, tzinfo=timezone.utc).timestamp()) * 1000 + milli


def decimal(units):
    """That many ten-thousandths, with four digits behind the point."""
    whole, part = divmod(abs(units), 10**4)
    return f"{'-' if units < 0 else ''}{whole}.{part:04}"


TEXTS = [
    ("ci b~", "B~"),
    ("ci abc", "refused 1 TooLong"),
    ("ci éé", "refused 2 NotPrintable"),
    ("free Café ~", "Café ~"),
    ("free a\x9f", "refused 2 NotPrintable"),
    ("short Café ~", "Café ~"),
    ("short Café at", "refused 1 TooLong"),
    ("party be/BEC", "be/BEC"),
    ("party é/BECX", "refused 1 TooLong"),
    ("party éé/BEC", "refused 2 NotPrintable"),
    ("whole 007", "7"),
    ("whole +7", "refused 4 BadNumber"),
    ("whole 1000000000000000000", "refused 5 NumberTooLarge"),
    ("moment 2025-01-01T10:00:00.1239", "2025-01-01T10:00:00.123Z"),
    ("moment 2024-02-29t23:59:59.0009-00:00", "2024-02-29T23:59:59Z"),
    ("moment 9999-12-31T23:59:59.5z", "9999-12-31T23:59:59.500Z"),
    ("moment 2025-02-29T00:00:00Z", "refused 3 BadMoment"),
    ("moment 2025-01-01T10:00:00+01:00", "refused 3 BadMoment"),
    ("moment 1969-12-31T23:59:59Z", "refused 3 BadMoment"),
    ("moment 2025-01-01T10:00:60Z", "refused 3 BadMoment"),
    ("moment 2025-01-01T10:00:00.Z", "refused 3 BadMoment"),
    ("number 0.5", "0.5000"),
    ("number -1.5", "-1.5000"),
    ("number -0", "0.0000"),
    ("number 12.34567", "12.3456"),
    ("number 99999999999.9999", "99999999999.9999"),
    ("number 1e3", "refused 4 BadNumber"),
    ("number 01", "refused 4 BadNumber"),
    ("number 1234567890123456", "refused 5 NumberTooLarge"),
    ("number 100000000000", "refused 5 NumberTooLarge"),
    ("halves be bec", "be bec BE/BEC"),
]

COUNTS = [
    ("after 2025-01-01T10:00:00Z 0", millis(2025, 1, 1, 10)),
    ("after 2000-02-29T23:59:59.001Z 999", millis(2000, 3, 1)),
    (f"after 9999-12-31T23:59:59.999Z {2**64 - 1}", LAST_MOMENT),
    (f"units {MOST_UNITS}", f"{MOST_UNITS} quantity"),
    ("units 0", "0 quantity"),
    ("units -1", "-1"),
    (f"units {MOST_UNITS + 1}", "none"),
    (f"units {-2**63}", "none"),
    *[(f"sum {units}", decimal(units)) for units in (30864, -15000, 0, -2**127)],
]

# The letter of the kind and the party in capitals, each as two digits of 16, and the number: a UUID by its form.
IDS = [
    ("own_id session BE/BEC", "53424542-4543-0000-0000-000000000001"),
    ("own_id cdr BE/BEC", "43424542-4543-0000-0000-000000000001"),
    ("own_id reference NL/TNM", "414e4c54-4e4d-0000-0000-000000000001"),
    ("own_id reference nl/tnm", "414e4c54-4e4d-0000-0000-000000000001"),
    ("own_id reference DE/EMP", "41444545-4d50-0000-0000-000000000001"),
]

# Numbers alone are quoted, and a bad token is found wherever it stands, also in what is no JSON.
PLAIN = r'{"a":[0.5,-1e+3],"b":"\u00e9 1"}'
QUOTES = [
    ("quote " + PLAIN, r'{"a":["\u00010.5","\u0001-1e+3"],"b":"\u00e9 1"}'),
    ("quote_and_back " + PLAIN, PLAIN),
    ("quote 01", "refused 2 BadNumberToken"),
    ("quote {} -", "refused 2 BadNumberToken"),
    (r'quote x 1+ "\u0001"', "refused 2 BadNumberToken"),
    (r'quote {"\u0001":null}', "refused 3 TaggedText"),
    (r'quote x"\u0001"', "refused 3 TaggedText"),
    ("site_line_of_no_utf_8", "refused 1 Syntax"),
    (f"site_line_of {2**20}", "refused 5 WrongForm(line)"),
    (f"site_line_of {2**20 + 1}", "refused 1 Syntax"),
]

# A table of the keys 1, 5 and 9 with themselves as values, and the key 3 with room alone: the value of 9; whether 1 stands, and 3 has
# room, and stands; the first key, that from 2 on and that after 5; all values, and those from 2 on. Then whether 3 has room once that
# is given back, and once it is taken; the value that was put there; and whether it stands once it was removed.
# A lookup of the odd numbers below 1,000 with twice themselves, but for the multiples of 3, of which 3 alone has a value: what 3, 4, 5
# and 9 have; the number of the entries and the sum of their values; what 5 had when it was removed, and whether it stands.
ODD = [2 * it for it in range(1, 1000, 2) if it % 3] + [7]
TABLES = [
    ("look_ups", "9 true true false 1 5 9 [ 1 5 9 ] [ 5 9 ]"),
    ("lookups", f"7 none 10 none {len(ODD)} {sum(ODD)} 10 false"),
    ("changes", "false true 4 false"),
    ("parties", "[ 1 2 3 ]"),
    ("places", "E2 3"),
]

KEEPERS = [("keeper list", "9"), ("keeper database", "9"), ("store_fault", "3 OldLayout")]


def cases():
    """The lines, and what they must give."""
    rows = [*TEXTS, *COUNTS, *IDS, *QUOTES, *TABLES, *KEEPERS]
    return [line for line, _ in rows], [str(wanted) for _, wanted in rows]
