"""Values of each form of member: samples, values that are refused, and values that are taken.

Where two lists are given, the first has the few values that are tried of each member, the second those that are tried
where a form is met for the first time.
"""

import itertools

from packet_forms import (
    ChargeDetailRecord,
    CiString,
    Decimal,
    Items,
    Kind,
    Moment,
    NewText,
    Number,
    Party,
    Record,
    Reply,
    String,
    Truth,
    Whole,
    Word,
)

LEAST, USUAL, GREATEST = range(3)

PRINTABLE = "".join(map(chr, range(0x20, 0x7F)))

# Of one to four bytes in UTF-8, and the two that are written by an escape.
CHARACTERS = 'a\u00e9\u20ac\U0001f600"\\'


def cycle(characters, count):
    return "".join(itertools.islice(itertools.cycle(characters), count))


def numbers(*tokens):
    return [Number(token) for token in tokens]


def sample(form, size):
    """A value of the form, spelled as it is written: the least, a usual or the greatest one."""
    match form:
        case NewText():
            return sample(form.form, size)
        case CiString(exact=True):
            return cycle("BEC", form.most)
        case CiString():
            return ["", "A1", cycle('"\\ ' + PRINTABLE[::-1], form.most)][size]
        case String():
            return ["", "b1", cycle(CHARACTERS, form.most)][size]
        case Party():
            return ["  /   ", "BE/BEC", "~~/~~~"][size]
        case Moment():
            return ["1970-01-01T00:00:00Z", "2025-01-01T10:00:00Z", "9999-12-31T23:59:59.999Z"][size]
        case Word():
            return [form.words[0], form.words[1], form.words[-1]][size]
        case Truth():
            return size != LEAST
        case Whole():
            return Number(str([form.least, max(form.least, 30), form.most][size]))
        case Decimal():
            return Number(["-99999999999.9999" if form.negative else "0.0000", "1.5000", "99999999999.9999"][size])
        case Items():
            return [sample(form.form, size) for _ in range([form.least, 2, 3][size])]
        case Record():
            return sample_record(form, size)


def sample_record(record, size):
    """The least has no optional member; the others have all. Of charge detail records the greatest is a credit."""
    there = [member for member in record.members if size != LEAST or not member.optional]
    tree = {member.name: sample(member.form, size) for member in there}
    if isinstance(record, ChargeDetailRecord):
        tree |= sample_credit(record, size)
    tree = dict(sorted(tree.items()))
    if isinstance(record, Reply):
        tree["status_code"] = Number("9999" if size == LEAST else "1000")
        if size == LEAST:
            del tree["data"]
    return tree


def sample_credit(record, size):
    """What is written of whether a charge detail record is a credit."""
    if size == GREATEST:
        return {"credit": True, record.TAKEN_BACK.name: sample(record.TAKEN_BACK.form, size)}
    return {"credit": False} if record.writes_credit else {}


def other_kinds(form):
    """Values of each kind of JSON value that the form never takes."""
    match form:
        case NewText():
            return other_kinds(form.form)
        case Whole() | Decimal():
            return [True, "5", [], {}]
        case Truth():
            return [*numbers("1", "0"), "true", [], {}]
        case Record():
            return [True, Number("5"), "x", []]
        case Items():
            return [True, Number("5"), "x", {}]
        case _:
            return [False, Number("5"), [], {}]


def wrong_values(form):
    """Values of the right kind that are refused, as two lists."""
    match form:
        case NewText():
            return wrong_values(form.form)
        case CiString(exact=True):
            return ["", "x" * (form.most - 1), "x" * (form.most + 1), "\u00e9" * form.most], []
        case CiString():
            few = ["x" * (form.most + 1), "\u00e9" + "x" * (form.most - 1)]
            return few, ["\t", "\x00", "\x7f", "x\x01", "\u00e9", "\U0001f600", "\u00e9" * (form.most + 1)]
        case String():
            few = ["x" * (form.most + 1), "\x85"]
            return few, ["\U0001f600" * (form.most + 1), "\x00", "x\x01", "\n", "\x1f", "\x7f", "\x80", "\x9f"]
        case Party():
            few = ["BE/BECX", "BEBEC", "BE/B\u00e9C"]
            more = ["", "BE", "B/BEC", "BEL/BEC", "BE/BE", "BE-BEC", "BE/BEC ", "\u00c9E/BEC", "BE\u2215BEC", "BE/B\tC"]
            return few, more
        case Moment():
            return wrong_moments()
        case Whole():
            few = [str(form.most + 1), "1e3", "1.0"] + ([str(form.least - 1)] if form.least else [])
            return numbers(*few), numbers("-1", "-0", "1E3", "1000.0", "18446744073709552616", "1" * 40)
        case Decimal():
            few, more = wrong_decimals(form.negative)
            return few + numbers(spell_units(form.most_units + 1)), more
        case Word():
            return [word.lower() for word in form.words], ["", form.words[0] + " ", form.words[0] + "X", "\u00e9"]
        case Kind():
            return ["START_SESSION"], ["", "start_session ", "token", "Ack"]
        case _:
            return [], []


def wrong_moments():
    few = ["2025-02-29T00:00:00Z", "2025-01-01T10:00:00+01:00", "1969-12-31T23:59:59Z", "2016-12-31T23:59:60Z"]
    dates = ["2025-13-01", "2025-00-01", "2025-01-00", "2025-04-31", "2100-02-29", "10000-01-01", "025-01-01"]
    dates += ["-2025-01-01", "0000-01-01", "2025/01/01", "20250101"]
    times = ["24:00:00Z", "10:60:00Z", "23:59:60Z", "10:00:61Z", "10:00Z", "10:00:0Z", "1:00:00Z", "100000Z"]
    times += ["10:00:00.Z", "10:00:00.", "10:00:00,5Z", "10:00:00.5.5Z", "10:00:00.5x", "10:00:00ZZ", "10:00:00 Z"]
    times += ["10:00:00+00", "10:00:00+0000", "10:00:00-01:00", "10:00:00+00:01", "10:00:00\u221200:00", "10:00:00Z "]
    others = ["", "now", "2025-01-01", "2025-01-01 10:00:00Z", "2025-01-01x10:00:00Z", " 2025-01-01T10:00:00Z"]
    others += ["2025-01-01T10:00:0\uff10Z"]
    return few, [f"{date}T10:00:00Z" for date in dates] + [f"2025-01-01T{time}" for time in times] + others


def spell_units(units):
    return f"{units // 10_000}.{units % 10_000:04}"


def wrong_decimals(negative):
    few = ["1e3", "100000000000"]
    more = ["1E3", "0e0", "5.0e-1", "1e+3", "1234567890123456", "100000000000.0", "9" * 40 + ".5", "-1e3", "-0e0"]
    if negative:
        few += ["-100000000000"]
        more += ["-1234567890123456"]
    else:
        few += ["-0.0001"]
        more += ["-1", "-0.00019", "-99999999999"]
    return numbers(*few), numbers(*more)


def right_values(form):
    """Values that are taken and what is written for each, as two lists."""
    match form:
        case NewText():
            return right_values(form.form)
        case CiString(exact=True):
            return as_they_are([], ["b" * form.most, " " * form.most])
        case CiString():
            return as_they_are([""], ["aB", " ", "~", '"\\"', "/" * form.most])
        case String():
            return as_they_are([""], ["\xa0", "~", " ", "e\u0301", "\u2028", "\U0010ffff", "\u00e9" * form.most])
        case Party():
            return as_they_are(["be/bec"], ["A//B/C", '""/\\\\\\'])
        case Moment():
            return right_moments()
        case Whole():
            return as_they_are(numbers(str(form.most)), numbers(str(form.least), "2001"))
        case Decimal():
            few, more = right_decimals(form.negative)
            greatest = spell_units(form.most_units)
            few = [*few, (Number(greatest + "9"), Number(greatest))]
            return few, [pair for pair in more if float(pair[1].token) * 10_000 <= form.most_units]
        case Word():
            return as_they_are(form.words, [])
        case Truth():
            return as_they_are([True, False], [])
        case Items(least=0):
            return as_they_are([[], [sample(form.form, LEAST)]], [])
        case _:
            return [], []


def as_they_are(few, more):
    return [(value, value) for value in few], [(value, value) for value in more]


def right_moments():
    second = "2025-01-01T10:00:00"
    few = [(second + ".1239", second + ".123Z")]
    zones = ["", "z", "+00:00", "-00:00", ".0Z", ".000", ".0009+00:00", ".000999999999Z"]
    more = [(second + zone, second + "Z") for zone in zones] + [("2025-01-01t10:00:00z", second + "Z")]
    fractions = {".5": ".500", ".05-00:00": ".050", ".001z": ".001"}
    fractions |= {".99999999999999999999Z": ".999", ".1234567890123456789": ".123"}
    more += [(second + given, second + written + "Z") for given, written in fractions.items()]
    more += [("9999-12-31T23:59:59.9999", "9999-12-31T23:59:59.999Z")]
    more += [("1970-01-01T00:00:00.0009Z", "1970-01-01T00:00:00Z")]
    same = ["2024-02-29T23:59:59.999Z", "2000-02-29T00:00:00Z", "2025-12-31T23:59:59Z", "1970-01-01T00:00:00.001Z"]
    return few, more + [(text, text) for text in same]


def right_decimals(negative):
    few = {"0.5": "0.5000", "-0.00001": "0.0000"}
    more = {"0": "0.0000", "-0": "0.0000", "-0.0": "0.0000", "7": "7.0000", "10.10": "10.1000", "12.34567": "12.3456"}
    more |= {"0.00009999": "0.0000", "0.00019999": "0.0001", "0." + "9" * 40: "0.9999"}
    more |= {"99999999999": "99999999999.0000", "99999999999.99999": "99999999999.9999"}
    more |= {"123456789.123456789": "123456789.1234"}
    if negative:
        few |= {"-1.5": "-1.5000"}
        more |= {"-0.0001": "-0.0001", "-0.00019": "-0.0001", "-7": "-7.0000"}
        more |= {"-99999999999.99999": "-99999999999.9999"}
    return [[(Number(given), Number(written)) for given, written in pairs.items()] for pairs in (few, more)]
