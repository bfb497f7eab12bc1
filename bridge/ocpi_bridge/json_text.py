"""JSON whose numbers keep their text: no number becomes a float, and none is written with an exponent."""
import json
from decimal import ROUND_DOWN, Context, Overflow
from typing import Any

# A payload of OCPP, of which `check_payload` looked at what is used.
Members = dict[str, Any]
# An object that came from outside, or that is only written: nobody knows what its members are.
JsonObject = dict[str, object]

MOST_DEPTH = 126
# The most digits before the point that a number may have. (A node takes 15.)
MOST_DIGITS = 18
# Numbers with an exponent are written out to 30 decimals and 31 digits. (A node cuts behind the fourth decimal.)
WRITTEN_OUT = Context(prec=31, Emin=0, Emax=MOST_DIGITS - 1, rounding=ROUND_DOWN, traps=[Overflow])


class NotJson(ValueError):
    """The text is no JSON."""


class NumberTooLarge(ValueError):
    """The text has a number with an exponent that is not written out, since no node takes one of that size."""


class Number(str):
    """A number, as it was spelled."""


def _read_integer(text: str) -> int | Number:
    return int(text) if len(text) <= MOST_DIGITS and text != "-0" else Number(text)


def _read_number(text: str) -> Number:
    """A number with a point or an exponent. An exponent is written out."""
    if "e" not in text.lower():
        return Number(text)
    try:
        return Number(f"{WRITTEN_OUT.create_decimal(text):f}")
    except Overflow:
        raise NumberTooLarge(text[:40]) from None


def _refuse_word(word: str) -> None:
    raise NotJson(word)


def read_json(text: str | bytes) -> Any:
    """Reads a JSON text. Of a repeated member the last counts. Refuses what is no JSON, and what is nested too deep."""
    try:
        return json.loads(text, parse_int=_read_integer, parse_float=_read_number, parse_constant=_refuse_word)
    except (json.JSONDecodeError, UnicodeDecodeError, RecursionError) as fault:
        raise NotJson(str(fault)) from None


def write_json(value: Any, depth: int = 0) -> str:
    """Writes a value on one line, without spaces, members in the order in which they stand."""
    if depth > MOST_DEPTH:
        raise NotJson("nested too deep")
    if isinstance(value, Number):
        return str(value)
    if isinstance(value, dict):
        members = [f"{json.dumps(name)}:{write_json(member, depth + 1)}" for name, member in value.items()]
        return f"{{{','.join(members)}}}"
    if isinstance(value, (list, tuple)):
        return f"[{','.join([write_json(element, depth + 1) for element in value])}]"
    return json.dumps(value)
