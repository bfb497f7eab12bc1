"""Frames of OCPP over JSON: calls, their results and their errors, a list each. They are those of both versions.

Of what a charge point calls those members are checked that the bridge uses. They stand in `fields.json` by version,
each with its form, and with a `?` where it may be left out. All others are read past, whatever they are.
"""
import json
from contextlib import suppress
from dataclasses import dataclass
from pathlib import Path
from typing import Any

from ..clock import seconds_in
from ..json_text import Members, NotJson, Number, NumberTooLarge, read_json, write_json

CALL, RESULT, ERROR = 2, 3, 4
LONGEST_MESSAGE_ID = 36
TABLES: Members = json.loads(Path(__file__).with_name("fields.json").read_text())
LEAST = {"from 0": 0, "from 1": 1, "integer": -10**18}


class CallError(Exception):
    """What is wrong with a frame or with a call: OCPP's error code, words, and the message id where it can be read."""

    def __init__(self, code: str, description: str, message_id: str = "-1") -> None:
        """The code is that of 1.6."""
        super().__init__(description)
        self.code, self.message_id = code, message_id

    def frame(self, message_id: str, version: str) -> str:
        """The CALLERROR that tells it, with the code as a version spells it."""
        return write_json([ERROR, message_id, TABLES[version]["codes"].get(self.code, self.code), str(self)[:255], {}])


@dataclass(frozen=True)
class Frame:
    """A call, or where it has no action the answer to one. The payload of a CALLERROR has its code as the `status`."""

    message_id: str
    action: str | None
    payload: Members


def is_text(value: Any) -> bool:
    """Whether a value is a JSON string. (A number that keeps its text is none.)"""
    return isinstance(value, str) and not isinstance(value, Number)


def read_frame(text: str) -> Frame:
    """Reads a frame. Raises CallError FormationViolation."""
    frame = None
    with suppress(NotJson, NumberTooLarge):
        frame = read_json(text)
    if not isinstance(frame, list) or len(frame) < 2 or not is_text(frame[1]) or len(frame[1]) > LONGEST_MESSAGE_ID:
        raise CallError("FormationViolation", "no JSON list of a message type and a message id")
    message_type, message_id, *rest = frame
    if message_type == CALL and len(rest) == 2 and is_text(rest[0]) and isinstance(rest[1], dict):
        return Frame(message_id, rest[0], rest[1])
    if message_type == RESULT and len(rest) == 1 and isinstance(rest[0], dict):
        return Frame(message_id, None, rest[0])
    if message_type == ERROR and rest and is_text(rest[0]):
        return Frame(message_id, None, {"status": rest[0]})
    raise CallError("FormationViolation", "neither a call nor an answer of OCPP", message_id)


def check_payload(version: str, action: str, payload: Members) -> None:
    """Raises CallError where the version has no such action, or where a member that is used is missing or does not
    fit."""
    if action not in TABLES[version]["calls"]:
        raise CallError("NotImplemented", f"{action[:50]}: unknown")
    _check(TABLES[version], action, TABLES[version]["calls"][action], payload)


def _check(table: Members, path: str, fields: Members, members: Members) -> None:
    for field, form in fields.items():
        name = field.removesuffix("?")
        value = members.get(name)
        if value is None and name == field:
            raise CallError("OccurenceConstraintViolation", f"{path}.{name}: missing")
        if isinstance(form, dict) and isinstance(value, dict):
            _check(table, f"{path}.{name}", form, value)
        elif value is not None and (isinstance(form, dict) or not _fits(table, form, value)):
            raise CallError("PropertyConstraintViolation",
                            f"{path}.{name}: no {'object' if isinstance(form, dict) else form}")


def _fits(table: Members, form: str, value: Any) -> bool:
    if form in LEAST:
        return type(value) is int and value >= LEAST[form]
    if not is_text(value):
        return form == "list" and isinstance(value, list)
    if form == "dateTime":
        return seconds_in(value) is not None
    if form in table["longest"]:
        return len(value) <= int(table["longest"][form]) and value.isascii() and value.isprintable()
    return bool(value in table["words"].get(form, ()))
