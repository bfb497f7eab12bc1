"""The log of a bridge: one line each on standard error, as text or as JSON."""
import json
import logging
import sys

from .clock import moment_of
from .room import NoRoom


class JsonLines(logging.Formatter):
    """Writes a record as an object of `time`, `level`, `logger` and `message`."""

    def format(self, record: logging.LogRecord) -> str:
        return json.dumps({"time": moment_of(record.created), "level": record.levelname, "logger": record.name,
                           "message": super().format(record)})


class TextLines(logging.Formatter):
    """Writes a record as its message, in which line ends are written out."""

    def format(self, record: logging.LogRecord) -> str:
        return super().format(record).replace("\r", "\\r").replace("\n", "\\n")


def without_traceback(record: logging.LogRecord) -> bool:
    """Has what failed for want of room told without a traceback: nothing of the bridge is at fault."""
    if record.exc_info and isinstance(record.exc_info[1], NoRoom):
        record.msg, record.args, record.exc_info = f"{record.getMessage()}: {record.exc_info[1]}", (), None
    return True


def set_up_logs(as_json: bool) -> None:
    """Has all that is logged written to standard error."""
    handler = logging.StreamHandler(sys.stderr)
    handler.addFilter(without_traceback)
    handler.setFormatter(JsonLines() if as_json else TextLines())
    logging.basicConfig(level=logging.INFO, handlers=[handler])
