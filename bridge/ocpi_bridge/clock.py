"""The clock by which a bridge waits and says when things happen. For trials it may go faster than the machine's."""
import asyncio
import time
from collections.abc import Awaitable
from datetime import datetime, timedelta, timezone
from typing import TypeVar

Result = TypeVar("Result")
EPOCH = datetime(1970, 1, 1, tzinfo=timezone.utc)


class Clock:
    """Goes `factor` times as fast as the machine's, from `origin` on (seconds since 1970), where both tell the same."""

    def __init__(self, factor: float = 1.0, origin: float | None = None) -> None:
        self.factor = factor
        self.origin = time.time() if origin is None else origin

    def seconds(self) -> float:
        """Seconds since 1970, as this clock tells them."""
        return self.origin + (time.time() - self.origin) * self.factor

    def passed(self) -> float:
        """Seconds of this clock since some moment, whatever the machine's is set to meanwhile."""
        return time.monotonic() * self.factor

    def moment(self) -> str:
        """Now, as OCPI writes it, in UTC and to the millisecond."""
        return moment_of(self.seconds())

    async def sleep(self, seconds: float) -> None:
        """Waits for so many seconds of this clock."""
        await asyncio.sleep(seconds / self.factor)

    async def within(self, seconds: float, waited: Awaitable[Result]) -> Result:
        """Awaits something for at most so many seconds of this clock. Raises TimeoutError."""
        async with asyncio.timeout(seconds / self.factor):
            return await waited


def moment_of(seconds: float) -> str:
    """A moment, given in seconds since 1970, as OCPI writes it."""
    whole = EPOCH + timedelta(milliseconds=round(seconds * 1000))
    return whole.strftime("%Y-%m-%dT%H:%M:%S.") + f"{whole.microsecond // 1000:03}Z"


def seconds_of(moment: str) -> float:
    """Seconds since 1970 of a moment that OCPI or OCPP wrote, in UTC where it names no offset. Raises ValueError."""
    return _since_epoch(moment) / timedelta(seconds=1)


def seconds_in(moment: object) -> float | None:
    """The same of whatever came in the place of a moment. None where it cannot be read as one."""
    try:
        return seconds_of(moment) if isinstance(moment, str) else None
    except (ValueError, OverflowError):
        return None


def milliseconds_of(moment: str) -> int:
    """The same in whole milliseconds: what a moment has behind the third digit is cut."""
    return _since_epoch(moment) // timedelta(milliseconds=1)


def _since_epoch(moment: str) -> timedelta:
    read = datetime.fromisoformat(moment.upper())
    return (read if read.tzinfo else read.replace(tzinfo=timezone.utc)) - EPOCH
