"""A charge point of OCPP 1.6 or 2.0.1 for trials, with one connector. Its driver's acts are the lines of its standard
input.

`plug`, `start TOKEN`, `meter WH` (the register rises by so much), `stop`, `unplug` (which also ends a fault), `fault`.
Each status is written to standard output. What was not answered is sent again on the next connection.
"""
import argparse
import asyncio
import sys
from contextlib import suppress
from urllib.parse import quote

import aiohttp

from .charge_point_messages import VERSIONS, Messages
from .clock import Clock
from .json_text import Members
from .ocpp.connection import Connection
from .ocpp.messages import Request

# In seconds: between readings that it makes by itself, and before it connects again. In Wh: what each adds, and with
# how much a car is full.
METER_EACH, RECONNECT_AFTER = 1.0, 0.5
STEP, FULL = 1000, 12_000


class ChargePoint:
    """Its status (with Preparing a car is plugged in), which token may charge, and what it says by its version."""

    def __init__(self, is_automatic: bool, messages: Messages) -> None:
        self.is_automatic, self.clock, self.messages = is_automatic, Clock(), messages
        self.token: str | None = None
        self.register = self.full = 0
        # What is sent until it is answered, the one that waits for its answer first.
        self.calls: list[Request] = []
        self.woken = asyncio.Event()
        self.call(messages.boot())
        self.set_status("Available")

    def call(self, request: Request) -> None:
        self.calls.append(request)
        self.woken.set()

    def set_status(self, status: str) -> None:
        self.status = status
        print(status, flush=True)
        self.call(self.messages.status(status, self.clock.moment()))

    def do(self, *words: str) -> None:
        """Does what a driver does. What makes no sense as things stand is passed over."""
        match words:
            case ["plug"] if self.status == "Available":
                self.set_status("Preparing")
            case ["start", token] if self.status != "Charging":
                self.call(self.messages.authorize(token))
            case ["meter", watt_hours] if watt_hours.isdecimal():
                self.register += int(watt_hours)
                if self.messages.transaction is not None:
                    self.call(self.messages.meter(self.register, self.clock.moment()))
            case ["stop", *reason] if self.messages.transaction is not None:
                self.call(self.messages.end(self.register, self.clock.moment(), reason[0] if reason else "Local"))
                self.messages.transaction = self.token = None
                if self.status == "Charging":
                    self.set_status("Finishing")
            case ["unplug"]:
                self.do("stop", "EVDisconnected")
                self.token = None
                self.set_status("Available")
            case ["fault"]:
                self.do("stop", "Other")
                self.set_status("Faulted")
        if self.status == "Preparing" and self.token is not None:
            self.full = self.register + FULL
            self.call(self.messages.begin(self.token, self.register, self.clock.moment()))
            self.set_status("Charging")

    def take(self, request: Request, answer: Members) -> None:
        """Takes in what a call of its own was answered. A transaction that may not be, or is over, is stopped."""
        token, is_accepted = self.messages.took(request, answer)
        if request[0] == "Authorize" and is_accepted:
            self.token = token
        elif self.messages.begins(request) and (not is_accepted or self.status != "Charging"):
            self.do("stop", "DeAuthorized")
        self.do()

    async def answer(self, action: str, payload: Members) -> Members:
        """Answers a call of the central system. The calls that follow of it are made behind the answer."""
        status, transaction = "Accepted", self.messages.transaction
        match action:
            case "RemoteStartTransaction" | "RequestStartTransaction" if self.status in ("Available", "Preparing"):
                self.token = self.messages.ordered(payload)
                self.do("plug" if self.is_automatic else "")
            case "RemoteStopTransaction" | "RequestStopTransaction" if payload["transactionId"] == transaction:
                self.do("stop", "Remote")
                self.do("unplug" if self.is_automatic else "")
            case "UnlockConnector":
                self.do("stop", "UnlockCommand")
                status = "Unlocked"
            case "ChangeAvailability":
                status = "Scheduled" if self.status == "Charging" else "Accepted"
            case "TriggerMessage" if payload["requestedMessage"] == "StatusNotification":
                self.set_status(self.status)
            case "GetTransactionStatus":
                return {"ongoingIndicator": payload["transactionId"] == transaction,
                        "messagesInQueue": any(name == "TransactionEvent" for name, _ in self.calls)}
            case _:
                status = "Rejected"
        return {"status": status}

    async def connect(self, address: str, authentication: aiohttp.BasicAuth) -> None:
        """Connects, and again whenever the connection ends."""
        async with aiohttp.ClientSession(auth=authentication) as session:
            while True:
                with suppress(aiohttp.ClientError, OSError):
                    async with session.ws_connect(address, protocols=(self.messages.subprotocol,)) as socket:
                        connection = Connection(socket, self.messages.version, self.clock, self.answer)
                        calls = asyncio.create_task(self.make_calls(connection))
                        await asyncio.gather(connection.read(), connection.work())
                        calls.cancel()
                await asyncio.sleep(RECONNECT_AFTER)

    async def make_calls(self, connection: Connection) -> None:
        """Makes its calls one at a time, until one is not answered. That is made again on the next connection."""
        while True:
            while not self.calls:
                self.woken.clear()
                await self.woken.wait()
            async with connection.asking(*self.calls[0]) as answer:
                if answer is None:
                    return await connection.close()
                self.take(self.calls.pop(0), answer)

    async def read_input(self) -> None:
        """Does what each line says, until there are no more."""
        reader = asyncio.StreamReader()
        await asyncio.get_running_loop().connect_read_pipe(lambda: asyncio.StreamReaderProtocol(reader), sys.stdin)
        async for line in reader:
            self.do(*line.decode().split())

    async def meter_by_itself(self) -> None:
        while self.is_automatic:
            await asyncio.sleep(METER_EACH)
            if self.messages.transaction is not None and self.register < self.full:
                self.do("meter", str(STEP))


async def run(url: str, name: str, password: str, is_automatic: bool, version: str) -> None:
    """Runs a charge point for good."""
    point = ChargePoint(is_automatic, VERSIONS[version]())
    connecting = point.connect(f"{url.rstrip('/')}/{quote(name, '')}", aiohttp.BasicAuth(name, password))
    await asyncio.gather(connecting, point.read_input(), point.meter_by_itself())


if __name__ == "__main__":
    parser = argparse.ArgumentParser("charge_point", description=(
        "A charge point of OCPP for trials. It does what its input says: plug, start TOKEN, meter WH, stop, unplug, "
        "fault."))
    parser.add_argument("url", metavar="URL", help="the address of the central system, before the id")
    parser.add_argument("id", metavar="ID")
    parser.add_argument("password", metavar="PASSWORD")
    parser.add_argument("--version", choices=VERSIONS, default="1.6", help="of OCPP")
    parser.add_argument("--auto", action="store_true", help="plugs in, meters and unplugs as it is asked")
    words = parser.parse_args()
    with suppress(KeyboardInterrupt):
        asyncio.run(run(words.url, words.id, words.password, words.auto, words.version))
