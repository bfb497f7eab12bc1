"""A charge point of OCPP 1.6 over JSON with one connector. It reports what it did until it is answered, and keeps on
record what it was asked and what it let charge. It never lets two transactions run at once, as no charge point can.
"""
import asyncio
from collections.abc import Awaitable, Callable
from dataclasses import dataclass, field
from random import Random
from typing import Any

from .chance import happens
from .connection import Connection, ConnectionLost

Payload = dict[str, Any]

CONNECTOR = 1
# In seconds of the machine: how long a car charges that waits to be stopped from afar.
LONGEST_CHARGE = 20.0
# Samples that no table of OCPP 1.6 has, as charge points send them beside the register.
ODD: list[Payload] = [{"value": "50.01", "measurand": "Frequency", "unit": "Hertz"},
                      {"value": "s" * 3000, "format": "SignedData"}, {"measurand": "Vendor.Power"}]


@dataclass
class Transaction:
    """A charge, as the charge point knows it. Energies are in Wh, registers too."""

    id_tag: str
    meter_start: int
    energy: int
    ends: str
    remote_start: int | None = None
    status: str = ""
    number: int | str = 0
    is_told_late: bool = False
    is_reported: bool = False
    is_claimed: bool = False
    asked_to_end: asyncio.Event = field(default_factory=asyncio.Event)
    reason: str = "Local"

    @property
    def was_let_charge(self) -> bool:
        return self.status == "Accepted"


class ChargePoint:
    """Connects again whenever its connection is lost. `address` tells where, or None while nobody listens."""

    subprotocol = "ocpp1.6"
    boot: Payload = {"chargePointVendor": "Trial", "chargePointModel": "One"}

    def __init__(self, identifier: str, password: str, address: Callable[[], str | None], chance: Random,
                 factor: float) -> None:
        self.transactions: list[Transaction] = []
        self.accepted_starts: list[str] = []
        self.ends: dict[str, str] = {}
        self._chance = chance
        self._running: Transaction | None = None
        self._is_swiped = False
        self._register = chance.randrange(1_000_000)
        self._tasks: set["asyncio.Task[None]"] = set()
        self._connection = Connection(identifier, password, address, chance, factor, self._answer, self._booted,
                                      self.subprotocol, self.boot)
        self.faults = self._connection.faults
        self._changed = asyncio.Event()
        # Whoever reports several messages, which belong together, has it.
        self._telling = asyncio.Lock()

    @property
    def _is_busy(self) -> bool:
        """Nothing can begin now: something runs, a token is shown, or it did not boot yet."""
        return self._running is not None or self._is_swiped or not self._connection.has_booted

    @property
    def is_quiet(self) -> bool:
        """Nothing runs, and all that was reported was answered."""
        return self._running is None and all(transaction.is_reported for transaction in self.transactions)

    async def run(self) -> None:
        """Goes on until it is cancelled."""
        try:
            await self._connection.run()
        finally:
            for task in self._tasks:
                task.cancel()

    async def claim(self, id_tag: str, ends: str, seconds: float) -> Transaction | None:
        """A transaction of a token that was let charge, ends so and was not claimed yet, or None where none begins."""
        def find() -> Transaction | None:
            return next((one for one in self.transactions if one.id_tag == id_tag and one.was_let_charge
                         and one.ends == ends and not one.is_claimed), None)
        await self.until(lambda: find() is not None, seconds)
        claimed = find()
        if claimed is not None:
            claimed.is_claimed = True
        return claimed

    async def until(self, holds: Callable[[], bool], seconds: float) -> bool:
        """Waits until something holds of this charge point, for at most so many seconds."""
        end = asyncio.get_running_loop().time() + seconds
        while not holds():
            left = end - asyncio.get_running_loop().time()
            if left <= 0:
                return False
            self._changed.clear()
            try:
                await asyncio.wait_for(self._changed.wait(), min(left, 1.0))
            except asyncio.TimeoutError:
                pass
        return True

    async def swipe(self, id_tag: str, authorizes_first: bool) -> None:
        """A driver shows a token. Where Authorize is sent first, a transaction begins only where that is accepted."""
        if self._is_busy:
            return
        self._is_swiped = True
        try:
            await self._notify("Preparing")
            if authorizes_first and not await self._is_authorized(id_tag):
                await self._notify("Available")
                return
        finally:
            self._is_swiped = False
        if self._running is None:
            self._begin(id_tag)

    async def _is_authorized(self, id_tag: str) -> bool:
        try:
            answer = await self._connection.call("Authorize", {"idTag": id_tag})
        except ConnectionLost:
            return False
        return bool(answer["idTagInfo"]["status"] == "Accepted")

    def _begin(self, id_tag: str, remote_start: int | None = None) -> None:
        """Lets a transaction run from now on. Its energy is that of no other transaction here."""
        energy = 1000 * self._chance.randrange(1, 40) + len(self.transactions) + 1
        transaction = Transaction(id_tag, self._register, energy, self.ends.get(id_tag, "Local"), remote_start)
        self.transactions.append(transaction)
        self._running = transaction
        self._spawn(self._charge(transaction))

    def _spawn(self, work: Awaitable[None]) -> None:
        task = asyncio.ensure_future(work)
        self._tasks.add(task)
        task.add_done_callback(self._forget)

    def _forget(self, task: "asyncio.Task[None]") -> None:
        """What fails in a task is a fault of the trial."""
        self._tasks.discard(task)
        fault = None if task.cancelled() else task.exception()
        if fault is not None:
            self.faults.append(repr(fault))

    async def _charge(self, transaction: Transaction) -> None:
        """Reports a transaction from its start to its end. Each report is repeated until it is answered."""
        await self._report_start(transaction)
        self._changed.set()
        if transaction.was_let_charge or transaction.is_told_late:
            await self._notify("Charging")
            await self._get_energy(transaction)
        else:
            transaction.energy = 0
            transaction.reason = "DeAuthorized"
        self._register = transaction.meter_start + transaction.energy
        reporting = self._report_end(transaction)
        self._running = None
        self._changed.set()
        await reporting
        transaction.is_reported = True
        self._changed.set()
        if self._running is None:
            await self._notify("Available")

    async def _report_start(self, transaction: Transaction) -> None:
        """Reports that a transaction began, and takes in whether it may charge."""
        started = {"connectorId": CONNECTOR, "idTag": transaction.id_tag, "meterStart": transaction.meter_start,
                   "timestamp": self._connection.moment()}
        answer = await self._connection.report("StartTransaction", started)
        transaction.number = int(answer["transactionId"])
        transaction.status = str(answer["idTagInfo"]["status"])

    def _report_end(self, transaction: Transaction) -> Awaitable[None]:
        """Reports that a transaction ended, as of now."""
        stopped: Payload = {"transactionId": transaction.number, "meterStop": self._register,
                            "timestamp": self._connection.moment(), "reason": transaction.reason}
        if happens(self._chance):
            stopped["idTag"] = transaction.id_tag
        if happens(self._chance, 0.5):
            stopped["transactionData"] = [{"timestamp": stopped["timestamp"], "sampledValue": ODD}]

        async def report() -> None:
            await self._connection.report("StopTransaction", stopped)
        return report()

    async def _report_energy(self, transaction: Transaction, energy: int) -> None:
        await self._connection.report("MeterValues", self._reading(transaction, energy))

    async def _get_energy(self, transaction: Transaction) -> None:
        """Charges, reports readings meanwhile, and waits for what ends it."""
        for part in sorted(self._chance.uniform(0.1, 0.9) for _ in range(self._chance.randrange(3))):
            await asyncio.sleep(self._chance.uniform(0.1, 0.5))
            await self._report_energy(transaction, int(transaction.energy * part))
        if transaction.ends != "Local":
            try:
                await asyncio.wait_for(transaction.asked_to_end.wait(), LONGEST_CHARGE)
            except asyncio.TimeoutError:
                pass
        await asyncio.sleep(self._chance.uniform(0.0, 0.3))

    def _reading(self, transaction: Transaction, energy: int) -> Payload:
        """A reading of the register, in one of the forms that OCPP allows, or beside odd samples."""
        register = transaction.meter_start + energy
        forms: list[list[Payload]] = [
            [{"value": str(register)}],
            [{"value": f"{register / 1000:.3f}", "measurand": "Energy.Active.Import.Register", "unit": "kWh"}],
            [{"value": "230.1", "measurand": "Voltage", "phase": "L1", "unit": "V"},
             {"value": str(register), "measurand": "Energy.Active.Import.Register", "unit": "Wh"}],
            [*ODD, {"value": str(register)}, *ODD]]
        return {"connectorId": CONNECTOR, "transactionId": transaction.number, "meterValue": [
            {"timestamp": self._connection.moment(), "sampledValue": self._chance.choice(forms)}]}

    async def _booted(self) -> None:
        """Says how it is, behind each start of a connection."""
        await self._notify("Available" if self._running is None else "Charging")

    async def _notify(self, status: str) -> None:
        """Tells a status once. It is lost where the connection is, and told again when the next one begins."""
        try:
            await self._connection.call("StatusNotification", {
                "connectorId": CONNECTOR, "errorCode": "NoError", "status": status})
        except ConnectionLost:
            pass

    async def _answer(self, action: str, payload: Payload) -> Payload | None:
        """The answer to a call of the central system, or None to an action that it does not know."""
        if action == "RemoteStartTransaction":
            return {"status": self._start_from_afar(payload["idTag"], payload.get("connectorId", CONNECTOR))}
        if action == "RemoteStopTransaction":
            return {"status": self._end_from_afar("Remote", payload["transactionId"])}
        if action == "UnlockConnector":
            self._end_from_afar("UnlockCommand", None)
            return {"status": "Unlocked"}
        return {"status": "Accepted"} if action in ("ChangeAvailability", "TriggerMessage") else None

    def _start_from_afar(self, id_tag: str, connector: int, remote_start: int | None = None) -> str:
        running = self._running
        if running is not None and running.was_let_charge:
            self.faults.append(f"asked to start {id_tag} while {running.id_tag} charges")
        if connector != CONNECTOR:
            self.faults.append(f"asked to start at connector {connector}")
        if self._is_busy or happens(self._chance, 0.05):
            return "Rejected"
        self.accepted_starts.append(id_tag)
        self._begin(id_tag, remote_start)
        return "Accepted"

    def _end_from_afar(self, reason: str, number: int | str | None) -> str:
        running = self._running
        if running is None or number is not None and running.number != number:
            return "Rejected"
        running.reason = reason
        running.asked_to_end.set()
        return "Accepted"
