"""One trial: four nodes behind four bridges, bad links between them, kills, a slow partner, a full disk, two restored
backups, and thirty charges."""
import asyncio
import re
import tempfile
import time
from collections.abc import Coroutine
from dataclasses import dataclass
from pathlib import Path
from typing import Any

import aiohttp

from ..running import RunningBridge
from . import checks
from .chance import stream
from .charge_point import ChargePoint
from .charging_station import ChargingStation
from .charges import drawn
from .disk import Disk
from .drivers import Drivers
from .kills import Kills
from .parties import CLOCK_FACTOR, OPERATORS, PARTIES, PLACES, PROVIDERS, Place, Secrets, bridges
from .proxy import Budget, Proxy
from .records import records_of
from .restore import restore

MOST_REQUESTS = 20_000
MOST_MEMORY = 300_000_000
# In seconds of the machine.
ENDS_WITHIN = 600.0
CHARGES_WITHIN = 240.0
QUIET_WITHIN = 90.0
QUIET_FOR = 1.5
# How long one of the parties takes for each answer: by the bridges' clocks that is four seconds.
SLOW = 0.3
NUMBERS = ("ocpi_open_commands", "ocpi_unacknowledged_pushes")
WAITING = re.compile(r"^(\w+) (\d+)(?:\.0)?$", re.MULTILINE)


@dataclass
class Report:
    """What came of a trial: what was at fault, how long it took, and what it had, in words."""

    faults: list[str]
    seconds: float
    words: str


class Trial:
    """All parts of one trial, in a folder that is gone afterwards."""

    def __init__(self, seed: int, folder: Path) -> None:
        self._folder = folder
        self._secrets = Secrets.drawn(stream(seed, "secrets"))
        self._charges = drawn(stream(seed, "charges"))
        self._budget = Budget(MOST_REQUESTS)
        self._slow, self._disk = stream(seed, "slow").choice(PARTIES), Disk(stream(seed, "disk"))
        self._proxies = {party: Proxy(stream(seed, "proxy", party), self._budget, SLOW if party == self._slow else 0.0)
                         for party in PARTIES}
        self._restored = [stream(seed, "restored").choice(parties) for parties in (OPERATORS, PROVIDERS)]
        self._charge_points = {place.charge_point: self._charge_point(seed, place) for place in PLACES}
        self._bridges: dict[str, RunningBridge] = {}
        self._seed = seed
        self.faults: list[str] = []

    def _charge_point(self, seed: int, place: Place) -> ChargePoint:
        def address() -> str | None:
            bridge = self._bridges[place.operator]
            return bridge.ocpp_url if "ocpp" in bridge.addresses else None
        kind = ChargePoint if place.version == "1.6" else ChargingStation
        return kind(place.charge_point, self._secrets.passwords[place.charge_point], address,
                    stream(seed, "charge point", place.charge_point), CLOCK_FACTOR)

    async def carry_out(self) -> str:
        """Runs the trial, and gives what it had in words. Its faults are in `faults`."""
        for proxy in self._proxies.values():
            await proxy.open()
        self._bridges = bridges(self._folder, {party: proxy.url for party, proxy in self._proxies.items()},
                                self._secrets)
        for party, proxy in self._proxies.items():
            proxy.target = self._bridges[party].ocpi_url
        self._disk.mount(self._bridges[self._disk.party])
        running = [asyncio.create_task(charge_point.run()) for charge_point in self._charge_points.values()]
        try:
            await asyncio.gather(*(bridge.start() for bridge in self._bridges.values()))
            return await self._charge_and_check()
        finally:
            for task in running:
                task.cancel()
            self.faults += [repr(ended) for ended in await asyncio.gather(*running, return_exceptions=True)
                            if not isinstance(ended, asyncio.CancelledError)]
            for proxy in self._proxies.values():
                await proxy.close()
            for bridge in self._bridges.values():
                bridge.kill()
            self._disk.unmount()

    async def _charge_and_check(self) -> str:
        kills = Kills(self._bridges, self._disk, stream(self._seed, "kills"))
        drivers = Drivers(self._bridges, self._charge_points, self._secrets, stream(self._seed, "drivers"))
        work = [[charge for charge in self._charges if charge.place == place] for place in PLACES]
        # The last charge at each place comes behind the restored backups.
        await self._all_of(kills.carry_out(), *(drivers.carry_out(charges[:-1]) for charges in work))
        await self._quiet()
        for party in self._restored:
            kills.note_memory(party)
            await restore(self._bridges[party], self._folder)
        await self._all_of(*(drivers.carry_out(charges[-1:]) for charges in work))
        await self._quiet()
        for party, bridge in self._bridges.items():
            kills.note_memory(party)
            status = await bridge.stop()
            if status not in (0, 1):
                self.faults.append(f"{party} ended with status {status}")
        self._check(drivers, kills)
        return self._words(kills)

    async def _all_of(self, *work: Coroutine[Any, Any, None]) -> None:
        """Waits for kills and drivers. What was not carried out within its time is a fault, and the checks tell it."""
        tasks = [asyncio.create_task(one) for one in work]
        _, late = await asyncio.wait(tasks, timeout=CHARGES_WITHIN)
        for task in late:
            task.cancel()
        for ended in await asyncio.gather(*tasks, return_exceptions=True):
            if isinstance(ended, BaseException):
                self.faults.append(repr(ended))

    async def _quiet(self) -> None:
        """Waits until nothing is under way for some time, or too much time is over."""
        end, since = time.monotonic() + QUIET_WITHIN, time.monotonic()
        unrest: list[str] = []
        while time.monotonic() - since < QUIET_FOR:
            if time.monotonic() > end:
                self.faults.append("not quiet: " + ", ".join(unrest))
                return
            now = await self._unrest()
            if now:
                unrest, since = now, time.monotonic()
            await asyncio.sleep(0.1)

    async def _unrest(self) -> list[str]:
        """What is under way."""
        found = [f"{identifier} charges or reports" for identifier, charge_point in self._charge_points.items()
                 if not charge_point.is_quiet]
        found += [f"requests to {party}" for party, proxy in self._proxies.items() if not proxy.is_quiet]
        for party, bridge in self._bridges.items():
            try:
                text = str(await bridge.admin_get("/metrics"))
            except (aiohttp.ClientError, OSError, KeyError, AssertionError) as fault:
                found.append(f"no metrics of {party}: {fault!r}")
                continue
            waiting = dict(WAITING.findall(text))
            found += [f"{name} of {party} is {waiting.get(name)}" for name in NUMBERS if waiting.get(name) != "0"]
        return found

    def _check(self, drivers: Drivers, kills: Kills) -> None:
        """Adds what is at fault at the end."""
        records = records_of(self._bridges)
        self.faults += self._disk.faults + checks.has_no_traceback(self._bridges)
        self.faults += checks.has_quiet_rows(records) + checks.settles(self._bridges, records)
        self.faults += checks.is_held_alike(records) + checks.is_started_once(records, self._charge_points)
        self.faults += checks.is_billed_once(records, self._charge_points)
        self.faults += checks.is_as_drawn(drivers.done, self._charges, drivers.credited, records)
        self.faults += checks.is_ordered_once(drivers.posted, drivers.answered, records)
        self.faults += checks.weaves(self._bridges)
        self.faults += checks.keeps_secrets(self._bridges, self._secrets, self._charges)
        if kills.most_memory > MOST_MEMORY:
            self.faults.append(f"a bridge used {kills.most_memory / 1e6:.0f} MB")
        if self._budget.made > self._budget.left:
            self.faults.append(f"{self._budget.made} requests were made")

    def _words(self, kills: Kills) -> str:
        transactions = [one for charge_point in self._charge_points.values() for one in charge_point.transactions]
        refused = sum(1 for one in transactions if not one.was_let_charge)
        return (f"{len(self._charges)} charges, {len(transactions)} transactions of which {refused} were refused, "
                f"{len(kills.told)} kills, {self._slow} slow, {self._disk.told}, "
                f"{' and '.join(self._restored)} restored, {self._budget.made} requests, "
                f"{kills.most_memory / 1e6:.0f} MB at most")


def room() -> str | None:
    """The folder for what a trial keeps: one in memory where there is one. A kill loses nothing of it."""
    return "/dev/shm" if Path("/dev/shm").is_dir() else None


async def carry_out(seed: int) -> Report:
    """Carries out the trial of a seed."""
    begun = time.monotonic()
    with tempfile.TemporaryDirectory(prefix="trial", dir=room()) as folder:
        trial = Trial(seed, Path(folder))
        try:
            words = await asyncio.wait_for(trial.carry_out(), ENDS_WITHIN)
        except (AssertionError, asyncio.TimeoutError) as fault:
            trial.faults.append(f"{type(fault).__name__}: {fault}")
            words = "not at its end"
    return Report(trial.faults, time.monotonic() - begun, words)
