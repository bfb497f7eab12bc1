#!/usr/bin/env python3
"""Measures one bridge at work: bench/bridge_load.py PROGRAM [CHECKOUT..] [--measure NAME] [--seconds 20]

PROGRAM is `ocpi_nodes`. Each CHECKOUT is a folder of this repository, at any commit: its bridge is measured too, beside
this one's, and each line of the output has a figure for each. Partners and charge points are simulated here, by what
the tests of the bridge have for that. Measured are, one after the other, or as far as they are named,

- `gets`: the processor time of the bridge for a GET of versions by one of 63 partners, and by the one partner that
  there is; and that for a GET of one connector, of a site of 2,000 EVSEs and of 20;
- `waiting`: a provider that gives 3,000 tokens to an operator which answers in 50 ms, and then a START: how long that
  takes to the operator. It is awaited for three minutes;
- `charges`: an operator with 20 providers of other software and 200 charge points of one EVSE each: full charges a
  second (START, remote start, StartTransaction, a reading, STOP, remote stop, StopTransaction, bill), and the time from
  a START to its result, while a driver at each EVSE begins again as soon as the bill is there.

It needs a python3 with the packages of the bridge.
"""
import argparse
import asyncio
import json
import os
import statistics
import sys
import tempfile
import time
from datetime import datetime, timezone
from pathlib import Path

import aiohttp

TOP = Path(__file__).resolve().parents[1]
sys.path.insert(0, str(TOP / "bridge"))
TICKS = os.sysconf("SC_CLK_TCK")
PROVIDERS, EVSES, ANSWER_AFTER, AWAITED, GETS = 20, 200, 0.05, 180.0, 200
STARTS_WITHIN, AT_ONCE = 240, 20


def moment():
    return datetime.now(timezone.utc).strftime("%Y-%m-%dT%H:%M:%S.%f")[:-3] + "Z"


def processor_seconds(pid):
    """The processor time of a process."""
    fields = Path(f"/proc/{pid}/stat").read_text().rpartition(")")[2].split()
    return (int(fields[11]) + int(fields[12])) / TICKS


class Providers:
    """Providers of other software. What is sent to them wakes who awaits it."""

    def __init__(self, parties, answered):
        self.parties, self._answered, self._awaited = parties, answered, {}
        for party in parties:
            party.answers.update({module: self._take for module in ("results", "sessions", "cdrs")})

    def expect(self, *key):
        self._awaited[key] = asyncio.get_running_loop().create_future()
        return self._awaited[key]

    async def _take(self, received):
        body, key = received.body, None
        if received.module == "results":
            key = ("result", received.path)
        elif received.module == "sessions":
            key = ("session", body["status"], body["evse_uid"])
        else:
            key = ("bill", body["session_id"])
        awaited = self._awaited.pop(key, None)
        if awaited is not None and not awaited.done():
            awaited.set_result(body)
        return self._answered()


class Load:
    """The measures of the bridge of one checkout."""

    def __init__(self, checkout, folder):
        from tests import charge_point_frames, ocpi_objects, ocpi_party, running
        self.running, self.parties, self.objects, self.frames = running, ocpi_party, ocpi_objects, charge_point_frames
        self.folder, self.figures = folder, {}
        running.RUN = checkout / "bridge" / "run"

    async def begin_parties(self, names, role):
        found = [self.parties.OcpiParty(name, role, f"for-{name}", f"of-{name}") for name in names]
        for party in found:
            await party.start()
        return found

    async def begin_bridge(self, name, setup, party, parties, charge_points=None):
        running = self.running
        partners = [running.partner(one.party, "ocpi", one.bridge_token, one.token, one.versions_url)
                    for one in parties]
        bridge = running.RunningBridge(self.folder / name, setup, party, partners, charge_points)
        bridge.configuration["node"].pop("transcript")
        for one in parties:
            one.deals_with(party, bridge.ocpi_url + "/ocpi/versions")
        await bridge.start(within=STARTS_WITHIN)
        return bridge

    async def end(self, bridge, parties):
        bridge.kill()
        for party in parties:
            await party.close()

    async def measure_charges(self, seconds):
        names = [f"NL/P{number:02}" for number in range(PROVIDERS)]
        uids = [f"E{number}" for number in range(EVSES)]
        parties = await self.begin_parties(names, "EMSP")
        setup = [self.running.operator("BE/BEC", uids), *map(self.running.provider, names)]
        points = [self.running.charge_point(f"CP{uid}", [uid]) for uid in uids]
        bridge = await self.begin_bridge("charges", setup, "BE/BEC", parties, points)
        providers = Providers(parties, self.parties.answered)
        stations = [self.frames.ChargePoint(bridge.ocpp_url, f"CP{uid}") for uid in uids]
        status = {"connectorId": 1, "errorCode": "NoError", "status": "Available"}
        for first in range(0, EVSES, AT_ONCE):
            some = stations[first:first + AT_ONCE]
            await asyncio.gather(*(station.connect() for station in some))
            await asyncio.gather(*(station.call("StatusNotification", status) for station in some))
        starts, ended, used, began = [], [], processor_seconds(bridge.pid), time.monotonic()
        drivers = [asyncio.create_task(self.drive(providers, parties[number % PROVIDERS], station, uid, starts, ended))
                   for number, (station, uid) in enumerate(zip(stations, uids))]
        await asyncio.sleep(seconds)
        took, spent = time.monotonic() - began, processor_seconds(bridge.pid) - used
        failed = [driver.exception() for driver in drivers if driver.done() and driver.exception()]
        going_on = set(drivers)
        while going_on:
            # (One that just got what it waited for may miss that it is cancelled.)
            for driver in going_on:
                driver.cancel()
            _, going_on = await asyncio.wait(going_on, timeout=1)
        cuts = statistics.quantiles(starts, n=100) if len(starts) > 1 else [float("nan")] * 99
        self.figures |= {"full charges a second": len(ended) / took, "START to its result, p50, s": cuts[49],
                         "START to its result, p99, s": cuts[98],
                         "processor time of the bridge a charge, ms": 1000 * spent / max(1, len(ended)),
                         "drivers who failed": len(failed)}
        if failed:
            print(f"first failure: {failed[0]!r}", file=sys.stderr)
        for station in stations:
            await station.close()
        await self.end(bridge, parties)

    async def drive(self, providers, party, station, uid, starts, ended):
        """Charges at an EVSE again and again."""
        token, register, number = self.objects.token(party.party, f"T{uid}"), 0, 0
        while True:
            number += 1
            name = f"/results/{uid}-{number}"
            result, began = providers.expect("result", name), time.monotonic()
            active, completed = (providers.expect("session", status, uid) for status in ("ACTIVE", "COMPLETED"))
            start = self.objects.start_session(token, party.url + name, uid)
            reply = await party.command("START_SESSION", start, correlation=f"{uid}-{number}")
            assert reply.data["result"] == "ACCEPTED", reply
            identifier, asked = await station.asked("RemoteStartTransaction")
            await station.give(identifier, {"status": "Accepted"})
            assert (await result)["result"] == "ACCEPTED"
            starts.append(time.monotonic() - began)
            begun = await station.call("StartTransaction", {
                "connectorId": 1, "idTag": asked["idTag"], "meterStart": register, "timestamp": moment()})
            transaction = begun["transactionId"]
            register += 500
            await station.call("MeterValues", {"connectorId": 1, "transactionId": transaction, "meterValue": [
                {"timestamp": moment(), "sampledValue": [{"value": str(register)}]}]})
            session_id = (await active)["id"]
            bill = providers.expect("bill", session_id)
            stop = {"response_url": f"{party.url}{name}-stop", "session_id": session_id}
            await party.command("STOP_SESSION", stop, correlation=f"{uid}-{number}-stop")
            identifier, _ = await station.asked("RemoteStopTransaction")
            await station.give(identifier, {"status": "Accepted"})
            await station.call("StopTransaction", {
                "transactionId": transaction, "meterStop": register, "timestamp": moment()})
            await bill
            await completed
            ended.append(session_id)

    async def measure_waiting(self, tokens):
        """How long a START takes to an operator behind many tokens, and how long without these."""
        [operator] = await self.begin_parties(["BE/PLO"], "CPO")
        came = asyncio.get_running_loop().create_future()

        async def answer(received):
            if received.module == "commands" and not came.done():
                came.set_result(time.monotonic())
            await asyncio.sleep(ANSWER_AFTER)
            is_command = received.module == "commands"
            return self.parties.answered({"result": "ACCEPTED", "timeout": 30} if is_command else None)

        setup = [self.running.provider("NL/TNM"), self.running.operator("BE/PLO", ["E1"])]
        bridge = await self.begin_bridge("waiting", setup, "NL/TNM", [operator])
        operator.answers.update({"commands": answer, "tokens": answer})
        async with aiohttp.ClientSession(connector=aiohttp.TCPConnector(limit=64)) as session:
            async def post(path, body):
                async with session.post(bridge.admin_url + path, json=body) as response:
                    assert response.status == 200, await response.text()

            await asyncio.gather(*(post("/tokens", self.objects.token("NL/TNM", f"T{number}"))
                                   for number in range(tokens)))
            began = time.monotonic()
            await post("/orders", {"operator": "BE/PLO", "order": "start_session", "token_uid": "T0",
                                   "token_type": "RFID", "location_id": "LOC1", "evse_uid": "E1"})
        try:
            waited = await asyncio.wait_for(came, AWAITED) - began
        except asyncio.TimeoutError:
            waited = float("inf")
        self.figures[f"START behind {tokens} tokens, s"] = waited
        await self.end(bridge, [operator])

    async def processor_time_of_get(self, name, setup, parties, path):
        """The milliseconds of processor time that a bridge needs for a GET."""
        bridge = await self.begin_bridge(name, setup, "BE/BEC", parties)
        party = parties[-1]
        for count in (20, GETS):
            used = processor_seconds(bridge.pid)
            for _ in range(count):
                reply = await party.ask("GET", bridge.ocpi_url + path)
                assert reply.http_status == 200, reply
        spent = (processor_seconds(bridge.pid) - used) / GETS
        await self.end(bridge, parties)
        return 1000 * spent

    async def measure_gets(self):
        site = self.running.operator("BE/BEC", ["E1"])
        for count in (1, 63):
            names = [f"NL/P{number:02}" for number in range(count)]
            parties = await self.begin_parties(names, "EMSP")
            self.figures[f"processor time of a GET with {count} partners, ms"] = await self.processor_time_of_get(
                f"partners{count}", [site, *map(self.running.provider, names)], parties, "/ocpi/versions")
        for count in (20, 2000):
            site = self.running.operator("BE/BEC", [f"E{number}" for number in range(min(count, 1000))])
            locations = site["site"]["locations"]
            if count > 1000:
                other = json.loads(json.dumps(locations[0]).replace('"E', '"F').replace("LOC1", "LOC2"))
                locations.append(other)
            parties = await self.begin_parties(["NL/P00"], "EMSP")
            self.figures[f"processor time of a GET of a connector of {count} EVSEs, ms"] = (
                await self.processor_time_of_get(f"evses{count}", [site, self.running.provider("NL/P00")], parties,
                                                 "/ocpi/2.2.1/sender/locations/LOC1/E7/1"))


async def run(checkout, folder, words):
    """The figures of a checkout."""
    load = Load(checkout, folder)
    measures = {"gets": load.measure_gets, "waiting": lambda: load.measure_waiting(words.tokens),
                "charges": lambda: load.measure_charges(words.seconds)}
    for name in words.measure or measures:
        known = set(load.figures)
        await measures[name]()
        for figure in load.figures.keys() - known:
            print(f"{checkout.name}: {figure}: {load.figures[figure]:.3f}", file=sys.stderr, flush=True)
    return load.figures


def main():
    reader = argparse.ArgumentParser()
    reader.add_argument("program", type=Path)
    reader.add_argument("checkouts", nargs="*", type=Path)
    reader.add_argument("--seconds", type=float, default=20)
    reader.add_argument("--tokens", type=int, default=3000)
    reader.add_argument("--measure", action="append", choices=("gets", "waiting", "charges"))
    reader.add_argument("--folder", type=Path)
    words = reader.parse_args()
    os.environ["OCPI_NODES"] = str(words.program.resolve())
    found = {}
    for checkout in (TOP, *words.checkouts):
        with tempfile.TemporaryDirectory(dir=words.folder) as folder:
            found[str(checkout)] = asyncio.run(run(checkout.resolve(), Path(folder), words))
    print(f"{'':55}" + "".join(f"{Path(name).name:>20}" for name in found))
    for figure in next(iter(found.values())):
        print(f"{figure:55}" + "".join(f"{figures[figure]:20.3f}" for figures in found.values()))


if __name__ == "__main__":
    main()
