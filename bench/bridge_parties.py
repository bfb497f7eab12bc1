#!/usr/bin/env python3
"""Measures many parties on one machine: bench/bridge_parties.py PROGRAM [--pairs 50] [--seconds 20] [--folder FOLDER]

PROGRAM is `ocpi_nodes`. Each pair is an operator and a provider, each with its bridge, node and store in a folder of
its own, and partners of each other. First nothing happens but ticks. Then the providers' owners give tokens, one after
the other at each provider, and each token goes over HTTP to the operator, which answers. The output tells the memory
of bridges and nodes (proportional set size), and how many events were carried out a second at both ends, ticks aside,
with the processor time of each. It needs a python3 with aiohttp.
"""
import argparse
import asyncio
import os
import re
import sys
import tempfile
import time
from pathlib import Path

TOP = Path(__file__).resolve().parents[1]
sys.path.insert(0, str(TOP / "bridge"))

TICKS = os.sysconf("SC_CLK_TCK")
SETTLING = 5


def memory(pid):
    """The proportional set size of a process, in MB."""
    text = Path(f"/proc/{pid}/smaps_rollup").read_text()
    return int(re.search(r"^Pss:\s+(\d+) kB", text, re.MULTILINE)[1]) / 1024


def processor_seconds(pid):
    """The processor time of a process."""
    fields = Path(f"/proc/{pid}/stat").read_text().rpartition(")")[2].split()
    return (int(fields[11]) + int(fields[12])) / TICKS


async def lines_of(bridge):
    """How many lines its node carried out or passed over."""
    text = await bridge.admin_get("/metrics")
    return sum(float(value) for value in re.findall(r"^ocpi_lines_total\{[^}]*\} (\S+)", text, re.MULTILINE))


def token(party, number):
    country, identifier = party.split("/")
    return {"country_code": country, "party_id": identifier, "uid": f"T{number % 50}", "type": "RFID",
            "contract_id": f"C{number % 50}", "issuer": "issuer", "valid": True, "whitelist": "ALWAYS",
            "last_updated": "2025-01-01T00:00:00Z"}


def bridges_of(running, folder, pairs):
    """The two bridges of each pair."""
    found = []
    for number in range(pairs):
        parties = [f"BE/{number:03}", f"NL/{number:03}"]
        setup = [running.operator(parties[0], ["E1", "E2"]), running.provider(parties[1])]
        made = [running.RunningBridge(folder / party.replace("/", ""), setup, party, []) for party in parties]
        for here, there in ((0, 1), (1, 0)):
            made[here].configuration["partners"] = [running.partner(
                parties[there], "node", f"of {parties[there]}", f"of {parties[here]}",
                f"{made[there].ocpi_url}/ocpi/versions")]
        found += made
    return found


async def give_tokens(bridge, until):
    """Gives tokens at a provider, one after the other."""
    number = 0
    while time.monotonic() < until:
        answer = await bridge.admin_post("/tokens", token(bridge.party, number))
        if answer["status"] != 200:
            sys.exit(f"{bridge.party}: {answer}")
        number += 1
    return number


async def measure(bridges, seconds):
    """Prints what all of them need, at rest and at work."""
    await asyncio.sleep(SETTLING)
    processes = {"bridges": [it.pid for it in bridges], "nodes": [it.node_pid() for it in bridges]}
    for what, pids in processes.items():
        each = sorted(memory(pid) for pid in pids)
        print(f"memory of {len(pids)} {what} at rest: {sum(each):.0f} MB, each {each[0]:.1f} to {each[-1]:.1f} MB")
    for what, duty in (("at rest", None), ("at work", give_tokens)):
        lines = [await lines_of(it) for it in bridges]
        used = {what: sum(map(processor_seconds, pids)) for what, pids in processes.items()}
        began = time.monotonic()
        if duty:
            given = sum(await asyncio.gather(*(duty(it, began + seconds) for it in bridges[1::2])))
            print(f"tokens given: {given}")
        else:
            await asyncio.sleep(seconds)
        took = time.monotonic() - began
        done = sum([await lines_of(it) for it in bridges]) - sum(lines)
        for name, pids in processes.items():
            spent = sum(map(processor_seconds, pids)) - used[name]
            print(f"{what}: {name} used {spent / took:.2f} processors")
        print(f"{what}: {done / took:.0f} events a second, {done / took / len(bridges):.1f} a party")
    for what, pids in processes.items():
        each = sorted(map(memory, pids))
        print(f"memory of {len(pids)} {what} after it: {sum(each):.0f} MB, each {each[0]:.1f} to {each[-1]:.1f} MB")


async def run(folder, pairs, seconds):
    # (it takes the program from the environment)
    from tests import running
    bridges = bridges_of(running, folder, pairs)
    try:
        began = time.monotonic()
        for first in range(0, len(bridges), 8):
            await asyncio.gather(*(it.start(within=120) for it in bridges[first:first + 8]))
        print(f"{len(bridges)} bridges stand after {time.monotonic() - began:.0f} s")
        await measure(bridges, seconds)
        statuses = await asyncio.gather(*(it.stop() for it in bridges))
        print(f"all ended, with the statuses {sorted(set(statuses))}")
    finally:
        for bridge in bridges:
            bridge.kill()


def main():
    reader = argparse.ArgumentParser()
    reader.add_argument("program", type=Path)
    reader.add_argument("--pairs", type=int, default=50)
    reader.add_argument("--seconds", type=float, default=20)
    reader.add_argument("--folder", type=Path)
    words = reader.parse_args()
    os.environ["OCPI_NODES"] = str(words.program.resolve())
    with tempfile.TemporaryDirectory(dir=words.folder) as folder:
        asyncio.run(run(Path(folder), words.pairs, words.seconds))


if __name__ == "__main__":
    main()
