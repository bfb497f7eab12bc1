#!/usr/bin/env python3
"""Measures callers at one desk beside one caller of the same node without a desk.

    bench/desk_speed.py PROGRAM [--callers 4] [--events 40000] [--runs 7]

PROGRAM is `case_lines`, as `tools/build_unproved` builds it of a copy that `cases/copy_cases` made. The node is an
operator over a list of rows, and each caller is the link of one provider: it delivers in turn a token and a
START_SESSION for that token, each at an EVSE of that provider's own, of which each comes four times. So one delivery in
eight starts a session; three in eight find the EVSE taken.

It tells the events a second, and the processor time of an event,

- of one caller that has the node alone, without a desk, and brings all events, one of each provider in turn;
- of one caller that brings the same events, in the same order, to a desk;
- of the callers at a desk, each on a thread of its own with its own events;

and the ratio of the second and of the third to the first. The program takes the time, once all events are read. The
processor time is that of a whole run, without that of one that only reads the events. Each figure is the median of so
many rounds, and each ratio that of the ratios of one round, in which the runs come one after another; behind it stand
the least and the greatest. The machine should have nothing else to do.
"""

import argparse
import json
import os
import statistics
import subprocess
import sys
import tempfile

sys.dont_write_bytecode = True
sys.path.insert(0, os.path.dirname(os.path.abspath(__file__)))

from start_lines import site_line

AT = "2025-01-01T10:00:00Z"
WAYS = ("alone", "one", "desk")


def dump(value):
    return json.dumps(value, separators=(",", ":"), sort_keys=True)


def token_of(country, party, number):
    return {"contract_id": f"{country}-{party}-000001", "country_code": country, "issuer": party,
            "last_updated": "2025-01-01T09:00:00Z", "party_id": party, "type": "RFID", "uid": f"T{number}",
            "valid": True, "whitelist": "ALWAYS"}


def start_of(country, party, number, token, place):
    return {"authorization_reference": f"414e4c54-4e4d-{ord(party[2]):04x}-0000-{number:012x}", "connector_id": "1",
            "evse_uid": f"E{place}", "location_id": f"LOC{place // 100}",
            "response_url": f"https://node.invalid/{country}/{party}/{number}", "token": token}


def delivery(country, party, number, kind, body):
    packet = {"body": body, "from": f"{country}/{party}", "kind": kind, "request": number, "serial": number, "to": "BE/BEC"}
    return dump({"at": AT, "event": "deliver", "node": "BE/BEC", "packet": packet})


def lines_of(callers, events):
    """The setup, the node, and the events of each caller."""
    parties = [("NL", f"TN{chr(ord('A') + k)}") for k in range(callers)]
    own = max(events // callers // 8, 1)
    nodes = [{"party": "BE/BEC", "site": site_line(own * callers)["site"]}]
    nodes += [{"party": f"{country}/{party}"} for country, party in parties]
    yield "setup " + dump({"nodes": nodes})
    yield "node BE/BEC"
    for k, (country, party) in enumerate(parties):
        yield "caller"
        for at in range(events // callers):
            token = token_of(country, party, at // 2)
            if at % 2 == 0:
                yield delivery(country, party, at + 1, "put_token", token)
            else:
                body = start_of(country, party, at + 1, token, k * own + at // 2 % own)
                yield delivery(country, party, at + 1, "start_session", body)


def run(program, lines, way, events):
    """The seconds that a way takes, which must enter all events, and those of the processor for the whole run."""
    given = tempfile.TemporaryFile()
    given.write("".join(f"{line}\n" for line in (*lines, *([way] if way else []))).encode())
    given.seek(0)
    with given, subprocess.Popen([program], stdin=given, stdout=subprocess.PIPE) as started:
        told = started.stdout.read().split()
        _, status, used = os.wait4(started.pid, 0)
        started.returncode = os.waitstatus_to_exitcode(status)
    wanted = 2 if way else 0
    if started.returncode != 0 or len(told) != wanted or (way and int(told[0]) != events):
        sys.exit(f"desk_speed: {way}: status {started.returncode}, {told[:9]}")
    return int(told[1]) / 1e9 if way else 0, used.ru_utime + used.ru_stime


def tell(words, seconds, processor, alone, events):
    """What one way took in each round, beside what the first did."""
    line = f"{words}: {events / statistics.median(seconds):.0f} events a second"
    if alone:
        ratios = [a / b for a, b in zip(alone, seconds)]
        line += f", {statistics.median(ratios):.2f} of it alone ({min(ratios):.2f} to {max(ratios):.2f})"
    print(f"{line}; {statistics.median(processor) / events * 1e6:.1f} us of the processor for an event")


def main():
    options = argparse.ArgumentParser(description=__doc__.split("\n", maxsplit=1)[0])
    options.add_argument("program")
    options.add_argument("--callers", type=int, default=4)
    options.add_argument("--events", type=int, default=40_000)
    options.add_argument("--runs", type=int, default=7)
    given = options.parse_args()
    if not 1 <= given.callers <= 26 or not given.callers <= given.events <= 100_000:
        options.error("1 to 26 callers, and at least one event for each, 100,000 at most")
    events = given.events // given.callers * given.callers
    lines = ["\fdesk_speed", *lines_of(given.callers, events)]
    program = os.path.abspath(given.program)
    rounds = [[run(program, lines, way, events) for way in ("", *WAYS)] for _ in range(given.runs)]
    seconds = [[taken[at][0] for taken in rounds] for at in range(len(WAYS) + 1)]
    processor = [[taken[at][1] - taken[0][1] for taken in rounds] for at in range(len(WAYS) + 1)]
    print(f"{events} events, {given.runs} rounds, load {os.getloadavg()[0]:.1f}")
    words = ("one caller, no desk", "one caller at a desk", f"{given.callers} callers at a desk")
    for at, told in enumerate(words, 1):
        tell(told, seconds[at], processor[at], seconds[1] if at > 1 else None, events)
    return 0


if __name__ == "__main__":
    sys.exit(main())
