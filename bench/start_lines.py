#!/usr/bin/env python3
"""Writes a site line and START_SESSION lines for `ocpi_nodes answer`.

usage: start_lines.py LINES [--evses N] [--repeat]

The site has N EVSEs (1,000 where none is given) at locations of at most 100 each. Line k is request k of NL/TNM with
reference k, for EVSE k modulo N: the first N take an EVSE, and the others are refused, since it is claimed. With
--repeat the second half of the lines repeats the first half, packet by packet.
"""

import argparse
import json
import sys


def evse(number):
    connector = {"format": "SOCKET", "id": "1", "power_type": "AC_3_PHASE", "standard": "IEC_62196_T2"}
    return {"connectors": [connector], "evse_id": f"BE*BEC*E{number}", "uid": f"E{number}"}


def location(first, evses):
    return {
        "address": "Korenmarkt 1",
        "city": "Gent",
        "country": "BEL",
        "evses": [evse(k) for k in range(first, min(first + 100, evses))],
        "id": f"LOC{first // 100}",
        "latitude": "51.05421",
        "longitude": "3.72180",
    }


def site_line(evses):
    site = {"currency": "EUR", "locations": [location(k, evses) for k in range(0, evses, 100)], "price": 0.25}
    return {"at": "2025-01-01T10:00:00Z", "party": "BE/BEC", "providers": ["NL/TNM", "DE/EMP"], "site": site}


def start(number, evses):
    place = number % evses
    token = {
        "contract_id": "NL-TNM-000001",
        "country_code": "NL",
        "issuer": "TNM",
        "last_updated": "2025-01-01T09:00:00Z",
        "party_id": "TNM",
        "type": "RFID",
        "uid": "AA01",
        "valid": True,
        "whitelist": "ALWAYS",
    }
    body = {
        "authorization_reference": f"414e4c54-4e4d-0000-0000-{number:012x}",
        "connector_id": "1",
        "evse_uid": f"E{place}",
        "location_id": f"LOC{place // 100}",
        "response_url": f"https://node.invalid/NL/TNM/{number}",
        "token": token,
    }
    packet = {"from": "NL/TNM", "kind": "start_session", "request": number, "serial": number, "to": "BE/BEC"}
    return {"body": body, **packet}


def main():
    parser = argparse.ArgumentParser(description=__doc__, formatter_class=argparse.RawDescriptionHelpFormatter)
    parser.add_argument("lines", type=int)
    parser.add_argument("--evses", type=int, default=1000)
    parser.add_argument("--repeat", action="store_true")
    options = parser.parse_args()
    distinct = options.lines - options.lines // 2 if options.repeat else options.lines
    numbers = list(range(1, distinct + 1))
    numbers += numbers[: options.lines - distinct]
    out = sys.stdout
    out.write(json.dumps(site_line(options.evses), separators=(",", ":"), sort_keys=True) + "\n")
    for number in numbers:
        out.write(json.dumps(start(number, options.evses), separators=(",", ":"), sort_keys=True) + "\n")


if __name__ == "__main__":
    main()
