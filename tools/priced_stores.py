"""Stores of an operator whose price changed: three runs of `node`, each with a setup that has a price more, make a thousand
sessions. What they cost is counted here by whole numbers, and `settle` must owe that sum. The store opens under the last setup
and goes on. Where one price of the setup is another, the opening is refused, and a session of that price is named.
"""
import datetime
import json
import os
import re
import sqlite3
import subprocess

OPERATOR, PROVIDER = "BE/BEC", "NL/TNM"
NUMBER, OF_A_LINE = 1000, 10
# The price before all entries, and the entries, in ten-thousandths; the sessions of a run begin at its moment.
FIRST = 2500
ENTRIES = [("2025-02-01T00:00:00.000Z", 5000), ("2025-03-01T00:00:00.000Z", 7500)]
RUNS = ["2025-01-01T00:00:00+00:00", "2025-02-01T00:00:00+00:00", "2025-03-01T00:00:00+00:00"]
PRICES = [FIRST, *(price for _, price in ENTRIES)]
PLACE = {"id": "LOC1", "address": "Korenmarkt 1", "city": "Gent", "country": "BEL", "latitude": "51.05421", "longitude": "3.72180"}
CONNECTOR = {"id": "1", "format": "SOCKET", "power_type": "AC_3_PHASE", "standard": "IEC_62196_T2"}
TOKEN = {
    "uid": "AA01", "type": "RFID", "contract_id": "NL-TNM-000001", "country_code": "NL", "party_id": "TNM", "issuer": "TNM",
    "valid": True, "whitelist": "ALWAYS", "last_updated": "2025-01-01T00:00:00Z",
}


def decimal(units):
    return f"{units // 10_000}.{units % 10_000:04}"


def setup(entries):
    """The setup whose site has these entries, as a line. Its numbers have four decimals."""
    prices = ",".join('{"price":%s,"start_date_time":"%s"}' % (decimal(price), moment) for moment, price in entries)
    location = json.dumps({**PLACE, "evses": [{"uid": "E1", "evse_id": "BE*BEC*E1", "connectors": [CONNECTOR]}]})
    site = '{"currency":"EUR","price":%s,"prices":[%s],"locations":[%s]}' % (decimal(FIRST), prices, location)
    return '{"nodes":[{"party":"%s","site":%s},{"party":"%s"}]}\n' % (OPERATOR, site, PROVIDER)


def energy(number):
    """What the session of that number uses, in ten-thousandths of a kilowatt-hour: a sum that is cut when it is priced."""
    return 10_000 + 1_237 * (number % 91)


def cost(number, price):
    return energy(number) * price // 10_000


def moment(run, number, second):
    return (datetime.datetime.fromisoformat(RUNS[run]) + datetime.timedelta(minutes=number, seconds=second)).isoformat()[:-6] + "Z"


def session(run, number):
    """The events of a session: a token is shown, energy flows, a reading, the end."""
    at = [moment(run, number, second) for second in range(4)]
    shown = {"event": "swipe", "connector_id": "1", "token_uid": "AA01", "token_type": "RFID"}
    read = '{"at":"%s","event":"meter","evse_uid":"E1","kwh":%s,"node":"%s"}' % (at[2], decimal(energy(number)), OPERATOR)
    told = [json.dumps({**event, "at": at[k], "evse_uid": "E1", "node": OPERATOR})
            for k, event in ((0, shown), (1, {"event": "starts"}), (3, {"event": "stops"}))]
    return [told[0], told[1], read, told[2]]


def lines_of(run, numbers):
    """The sessions of a run, some in a line."""
    for first in range(0, len(numbers), OF_A_LINE):
        yield "[%s]\n" % ",".join(event for number in numbers[first:first + OF_A_LINE] for event in session(run, number))


def known_token():
    packet = {"body": TOKEN, "from": PROVIDER, "kind": "put_token", "request": 1, "serial": 1, "to": OPERATOR}
    return json.dumps({"at": moment(0, 0, 0), "event": "deliver", "node": OPERATOR, "packet": packet}) + "\n"


def node(program, store, lines):
    words = [program, "node", OPERATOR, "--store", store]
    ran = subprocess.run(words, input="".join(lines), capture_output=True, text=True, timeout=300, check=False)
    return ran.returncode, ran.stdout.count('"done":"all"'), ran.stderr


def owed(program, store):
    ran = subprocess.run([program, "settle", store], capture_output=True, text=True, timeout=60, check=False)
    return ran.returncode, ran.stdout, ran.stderr


def stored(store):
    with sqlite3.connect(store) as conn:
        rows = conn.execute("SELECT kind, name, body FROM row_text ORDER BY kind, name").fetchall()
    conn.close()
    return rows


def named_session(store, said):
    """Of a refusal the number of the session that it names, and its words behind that."""
    found = re.search(r"session (\S+): (.*)\n\Z", said)
    if not found:
        return None, said
    return int(found[1].rpartition("-")[2], 16), found[2]


def trials(program, room):
    """What each trial gives, and what it must give."""
    store = os.path.join(room, "prices.db")
    shares = [range(1, 335), range(335, 668), range(668, NUMBER + 1)]
    for run, numbers in enumerate(shares):
        lines = [setup(ENTRIES[:run]), *[known_token()][run:], *lines_of(run, numbers)]
        yield f"sessions at the price {run + 1}", node(program, store, lines), (0, -(-len(numbers) // OF_A_LINE), "")
    total = sum(cost(number, PRICES[run]) for run, numbers in enumerate(shares) for number in numbers)
    yield "what sessions at three prices cost", owed(program, store), (0, f"owed {OPERATOR} EUR {decimal(total)}\n", "")
    before = stored(store)
    for changed, (run, name) in {7501: (2, "the last"), 5001: (1, "an earlier")}.items():
        entries = [(at, changed if place == run - 1 else price) for place, (at, price) in enumerate(ENTRIES)]
        status, _, said = node(program, store, [setup(entries)])
        number, words = named_session(store, said)
        yield f"that {name} price is another", (status, number in shares[run]), (3, True)
        numbers = f"began at {moment(run, number or 0, 1)}, and its cost {decimal(cost(number or 0, PRICES[run]))} for {decimal(energy(number or 0))} kWh"
        yield f"the session that is named where {name} price is another", words.startswith(f"it {numbers} is not"), True
        yield f"the rows where {name} price is another", stored(store) == before, True
    more = [setup(ENTRIES), *lines_of(2, range(NUMBER + 1, NUMBER + 2))]
    yield "that the store goes on", node(program, store, more), (0, 1, "")
    total += cost(NUMBER + 1, PRICES[2])
    yield "what the sessions cost then", owed(program, store), (0, f"owed {OPERATOR} EUR {decimal(total)}\n", "")
