"""Whether a network kept the promise: over the rows of its honest nodes, for faults/network_trial.py.

What an operator's sessions were is read from its transcripts, which have all that it wrote. Rows are looked at whenever
a node was stopped, and at the end.
"""

import subprocess
from collections import Counter
from collections.abc import Iterator
from decimal import Decimal

from network_rows import LIVES, Rows, cost_of, party_of, units
from network_setups import OPERATORS, PROVIDERS, Json, Setup, is_operator

ORDER = {"PENDING": ("PENDING", "ACTIVE", "INVALID"), "ACTIVE": ("ACTIVE", "COMPLETED"), "COMPLETED": (), "INVALID": ()}
STAY = ("country_code", "party_id", "id", "cdr_token", "auth_method", "location_id", "evse_uid", "connector_id",
        "currency", "authorization_reference")
OF_A_BILL = ("cdr_token", "currency", "authorization_reference", "start_date_time")


def sessions_of(rows: Rows, operator: str) -> dict[str, Json]:
    """The sessions of an operator that a node has, by their ids in key form."""
    return {key[7:]: body for key, body in rows.of("session").items() if key[:6] == operator}


def records_of(rows: Rows, operator: str) -> dict[str, Json]:
    return {key[7:]: body for key, body in rows.of("cdr").items() if key[:6] == operator}


def claims(rows: Rows) -> Counter[str]:
    """How many claims each EVSE of an operator has."""
    evses = [it["evse_uid"] for it in rows.living()] + [it["evse_uid"] for it in rows.of("reservation").values()]
    evses += [it["evse_uid"] for it in rows.of("pending").values() if it["kind"] == "start_session"]
    return Counter(it.upper() for it in evses)


class Promise:
    """Gathers what was seen, and says what of the promise does not hold."""

    def __init__(self) -> None:
        self.wrong: list[str] = []
        self.rows: dict[str, Rows] = {}
        self.claims = 0
        # Each version of a session that a provider held when it was looked at: provider, operator, id.
        self.held: dict[tuple[str, str, str], list[Json]] = {}

    def look(self, party: str, rows: Rows) -> None:
        """Looks at the rows of a node that was stopped."""
        self.rows[party] = rows
        if is_operator(party):
            found = claims(rows)
            self.claims += len(found)
            self.wrong += [f"{party}: {number} claims on {evse}" for evse, number in found.items() if number > 1]
            return
        for operator in OPERATORS:
            for session, body in sessions_of(rows, operator).items():
                held = self.held.setdefault((party, operator, session), [])
                if not held or held[-1] != body:
                    held.append(body)

    def end(self, pasts: dict[tuple[str, str], list[Json]], tokens: dict[str, list[Json]],
            setups: dict[str, list[Setup]]) -> list[str]:
        """What does not hold at the end. `pasts` has the versions of each session of each operator, in their order, and
        `tokens` those that each provider wrote."""
        for operator in OPERATORS:
            self.wrong += self.operator(operator)
            for (party, session), past in pasts.items():
                if party == operator:
                    self.wrong += self.past(operator, session, past, setups[operator])
        for provider in PROVIDERS:
            self.wrong += self.references(provider)
            for operator in OPERATORS:
                self.wrong += [f"{provider} at {operator}: {it}" for it in self.pair(operator, provider, pasts)]
                self.wrong += [f"{operator} holds token {key} as {body}, which its provider never wrote"
                               for key, body in self.rows[operator].of("token").items()
                               if key[:6] == provider and body not in tokens[provider]]
        return self.wrong

    # ---- an operator by itself

    def operator(self, operator: str) -> Iterator[str]:
        """Its references, and its bills and credits."""
        rows = self.rows[operator]
        spent = Counter((party_of(it["cdr_token"]), it["authorization_reference"].upper())
                        for it in rows.of("session").values() if "authorization_reference" in it)
        yield from (f"{operator}: {it} started {number} sessions" for it, number in spent.items() if number > 1)
        records = list(rows.of("cdr").values())
        for key, session in rows.of("session").items():
            own = [it for it in records if it["session_id"] == session["id"]]
            bills, credits = [it for it in own if not it["credit"]], [it for it in own if it["credit"]]
            if len(bills) != (session["status"] == "COMPLETED"):
                yield f"{operator}: {len(bills)} bills of {session['status']} session {key}"
            if len(credits) > len(bills):
                yield f"{operator}: {len(credits)} credits of session {key}"
            if not all(is_bill_of(it, session) for it in bills):
                yield f"{operator}: a bill of {key} is not of its session: {bills}, {session}"
            if not all(takes_back(it, bills) for it in credits):
                yield f"{operator}: a credit of {key} takes back no bill: {credits}, {bills}"
        billed = {it["session_id"] for it in records} - {it["id"] for it in rows.of("session").values()}
        yield from (f"{operator}: a record of {it}, which is no session" for it in billed)

    def past(self, operator: str, session: str, past: list[Json], setups: list[Setup]) -> Iterator[str]:
        """Whether a session went on in order, and has the cost of its energy by some price that its operator had."""
        name = f"{operator}: session {session}"
        if past[0]["status"] != "PENDING" and "RESERVATION" not in past[0]["status"]:
            yield f"{name} began {past[0]['status']}"
        for before, after in zip(past, past[1:]):
            if after["status"] not in ORDER[before["status"]] or after["kwh"] < before["kwh"]:
                yield f"{name}: {after} follows {before}"
            if any(before.get(it) != after.get(it) for it in STAY):
                yield f"{name}: {after} is another than {before}"
        for version in past:
            if not any(units(version["total_cost"]["excl_vat"]) == cost_of(version, setup) for setup in setups):
                yield f"{name}: {version} has a cost of no price"
        stored = sessions_of(self.rows[operator], operator).get(session)
        if stored is None or stored not in past or stored != past[-1]:
            yield f"{name}: it is stored as {stored}, and its last version was {past[-1]}"

    # ---- a provider, and a pair

    def references(self, provider: str) -> Iterator[str]:
        """That a reference of a provider started one session over all honest operators."""
        started = Counter(it["authorization_reference"].upper() for operator in OPERATORS
                          for it in self.rows[operator].of("session").values()
                          if party_of(it["cdr_token"]) == provider and "authorization_reference" in it)
        yield from (f"{provider}: {it} started {number} sessions" for it, number in started.items() if number > 1)

    def pair(self, operator: str, provider: str, pasts: dict[tuple[str, str], list[Json]]) -> Iterator[str]:
        for (party, of, session), held in self.held.items():
            if (party, of) == (provider, operator):
                yield from held_in_order(session, held, pasts.get((operator, session), []))
        at_operator, at_provider = self.rows[operator], self.rows[provider]
        yield from self.records(operator, provider)
        for told in (sessions_of, records_of):
            yield from acknowledged(at_operator, told(at_operator, operator), told(at_provider, operator), provider)
        yield from answers(at_operator, at_provider, operator, provider)

    def records(self, operator: str, provider: str) -> Iterator[str]:
        """That the provider's records are the operator's, one bill and one credit a session."""
        held, own = records_of(self.rows[provider], operator), records_of(self.rows[operator], operator)
        for name, body in held.items():
            if own.get(name) != body:
                yield f"record {name} is held as {body}, and is {own.get(name)}"
        counted = Counter((it["session_id"], it["credit"]) for it in held.values())
        yield from (f"{number} records {it}" for it, number in counted.items() if number > 1)

    def owed(self, provider: str) -> dict[tuple[str, str], Decimal]:
        """What a provider owes each operator in each currency, by the bills and credits that it holds."""
        owed: dict[tuple[str, str], Decimal] = {}
        for key, body in self.rows[provider].of("cdr").items():
            of = key[:6], body["currency"]
            owed[of] = owed.get(of, Decimal(0)) + body["total_cost"]["excl_vat"]
        return owed


def is_bill_of(bill: Json, session: Json) -> bool:
    """Whether a bill has the energy and the cost of a session, and what does not change of it."""
    return (bill["total_energy"], bill["total_cost"]) == (session["kwh"], session["total_cost"]) and all(
        bill.get(it) == session.get(it) for it in OF_A_BILL)


def takes_back(credit: Json, bills: list[Json]) -> bool:
    return [it["id"] for it in bills] == [credit.get("credit_reference_id")] and (
        credit["total_cost"]["excl_vat"] == -bills[0]["total_cost"]["excl_vat"])


def held_in_order(session: str, held: list[Json], past: list[Json]) -> Iterator[str]:
    """That each version that a provider held is one that the operator had, each later than the one before."""
    if any(it not in past for it in held):
        yield f"session {session}: {[it for it in held if it not in past]} are held, and its operator never had them"
        return
    places = [past.index(it) for it in held]
    if places != sorted(places):
        yield f"session {session} went back: {places}"
    if any(it["status"] not in LIVES for it in held[:-1]):
        yield f"session {session}: something follows its end"


def acknowledged(rows: Rows, own: dict[str, Json], held: dict[str, Json], provider: str) -> Iterator[str]:
    """That what an operator pushes no more is held by its provider as it is."""
    pushed = {it["body"]["id"].upper() for it in rows.of("push").values() if it["kind"] in ("put_session", "post_cdr")}
    for name, body in own.items():
        if party_of(body["cdr_token"]) == provider and name not in pushed and held.get(name) != body:
            yield f"{name} was acknowledged as {body}, and is held as {held.get(name)}"


def answers(at_operator: Rows, at_provider: Rows, operator: str, provider: str) -> Iterator[str]:
    """That the answers of commands are those that the operator keeps, and that what was accepted is there."""
    started = {it.get("authorization_reference") for it in at_operator.of("session").values()
               if party_of(it["cdr_token"]) == provider}
    for number, command in at_provider.of("command").items():
        if command["to"].upper() != operator:
            continue
        answer, result = command.get("answer"), command.get("result")
        kept = at_operator.of("reply").get(f"{provider}/{number}", {}).get("body")
        ended = at_operator.of("result").get(f"{provider}/{number}", {}).get("result")
        if answer is not None and answer != kept:
            yield f"command {number} was answered {answer}, and the operator keeps {kept}"
        if result is not None and result != ended:
            yield f"command {number} came to {result}, and at the operator to {ended}"
        if command["kind"] == "start_session" and result == "ACCEPTED" and (
                command["body"]["authorization_reference"] not in started):
            yield f"command {number} was ACCEPTED, and there is no such session"


def fault_of_settle(program: str, store: str, owed: dict[tuple[str, str], Decimal]) -> Iterator[str]:
    """Whether `settle` prints what is owed by the records that are held."""
    ran = subprocess.run([program, "settle", store], capture_output=True, text=True, check=False)
    wanted = [f"owed {operator} {currency} {amount:.4f}" for (operator, currency), amount in sorted(owed.items())]
    if (ran.returncode, sorted(ran.stdout.splitlines()), ran.stderr) != (0, sorted(wanted), ""):
        yield f"settle {store}: status {ran.returncode}, {ran.stdout}{ran.stderr} in place of {wanted}"
