"""What has to hold at the end of a trial. Each check gives the faults that it found, in words."""
from collections import Counter
from collections.abc import Iterable, Mapping
from decimal import Decimal
from pathlib import Path

from ..running import Members, RunningBridge
from .charge_point import ChargePoint, Transaction
from .charges import Charge
from .parties import OPERATORS, PARTIES, PLACES, PROVIDERS, Secrets
from .records import Records, run

# OCPP tells registers in whole Wh, sessions tell kWh.
WH = Decimal("0.001")


def party_of(members: Members) -> str:
    """The party that an object names."""
    return f"{members['country_code']}/{members['party_id']}"


def has_quiet_rows(records: Mapping[str, Records]) -> list[str]:
    """Nothing waits for an answer in any store, and no command is open."""
    faults = [f"{party} still pushes {key}: {text}" for party in PARTIES
              for key, text in records[party].texts("push").items()]
    faults += [f"{party} has an open command {key}" for party in OPERATORS for key in records[party].texts("pending")]
    faults += [f"{party} has an unanswered command: {command}" for party in PROVIDERS
               for command in records[party].members("command")
               if "answer" not in command and "result" not in command]
    return faults


def settles(bridges: Mapping[str, RunningBridge], records: Mapping[str, Records]) -> list[str]:
    """What each provider owes is the sum of the operators' records for it: its bills, without those taken back."""
    faults = []
    for provider in PROVIDERS:
        status, output, told = run("settle", bridges[provider].store)
        wanted = []
        for operator in sorted(OPERATORS):
            mine = [cdr for cdr in records[operator].members("cdr") if party_of(cdr["cdr_token"]) == provider]
            taken_back = {cdr["credit_reference_id"] for cdr in mine if cdr["credit"]}
            costs = [cdr["total_cost"]["excl_vat"] for cdr in mine
                     if not cdr["credit"] and cdr["id"] not in taken_back]
            if mine:
                wanted.append(f"owed {operator} EUR {sum(costs, Decimal(0)):.4f}")
        if status != 0 or output.splitlines() != wanted:
            faults.append(f"settle of {provider}: {output!r} {told!r}, and not {wanted}")
    return faults


def is_held_alike(records: Mapping[str, Records]) -> list[str]:
    """Sessions and records of the operators stand at their providers as they are, and these have no others."""
    faults = []
    for kind, token in (("session", "cdr_token"), ("cdr", "cdr_token")):
        told = {key: text for operator in OPERATORS for key, text in records[operator].texts(kind).items()}
        held = [(provider, key, text) for provider in PROVIDERS for key, text in records[provider].texts(kind).items()]
        faults += [f"{provider} has another {kind} {key}: {text}" for provider, key, text in held
                   if told.get(key) != text]
        owners = {key: provider for provider, key, _ in held}
        for operator in OPERATORS:
            for members in records[operator].members(kind):
                key = f"{operator}/{members['id'].upper()}"
                if owners.get(key) != party_of(members[token]):
                    faults.append(f"{kind} {key} of {operator} is not at {party_of(members[token])}")
    return faults


def is_started_once(records: Mapping[str, Records], charge_points: Mapping[str, ChargePoint]) -> list[str]:
    """No EVSE was held twice, no reference began two sessions, and no charge point was asked twice for one command."""
    faults = []
    for operator in OPERATORS:
        sessions = records[operator].members("session")
        references = Counter(session["authorization_reference"] for session in sessions
                             if "authorization_reference" in session)
        faults += [f"{operator}: {count} sessions by {reference}"
                   for reference, count in references.items() if count > 1]
        for place in PLACES:
            there = [session for session in sessions if session["evse_uid"] == place.evse_uid]
            faults += overlaps(there)
    for identifier, charge_point in charge_points.items():
        faults += [f"{identifier}: {fault}" for fault in charge_point.faults]
        for id_tag, count in Counter(charge_point.accepted_starts).items():
            accepted = sum(1 for provider in PROVIDERS for command in records[provider].members("command")
                           if command["kind"] == "start_session" and command["body"]["token"]["uid"] == id_tag)
            if count > accepted:
                faults.append(f"{identifier}: {count} remote starts of {id_tag} for {accepted} commands")
    return faults


def overlaps(sessions: Iterable[Members]) -> list[str]:
    """The sessions of one EVSE that charged follow one another."""
    charged = sorted((session for session in sessions if session["status"] == "COMPLETED"),
                     key=lambda session: str(session["id"]))
    return [f"sessions overlap: {one} {other}" for one, other in zip(charged, charged[1:])
            if one["end_date_time"] > other["start_date_time"]]


def is_billed_once(records: Mapping[str, Records], charge_points: Mapping[str, ChargePoint]) -> list[str]:
    """Each transaction that was let charge has one session and one bill with its energy, and there are no others."""
    faults = []
    for place in PLACES:
        stored = records[place.operator]
        wanted = Counter((one.energy * WH).normalize() for one in charge_points[place.charge_point].transactions
                         if one.was_let_charge)
        sessions = [session for session in stored.members("session") if session["evse_uid"] == place.evse_uid]
        living = [session for session in sessions if session["status"] not in ("COMPLETED", "INVALID")]
        faults += [f"did not end: {session}" for session in living]
        charged = Counter(session["kwh"].normalize() for session in sessions if session["status"] == "COMPLETED")
        bills = [cdr for cdr in stored.members("cdr")
                 if not cdr["credit"] and cdr["cdr_location"]["evse_uid"] == place.evse_uid]
        billed = Counter(bill["total_energy"].normalize() for bill in bills)
        if not wanted == charged == billed:
            faults.append(f"{place.evse_uid}: charged {told(wanted)}; sessions {told(charged)}; bills {told(billed)}")
        energies = {session["id"]: session["kwh"] for session in sessions}
        faults += [f"billed otherwise: {bill}" for bill in bills
                   if energies.get(bill["session_id"]) != bill["total_energy"]]
    return faults


def told(energies: "Counter[Decimal]") -> str:
    """Energies, in words."""
    return ", ".join(f"{energy:f}" for energy in sorted(energies.elements())) or "none"


def is_as_drawn(done: Iterable[tuple[Charge, Transaction]], charges: Iterable[Charge], credited: list[str],
                records: Mapping[str, Records]) -> list[str]:
    """Each charge came about, ended as was drawn, and had a session by its token that was authorized as it began."""
    carried_out = dict(done)
    faults = [f"not carried out: {charge}" for charge in charges if charge not in carried_out]
    for charge, transaction in carried_out.items():
        if transaction.reason != charge.ends:
            faults.append(f"ended by {transaction.reason}: {charge}")
        if charge.begins == "swiped":
            methods = {"WHITELIST"} if charge.whitelist in ("ALWAYS", "ALLOWED") else {"AUTH_REQUEST", "WHITELIST"}
            methods -= {"WHITELIST"} if charge.whitelist == "NEVER" else set()
        else:
            methods = {"COMMAND"}
        found = {session["auth_method"] for session in records[charge.place.operator].members("session")
                 if session["cdr_token"]["uid"] == charge.token_uid and session["kwh"] == transaction.energy * WH}
        if len(found) != 1 or not found <= methods:
            faults.append(f"authorized by {found or 'nothing'}: {charge}")
    taken_back = [cdr["session_id"] for operator in OPERATORS for cdr in records[operator].members("cdr")
                  if cdr["credit"]]
    if taken_back != credited:
        faults.append(f"bills taken back: {taken_back}, and not {credited}")
    return faults


def is_ordered_once(posted: Mapping[str, int], answered: Mapping[str, int],
                    records: Mapping[str, Records]) -> list[str]:
    """Each order that was answered became one command, and each other one at most one."""
    given = {provider: len(records[provider].texts("command")) for provider in PROVIDERS}
    return [f"{provider} gave {given[provider]} commands for {posted[provider]} orders, {answered[provider]} answered"
            for provider in PROVIDERS if not answered[provider] <= given[provider] <= posted[provider]]


def weaves(bridges: Mapping[str, RunningBridge]) -> list[str]:
    """The transcripts of all four are one run, which can be played, and in which the same is owed."""
    status, woven, words = run("weave", *(bridges[party].transcript for party in PARTIES))
    if status != 0:
        return [f"weave: {woven[:500]} {words}"]
    status, played, words = run("play", text=woven)
    if status != 0:
        return [f"play: status {status} {words}"]
    owed = {line for line in played.splitlines() if line.startswith("owed ")}
    faults = []
    for provider in PROVIDERS:
        _, settled, _ = run("settle", bridges[provider].store)
        wanted = {line.replace("owed ", f"owed {provider} ") for line in settled.splitlines()}
        if not wanted <= owed:
            faults.append(f"play: {sorted(owed)}, and not {sorted(wanted)}")
    return faults


def has_no_traceback(bridges: Mapping[str, RunningBridge]) -> list[str]:
    """Nothing that befell a bridge was a fault of its own."""
    return [f"the log of {party} has a traceback: {bridge.log().partition('Traceback')[2][-2000:]}"
            for party, bridge in bridges.items() if "Traceback" in bridge.log()]


def keeps_secrets(bridges: Mapping[str, RunningBridge], secrets: Secrets, charges: Iterable[Charge]) -> list[str]:
    """No token and no password stands in a log, and what a bridge keeps is for its owner alone."""
    faults = []
    spellings = secrets.spellings() + [charge.token_uid for charge in charges]
    for party, bridge in bridges.items():
        log = bridge.log()
        faults += [f"the log of {party} has a secret: {line[:300]}" for line in log.splitlines()
                   if any(spelling in line for spelling in spellings)]
        kept: list[Path] = [bridge.store, bridge.transcript, bridge.folder / "bridge.db"]
        faults += [f"{file.name} of {party} is for others too" for file in kept if file.stat().st_mode & 0o077]
    return faults
