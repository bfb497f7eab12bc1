"""Parties that run no node, and send random well-formed packets as themselves to anybody.

For faults/network_trial.py.
"""

import copy
import json
import random
from collections import Counter

from network_nodes import line_of
from network_setups import (BEGINNING, CURRENCIES, EVSES, HONEST, LOCATIONS, OPERATORS, PROVIDERS, STRANGERS, UNITS,
                            Json, moment_of, spelled)

TOKENS = tuple(f"AA{number:02}" for number in range(1, 5))
OF_PROVIDERS = ("start_session", "stop_session", "reserve_now", "cancel_reservation", "unlock_connector", "put_token",
                "authorization", "ack")
OF_OPERATORS = ("command_response", "command_result", "put_session", "post_cdr", "authorize", "ack")
COMMANDS = OF_PROVIDERS[:5]
RESULTS = ("ACCEPTED", "CANCELED_RESERVATION", "EVSE_OCCUPIED", "EVSE_INOPERATIVE", "FAILED", "NOT_SUPPORTED",
           "REJECTED", "TIMEOUT", "UNKNOWN_RESERVATION")
# The last number, and the last moment.
LARGEST, LATEST = 10**18 - 1, "9999-12-31T23:59:59.999Z"
RESPONSES = ("NOT_SUPPORTED", "REJECTED", "ACCEPTED", "UNKNOWN_SESSION")


def token_of(party: str, uid: str, updated: str, draw: random.Random) -> Json:
    """A token of a party, which may be used more or less."""
    country, name = party.split("/")
    whitelist = draw.choices(("ALWAYS", "ALLOWED", "ALLOWED_OFFLINE", "NEVER"), (6, 1, 2, 2))[0]
    return {"contract_id": f"{country}-{name}-{uid}", "country_code": country, "issuer": name, "last_updated": updated,
            "party_id": name, "type": "RFID", "uid": uid, "valid": draw.random() < 0.95, "whitelist": whitelist}


class Strangers:
    """They know all that honest nodes ever wrote, also what is lost on its way."""

    def __init__(self, draw: random.Random) -> None:
        self.draw, self.sent = draw, 0
        self.serials: Counter[str] = Counter()
        # The packets of each kind, and what was told of: sessions, references, and requests with their senders.
        self.seen: dict[str, list[Json]] = {}
        self.sessions, self.references = ["53424542-4543-0000-0000-000000000001"], ["none"]
        self.requests = [("NL/TNM", 1)]

    def saw(self, packet: Json) -> None:
        self.seen.setdefault(packet["kind"], []).append(packet)
        body = packet["body"]
        self.requests.append((packet["from"].upper(), packet["request"]))
        if packet["kind"] == "put_session":
            self.sessions.append(body["id"])
        reference = body.get("authorization_reference") or body.get("data", {}).get("authorization_reference")
        if reference:
            self.references.append(reference)

    def packet(self) -> tuple[str, bytes]:
        """A packet of one of them, and the honest party to which it is brought."""
        draw, to = self.draw, self.draw.choice(HONEST)
        sender = draw.choice(STRANGERS)
        kind = draw.choice(OF_PROVIDERS if (to in OPERATORS) != (draw.random() < 0.05) else OF_OPERATORS)
        if draw.random() < 0.8:
            self.serials[sender] += 1
        party, number = draw.choice(self.requests[-30:])
        request = draw.choice((number, self.serials[sender] + 1, draw.randint(1, 40), draw.choice((0, LARGEST))))
        addressed = to if draw.random() < 0.97 else draw.choice(HONEST)
        self.sent += 1
        return to, line_of({"body": self.body(kind, sender, party, number), "from": spelled(draw, sender), "kind": kind,
                            "request": request, "serial": self.serials[sender], "to": spelled(draw, addressed)})[:-1]

    def body(self, kind: str, sender: str, party: str, number: int) -> Json:
        """What an honest node said, changed or not; or a body of their own."""
        draw = self.draw
        if kind in self.seen and draw.random() < 0.6:
            body: Json = copy.deepcopy(draw.choice(self.seen[kind][-20:])["body"])
            if draw.random() < 0.5:
                self.change(body, sender)
            return body
        owner = draw.choice((sender, sender, draw.choice(PROVIDERS)))
        return self.built(kind, owner, f"https://node.invalid/{party}/{number}")

    def change(self, body: Json, sender: str) -> None:
        """Changes some members of a body: it stays well-formed."""
        country, name = sender.split("/")
        own = {"country_code": country, "party_id": name}
        others: Json = {
            **own, "last_updated": self.moment(), "kwh": self.number(), "total_energy": self.number(),
            "total_cost": {"excl_vat": self.number()}, "session_id": self.draw.choice(self.sessions),
            "authorization_reference": self.draw.choice(self.references), "status_code": self.draw.choice((1000, 2001))}
        for member in list(body):
            if member in others and self.draw.random() < 0.5:
                body[member] = others[member]
            elif member in ("token", "cdr_token") and self.draw.random() < 0.5:
                body[member].update(own)

    def moment(self) -> str:
        if self.draw.random() < 0.1:
            return LATEST
        return moment_of(BEGINNING + self.draw.randint(-1_000_000, 4_000_000))

    def number(self) -> float:
        return self.draw.randint(0, 900_000) / UNITS

    def built(self, kind: str, party: str, url: str) -> Json:
        """A body of a kind, in which a token of that party stands where there is one."""
        draw = self.draw
        token = token_of(party, draw.choice(TOKENS), self.moment(), draw)
        place = {"evse_uid": draw.choice(EVSES), "location_id": draw.choice(LOCATIONS)}
        session, reservation = {"session_id": draw.choice(self.sessions)}, {"reservation_id": f"R{draw.randint(1, 3)}"}
        done = {"status_code": 1000, "timestamp": self.moment()}
        bodies: dict[str, Json] = {
            "start_session": {"token": token, **place, "authorization_reference": draw.choice(self.references)},
            "stop_session": session, "cancel_reservation": reservation,
            "unlock_connector": {**place, "connector_id": "1"},
            "reserve_now": {"token": token, **place, **reservation, "expiry_date": self.moment()},
            "command_result": {"result": draw.choice(RESULTS)}, "put_token": token, "ack": done,
            "command_response": {**done, "data": {"result": draw.choice(RESPONSES), "timeout": 30}},
            "authorize": {"token_uid": draw.choice(TOKENS), "type": "RFID"},
            "authorization": {**done, "data": {"allowed": "ALLOWED", "token": token,
                                               "authorization_reference": draw.choice(self.references)}}}
        if kind in ("put_session", "post_cdr"):
            return self.told(kind, token, draw.choice((party, draw.choice(OPERATORS))))
        return {**bodies[kind], **({"response_url": url} if kind in (*COMMANDS, "command_result") else {})}

    def told(self, kind: str, token: Json, operator: str) -> Json:
        """A session or a charge detail record of an operator, of which nobody knows."""
        country, name = operator.split("/")
        driver = {member: token[member] for member in ("country_code", "party_id", "uid", "type", "contract_id")}
        session = self.draw.choice(self.sessions)
        both = {"country_code": country, "party_id": name, "start_date_time": self.moment(), "cdr_token": driver,
                "end_date_time": self.moment(), "auth_method": "COMMAND", "currency": self.draw.choice(CURRENCIES),
                "total_cost": {"excl_vat": self.number()}, "last_updated": self.moment()}
        if kind == "put_session":
            return {**both, "id": session, "kwh": self.number(), "location_id": "LOC1", "evse_uid": "E1",
                    "connector_id": "1", "status": self.draw.choice(("PENDING", "ACTIVE", "COMPLETED", "INVALID"))}
        place = {"id": "LOC1", "address": "A 1", "city": "B", "country": "BEL", "evse_uid": "E1", "evse_id": "BE*BEC*E",
                 "coordinates": {"latitude": "51.05421", "longitude": "3.72180"}, "connector_id": "1",
                 "connector_standard": "IEC_62196_T2", "connector_format": "SOCKET",
                 "connector_power_type": "AC_3_PHASE"}
        period = {"start_date_time": self.moment(), "dimensions": [{"type": "ENERGY", "volume": self.number()}]}
        return {**both, "id": session.replace("53", "43", 1), "session_id": session, "cdr_location": place,
                "total_time": 0.5, "charging_periods": [period], "total_energy": self.number()}


def read_packet(text: bytes) -> Json:
    packet: Json = json.loads(text)
    return packet
