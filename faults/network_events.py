"""What happens at the nodes of a network: orders, tokens and what charge points report, for faults/network_trial.py."""

import random
from collections import Counter

from network_nodes import Node, line_of
from network_setups import BEGINNING, OPERATORS, STRANGERS, UNITS, Json, is_operator, moment_of, spelled
from network_strangers import COMMANDS, TOKENS, token_of

KWH = 5_000
# The commands that a charge point executes.
EXECUTED = ("start_session", "stop_session", "unlock_connector")
AT_OPERATORS = {"accepts": 4, "refuses": 3, "unlocked": 2, "starts": 5, "meter": 6, "stops": 8, "fault": 4, "swipe": 20,
                "service": 5, "credit": 4}
AT_PROVIDERS = {"token": 6, "start_session": 16, "reserve_now": 5, "cancel_reservation": 3, "stop_session": 4,
                "unlock_connector": 3, "again": 1}


class Events:
    """Draws events. Each node has a clock of its own, which may go back."""

    def __init__(self, draw: random.Random, nodes: dict[str, Node]) -> None:
        self.draw, self.nodes, self.now = draw, nodes, BEGINNING
        self.skews = {party: draw.randint(-20_000, 20_000) for party in nodes}
        # Of an operator the commands that were brought to it and what its charge points will report, and of each node
        # the sessions of which it wrote or read.
        self.commands: dict[str, list[tuple[str, int]]] = {party: [("NL/TNM", 1)] for party in nodes}
        self.to_come: dict[str, list[tuple[str, Json]]] = {party: [] for party in nodes}
        self.sessions: dict[str, list[str]] = {party: ["none"] for party in nodes}
        self.kwh: Counter[tuple[str, str]] = Counter()

    def clock(self, party: str) -> int:
        return self.now + self.skews[party]

    def moment(self, party: str) -> str:
        """The next moment at a node."""
        self.now += self.draw.choice((0, 137, 500, 1_000, 2_000))
        return moment_of(self.clock(party) - (30_000 if self.draw.random() < 0.02 else 0))

    def brought(self, to: str, packet: Json) -> None:
        """Sees a packet that is brought to a node."""
        if packet["kind"] in COMMANDS:
            self.commands[to].append((packet["from"].upper(), packet["request"]))
            if is_operator(to) and packet["kind"] in EXECUTED:
                named = {"provider": packet["from"], "number": packet["request"]}
                self.expect(to, "unlocked" if packet["kind"] == "unlock_connector" else "accepts", named)
        if packet["kind"] == "put_session":
            self.sessions[to].append(packet["body"]["id"])

    def wrote(self, sender: str, packet: Json) -> None:
        """Sees a packet that a node wrote."""
        if packet["kind"] == "put_session":
            self.sessions[sender].append(packet["body"]["id"])
            evse, status = {"evse_uid": packet["body"]["evse_uid"]}, packet["body"]["status"]
            if status == "PENDING":
                self.expect(sender, "starts", evse)
            elif status == "ACTIVE":
                self.expect(sender, self.draw.choice(("meter", "meter", "stops")), evse)
        elif packet["kind"] == "post_cdr" and self.draw.random() < 0.2:
            self.expect(sender, "credit", {"session_id": packet["body"]["session_id"]})

    def expect(self, operator: str, kind: str, members: Json) -> None:
        """A charge point of an operator will report that, or its owner will order it, most probably."""
        if self.draw.random() < 0.9 and (kind, members) not in self.to_come[operator]:
            self.to_come[operator].append((kind, members))

    def delivery(self, to: str, packet: bytes) -> bytes:
        event = {"event": "deliver", "node": spelled(self.draw, to), "at": self.moment(to)}
        return line_of(event)[:-2] + b',"packet":' + packet + b"}"

    def tick(self, party: str) -> bytes:
        return line_of({"event": "tick", "node": party, "at": self.moment(party)})[:-1]

    def token(self, party: str, uid: str) -> bytes:
        """A token of a provider that is given."""
        made = token_of(party, uid, moment_of(self.now), self.draw)
        return line_of({"event": "token", "node": party, "at": self.moment(party), "token": made})[:-1]

    def ending(self, party: str, uid: str) -> bytes:
        """A charge that ends."""
        return line_of({"event": "stops", "node": party, "at": self.moment(party), "evse_uid": uid})[:-1]

    def event(self, party: str) -> tuple[str, bytes]:
        """An event of a node's own, and what it is."""
        kinds = AT_OPERATORS if is_operator(party) else AT_PROVIDERS
        if self.to_come[party] and self.draw.random() < 0.75:
            kind, made = self.to_come[party].pop(self.draw.randrange(len(self.to_come[party])))
            made = {**made, **({"kwh": self.reading(party, made["evse_uid"])} if kind == "meter" else {})}
        else:
            kind = self.draw.choices(list(kinds), list(kinds.values()))[0]
            made = self.reported(party, kind) if is_operator(party) else self.ordered(party, kind)
        return kind, line_of({"event": kind, "node": spelled(self.draw, party), "at": self.moment(party), **made})[:-1]

    def reading(self, party: str, uid: str) -> float:
        """What a meter shows next."""
        self.kwh[party, uid.upper()] += self.draw.randint(1, 10 * KWH)
        return self.kwh[party, uid.upper()] / UNITS

    def reported(self, party: str, kind: str) -> Json:
        """What charge points report at an operator, and what that does by itself."""
        draw = self.draw
        uid = draw.choice([*self.nodes[party].evses(), "E9"])
        if kind in ("accepts", "refuses", "unlocked"):
            provider, number = draw.choice(self.commands[party][-5:])
            return {"provider": spelled(draw, provider), "number": number}
        if kind == "meter":
            return {"evse_uid": uid, "kwh": self.reading(party, uid)}
        if kind == "service":
            return {"evse_uid": uid, "in_service": draw.random() < 0.75}
        if kind == "credit":
            return {"session_id": draw.choice(self.sessions[party][-8:])}
        shown = {"connector_id": "1", "token_uid": draw.choice(TOKENS), "token_type": "RFID"} if kind == "swipe" else {}
        return {"evse_uid": uid, **shown}

    def ordered(self, party: str, kind: str) -> Json:
        """A token of a provider, or an order to an operator. (`again` is a restart that forgets what is not stored.)"""
        draw = self.draw
        if kind == "again":
            return {"event": "restart"}
        if kind == "token":
            return {"token": token_of(party, draw.choice(TOKENS), moment_of(self.now), draw)}
        operator = draw.choice(self.nodes[party].setup.partners() + [draw.choice(OPERATORS), draw.choice(STRANGERS)])
        order: Json = {"event": "submit", "operator": spelled(draw, operator), "order": kind}
        evses = self.nodes[operator].setup.evses() if operator in self.nodes else []
        place, evse = draw.choice(evses or [({"id": "LOC1"}, {"uid": "E1", "connectors": [{"id": "1"}]})])
        shown = {"token_uid": draw.choice(TOKENS), "token_type": "RFID"}
        at = {"location_id": place["id"], "evse_uid": evse["uid"]}
        if kind in ("start_session", "unlock_connector"):
            at["connector_id"] = evse["connectors"][0]["id"]
        reservation = {"reservation_id": f"R{draw.randint(1, 3)}"}
        expiry = {"expiry_date": moment_of(self.now + draw.choice((20_000, 120_000)))}
        return {**order, **{
            "start_session": {**shown, **at}, "reserve_now": {**shown, **at, **reservation, **expiry},
            "unlock_connector": at, "cancel_reservation": reservation,
            "stop_session": {"session_id": draw.choice(self.sessions[party][-6:])}}[kind]}
