"""A run of `ocpi_nodes play --done`: which lines of its output belong to which line of its input, and what packets say."""

import json
from dataclasses import dataclass, field
from datetime import datetime, timedelta
from decimal import Decimal

REPLIES = ("command_response", "ack", "authorization")


class Mismatch(Exception):
    """The output is not that of the input."""


@dataclass
class Packet:
    sender: str
    to: str
    serial: int
    request: int
    kind: str
    body: dict
    sent: int
    is_again: bool = False
    deliveries: list = field(default_factory=list)

    def name(self):
        return f"{self.serial}/{self.request}"

    def says(self):
        """What the packet says, in a word or two."""
        body = self.body
        if self.kind in ("command_response", "authorization"):
            if "data" not in body:
                return f"status {body['status_code']}"
            return body["data"].get("result") or body["data"]["allowed"]
        texts = {
            "start_session": lambda: body.get("evse_uid") or body["location_id"],
            "reserve_now": lambda: body["reservation_id"],
            "cancel_reservation": lambda: body["reservation_id"],
            "unlock_connector": lambda: body["evse_uid"],
            "command_result": lambda: body["result"],
            "put_session": lambda: f"{body['status']} {spelled(body['kwh'])} kWh",
            "post_cdr": lambda: f"{body['currency']} {spelled(body['total_cost']['excl_vat'])}",
            "put_token": lambda: body["uid"],
            "authorize": lambda: body["token_uid"],
            "ack": lambda: str(body["status_code"]),
        }
        return texts.get(self.kind, str)()

    def means(self):
        """What the packet is, in words."""
        body, says = self.body, self.says()
        place = body.get("evse_uid") or body.get("location_id")
        texts = {
            "start_session": lambda: f"the request for a session at {says}",
            "stop_session": lambda: "the request to end a session",
            "reserve_now": lambda: f"the request for reservation {says} of {place}",
            "cancel_reservation": lambda: f"the request to cancel reservation {says}",
            "unlock_connector": lambda: f"the request to unlock {says}",
            "command_response": lambda: f"the answer {says}",
            "command_result": lambda: f"the result {says}",
            "put_session": lambda: f"the session, {body['status']} with {spelled(body['kwh'])} kWh",
            "post_cdr": lambda: f"the credit, {says}" if body.get("credit") else
                f"the charge detail record, {spelled(body['total_energy'])} kWh for {says}",
            "put_token": lambda: f"token {says}",
            "authorize": lambda: f"the question whether token {says} may charge",
            "authorization": lambda: f"the answer {says}",
            "ack": lambda: "the acknowledgement" if says == "1000" else f"the answer status {says}",
        }
        return texts.get(self.kind, lambda: self.kind)()


@dataclass
class Step:
    number: int
    event: dict
    node: str = ""
    at: datetime = None
    packets: list = field(default_factory=list)
    delivered: Packet = None
    told: str = ""


def moment(text):
    """A moment of a line, as far as milliseconds; None where there is none."""
    try:
        day, _, rest = text.upper().partition("T")
        clock, _, fraction = rest.rstrip("Z").removesuffix("+00:00").removesuffix("-00:00").partition(".")
        return datetime.fromisoformat(f"{day}T{clock}") + timedelta(milliseconds=int((fraction + "000")[:3]))
    except (AttributeError, ValueError):
        return None


def spelled(number):
    """A number without zeros at its end."""
    return f"{number.normalize():f}" if isinstance(number, Decimal) else str(number)


def value_of(line):
    return json.loads(line, parse_float=Decimal)


class Run:
    """The steps of a run: which lines of the output belong to which line of the input, as the lines with `done` say."""

    def __init__(self, inputs, outputs):
        self.outputs = outputs
        self.next = 0
        self.sent, self.said = {}, set()
        self.steps = []
        lines = [(n, line) for n, line in enumerate(inputs, 1) if line]
        if not lines:
            raise Mismatch("the input has no line")
        self.setup_line = lines[0][0]
        self.refusal, self.owed = "", []
        try:
            nodes = json.loads(lines[0][1])["nodes"]
            self.nodes = [node["party"] for node in nodes]
            self.operators = {node["party"].upper() for node in nodes if node.get("site")}
        except (ValueError, KeyError, TypeError):
            self.nodes, self.operators = [], set()
        self.spelled = {party.upper(): party for party in self.nodes}
        if len(outputs) == 1 and outputs[0].startswith("refused "):
            self.refusal = self.take()
            return
        for count, (number, line) in enumerate(lines[1:], 2):
            self.steps.append(self.step(count, number, line))
        self.owed = outputs[self.next:]
        if any(not line.startswith("owed ") for line in self.owed):
            raise Mismatch(f"no event gives the output's line {self.next + 1}: {self.outputs[self.next]}")

    def take(self):
        self.next += 1
        return self.outputs[self.next - 1]

    def answer(self, count, number):
        """The packets of the line that is the count-th which is not empty, and what its line with `done` says."""
        packets = []
        while self.next < len(self.outputs) and self.outputs[self.next].startswith("{"):
            value = value_of(self.take())
            if "done" not in value:
                packets.append(value)
            elif value["line"] == count and value.get("packets", 0) == len(packets):
                return packets, value
            else:
                break
        raise Mismatch(f"the output does not say what became of line {number}: it must be that of `play --done`")

    def step(self, count, number, line):
        try:
            event = value_of(line)
            step = Step(number, event if isinstance(event, dict) else {})
        except ValueError:
            step = Step(number, {})
        node = step.event.get("node")
        step.node = self.spelled.get(str(node).upper(), str(node or ""))
        step.at = moment(step.event.get("at"))
        packets, done = self.answer(count, number)
        if done["done"] == "skipped":
            step.told = "skipped"
        elif done["done"] in ("malformed", "refused"):
            member = f"({done['field']})" if "field" in done else ""
            step.told = f"refused {done['number']} {done['name']}{member}"
        else:
            self.deliver(step)
            for packet in packets:
                self.send(step, packet)
        return step

    def deliver(self, step):
        """Notes the packet that a delivery names."""
        if step.event.get("event") == "deliver":
            sender = self.spelled.get(str(step.event.get("from")).upper())
            step.delivered = self.sent.get((sender, step.event.get("serial")))
            if step.delivered:
                step.delivered.deliveries.append(len(self.steps))

    def send(self, step, line):
        to = self.spelled.get(line["to"].upper(), line["to"])
        named = line["serial"], line["request"], line["kind"], line["body"]
        packet = Packet(line["from"], to, *named, len(self.steps))
        same = packet.sender, packet.to, packet.request, packet.kind in REPLIES
        packet.is_again = same in self.said
        self.said.add(same)
        self.sent[packet.sender, packet.serial] = packet
        step.packets.append(packet)
