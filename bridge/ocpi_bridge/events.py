"""What goes into a node and what comes out: event lines, packets, and what became of an event."""
from dataclasses import dataclass
from typing import cast

from .clock import Clock
from .parties import same_party
from .records import Body, Done, Event, PacketLine

# The packets that are requests, and those that answer them.
ANSWERS = ("command_response", "authorization", "ack")


@dataclass(frozen=True)
class Packet:
    """A packet of a node: who sent it to whom, under which numbers, and the object of OCPI that it carries."""

    sender: str
    receiver: str
    serial: int
    request: int
    kind: str
    body: Body

    @staticmethod
    def of(line: PacketLine) -> "Packet":
        """The packet of a line that a node wrote."""
        return Packet(line["from"], line["to"], line["serial"], line["request"], line["kind"], line["body"])

    def members(self) -> PacketLine:
        """The packet as a node reads it."""
        return {"from": self.sender, "to": self.receiver, "serial": self.serial, "request": self.request,
                "kind": self.kind, "body": self.body}

    @property
    def is_answer(self) -> bool:
        return self.kind in ANSWERS


@dataclass(frozen=True)
class Outcome:
    """What became of an event: its `done`, and the packets that the node sent for it."""

    event: Event
    done: Done
    packets: tuple[Packet, ...]

    @property
    def word(self) -> str:
        """`stepped`, `idle`, `skipped`, `malformed` or `refused`."""
        return str(self.done["done"])

    def sent(self, kind: str) -> list[Packet]:
        """The packets of a kind, in the order in which they were sent."""
        return [packet for packet in self.packets if packet.kind == kind]

    def answer_to(self, sender: str, request: int) -> Packet | None:
        """The packet that answers a request of a party."""
        return next((packet for packet in self.packets if packet.is_answer and packet.request == request
                     and same_party(packet.receiver, sender)), None)


class Events:
    """Makes the event lines of a node, each at the moment that the clock tells, or at one that is given."""

    def __init__(self, node: str, clock: Clock) -> None:
        self.node = node
        self.clock = clock

    def make(self, event: str, at: str | None = None, **members: object) -> Event:
        """An event of a name and its own members. (`service` alone has no moment.)"""
        moment = {} if event == "service" else {"at": at or self.clock.moment()}
        return cast(Event, {"event": event, "node": self.node, **moment, **members})

    def deliver(self, packet: Packet) -> Event:
        return self.make("deliver", packet=packet.members())

    def tick(self) -> Event:
        return self.make("tick")
