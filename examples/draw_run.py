#!/usr/bin/env python3
"""Draws a run of `ocpi_nodes play --done` as a sequence picture in SVG, or prints it in words.

    ./ocpi_nodes play --done < examples/play/charge/in.jsonl | examples/draw_run.py --text examples/play/charge/in.jsonl
    examples/draw_run.py examples/play/two_swipes_of_one_card/{in.jsonl,out} > two_swipes.svg

The first file is what the program read: a setup, and an event a line. The second, or else the standard input, is what
it wrote with `--done`. In the picture a vertical line is a node, and time goes down. Beside its node stands what happened there, with
the number and the moment of the input line at the left. An arrow is a packet, from where it was sent to where it was
delivered. Where it was sent stands its name (its serial and its request, as 3/2), its kind and what it says. The arrow
of a delivery that is not the first is dashed. A packet that no line delivers ends in a cross.
"""

import argparse
import signal
import sys
from xml.sax.saxutils import escape

sys.dont_write_bytecode = True

from played_run import Mismatch, Run, spelled

# Why a line is refused, by the name that the program writes.
REASONS = {
    "NotForMe": "the packet or the token is not for this node, or of a kind that it does not take",
    "NumbersUsedUp": "a counter has given its last number",
    "StampEnd": "the newest version, or the bill, is of the last moment, so nothing can be later",
    "UnknownOperator": "no operator of the setup is that party",
    "UnknownToken": "the provider does not hold that token",
    "Syntax": "the line is no JSON",
    "BadNumberToken": "a number is not written as JSON wants it",
    "TaggedText": "a text begins with the character that marks numbers",
    "Missing": "a member is missing",
    "WrongForm": "a member has not the form that it must have",
    "UnknownWord": "a member is none of the words that it may be",
    "UnknownKind": "there is no event or order of that name",
    "Memory": "memory ran out",
}


def ordered(event):
    """What a driver's order is for, in words."""
    place = event.get("evse_uid") or event.get("location_id")
    return {
        "start_session": f"a session at {place} with token {event.get('token_uid')}",
        "stop_session": "the end of a session",
        "reserve_now": f"reservation {event.get('reservation_id')} of {place}",
        "cancel_reservation": f"the end of reservation {event.get('reservation_id')}",
        "unlock_connector": f"{place} unlocked",
    }[event["order"]]


def happening(step):
    """What an event is, in words that stand behind the node's name."""
    event = step.event
    asked = f"request {event.get('number')} of {event.get('provider')}"
    texts = {
        "submit": lambda: f"orders {ordered(event)}",
        "token": lambda: f"stores token {event['token']['uid']}",
        "service": lambda: f"{event['evse_uid']} is {'in' if event['in_service'] else 'out of'} service",
        "swipe": lambda: f"token {event['token_uid']} is shown at {event['evse_uid']}",
        "accepts": lambda: f"{asked} is carried out",
        "refuses": lambda: f"{asked} cannot be carried out",
        "unlocked": lambda: f"{asked} has unlocked",
        "starts": lambda: f"energy flows at {event['evse_uid']}",
        "stops": lambda: f"{event['evse_uid']} stops",
        "fault": lambda: f"{event['evse_uid']} has a fault",
        "meter": lambda: f"the meter of {event['evse_uid']} reads {spelled(event['kwh'])} kWh",
        "credit": lambda: "a bill is to be taken back",
        "deliver": lambda: f"packet {event['serial']} of {event['from']} comes",
        "tick": lambda: "time passes",
        "restart": lambda: "starts again",
        "refused": lambda: "could not store an event",
    }
    try:
        return texts[event.get("event")]()
    except (KeyError, TypeError):
        return "no event"


def why(told):
    """A refusal with its reason, or that a line was passed over."""
    if told == "skipped":
        return "passed over: no node of the setup has this event, or the packet was not sent to it"
    name = told.split(" ", 2)[-1]
    return f"{told}: {REASONS.get(name.split('(')[0], 'refused')}"


def clock(at):
    return at.strftime("%H:%M:%S") + (f".{at.microsecond // 1000:03}" if at.microsecond else "") if at else ""


def owing(line):
    """A line that says what is owed, in words."""
    _, provider, operator, rest = line.split(" ", 3)
    return f"{provider} owes {operator} {rest}"


def tell(run):
    """The run, line by line in words."""
    if run.refusal:
        return [f"line {run.setup_line}: {why(run.refusal)}"]
    lines = ["line  time      node    what happens (a packet's kind, and its serial/request)"]
    for place, step in enumerate(run.steps):
        head = f"{step.number:>4}  {clock(step.at):8}  "
        if step.told:
            lines.append(f"{head}{step.node:6}  {why(step.told)}")
            continue
        what = happening(step)
        if step.delivered:
            packet = step.delivered
            again = " again" if packet.deliveries[0] != place else ""
            what = f"receives{again} from {packet.sender} {packet.means()} ({packet.kind} {packet.name()})"
        lines.append(f"{head}{step.node:6}  {what}")
        for packet in step.packets:
            again = " again" if packet.is_again else ""
            lost = "" if packet.deliveries else ", which no line delivers"
            what = f"{packet.means()} ({packet.kind} {packet.name()})"
            lines.append(f"{'':24}sends{again} to {packet.to} {what}{lost}")
    return lines + [owing(line) for line in run.owed]


# Lengths of the picture: the numbers and moments at its left, what stands beside a node, the space between two nodes, a
# line of text, and what is left blank between two events. Then the size of letters.
LEFT, BESIDE, BETWEEN, LINE, GAP = 66, 164, 112, 15, 7
SIZE = 12
STYLE = """text { font: 12px Helvetica, Arial, "DejaVu Sans", sans-serif; fill: #1f2328; }
.small { font-size: 11px; fill: #59636e; } .head { font-size: 13px; font-weight: bold; } .own { fill: #0550ae; }
.told { fill: #b00020; } .owed { font-weight: bold; } .dot { fill: #0550ae; }
line { stroke: #1f2328; stroke-width: 1.2; } .node { stroke: #8c959f; stroke-width: 2; }
.again { stroke-dasharray: 6 4; } .lost { stroke: #b00020; stroke-dasharray: 2 3; }"""
MARKER = """<marker id="arrow" viewBox="0 0 8 8" refX="8" refY="4" markerWidth="8" markerHeight="8" orient="auto">
<path d="M0,0 L8,4 L0,8 z" fill="#1f2328"/></marker>"""


def width_of(text):
    """How wide a text is, in the widest of the fonts."""
    parts = [0.37 if it in " .,:/ijlft'|" else 0.96 if it in "mwMW" else 0.72 if it.isupper() else 0.63 for it in text]
    return SIZE * sum(parts)


def wrapped(parts):
    """The parts of a text, in lines that fit beside a node."""
    lines = [parts[0]]
    for part in parts[1:]:
        longer = f"{lines[-1]} {part}"
        if width_of(longer) > BESIDE:
            lines.append(part)
        else:
            lines[-1] = longer
    return lines


class Picture:
    """A run as SVG."""

    def __init__(self, run):
        self.run = run
        self.lines, self.texts = [], []
        self.arrivals = {}
        self.width = LEFT + BESIDE + 8 + (BETWEEN + 8 + BESIDE + 8) * max(1, len(run.nodes) - 1)
        self.y = 0

    def x(self, node):
        """Where a node's line is: what happens at the first stands at its left, and at the right of the others."""
        place = self.run.nodes.index(node)
        return LEFT + BESIDE + 8 + BETWEEN * place + (BESIDE + 16) * max(0, place - 1)

    def text(self, x, y, text, kind, anchor="start"):
        self.texts.append(f'<text x="{x}" y="{y}" class="{kind}" text-anchor="{anchor}">{escape(text)}</text>')

    def line(self, x1, y1, x2, y2, kind, ends=True):
        marker = ' marker-end="url(#arrow)"' if ends else ""
        self.lines.append(f'<line x1="{x1}" y1="{y1}" x2="{x2}" y2="{y2}" class="{kind}"{marker}/>')

    def beside(self, node, parts, kind):
        """Writes the parts of a text beside a node, from the next line on, and answers the height of its first line."""
        first = self.y
        is_first = node == self.run.nodes[0]
        for line in wrapped(parts):
            self.text(self.x(node) + (-8 if is_first else 8), self.y + 4, line, kind, "end" if is_first else "start")
            self.y += LINE
        return first

    def legend(self):
        """What the lines and the numbers mean."""
        drawn = ("sent", "a packet, delivered"), ("again", "delivered again"), ("lost", "never delivered")
        named = ("3/2", "its sender's packet 3, request 2"), ("8", "a line of the input, with its moment"), \
            ("●", "an event that no packet brings")
        for at, ((kind, text), (name, meaning)) in enumerate(zip(drawn, named), 1):
            y = 16 * at
            self.line(10, y, 54, y, kind, ends=kind != "lost")
            self.text(62, y + 4, text, "small")
            self.text(self.width // 2 - 40, y + 4, name, "own" if name == "●" else "small", "end")
            self.text(self.width // 2 - 32, y + 4, meaning, "small")
        self.text(54, 16 * 3 + 4, "×", "told", "middle")
        self.y = 16 * 4 + 14

    def columns(self, top):
        for node in self.run.nodes:
            role = "operator" if node.upper() in self.run.operators else "provider"
            anchor = "end" if node == self.run.nodes[0] else "start"
            side = 12 if anchor == "end" else -12
            self.text(self.x(node) + side, top, f"{node}, {role}", "head", anchor)
            self.line(self.x(node), top + 8, self.x(node), self.y, "node", ends=False)

    def send(self, packet):
        """Writes what a packet says where it is sent, and keeps where that is."""
        start = self.x(packet.sender)
        y = self.beside(packet.sender, [f"{packet.name()} {packet.kind}", *filter(None, [packet.says()])], "label")
        side = 1 if self.x(packet.to) > start else -1
        if not packet.deliveries:
            self.line(start, y, start + side * 44, y, "lost", ends=False)
            self.text(start + side * 44, y + 4, "×", "told", "middle")
        packet.height = y

    def happens(self, place, step):
        self.text(18, self.y + 4, str(step.number), "small", "end")
        self.text(24, self.y + 4, clock(step.at), "small")
        if step.node not in self.run.nodes:
            self.text(LEFT + 16, self.y + 4, step.told or happening(step), "told")
            self.y += LINE
        elif step.told:
            self.beside(step.node, step.told.split(), "told")
        elif step.delivered:
            again = " again" if step.delivered.deliveries[0] != place else ""
            self.arrivals[place] = self.beside(step.node, [f"receives {step.delivered.name()}{again}"], "small")
        else:
            y = self.beside(step.node, happening(step).replace(" kWh", "\u00a0kWh").split(" "), "own")
            self.texts.append(f'<circle cx="{self.x(step.node)}" cy="{y}" r="4" class="dot"/>')
        for packet in step.packets:
            self.send(packet)
        self.y += GAP

    def draw(self):
        self.legend()
        top = self.y
        self.y += 28
        for place, step in enumerate(self.run.steps):
            self.happens(place, step)
        self.columns(top)
        for packet in self.run.sent.values():
            for count, place in enumerate(packet.deliveries):
                kind = "again" if count else "sent"
                self.line(self.x(packet.sender), packet.height, self.x(packet.to), self.arrivals[place], kind)
        self.y += 10
        for line in [owing(it) for it in self.run.owed] + ([why(self.run.refusal)] if self.run.refusal else []):
            self.y += LINE
            self.text(10, self.y, line, "told" if self.run.refusal else "owed")
        size = f'width="{self.width}" height="{self.y + 14}"'
        box = f'viewBox="0 0 {self.width} {self.y + 14}"'
        return "\n".join([f'<svg xmlns="http://www.w3.org/2000/svg" {box} {size}>', f"<style>{STYLE}</style>",
                          f'<defs>{MARKER}</defs>', f'<rect {size} fill="white"/>', *self.lines, *self.texts, "</svg>"])


def lines_of(file):
    return [line.rstrip("\n").removesuffix("\r") for line in file]


def read_lines(path):
    with open(path, encoding="utf-8", errors="replace", newline="\n") as file:
        return lines_of(file)


def main():
    # A reader that has enough, as `head`, ends the script without a word.
    signal.signal(signal.SIGPIPE, signal.SIG_DFL)
    parser = argparse.ArgumentParser(description=__doc__, formatter_class=argparse.RawDescriptionHelpFormatter)
    parser.add_argument("--text", action="store_true", help="tell the run in words, line by line")
    parser.add_argument("input", metavar="INPUT")
    parser.add_argument("output", metavar="OUTPUT", nargs="?", help="what the program wrote; else the standard input")
    words = parser.parse_args()
    if words.output is None and sys.stdin.isatty():
        parser.error("name the file with what the program wrote, or pipe it in")
    try:
        sys.stdin.reconfigure(encoding="utf-8", errors="replace", newline="\n")
        outputs = read_lines(words.output) if words.output is not None else lines_of(sys.stdin)
        run = Run(read_lines(words.input), outputs)
    except (Mismatch, OSError) as fault:
        print(f"draw_run: {fault}", file=sys.stderr)
        return 1
    except (KeyError, ValueError):
        print("draw_run: the output has a line that the program does not write", file=sys.stderr)
        return 1
    print("\n".join(tell(run)) if words.text else Picture(run).draw())
    return 0


if __name__ == "__main__":
    sys.exit(main())
