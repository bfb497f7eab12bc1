"""Lines of one node that are drawn beside a run of `play`, for faults/kill_node.py: of one event, or of several."""

import json

from stop_in_store import EVSES, OPERATOR, PROVIDER, Drawing, Run, line_of, setup_line, token

# Whom they deal with besides.
OTHER_OPERATOR, OTHER_PROVIDER = "FR/FRC", "DE/EMP"


def wide_setup():
    """The setup, with another operator and another provider."""
    nodes = json.loads(setup_line())["nodes"]
    location, = nodes[0]["site"]["locations"]
    evse = {**location["evses"][0], "evse_id": "FR*FRC*F1", "uid": "F1"}
    site = {**nodes[0]["site"], "locations": [{**location, "evses": [evse], "id": "LOC2"}]}
    return line_of(nodes=[*nodes, {"party": OTHER_OPERATOR, "site": site}, {"party": OTHER_PROVIDER}])


def others_token(number):
    """A token of the other provider."""
    return {**token(number), "country_code": "DE", "party_id": "EMP", "contract_id": f"DE-EMP-{number:06}"}


class WideDrawing(Drawing):
    """Draws events of all kinds, and keeps the packets that were sent."""

    def __init__(self, draw):
        super().__init__(draw)
        self.packets, self.commands, self.sessions = {}, [1], ["none"]

    def saw(self, lines):
        super().saw(lines)
        for line in lines:
            if line.startswith(b"{"):
                packet = json.loads(line)
                self.packets[packet["from"], packet["serial"]] = line.rstrip(b"\n")
                if "response_url" in packet["body"] and packet["from"] == PROVIDER:
                    self.commands.append(packet["request"])
                if packet["kind"] == "put_session":
                    self.sessions.append(packet["body"]["id"])

    def order(self, evse):
        """An order of another kind than a start at an EVSE."""
        kinds = ["stop_session", "reserve_now", "cancel_reservation", "unlock_connector"]
        kind = self.draw.choices(kinds, [1, 2, 1, 1])[0]
        place = {"location_id": "LOC1", "evse_uid": evse}
        reservation = {"reservation_id": f"R{self.draw.randint(1, 6)}"}
        if kind == "stop_session":
            return {"order": kind, "session_id": self.draw.choice(self.sessions[-6:])}
        if kind == "cancel_reservation":
            return {"order": kind, **reservation}
        if kind == "unlock_connector":
            return {"order": kind, **place, "connector_id": "1"}
        expiry = self.draw.choice(["2025-01-01T10:05:00Z", "2025-01-01T11:00:00Z", "2025-01-02T10:00:00Z"])
        return {"order": kind, "token_uid": "AA01", "token_type": "RFID", "expiry_date": expiry, **reservation, **place}

    def first_event(self):
        return {"event": "token", "node": PROVIDER, "at": self.moment(), "token": token(1)}

    def event(self):
        if self.draw.random() < 0.7:
            return super().event()
        at, evse = self.moment(), self.draw.choice(EVSES)
        kind = self.draw.choices(["accepts", "refuses", "unlocked", "fault", "service", "swipe", "token", "submit"],
                                 [30, 5, 5, 3, 6, 12, 8, 20])[0]
        if kind in ("accepts", "refuses", "unlocked"):
            number = self.draw.choice(self.commands[-4:])
            return {"event": kind, "node": OPERATOR, "at": at, "provider": PROVIDER, "number": number}
        if kind == "fault":
            return {"event": kind, "node": OPERATOR, "at": at, "evse_uid": evse}
        if kind == "service":
            return {"event": kind, "node": OPERATOR, "evse_uid": evse, "in_service": self.draw.random() < 0.8}
        if kind == "swipe":
            return {"event": kind, "node": OPERATOR, "at": at, "evse_uid": evse, "connector_id": "1",
                    "token_uid": f"AA0{self.draw.randint(2, 6)}", "token_type": "RFID"}
        if kind == "token" and self.draw.random() < 0.5:
            return {"event": kind, "node": OTHER_PROVIDER, "at": at, "token": others_token(self.draw.randint(4, 6))}
        if kind == "token":
            whitelist = self.draw.choice(["ALLOWED_OFFLINE", "NEVER", "ALLOWED"])
            changed = {**token(self.draw.randint(2, 4)), "whitelist": whitelist, "valid": self.draw.random() < 0.9}
            return {"event": kind, "node": PROVIDER, "at": at, "token": changed}
        return {"event": kind, "node": PROVIDER, "at": at, "operator": OPERATOR, **self.order(evse)}

    def line(self, event):
        """The event as a line of `node`."""
        if event["event"] != "deliver":
            return line_of(**event)
        envelope = {name: event[name] for name in ("event", "node", "at")}
        packet = self.packets[event["from"], event["serial"]]
        return line_of(**envelope, packet=None).replace(b"null", packet)


def draw_lines(program, party, number, draw):
    """So many events of a party as lines, each with whether it sent packets in `play`; and some of the other's."""
    run, drawing, lines = Run(program), WideDrawing(draw), []
    run.give(wide_setup())
    run.answer()
    own = 0
    while own < number:
        event = drawing.event() if lines else drawing.first_event()
        run.give(line_of(**event))
        said = run.answer()
        drawing.saw(said)
        if event["node"] == party or not lines or draw.random() < 0.02:
            lines.append((drawing.line(event), event["node"] == party and bool(said)))
        own += event["node"] == party
    run.end()
    return lines


def wrong_event(party, draw):
    """An event that is malformed, or that the node refuses, and which nobody else has to do with."""
    packet = {"from": "AT/XXX", "to": party, "serial": 1, "request": 1, "kind": "ack",
              "body": {"status_code": 1000, "timestamp": "2025-01-01T10:00:00Z"}}
    return draw.choice([
        b"7", b"[]", b'{"event":"none"}', line_of(event="tick", node=party), line_of(event="restart", node="AT/XX"),
        line_of(event="deliver", node=party, at="2025-01-01T10:00:00Z", packet=packet)]).rstrip(b"\n")


def in_groups(lines, party, most, draw):
    """The same events with up to so many in a line, some wrong ones among them; and some lines without any."""
    groups, at = [], 0
    while at < len(lines):
        if draw.random() < 0.2:
            groups.append(lines[at])
            at += 1
            continue
        taken = lines[at:at + draw.randint(0 if draw.random() < 0.1 else 1, most)]
        at += len(taken)
        events = [line.rstrip(b"\n") for line, _ in taken]
        for place in range(len(events), -1, -1):
            if draw.random() < 0.04:
                events.insert(place, wrong_event(party, draw))
        groups.append((b"[" + b",".join(events) + b"]\n", any(sends for _, sends in taken)))
    return groups
