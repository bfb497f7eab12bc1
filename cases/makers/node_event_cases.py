"""The cases of `packet_cases` that are event lines of one node, behind `node_event `, and what each must give: the packet's
line for a delivery, `taken` for another event, or why it is refused. `packet_cases` writes them behind its own.

A delivery holds its packet. Each other event is as one of a run, so its lines are those of `event_cases`.
"""

from event_cases import AT, CASES as EVENT_CASES, MOMENT, PARTY, Raw, least, most, text, wrong
from packet_forms import answer, read_tree, spell

MARK = "node_event "
CASES = []


def case(line, wanted):
    CASES.append((MARK + line, wanted))


def refused(members, fault):
    case(text(members), f"refused {fault}")


def delivery(packet, **others):
    """The members of a delivery of a packet, which is a line or a value; others are changed or added."""
    return {"event": "deliver", "node": "BE/BEC", "at": AT, "packet": packet, **others}


def without(members, name):
    return {given: value for given, value in members.items() if given != name}


def changed(line, old, new):
    """The line with another text in the place of one."""
    assert line.count(old) == 1, (line, old)
    return line.replace(old, new)


def add_other_events():
    for line, wanted in EVENT_CASES:
        if line.startswith("event ") and '"event":"deliver"' not in line:
            case(line.removeprefix("event "), wanted)


def add_packets(packets):
    """A packet is taken, or refused, as its line is: whole, and with another value in each member's place."""
    for packet in packets:
        case(text(delivery(Raw(packet))), packet)
        case(text({"packet": Raw(packet), **without(delivery(None), "packet")}), packet)
        tree = read_tree(packet)
        for place in (tree, tree["body"]):
            for name, value in place.items():
                for other in (None, True, [value]):
                    place[name] = other
                    case(text(delivery(Raw(spell(tree)))), answer(spell(tree)))
                place[name] = value


def add_members(packet):
    """What stands beside the packet."""
    base = delivery(Raw(packet))
    case(text({**base, "at": least[MOMENT], "node": least[PARTY]}), packet)
    case(text({**base, "at": most[MOMENT], "node": most[PARTY], "more": [1, {"at": None}]}), packet)
    for name, form in [("node", PARTY), ("at", MOMENT)]:
        refused(without(base, name), f"4 Missing({name})")
        refused({**base, name: None}, f"4 Missing({name})")
        for value in wrong[form]:
            refused({**base, name: value}, f"5 WrongForm({name})")
    # the members of an event of a run say nothing here
    for beside in [
        {"from": "NL/TNM", "serial": 3},
        {"from": None, "serial": None},
        {"from": 1, "serial": "3"},
        {"to": [], "body": 1, "kind": "ack"},
    ]:
        case(text({**beside, **base}), packet)
        case(text({**base, **beside}), packet)
        refused({**without(base, "packet"), **beside}, "4 Missing(packet)")
    refused({**base, "packet": None}, "4 Missing(packet)")
    for value in [packet, 1, True, [], [Raw(packet)], "", Raw("-1.5e3")]:
        refused({**base, "packet": value}, "5 WrongForm(packet)")
    # of a repeated name the last counts
    case(text(base)[:-1] + ',"packet":null,"packet":' + packet + "}", packet)
    case(text(base)[:-1] + ',"packet":null}', "refused 4 Missing(packet)")


def add_order(packet):
    """The order in which faults are told: of the event, and then of the packet."""
    bad = changed(packet, '"from":"NL/TNM"', '"from":1')
    refused(delivery(Raw(bad), event="delivery", node=1, at=1), "7 UnknownKind")
    refused(delivery(Raw(bad), node=1, at=1), "5 WrongForm(node)")
    refused(delivery(Raw(bad), at=1), "5 WrongForm(at)")
    refused(without(delivery(Raw(bad)), "at"), "4 Missing(at)")
    refused(delivery(None, at=1), "5 WrongForm(at)")
    refused(delivery(Raw(bad)), "5 WrongForm(from)")
    refused({"event": "deliver"}, "4 Missing(node)")
    refused({"event": "deliver", "node": "BE/BEC"}, "4 Missing(at)")
    refused({"event": "deliver", "node": "BE/BEC", "at": AT}, "4 Missing(packet)")
    members, right = {}, {"from": "NL/TNM", "to": "BE/BEC", "serial": 1, "request": 1, "kind": "stop_session", "body": {}}
    for name, value in right.items():
        refused(delivery(dict(members)), f"4 Missing({name})")
        refused(delivery({**members, name: None}), f"4 Missing({name})")
        refused(delivery({**members, name: True}), f"5 WrongForm({name})")
        members[name] = value
    refused(delivery(members), "4 Missing(response_url)")
    refused(delivery({**members, "kind": "stop"}), "7 UnknownKind")
    # a packet is read in an event that delivers it, and in no other
    case(text({"event": "tick", "node": "BE/BEC", "at": AT, "packet": Raw(bad)}), "taken")


def add_lines(packet):
    """A delivery nests one deeper than its packet."""
    line = text(delivery(Raw(packet)))
    for depth, wanted in [(125, packet), (126, "refused 1 Syntax")]:
        deep = "[" * depth + "]" * depth
        case(changed(line, '"packet":{', '"packet":{"more":' + deep + ","), wanted)
    case(changed(line, '"serial":', '"serial":01,"serial":'), "refused 2 BadNumberToken")
    case(changed(line, '"kind":"', '"kind":"\\u0001'), "refused 3 TaggedText")
    case(line[:-1], "refused 1 Syntax")


def add_cases(packets):
    """The cases, of packets of all kinds, each on its line as it is written."""
    start = packets[0]
    add_other_events()
    add_packets(packets)
    add_members(start)
    add_order(start)
    add_lines(start)
    return CASES
