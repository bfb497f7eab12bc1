#!/usr/bin/env python3
"""Weaves transcripts by itself, as docs/PROTOCOL.md has it, for tests of `ocpi_nodes weave`.

    cases/woven_run.py [--given PARTY].. [[--store STORE] FILE]..

It prints the run, or the refusal 1, 2 or 3. It knows no node, so it takes what a node printed as right, also where a file
begins with a STORE, which it never reads: the refusals of one file by itself are never told. Where only a node could say what a
line gave that a stop cut, or a line is none of a transcript, it gives up and says so (Unmodelled). It is written from the
rules, and not from the code.
"""

import json
import re
import sys
from decimal import Decimal

CARRIED_OUT = ("stepped", "idle")
SPACES = " \t\n\r"


class Unmodelled(Exception):
    """What this script does not know."""


class Refused(Exception):
    """Why there is no run."""


def object_of(line):
    """The object that a line is, its numbers as decimals; none where it is no object."""
    try:
        value = json.loads(line, parse_float=Decimal, parse_int=Decimal)
    except ValueError:
        return None
    return value if isinstance(value, dict) else None


def elements_of(line):
    """Of a line of several events the text of each, without the spaces around it; none where it is no such line."""
    text, texts = line.decode().strip(SPACES), []
    if not text.startswith("["):
        return None
    at = 1
    while (text[at:].lstrip(SPACES))[:1] != "]":
        at = len(text) - len(text[at:].lstrip(SPACES + ","))
        _, end = json.JSONDecoder().raw_decode(text, at)
        texts.append(text[at:end].encode())
        at = end
    return texts


def key_of(party):
    return party.upper()


def runs_of(text):
    """The runs of a file: the lines of each with their numbers, and whether the last one has its line feed."""
    lines, run = text.split(b"\n"), []
    for number, line in enumerate(lines, 1):
        if line:
            run.append((number, line))
        elif run:
            # (Two line feeds are the next run's. A third one is that of the line before.)
            yield run, lines[number:number + 1] in ([b""], [])
            run = []
    if run:
        yield run, False


class Opening:
    """A run that was opened: its setup line, with the setup without its `line`, and `opened`."""

    def __init__(self, line, told):
        self.line, self.text, self.told = line, told, object_of(told)
        self.setup = {name: it for name, it in object_of(line).items() if name != "line"}
        self.parties = {key_of(node["party"]): node["party"] for node in self.setup["nodes"]}


class Entry:
    """An event that was carried out: its line, what it is, the packets behind it, and the run in which it was."""

    def __init__(self, number, line, event, packets, opening):
        self.number, self.line, self.event, self.packets, self.opening = number, line, event, packets, opening

    def delivered(self):
        return self.event["packet"] if self.event.get("event") == "deliver" else None


class Transcript:
    """What a file tells."""

    def __init__(self, name, text, has_store=False):
        self.name, self.has_store, self.openings, self.entries = name, has_store, [], []
        # whether a stop may have kept packets from being printed
        self.may_lack = False
        # the number of the last line that took hold; and a line of which only the echo was printed: its number in its file,
        # its number as a line, and what it is
        self.held, self.doubt = 1, None
        for run, is_ended in runs_of(text):
            self.take_run(run, is_ended)
        if not self.openings:
            raise Unmodelled(f"{name}: no run was opened")
        self.party = self.openings[0].told["party"]

    def take_run(self, run, is_ended):
        """Takes what one run printed."""
        (_, setup), *behind = run
        if not behind or (object_of(behind[0][1]) or {}).get("done") == "malformed":
            return
        if "nodes" not in (object_of(setup) or {}):
            raise Unmodelled(f"{self.name}:{run[0][0]}: no setup")
        told = object_of(behind[0][1])
        if told is None:
            self.settle(re.match(rb'\{"done":"opened","line":(\d+,?)', behind[0][1]))
            return
        if told.get("done") != "opened":
            raise Unmodelled(f"{self.name}:{behind[0][0]}: no `opened`")
        self.settle(re.match(b"(.*)", b"%d," % told["line"]))
        self.held = int(told["line"])
        self.openings.append(Opening(setup, behind[0][1]))
        if len(self.openings) > 1:
            self.add(run[0][0], setup, {"event": "restart"}, [])
        base = object_of(setup).get("line")
        self.take_lines(behind[1:], int(told["line"] if base is None else base), is_ended)

    def settle(self, told):
        """Says whether the line in doubt took hold, by the number of an `opened`, as far as it stands there."""
        if not self.doubt:
            return
        doubt, self.doubt = self.doubt, None
        took, left = ((b"%d," % number).startswith(told[1] if told else b"") for number in (doubt[1], self.held))
        if took and left:
            raise Unmodelled(f"{self.name}: a line took hold or did not, by an `opened` that is cut")
        if not took:
            return
        if elements_of(doubt[2]) is not None:
            raise Unmodelled(f"{self.name}:{doubt[0]}: which of these events were refused")
        self.may_lack = True
        self.add(doubt[0], doubt[2], object_of(doubt[2]), [])

    def add(self, number, line, event, packets):
        self.entries.append(Entry(number, line, event, packets, self.openings[-1]))

    def take_lines(self, lines, base, is_ended):
        """Takes the lines behind an opening, each with all that stands behind it."""
        at, last = 0, base
        while at < len(lines):
            number, line = lines[at]
            at, last, packets, answers, done = at + 1, last + 1, [], [], None
            while at < len(lines) and done is None:
                told = object_of(lines[at][1])
                at += 1
                if told is None:
                    self.take_cut(number, line, packets, answers, lines[at - 1][1])
                    return
                if "done" not in told:
                    packets.append(told)
                elif "event" in told:
                    answers.append((packets, told["done"]))
                    packets = []
                else:
                    done = told["done"]
            if done == "stepped" or any(word == "stepped" for _, word in answers):
                self.held = last
            if done is not None:
                self.take_done(number, line, packets, answers, done)
            elif packets or answers:
                self.take_cut(number, line, packets, answers, b"")
            elif is_ended:
                self.doubt = number, last, line

    def take_done(self, number, line, packets, answers, done):
        """A line that has its `done`: one event, or several, each with its packets and its `done`."""
        if done in CARRIED_OUT:
            self.add(number, line, object_of(line), packets)
        if done != "all":
            return
        texts = elements_of(line)
        if texts is None or len(texts) != len(answers):
            raise Unmodelled(f"{self.name}:{number}: it has not as many events as are answered")
        for text, (sent, word) in zip(texts, answers):
            if word in CARRIED_OUT:
                self.add(number, text, object_of(text), sent)

    def take_cut(self, number, line, packets, answers, cut):
        """A line of which a stop cut what it gives. One event was carried out whole; of several some may have been refused."""
        self.may_lack = True
        if elements_of(line) is not None:
            if len(answers) != len(elements_of(line)):
                raise Unmodelled(f"{self.name}:{number}: which of these events were refused")
            self.take_done(number, line, [], answers, "all")
        elif packets or cut.startswith((b'{"b', b'{"done":"st', b'{"done":"i')):
            self.add(number, line, object_of(line), packets)
        elif not cut.startswith((b'{"done":"k', b'{"done":"sk', b'{"done":"m', b'{"done":"r')):
            raise Unmodelled(f"{self.name}:{number}: it was carried out or refused")


def taken_as_came(transcripts, given):
    """Whether a packet is taken as it came: its sender is given, or had sent it before its file begins."""
    before = {key_of(it.party): it.openings[0].told["serial"] for it in transcripts if it.has_store}
    return lambda packet: (key_of(packet["from"]) in given
                           or 0 < packet["serial"] <= before.get(key_of(packet["from"]), 0))


def place_of(transcript, entry):
    return f"{transcript.name}:{entry.number}"


def seen_of(transcripts):
    """All packets that were seen, by sender and serial, each with where it stands."""
    return {(key_of(it.party), packet["serial"]): (packet, place_of(it, entry))
            for it in transcripts for entry in it.entries for packet in entry.packets}


def try_deliveries(transcripts, is_taken):
    """That each packet which came was sent so, unless it is taken as it came."""
    seen = seen_of(transcripts)
    lacking = {key_of(it.party) for it in transcripts if it.may_lack}
    for transcript in transcripts:
        for entry in transcript.entries:
            came = entry.delivered()
            if came is None or is_taken(came):
                continue
            key = key_of(came["from"]), came["serial"]
            told = f"{entry.opening.parties.get(key[0], came['from'])} {key[1]}"
            if key not in seen and key[0] in lacking:
                raise Unmodelled(f"{told} may be a packet that a stop kept from being printed")
            if key not in seen:
                raise Refused(f"refused 1 NeverSent({told} {place_of(transcript, entry)})")
            packet, there = seen[key]
            if packet != came:
                raise Refused(f"refused 2 Differs({told} {there} {place_of(transcript, entry)})")


def order_of(transcripts, is_taken):
    """All entries, round by round, each file as far as it can go."""
    places, sent, order = [0] * len(transcripts), set(), []
    is_moving = True
    while is_moving:
        is_moving = False
        for at, transcript in enumerate(transcripts):
            while places[at] < len(transcript.entries):
                entry = transcript.entries[places[at]]
                came = entry.delivered()
                if came is not None and not is_taken(came) and (key_of(came["from"]), came["serial"]) not in sent:
                    break
                sent.update((key_of(transcript.party), packet["serial"]) for packet in entry.packets)
                order.append((transcript, entry))
                places[at] += 1
                is_moving = True
    left = [place_of(it, it.entries[place]) for it, place in zip(transcripts, places) if place < len(it.entries)]
    if left:
        raise Refused(f"refused 3 NoOrder({' '.join(left)})")
    return order


def moment_of(text):
    """A moment as it is written: in UTC, with its milliseconds where it has any."""
    date, time, fraction = re.fullmatch(r"([\d-]+)[Tt]([\d:]+)(?:\.(\d+))?(?:[Zz]|[+-]00:00)?", text).groups()
    thousandths = ((fraction or "") + "000")[:3]
    return f"{date}T{time}{'' if thousandths == '000' else '.' + thousandths}Z"


def line_of(transcript, entry, is_taken):
    """An event of the run."""
    parties, came = entry.opening.parties, entry.delivered()
    node = parties[key_of(transcript.party)]
    if entry.event == {"event": "restart"}:
        made = {"event": "restart", "node": node}
    elif came is None or is_taken(came):
        return entry.line
    else:
        made = {"at": moment_of(entry.event["at"]), "event": "deliver", "from": parties[key_of(came["from"])], "node": node,
                "serial": int(came["serial"])}
    return json.dumps(made, separators=(",", ":"), ensure_ascii=False).encode()


def is_input_of_play(transcripts):
    """Whether each file begins without rows, and all setups are equal."""
    setups = [opening.setup for it in transcripts for opening in it.openings]
    return all(it.openings[0].told["rows"] == 0 for it in transcripts) and all(it == setups[0] for it in setups)


def lines_of(transcripts, order, is_taken):
    """The lines of the run."""
    if is_input_of_play(transcripts):
        return [transcripts[0].openings[0].line, *(line_of(*it, is_taken) for it in order)]
    lines, last = [it.openings[0].text for it in transcripts], {}
    for transcript, entry in order:
        if last.get(transcript.name) != entry.opening.setup:
            lines.append(entry.opening.line)
        last[transcript.name] = entry.opening.setup
        lines.append(line_of(transcript, entry, is_taken))
    return lines


def weave(files, given=()):
    """The run of files, which are names and texts, with a third member where a STORE stands before; as bytes of lines, or
    the line with the refusal. What the given parties sent is taken as it came."""
    transcripts = [Transcript(*file) for file in files]
    given = {key_of(party) for party in given}
    parties = {party for it in transcripts for opening in it.openings for party in opening.parties}
    if not given <= parties - {key_of(it.party) for it in transcripts}:
        raise Unmodelled("a given party has a file, or is of no setup")
    is_taken = taken_as_came(transcripts, given)
    try:
        try_deliveries(transcripts, is_taken)
        order = order_of(transcripts, is_taken)
    except Refused as refused:
        return f"{refused}\n".encode()
    return b"".join(line + b"\n" for line in lines_of(transcripts, order, is_taken))


def words_of(words):
    """The files of a command line, each with whether a STORE stands before it, and the given parties."""
    files, given, has_store, words = [], [], False, iter(words)
    for word in words:
        if word == "--given":
            given.append(next(words))
        elif word == "--store":
            next(words)
            has_store = True
        else:
            files.append((word, has_store))
            has_store = False
    return files, given


def main():
    files = []
    names, given = words_of(sys.argv[1:])
    for name, has_store in names:
        with open(name, "rb") as file:
            files.append((name, file.read(), has_store))
    try:
        sys.stdout.buffer.write(weave(files, given))
    except Unmodelled as fault:
        sys.exit(f"woven_run: {fault}")
    return 0


if __name__ == "__main__":
    sys.exit(main())
