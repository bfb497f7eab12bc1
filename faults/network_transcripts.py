"""The transcripts of a network's nodes: what they say was carried out, and whether `weave` takes them, for
faults/network_trial.py."""

import json
import os
import random
import subprocess
from collections.abc import Iterator

from network_nodes import Node
from network_rows import read_json
from network_setups import HONEST, OPERATORS, PROVIDERS, Json

OPENED, DONE, PACKET, SETUP = b'{"done":"opened"', b'{"done"', b'{"body"', b'{"nodes"'
File = tuple[str, str]


def lines_of(text: bytes) -> Iterator[bytes]:
    """The lines of a transcript that are whole, and are not empty."""
    yield from (line for line in text.split(b"\n")[:-1] if line)


def text_of(node: Node) -> bytes:
    """All transcripts of a node, one behind the other."""
    text = b""
    for _, file in node.transcripts:
        if os.path.exists(file):
            with open(file, "rb") as part:
                text += part.read()
    return text


def pasts_of(text: bytes) -> dict[str, list[Json]]:
    """The versions of each session that an operator wrote, by its id in key form, each once and in their order."""
    pasts: dict[str, dict[str, Json]] = {}
    for line in lines_of(text):
        if line.startswith(PACKET) and b'"kind":"put_session"' in line:
            packet = try_json(line)
            if packet:
                past = pasts.setdefault(packet["body"]["id"].upper(), {})
                past.setdefault(json.dumps(packet["body"], default=str), packet["body"])
    return {name: list(past.values()) for name, past in pasts.items()}


def tokens_of(text: bytes) -> list[Json]:
    """The tokens that a provider wrote."""
    packets = [try_json(line) for line in lines_of(text) if line.startswith(PACKET) and b'"kind":"put_token"' in line]
    return [packet["body"] for packet in packets if packet]


def try_json(line: bytes) -> Json | None:
    """The object of a line; none where a stop cut it."""
    try:
        return read_json(line.decode())
    except ValueError:
        return None


def events_of(line: bytes) -> list[Json]:
    """The events in a line that was fed."""
    value = json.loads(line)
    return value if isinstance(value, list) else [value]


def carried_out(text: bytes) -> list[Json]:
    """All events that a transcript says were `stepped`, in its order."""
    found, events = [], []  # type: list[Json], list[Json]
    for line in lines_of(text):
        if line.startswith((b'{"event"', b"[")):
            events = events_of(line) if line.endswith((b"}", b"]")) else []
        elif line.startswith(b'{"done":"stepped"') and (told := try_json(line)):
            found.append(events[told.get("event", 0)])
    return found


def parties_of(files: list[str]) -> set[str]:
    """The parties of the setups with which runs in these transcripts were opened."""
    parties, setup = set(), b""
    for name in files:
        for line in read(name).split(b"\n"):
            setup = line if line.startswith(SETUP) else setup
            if line.startswith(OPENED) and line.endswith(b"}"):
                parties |= {it["party"].upper() for it in json.loads(setup)["nodes"]}
    return parties


def read(name: str) -> bytes:
    with open(name, "rb") as file:
        return file.read()


class Weaving:
    """Weaves transcripts, and counts how often that went well."""

    def __init__(self, program: str, folder: str, draw: random.Random) -> None:
        self.program, self.folder, self.draw, self.woven = program, folder, draw, 0
        self.wrong: list[str] = []

    def whole(self, node: Node) -> File | None:
        """All transcripts of a node in one file; none where it never was opened."""
        file = os.path.join(self.folder, f"{node.party.replace('/', '')}.whole")
        with open(file, "wb") as whole:
            whole.write(text_of(node))
        return ("", file) if parties_of([file]) else None

    def last(self, node: Node) -> File | None:
        """Its last transcript, with the copy of the store over which it begins."""
        store, file = node.transcripts[-1]
        return (store, file) if os.path.exists(file) and parties_of([file]) else self.whole(node)

    def weave(self, nodes: list[tuple[str, File | None]]) -> None:
        """Weaves files of parties, with what all others sent as given."""
        files = [(party, file) for party, file in nodes if file]
        if not files:
            return
        here = {party for party, _ in files}
        given = sorted(parties_of([name for _, (_, name) in files]) - here)
        words = [word for party in given for word in ("--given", party)]
        for _, (store, name) in files:
            words += [*(["--store", store] if store else []), name]
        ran = subprocess.run([self.program, "weave", *words], capture_output=True, check=False)
        if ran.returncode != 0 or ran.stderr:
            told = (ran.stdout[:300] + ran.stderr[:600]).decode()
            self.wrong.append(f"weave {' '.join(words)}: status {ran.returncode}: {told}")
        else:
            self.wrong += [f"weave {' '.join(words)}: {it}" for it in fault_of_run(ran.stdout, files)]
        self.woven += 1

    def all(self, nodes: dict[str, Node]) -> list[str]:
        """Weaves the transcripts of each pair, whole and from where they last began anew, of some, and of all."""
        whole = {party: self.whole(node) for party, node in nodes.items()}
        last = {party: self.last(node) for party, node in nodes.items()}
        for operator in OPERATORS:
            for provider in PROVIDERS:
                self.weave([(operator, whole[operator]), (provider, whole[provider])])
                if last[operator] != whole[operator] or last[provider] != whole[provider]:
                    self.weave([(provider, last[provider]), (operator, last[operator])])
        some = self.draw.sample(HONEST, self.draw.randint(1, 5))
        self.weave([(party, self.draw.choice((whole, last))[party]) for party in some])
        self.weave([(party, whole[party]) for party in HONEST])
        return self.wrong


def fault_of_run(run: bytes, files: list[tuple[str, File]]) -> Iterator[str]:
    """Whether a woven run has what its files say was `stepped`, in their order, but for deliveries between them."""
    found: dict[str, list[int]] = {party: [] for party, _ in files}
    for line in run.splitlines():
        event = json.loads(line)
        if "mark" in event:
            found[event["node"].upper()].append(event["mark"])
    for party, (_, name) in files:
        # (What did nothing may stand there more than once, as a stop has it fed again.)
        wanted = [it["mark"] for it in carried_out(read(name))
                  if it["event"] != "deliver" or it["packet"]["from"].upper() not in found]
        here = iter(found[party])
        if not all(mark in here for mark in wanted):
            yield f"it has not the events of {party}: {wanted}, {found[party]}"


def order_of(party: str, text: bytes) -> Iterator[str]:
    """That each event of a node was carried out once, and in the order in which they were journaled."""
    marks = [it["mark"] for it in carried_out(text)]
    if marks != sorted(set(marks)):
        at = next(place for place in range(1, len(marks)) if marks[place] <= marks[place - 1])
        yield f"{party}: event {marks[at]} was carried out after event {marks[at - 1]}"
