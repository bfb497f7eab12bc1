"""Things that are done wrong on purpose, to see that faults/network_trial.py finds them."""

import contextlib
import os
import random
import shutil
import sqlite3

from network_nodes import Node
from network_setups import HONEST, is_operator
from network_strangers import Strangers

Spoken = tuple[str, bytes]


class Plant:
    """Nothing is done wrong."""

    def __init__(self, draw: random.Random) -> None:
        self.draw = draw

    def invents(self) -> float:
        """The part of all packets that links change."""
        return 0.0

    def spoken(self, spoken: Spoken, _: Strangers) -> Spoken:
        """What a stranger sends in place of that packet."""
        return spoken

    def stopped(self, node: Node) -> None:
        """A node was stopped."""

    def starts(self, node: Node) -> None:
        """A node is to be started."""

    def ended(self, node: Node) -> None:
        """A node ended for good."""


class Twice(Plant):
    def starts(self, node: Node) -> None:
        done = node.seen - 1
        node.lines[done:done] = node.lines[max(done - 4, 0):done]


class Invents(Plant):
    def invents(self) -> float:
        return 0.5


class Speaks(Plant):
    def spoken(self, spoken: Spoken, strangers: Strangers) -> Spoken:
        to, text = spoken
        party = self.draw.choice([it for it in HONEST if is_operator(it) != is_operator(to)])
        start, _, rest = text.partition(b',"from":"')
        return to, start + b',"from":"' + party.encode() + rest[6:]


class Edited(Plant):
    """The energy of sessions, and the cost of records, is another at a provider: it is a node's store still."""

    def stopped(self, node: Node) -> None:
        if is_operator(node.party):
            return
        with contextlib.closing(sqlite3.connect(node.store)) as file, file:
            file.execute("UPDATE row_text SET body = json_set(body, '$.kwh', 77.5) WHERE kind = 'session'")
            file.execute("UPDATE row_text SET body = json_set(body, '$.total_cost.excl_vat', 77.5) WHERE kind = 'cdr'")
        node.look()


class Older(Plant):
    def __init__(self, draw: random.Random) -> None:
        super().__init__(draw)
        self.copied: set[str] = set()

    def stopped(self, node: Node) -> None:
        copied = f"{node.store}.older"
        sources = (node.store, copied) if node.party not in self.copied else (copied, node.store)
        if node.party in self.copied or node.seen > 5:
            for end in ("", "-wal"):
                with contextlib.suppress(FileNotFoundError):
                    os.remove(sources[1] + end)
                with contextlib.suppress(FileNotFoundError):
                    shutil.copy(sources[0] + end, sources[1] + end)
            self.copied ^= {node.party}
            node.look()


class Forgets(Plant):
    """A line that sent something, and what it gave, is taken out of the last transcript of an operator."""

    def ended(self, node: Node) -> None:
        name = node.transcripts[-1][1]
        if not is_operator(node.party) or not os.path.exists(name):
            return
        with open(name, "rb") as file:
            lines = file.read().split(b"\n")
        places = [place for place, line in enumerate(lines) if line.startswith(b'{"body"')
                  and lines[place - 1].startswith(b'{"event"') and lines[place + 1].startswith(b'{"done":"stepped"')]
        if places:
            del lines[places[0] - 1:places[0] + 2]
            with open(name, "wb") as file:
                file.write(b"\n".join(lines))


PLANTS: dict[str | None, type[Plant]] = {
    None: Plant, "twice": Twice, "invents": Invents, "speaks": Speaks, "edited": Edited, "older": Older,
    "forgets": Forgets}
