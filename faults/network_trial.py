#!/usr/bin/env python3
"""Runs networks of real processes of `node`, each with a setup of its own, and looks whether the promise was kept.

    faults/network_trial.py PROGRAM [--runs 50] [--seed 1] [--events 900] [--folder FOLDER] [--plant FAULT]
                            [--patience 60]

PROGRAM is `ocpi_nodes`. In each run there are three operators and three providers, each a process with a store and a
transcript. No two setups are equal: each has other partners, in another order and spelling, and strangers among them;
an operator has its own site, prices and currency. Nodes are fed ahead by the five sentences of docs/NODE.md, some lines
with several events. Between them links lose, repeat, reorder and delay packets. Strangers run no node. They know what
honest nodes say, and send packets as themselves to anybody. Nodes are killed (SIGKILL), or their input ends, and most
start again under a setup that differs (faults/network_setups.py has how). Each setup is opened, or refused by the row
and the reason, just as the table of docs/NODE.md says; a refusal changes no row, and the setup of before is given then.

At the end links lose nothing, and all nodes get ticks until honest partners have nothing more to say to one another.
Then the promise is looked for in the rows of each honest node and pair (faults/network_promise.py), and

- `settle` owes what the held bills less the held credits are, by operator and currency;
- each event was carried out once, in the order in which it was journaled;
- `weave` takes the transcripts of each pair with all others given, whole, and from where they last began anew over a
  copy of the store; and those of some nodes, and of all six. The run that it makes has what its files have.

With --plant one thing is done wrong on purpose, and each run must fail: FAULT is one of

    twice     a feeder forgets a `done`, and feeds lines again under new numbers
    invents   links change the energy that packets tell
    speaks    a stranger sends packets in the name of honest parties
    edited    a session in a store of a node is edited while the node is stopped
    older     an older copy of a store is put in place while its node is stopped
    forgets   a line is taken out of a transcript

A process may take --patience seconds for its next line, and for its end: give more where the machine has other work.
Standard error has a line for each run, and what was wrong. The last line but one tells how often each change of a
setup was taken and refused. The last line is 'N runs, M failed'; the status is 0 where
none failed.
"""

import argparse
import contextlib
import os
import random
import shutil
import sys
import tempfile
from collections import Counter
from collections.abc import Iterable

sys.dont_write_bytecode = True
import network_nodes
from network_events import Events
from network_links import Links
from network_nodes import Broken, Node
from network_plants import PLANTS, Plant
from network_promise import Promise, fault_of_settle
from network_rows import QUICK
from network_setups import HONEST, changed, draw_setup, is_operator
from network_strangers import TOKENS, Strangers, read_packet
from network_transcripts import Weaving, order_of, pasts_of, text_of, tokens_of

WAYS = {"a kill": 3, "a kill that loses packets": 3, "a kill at the end": 1, "an end": 2}
# The most rounds of ticks until all is quiet.
ROUNDS = 60


class Network:
    """One run."""

    def __init__(self, program: str, folder: str, seed: int, events: int, plant: Plant) -> None:
        self.program, self.folder, self.events, self.plant = program, folder, events, plant
        self.draw = random.Random(seed)
        setups = {party: draw_setup(self.draw, party) for party in HONEST}
        self.nodes = {party: Node(program, folder, setup, self.draw) for party, setup in setups.items()}
        self.drawn, self.links = Events(self.draw, self.nodes), Links(self.draw, plant.invents())
        self.strangers, self.promise = Strangers(self.draw), Promise()
        self.step, self.packets, self.woven = 0, 0, 0
        self.wrong: list[str] = []
        self.stops: Counter[str] = Counter()
        self.changes: Counter[tuple[str, str]] = Counter()
        # Events that are still to be fed in one line.
        self.waiting: dict[str, list[tuple[str, bytes]]] = {party: [] for party in HONEST}

    # ---- what happens

    def run(self) -> list[str]:
        """Runs all, and answers what was wrong."""
        weaving = Weaving(self.program, self.folder, self.draw)
        try:
            for node in self.nodes.values():
                self.start(node)
                if not is_operator(node.party):
                    for uid in TOKENS[:3]:
                        self.feed(node, "token", self.drawn.token(node.party, uid))
            for self.step in range(self.events):
                self.act()
            self.come_to_rest()
            self.end()
            self.wrong += self.look() + weaving.all(self.nodes)
        except Broken as fault:
            self.wrong.append(str(fault))
        finally:
            self.kill_all()
        self.woven = weaving.woven
        return [it for node in self.nodes.values() for it in node.wrong] + self.wrong

    def act(self) -> None:
        """One step: something happens at a node, on a link, or to a process."""
        node = self.nodes[self.draw.choice(HONEST)]
        what = self.draw.choices(("arrives", "happens", "tick", "stranger", "stop"), (46, 36, 6, 10, 2))[0]
        if what == "stop":
            self.stop(node)
        elif what == "tick":
            self.feed(node, "tick", self.drawn.tick(node.party))
        elif what == "happens":
            self.feed(node, *self.drawn.event(node.party))
        elif what == "stranger":
            to, text = self.plant.spoken(self.strangers.packet(), self.strangers)
            self.bring(to, text, "of a stranger")
        elif (sent := self.links.next(self.step)) is not None:
            self.bring(sent.to, sent.text, "of a partner")
        for other in self.nodes.values():
            if other.process is None and self.draw.random() < 0.1:
                self.start(other)
            self.send(other.party, other.collect(self.draw.choice((0, 1, 3, 12))))

    def bring(self, to: str, text: bytes, word: str) -> None:
        self.drawn.brought(to, read_packet(text))
        self.feed(self.nodes[to], word, self.drawn.delivery(to, text))

    def feed(self, node: Node, word: str, event: bytes) -> None:
        """Feeds an event, by itself or together with others."""
        waiting = self.waiting[node.party]
        waiting.append((word, event))
        if self.draw.random() < 0.6:
            node.give(waiting)
            self.waiting[node.party] = []

    def send(self, sender: str, packets: Iterable[bytes]) -> None:
        """Gives what a node wrote to the links."""
        for text in packets:
            packet = read_packet(text)
            self.packets += 1
            self.strangers.saw(packet)
            self.drawn.wrote(sender, packet)
            if packet["to"].upper() in HONEST:
                self.links.send(packet["to"].upper(), text, self.step)

    # ---- stops and starts

    def stop(self, node: Node) -> None:
        """Stops a node, or one that is stopped is killed while it opens its store."""
        if node.process is None:
            self.stops["a kill while it opens"] += 1
            node.stop_opening(changed(self.draw, node.setup, self.drawn.clock(node.party), False)[1])
        else:
            way = self.draw.choices(list(WAYS), list(WAYS.values()))[0]
            self.stops[way] += 1
            self.send(node.party, node.stop(way))
            self.plant.stopped(node)
        self.promise.look(node.party, node.rows)

    def start(self, node: Node) -> None:
        """Starts a node, under a setup that differs from that of before, or under that."""
        self.plant.starts(node)
        is_resting = is_operator(node.party) and not node.rows.living()
        while self.draw.random() < 0.7:
            change, setup = changed(self.draw, node.setup, self.drawn.clock(node.party), is_resting)
            is_taken = node.open(setup)
            self.changes[change, "taken" if is_taken else "refused"] += 1
            if is_taken:
                return
        if not node.open(node.setup):
            raise Broken(f"{node.party} is not opened under the setup that it had")

    def come_to_rest(self) -> None:
        """Brings all that is under way, and ticks, until no honest partners have anything more to say."""
        self.links.is_bad = False
        for node in self.nodes.values():
            if node.process is None:
                self.start(node)
            node.give(self.waiting.pop(node.party)) if self.waiting[node.party] else None
            if is_operator(node.party) and self.draw.random() < 0.7:
                node.give([("stops", self.drawn.ending(node.party, uid)) for uid in node.evses()])
        for _ in range(ROUNDS):
            said = self.bring_all()
            self.drawn.now += 11_000
            for node in self.nodes.values():
                node.give([("tick", self.drawn.tick(node.party))])
            if self.bring_all() + said == 0:
                return
        self.wrong.append(f"nodes are not quiet after {ROUNDS} rounds of ticks")

    def bring_all(self) -> int:
        """Brings all that is under way; how many packets partners said to one another."""
        said = 0
        while True:
            for node in self.nodes.values():
                packets = node.collect(0)
                said += sum(self.are_partners(node, read_packet(it)["to"].upper()) for it in packets)
                self.send(node.party, packets)
            if not self.links.under_way:
                return said
            while (sent := self.links.next(self.step)) is not None:
                self.nodes[sent.to].give([("of a partner", self.drawn.delivery(sent.to, sent.text))])

    def are_partners(self, node: Node, other: str) -> bool:
        return (other in self.nodes and other in node.setup.partners()
                and node.party in self.nodes[other].setup.partners())

    def end(self) -> None:
        for node in self.nodes.values():
            node.stop("an end")
            self.plant.ended(node)
            self.promise.look(node.party, node.rows)

    def kill_all(self) -> None:
        for node in self.nodes.values():
            if node.process:
                node.process.program.kill()
                with contextlib.suppress(Broken):
                    for _ in node.process.rest():
                        pass
                    node.process.end()

    # ---- what is looked at

    def look(self) -> list[str]:
        """What is wrong with the rows, with what is owed, and with the order of what was carried out."""
        texts = {party: text_of(node) for party, node in self.nodes.items()}
        pasts = {(party, session): past for party in texts if is_operator(party)
                 for session, past in pasts_of(texts[party]).items()}
        tokens = {party: tokens_of(text) for party, text in texts.items()}
        wrong = self.promise.end(pasts, tokens, {party: node.setups for party, node in self.nodes.items()})
        for party, node in self.nodes.items():
            wrong += order_of(party, texts[party])
            if not is_operator(party):
                wrong += fault_of_settle(self.program, node.store, self.promise.owed(party))
        return wrong

    def told(self) -> str:
        """What happened, in words."""
        came: Counter[tuple[str, str]] = sum((node.came for node in self.nodes.values()), Counter())
        found = self.promise.rows
        operators = [found[party] for party in found if is_operator(party)]
        counted = Counter(record["credit"] for rows in operators for record in rows.of("cdr").values())
        setups = Counter(word for (_, word), number in self.changes.items() for _ in range(number))
        return (f"{sum(len(node.lines) for node in self.nodes.values())} lines, {sum(self.stops.values())} stops, "
                f"setups {setups['taken']} taken and {setups['refused']} refused, {self.packets} packets, "
                f"{self.links.lost} lost, {self.links.repeated} repeated, {self.strangers.sent} of strangers "
                f"({came['of a stranger', 'stepped']} changed something), "
                f"{sum(len(it.of('session')) for it in operators)} sessions, {counted[False]} bills, "
                f"{counted[True]} credits, {self.woven} times woven")


def main() -> int:
    options = argparse.ArgumentParser(description=__doc__.split("\n", maxsplit=1)[0])
    options.add_argument("program")
    options.add_argument("--runs", type=int, default=50)
    options.add_argument("--seed", type=int, default=1)
    options.add_argument("--events", type=int, default=900)
    options.add_argument("--folder", help="where the files of runs that fail are kept")
    options.add_argument("--patience", type=float, default=network_nodes.PATIENCE)
    options.add_argument("--plant", choices=sorted(it for it in PLANTS if it))
    given = options.parse_args()
    program, failed = os.path.abspath(given.program), 0
    network_nodes.PATIENCE = given.patience
    changes: Counter[tuple[str, str]] = Counter()
    for seed in range(given.seed, given.seed + given.runs):
        with tempfile.TemporaryDirectory(dir=QUICK) as folder:
            network = Network(program, folder, seed, given.events, PLANTS[given.plant](random.Random(seed)))
            wrong = network.run()
            changes += network.changes
            print(f"seed {seed}: {network.told()}: {'FAILED' if wrong else 'as wanted'}", file=sys.stderr, flush=True)
            for it in wrong[:12]:
                print(f"  {it[:1500]}", file=sys.stderr)
            if wrong and given.folder:
                shutil.copytree(folder, os.path.join(given.folder, f"seed{seed}"), dirs_exist_ok=True)
        failed += bool(wrong)
    names = sorted({name for name, _ in changes})
    told = ", ".join(f"{name} {changes[name, 'taken']} and {changes[name, 'refused']}" for name in names)
    print(f"setups taken and refused: {told}")
    print(f"{given.runs} runs, {failed} failed")
    return 0 if failed == 0 else 1


if __name__ == "__main__":
    sys.exit(main())
