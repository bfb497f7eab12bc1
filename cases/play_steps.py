"""What `play_providers` and `play_operators` share: scripts, of which the events at one node are replayed at a node of the program
`case_lines`, and what each of these must give.

In a folder each script has four files: NAME.in is a setup line and event lines; NAME.steps has for each event line a JSON object
with its `outcome`, the `packet` that a delivery delivers, the `packets` that are sent, and the rows that are `put` ([kind, key,
text]) and `dropped` ([kind, key]), of which a row that is put as it stood is left out; NAME.rows has the rows that stand at the
end, as [node from 1, kind, key, text]; NAME.out is what the script writes. A script whose setup is refused has no steps.
"""
import json
import pathlib
import re
import subprocess
import sys
from decimal import Decimal


def lines_of(file):
    """The lines of a file that are not empty, as bytes, since some are no text."""
    lines = [line.removesuffix(b"\r") for line in file.read_bytes().split(b"\n")]
    return [line for line in lines if line]


def value_of(line):
    return json.loads(line, parse_float=Decimal)


def spelled(value):
    """The line of a value, with its decimals as they were spelled."""
    return re.sub(r'"decimal (.*?)"', r"\1", json.dumps(value, default=lambda number: f"decimal {number:f}"))


def written(packet):
    """The line of a packet that is sent: members in the order of their names, decimals of four places."""
    text = json.dumps(
        packet, separators=(",", ":"), sort_keys=True, ensure_ascii=False, default=lambda number: f"decimal {number:.4f}"
    )
    return re.sub(r'"decimal (.*?)"', r"\1", text)


class Script:
    """A script: its nodes, as its setup has them, and its event lines with their steps."""

    def __init__(self, folder, name):
        self.name = name
        self.nodes, self.events, self.rows, self.output = [], [], [], []
        steps = [value_of(line) for line in lines_of(folder / f"{name}.steps")]
        if not steps:
            return
        setup, *lines = lines_of(folder / f"{name}.in")
        assert len(lines) == len(steps), name
        self.nodes = value_of(setup)["nodes"]
        self.events = list(zip(lines, steps))
        self.rows = [json.loads(line) for line in lines_of(folder / f"{name}.rows")]
        self.output = lines_of(folder / f"{name}.out")

    def nodes_with_places(self, is_operator):
        """The operators or the providers, each with its place among all nodes, from 1."""
        return [(place, node) for place, node in enumerate(self.nodes, 1) if (node.get("site") is not None) == is_operator]

    def events_at(self, party, names, outcomes):
        """The lines of the events of those names at that node which come to one of those outcomes, each with its step. The line
        of a delivery is the moment and the packet."""
        for line, step in self.events:
            if step["outcome"] not in outcomes:
                continue
            event = json.loads(line)
            if event["event"] not in names or event["node"].upper() != party.upper():
                continue
            if event["event"] == "deliver":
                yield f"{event['at']} {spelled(step['packet'])}", step
            else:
                yield line.decode().strip(), step

    def rows_at(self, place):
        """The rows that stand at the end at the node of that place, as `stored` gives them."""
        return sorted(f"put {kind} {key} {text}" for number, kind, key, text in self.rows if number == place)


class Replay:
    """The lines for one node of a script, and what each must give: a step, or the lines themselves. The first two lines open the
    part and the node, and give nothing."""

    def __init__(self, name, party, part, opening):
        self.name, self.party = name, party
        self.lines = [f"\f{part}", opening]
        self.wanted = []
        self.rows = {}

    def enter(self, line, step):
        self.lines.append(line)
        self.wanted.append(step)

    def change_rows(self, lines):
        """Carries out changes of rows. Answers the rows that are put, but for those put as they stood, and those dropped."""
        put, dropped = set(), set()
        for verb, row in (line.split(" ", 1) for line in lines):
            kind, rest = row.split(" ", 1)
            if verb == "drop":
                dropped.add((kind, rest))
                self.rows.pop((kind, rest), None)
                continue
            key, text = rest[: rest.index(" {")], rest[rest.index(" {") + 1 :]
            if self.rows.get((kind, key)) != text:
                put.add((kind, key, text))
            self.rows[(kind, key)] = text
        return put, dropped

    def tell(self, answer, step):
        """How what a line gave is not as the step says, if it is not."""
        if isinstance(step, list):
            return None if answer == step else f"gives {answer}, and not {step}"
        if step["outcome"] != "stepped":
            return None if answer == [step["outcome"]] else f"gives {answer}, and not {step['outcome']}"
        if answer and answer[0].startswith("refused "):
            return f"gives {answer}, and not {step}"
        sent = [line for line in answer if line.startswith("{")]
        wanted = [written(packet) for packet in step["packets"]]
        if sent != wanted:
            return f"sends {sent}, and not {wanted}"
        put, dropped = self.change_rows(line for line in answer if not line.startswith("{"))
        if put != {tuple(row) for row in step["put"]} or dropped != {tuple(row) for row in step["dropped"]}:
            return f"puts {sorted(put)} and drops {sorted(dropped)}, and not {step['put']} and {step['dropped']}"
        return None


def answers_of(output):
    """What each line gave: the lines up to an empty one."""
    answer = []
    for line in output.split("\n"):
        if line:
            answer.append(line)
        else:
            yield answer
            answer = []


def answers_from(program, replays):
    """What the program gives for each line of the replays that is to give something."""
    lines = [line for replay in replays for line in replay.lines]
    ran = subprocess.run([program], input="".join(f"{line}\n" for line in lines).encode(), capture_output=True, timeout=600)
    if ran.returncode or ran.stderr:
        sys.exit(f"status {ran.returncode}: {ran.stderr[:300]}")
    return answers_of(ran.stdout.decode())


def play(usage, role, replays_of):
    """Replays the scripts of the folder that the command line names, of each those for nodes of one role, and writes what does not
    agree, the first of each node. The last line says how many scripts and nodes agree."""
    if len(sys.argv) < 3:
        sys.exit(usage)
    program, folder = sys.argv[1], pathlib.Path(sys.argv[2])
    names = sys.argv[3:] or sorted(file.stem for file in folder.glob("*.steps"))
    found = {name: list(replays_of(Script(folder, name))) for name in names}
    answers = answers_from(program, [replay for replays in found.values() for replay in replays])
    scripts = nodes = events = agreed = 0
    for name, replays in found.items():
        before = agreed
        for replay in replays:
            told = [(line, replay.tell(next(answers), step)) for line, step in zip(replay.lines[2:], replay.wanted)]
            wrong = [f"{name} {replay.party}: {line[:300]}: {fault[:1500]}" for line, fault in told if fault]
            print("".join(f"{line}\n" for line in wrong[:1]), end="")
            agreed += not wrong
            nodes += 1
            events += len(told)
        scripts += agreed - before == len(replays)
    print(f"{scripts} of {len(found)} scripts agree, {agreed} of {nodes} {role}, {events} lines")
    return 0 if scripts == len(found) else 1
