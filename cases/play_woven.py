#!/usr/bin/env python3
"""Plays runs that `weave` makes: cases/play_woven.py PROGRAM

For each example in examples/weave whose status is 0 its transcripts are made and woven. The run must be what
cases/woven_run.py makes of the files, where that knows. Where it is input of `play` it is handed to that: where no
party is given, and it begins with a setup line. What `play` writes must be the packets of the transcripts, each as it
was written there, those of a node in its order, and no others but what a stop kept from being written; and behind them
what is owed. The last line is 'N runs as wanted, M not, of K the rules were not enough'; the status is 0 where M is 0.
"""

import glob
import json
import os
import subprocess
import sys
import tempfile

TOP = os.path.dirname(os.path.dirname(os.path.abspath(__file__)))
sys.dont_write_bytecode = True
import woven_run


def read(path):
    with open(path, "rb") as file:
        return file.read()


def sent_in(text):
    """The packets that a transcript has, as they were written: objects with `kind`."""
    return [line for line in text.split(b"\n") if (woven_run.object_of(line) or {}).get("kind")]


def sender_of(line):
    packet = json.loads(line)
    return packet["from"], packet["serial"]


def fault_of_play(texts, played):
    """How the packets that `play` wrote are not those of the transcripts."""
    lines = played.stdout.splitlines()
    packets = [line for line in lines if line.startswith(b"{")]
    if played.returncode != 0 or played.stderr or not lines or not lines[-1].startswith(b"owed "):
        return f"`play` of it: status {played.returncode}, {played.stdout[-200:]!r}, {played.stderr[:200]!r}"
    if any(not line.startswith((b"{", b"owed ")) for line in lines):
        return "`play` skipped or refused one of its events"
    for text in texts:
        wanted = sent_in(text)
        party = sender_of(wanted[0])[0] if wanted else None
        of_party = [line for line in packets if sender_of(line)[0] == party]
        if [line for line in of_party if line in wanted] != wanted:
            return f"`play` of it does not give the packets of {party} in their order"
        unseen = [sender_of(line) for line in of_party if line not in wanted]
        if unseen and not has_stop(text):
            return f"`play` of it gives more packets: {unseen}"
    return None


def has_stop(text):
    """Whether some run does not end with a `done`, as a stop leaves it."""
    ends = [woven_run.object_of(run[-1][1]) or {} for run, _ in woven_run.runs_of(text)]
    return any("done" not in end or "event" in end for end in ends)


def modelled(files, given):
    """The run that the rules make of the files, where the script that has them knows."""
    try:
        return woven_run.weave(files, given)
    except woven_run.Unmodelled:
        return None


def run_of(example):
    """What the file `run` of an example says, by its keys."""
    with open(f"{example}/run", encoding="utf-8") as file:
        return dict(line.split(": ", 1) for line in file.read().splitlines())


def fault_of(program, example, run):
    """How a run is not as wanted, none where it is; and whether the script of the rules knew it."""
    words = run["words"].split()
    with tempfile.TemporaryDirectory() as folder:
        environment = {**os.environ, "example": example}
        subprocess.run(["bash", "-c", run["prepare"]], cwd=folder, env=environment, check=True)
        names, given = woven_run.words_of(words[1:])
        texts = [read(f"{folder}/{name}") for name, _ in names]
        woven = subprocess.run([program, *words], cwd=folder, capture_output=True, stdin=subprocess.DEVNULL, check=False)
        if woven.returncode != 0 or woven.stderr:
            return f"status {woven.returncode}, {woven.stdout[:200]!r}, {woven.stderr[:200]!r}", False
        wanted = modelled([(name, text, has_store) for (name, has_store), text in zip(names, texts)], given)
        if wanted not in (None, woven.stdout):
            return "the run is not what cases/woven_run.py makes", True
        if given or woven.stdout.startswith(b'{"done"'):
            return None, wanted is not None
        played = subprocess.run([program, "play"], input=woven.stdout, capture_output=True, check=False)
        return fault_of_play(texts, played), wanted is not None


def main():
    program, = (os.path.abspath(word) for word in sys.argv[1:])
    well = badly = unknown = 0
    for example in sorted(glob.glob(f"{TOP}/examples/weave/*")):
        run = run_of(example)
        if run["status"] != "0":
            continue
        name, (fault, is_known) = f"examples/weave/{os.path.basename(example)}", fault_of(program, example, run)
        unknown += not is_known
        if fault:
            badly += 1
            print(f"{name}: NOT AS WANTED: {fault}")
        else:
            well += 1
            print(f"{name}: as wanted")
    print(f"{well} runs as wanted, {badly} not, of {unknown} the rules were not enough")
    return 0 if well and not badly else 1


if __name__ == "__main__":
    sys.exit(main())
