#!/usr/bin/env python3
"""Replays the events that scripts have for providers, at providers of the program `case_lines`, and compares.

usage: play_providers.py PROGRAM FOLDER [NAME..]

PROGRAM is `case_lines`, as `tools/build_unproved` builds it of a copy that `cases/copy_cases` made. What a script in
FOLDER is stands in `play_steps`; here its NAME.out ends with what is owed, as `owed PROVIDER OPERATOR CURRENCY SUM`. What does not
agree is written, the first of each provider; the last line says how many scripts and providers agree. A script whose setup is
refused has no steps, and agrees.
"""
import sys

from play_steps import Replay, play

EVENTS = {"submit", "token", "deliver", "tick", "restart", "refused"}
FAULTS = ["1 NotForMe", "2 NumbersUsedUp", "3 StampEnd", "5 UnknownOperator", "6 UnknownToken"]
OUTCOMES = {"stepped", *(f"refused {fault}" for fault in FAULTS)}


def replays_of(script):
    """The replays of a script, one for each provider."""
    owed = [line.decode()[5:] for line in script.output if line.startswith(b"owed ")]
    sums = {sum_of[:13]: sum_of[14:] for sum_of in owed}
    operators = [node for _, node in script.nodes_with_places(is_operator=True)]
    for place, node in script.nodes_with_places(is_operator=False):
        party = node["party"]
        replay = Replay(script.name, party, "provider", "\t".join([party, *(node["party"] for node in operators)]))
        for line, step in script.events_at(party, EVENTS, OUTCOMES):
            replay.enter(line, step)
        replay.enter("stored", script.rows_at(place))
        for operator in operators:
            account = f"{operator['party']}\t{operator['site']['currency']}"
            sum_owed = sums[f"{party} {operator['party']}"].rsplit(" ", 1)[-1]
            replay.enter(f"settlement {account}", [sum_owed])
        yield replay


if __name__ == "__main__":
    sys.exit(play(__doc__.strip().split("\n")[2], "providers", replays_of))
