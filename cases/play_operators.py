#!/usr/bin/env python3
"""Replays the events that scripts have for operators, at operators of the program `case_lines`, and compares.

usage: play_operators.py PROGRAM FOLDER [NAME..]

PROGRAM is `case_lines`, as `tools/build_unproved` builds it of a copy that `cases/copy_cases` made. What a script in
FOLDER is stands in `play_steps`. What does not agree is written, the first of each operator; the last line says how many scripts
and operators agree. A script whose setup is refused has no steps, and agrees.
"""
import sys

from play_steps import Replay, play, spelled

REPORTS = {"accepts", "refuses", "unlocked", "starts", "meter", "stops", "fault", "swipe"}
EVENTS = {*REPORTS, "credit", "deliver", "tick", "service", "restart", "refused"}
FAULTS = ["1 NotForMe", "2 NumbersUsedUp", "3 StampEnd"]
OUTCOMES = {"stepped", *(f"refused {fault}" for fault in FAULTS)}

# A site line has a moment, which no event of these replays sees.
AT = "2025-01-01T10:00:00Z"


def replays_of(script):
    """The replays of a script, one for each operator."""
    providers = [node["party"] for _, node in script.nodes_with_places(is_operator=False)]
    for place, node in script.nodes_with_places(is_operator=True):
        party = node["party"]
        site_line = spelled({"at": AT, "party": party, "providers": providers, "site": node["site"]})
        replay = Replay(script.name, party, "operator", site_line)
        for line, step in script.events_at(party, EVENTS, OUTCOMES):
            replay.enter(line, step)
        replay.enter("stored", script.rows_at(place))
        yield replay


if __name__ == "__main__":
    sys.exit(play(__doc__.strip().split("\n")[2], "operators", replays_of))
