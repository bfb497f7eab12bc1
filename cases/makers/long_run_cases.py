"""The part `long_runs` of the cases of the program `case_lines`: the nodes of a setup on threads for 1,000 rounds.

What happens at the nodes depends on which thread comes first, so the case has the one line that each order of the threads
gives. Its input, two operators and two providers with events of each, stands in `long_run.jsonl`: the setup line, and then
event lines of one node.
"""

import pathlib

INPUT = pathlib.Path(__file__).with_name("long_run.jsonl")


def cases():
    """The lines, and what they give."""
    setup, *events = INPUT.read_text(encoding="utf-8").splitlines()
    lines = ["setup " + setup, *events, "run"]
    nothing = [""] * (len(lines) - 1)
    return lines, [*nothing, "20000 entries and more are one run, which a world plays alike", ""]
