"""The cases of the books as they are gathered: a line, and what it must answer."""

import sys

from book_values import text

CASES = []


def case(line, wanted):
    if "\n" in line or not line:
        sys.exit(f"a case is not one line: {line}")
    CASES.append((line, wanted))


def with_row(words, kind, key, tree, wanted):
    case(f"{words} kind={kind} key={key}\t{text(tree)}", wanted)


def fresh():
    case("fresh", "done")
