#!/usr/bin/env python3
"""Counts the instructions that a call of each book costs where it holds N entries.

usage: book_calls.py PROGRAM [N ..]

PROGRAM is `case_lines`, as `tools/build_unproved` builds it of a copy that `cases/copy_cases` made. For each book
and each N, 1,000 and 100,000 where none is given, the lines fill a book with N entries and then make 1,000 calls of each kind,
spread over the entries. A site has at most 10,000 EVSEs here, as many as a line holds. Valgrind counts the instructions of each
kind; those of reading the line and writing the answer are among them, and are the same for each N but for the digits of numbers.
It wants valgrind.
"""

import re
import subprocess
import sys
import tempfile

from book_values import cdr, location, moment, own_key, pending, push, reply, reservation, site_line, stop, text, token

CALLS = 1000

# Its call stands between two kinds, and the counts are told after it.
BETWEEN = "bills settle"
CALLED_BETWEEN = "case_lines::inboxes::call_bills"


def row(words, kind, key, tree):
    return f"{words} kind={kind} key={key}\t{text(tree)}"


def spread(entries):
    """The numbers of as many entries as there are calls, each once."""
    return [k * 7919 % entries for k in range(CALLS)]


def fill_site(entries):
    entries = min(entries, 10_000)
    one = {"connectors": [{"format": "", "id": "1", "power_type": "", "standard": ""}], "evse_id": ""}
    groups = [range(first, first + 100) for first in range(0, entries, 100)]
    places = [location(f"L{k}", [{**one, "uid": f"E{n}"} for n in group]) for k, group in enumerate(groups)]
    yield f"site open\t{text(site_line(places))}"


def fill_reservations(entries):
    for n in range(entries):
        yield row("reservation reserve number=1", "reservation", f"NL/TNM/R{n}", reservation(f"E{n}", f"L{n % 100}", n, uid=f"T{n}"))


def fill_tokens(entries):
    for n in range(entries):
        yield row("token put", "token", f"NL/TNM/RFID/T{n}", token(uid=f"T{n}"))


def fill_commands(entries):
    for n in range(entries):
        yield row("command open", "pending", f"NL/TNM/{n}", pending(stop(), n))


def fill_inbox(entries):
    for n in range(entries):
        one = cdr(f"C{n}", f"S{n}")
        yield row("inbox take", "cdr", own_key(one), one)


def fill_outbox(entries):
    yield row("outbox row", "count", "request", {"last": entries})
    for n in range(entries):
        yield row("outbox row", "push", str(n), push("BE/BEC", "put_token", token(uid=f"T{n}")))


def site_calls(numbers):
    numbers = [n % 10_000 for n in numbers]
    yield "(no call)", [f"site nothing evse=E{n}" for n in numbers]
    yield "claim_of", [f"site claim_of evse=E{n}" for n in numbers]
    yield "free_at", [f"site free_at location=L{n // 100}" for n in numbers]
    yield "claim", [f"site claim evse=E{n} as=start number=1" for n in numbers]
    yield "release", [f"site release evse=E{n}" for n in numbers]
    yield "set_service", [f"site out evse=E{n}" for n in numbers]


def reservation_calls(numbers):
    yield "mark", [f"reservation mark id=R{n}" for n in numbers]
    yield "note", [f"reservation note id=R{n} number=2" for n in numbers]
    yield "reserve", [row("reservation reserve number=1", "reservation", f"NL/TNM/Q{n}", reservation("E1", "L1", uid="Q")) for n in numbers]
    yield "expire", [f"reservation expire at={moment(n)}" for n in range(300)]
    left = [n for n in numbers if n >= 300][:700]
    yield "use_for", [f"reservation use location=L{n % 100} uid=T{n}" for n in left[:350]]
    yield "cancel", [f"reservation cancel id=R{n} number=2" for n in left[350:]]


def token_calls(numbers):
    yield "find", [f"token find uid=T{n}" for n in numbers]
    yield "decide", [f"token decide uid=T{n}" for n in numbers]
    yield "authorize", [f"token authorize uid=T{n}" for n in numbers]
    yield "issue_reference", ["token issue_reference" for _ in numbers]
    yield "put", [row("token put", "token", f"NL/TNM/RFID/U{n}", token(uid=f"U{n}")) for n in numbers]


def command_calls(numbers):
    yield "opened", [f"command opened number={n}" for n in numbers]
    yield "due", [f"command due at={moment(0)}" for _ in numbers]
    yield "settle", [f"command settle number={n} as=FAILED" for n in numbers]
    yield "answered", [f"command answered number={n}" for n in numbers]
    yield "keep_reply", [row("command keep", "reply", f"NL/TNM/{n}", reply()) for n in numbers]
    yield "reply_kept", [f"command kept number={n}" for n in numbers]
    yield "open", [row("command open", "pending", f"DE/EMP/{n}", pending(stop(), n)) for n in numbers]


def inbox_calls(numbers):
    yield "settlement", ["inbox owed currency=EUR" for _ in numbers]
    yield "held_cdr", [f"inbox held_cdr cdr=C{n}" for n in numbers]
    yield "take_cdr, equal", [row("inbox take", "cdr", f"BE/BEC/C{n}", cdr(f"C{n}", f"S{n}")) for n in numbers]
    yield "take_cdr, new", [row("inbox take", "cdr", f"BE/BEC/D{n}", cdr(f"D{n}", f"X{n}")) for n in numbers]


def outbox_calls(numbers):
    yield "is_to", [f"outbox is_to party=BE/BEC number={n}" for n in numbers]
    yield "replaced", [row("outbox replaced", "push", "1", push("BE/BEC", "put_token", token(uid=f"T{n}"))) for n in numbers]
    yield "take_number", ["outbox take_number" for _ in numbers]
    yield "ack", [f"outbox ack party=BE/BEC number={n}" for n in numbers]


BOOKS = {
    "site": (fill_site, site_calls),
    "reservation_book": (fill_reservations, reservation_calls),
    "token_desk": (fill_tokens, token_calls),
    "command_book": (fill_commands, command_calls),
    "handover": (fill_inbox, inbox_calls),
    "outbox": (fill_outbox, outbox_calls),
}


def count(program, parts):
    """How many instructions the program runs on each part of a list of lines."""
    with tempfile.TemporaryDirectory() as room:
        given = pathlib.Path(room, "lines")
        with given.open("w", encoding="utf-8") as lines:
            lines.write("\fbooks\n")
            for part in parts:
                lines.writelines(f"{line}\n" for line in part)
                lines.write(f"{BETWEEN}\n")
        words = ["valgrind", "--tool=callgrind", f"--callgrind-out-file={room}/counts", f"--dump-after={CALLED_BETWEEN}", program]
        with given.open("rb") as standard_input:
            subprocess.run(words, stdin=standard_input, stdout=subprocess.DEVNULL, stderr=subprocess.DEVNULL, check=True)
        dumps = [pathlib.Path(room, f"counts.{k}").read_text(encoding="utf-8") for k in range(1, len(parts) + 1)]
    return [int(re.search(r"^(?:totals|summary): (\d+)", dump, re.MULTILINE)[1]) for dump in dumps]


def main():
    if len(sys.argv) < 2:
        sys.exit("usage: book_calls.py PROGRAM [N ..]")
    program, sizes = sys.argv[1], [int(word) for word in sys.argv[2:]] or [1_000, 100_000]
    for book, (fill, calls) in BOOKS.items():
        found = []
        for entries in sizes:
            kinds = list(calls(spread(entries)))
            counts = count(program, [fill(entries), *(lines for _, lines in kinds)])
            found.append([total // len(lines) for total, (_, lines) in zip(counts[1:], kinds)])
        for (name, _), *figures in zip(kinds, *found):
            print(f"{book:18} {name:16}", *(f"{figure:10,}" for figure in figures), flush=True)


if __name__ == "__main__":
    main()
