"""What the state keeps of a node's lines: those whose `done` was not seen, and the last that surely took hold.

Each line has a number, which the node commits with the rows that the line changes. So after any stop the lines are fed
again under their numbers, and the node passes over those that took hold.

A tick is not kept where no other line is under way: one comes each second. What is kept is without a gap all the same:
whatever is fed behind such a tick is kept together with it.
"""
from collections import deque
from collections.abc import Callable, Sequence

from ..events import Outcome
from ..records import Done
from ..state import State
from .lines import Line, kept_line

EARLIER_PROGRAM = "node.program: it is an earlier one, which does not number its lines: build today's"
OLDER_STORE = ("node.store: an older copy, which has line {} and packet {}: line {} and packet {} were seen. Bring "
               "back the newest store; where that is lost, restore a backup of both files")
OLDER_STATE = ("state: an older copy, whose last line is {}: the store has line {}. Bring back the newest `state`; "
               "where that is lost, remove this one, and start once with --new-state")
NO_PAIR = "the store is not the one that was copied with `state`: bring back both"
NEW_STATE = ("the store has rows, and `state` is a new file, which knows nothing of them. Bring back the one that "
             "belongs to the store; where that is lost, start once with --new-state")


class Kept:
    """The lines that are under way, and what is known of the node's store."""

    def __init__(self, state: State) -> None:
        self._state = state
        self.lines = deque(kept_line(*row) for row in state.query("SELECT number, text FROM line_kept ORDER BY number"))
        # The last line that surely took hold, and the last packet that was seen.
        self._number, self._serial = (int(state.value(f"node.{name}") or "0") for name in ("number", "serial"))
        # 0 until the node was open.
        self.next_number = 0

    @property
    def was_opened(self) -> bool:
        return self._state.value("node.was_opened") is not None

    @property
    def line_before(self) -> int | None:
        """What the setup line says: the number of the last line whose `done` was seen. None where no line is under way,
        and then the node counts on from the last that took hold. So it does for a line of before, which has none."""
        return self.lines[0].number - 1 if self.lines and self.lines[0].number > 0 else None

    def fault_of(self, opened: Done, takes_new_state: bool) -> str | None:
        """Why a node that is open must not be fed, and what is to be done then."""
        line, serial = opened.get("line"), opened["serial"]
        if line is None:
            return EARLIER_PROGRAM
        if line < self._number or serial < self._serial:
            return OLDER_STORE.format(line, serial, self._number, self._serial)
        if self.lines and line > self.lines[-1].number > 0:
            return OLDER_STATE.format(self.lines[-1].number, line)
        if self._state.is_backup and not self.lines and (line, serial) != (self._number or line, self._serial):
            return NO_PAIR
        return NEW_STATE if opened["rows"] > 0 and not (self.was_opened or takes_new_state) else None

    def open(self, opened: Done) -> None:
        """Takes in that the node is open, and says which number is the next one."""
        if self.lines and self.lines[0].number == 0:
            self._number_line_of_before(opened)
        with self._state.transaction():
            if self._state.is_backup:
                self._state.restore()
            self._state.set_value("node.was_opened", "yes")
            self._note(opened["line"], opened["serial"])
        self._number, self._serial = opened["line"], opened["serial"]
        self.next_number = (self.lines[-1].number if self.lines else opened["line"]) + 1

    def _number_line_of_before(self, opened: Done) -> None:
        """Goes once by the rule of a bridge that did not number its one line: it took hold if the serial has risen.
        Else it is the next one."""
        if opened["serial"] > self._serial:
            self._state.query("DELETE FROM line_kept")
            self.lines.clear()
        else:
            self._state.query("UPDATE line_kept SET number = ?", opened["line"] + 1)
            self.lines[0].number = opened["line"] + 1

    def _note(self, number: int, serial: int) -> None:
        self._state.set_value("node.number", str(number))
        self._state.set_value("node.serial", str(serial))

    def keep(self, line: Line) -> None:
        """Takes on the next line, which is about to be fed. Where there is no room for it nothing has changed."""
        if self.lines or not line.has_ticks_alone:
            new = [each for each in (*self.lines, line) if not each.is_kept]
            with self._state.transaction():
                for each in new:
                    self._state.query("INSERT INTO line_kept (number, text) VALUES (?, ?)", each.number, each.text)
            for each in new:
                each.is_kept = True
        self.lines.append(line)
        self.next_number = line.number + 1

    def settle(self, outcomes: Sequence[Outcome], keep: Callable[[], None]) -> None:
        """Forgets the first line, whose `done` was seen, in the transaction in which `keep` keeps what came of it."""
        line, number, serial = self.lines[0], self._number, self._serial
        for outcome in outcomes:
            if outcome.word == "stepped":
                number, serial = line.number, max([serial, *(packet.serial for packet in outcome.packets)])
        with self._state.transaction():
            keep()
            if line.is_kept:
                self._state.query("DELETE FROM line_kept WHERE number = ?", line.number)
            self._note(number, serial)
        self._number, self._serial = number, serial
        self.lines.popleft()
