"""Since when each thing of an operator is as it is now: what OCPI calls its `last_updated`."""
import hashlib
from contextlib import suppress

from ..clock import Clock, milliseconds_of, moment_of
from ..json_text import write_json
from ..room import NoRoom
from ..state import State


class FirstSeen:
    """Keeps it in the state. A restored state knows nothing of what partners were told since: there all is new."""

    def __init__(self, state: State, clock: Clock) -> None:
        self._state, self._clock = state, clock
        # By names: what says how a thing is, and since when.
        self._known: dict[str, tuple[str, str]] = {
            name: (text, since) for name, text, since in state.query("SELECT name, text, since FROM place")}

    def keep_only(self, names: set[str]) -> None:
        """Forgets all else: what comes back is new."""
        for name in self._known.keys() - names:
            del self._known[name]
            with suppress(NoRoom):
                self._state.query("DELETE FROM place WHERE name = ?", name)

    def moment(self, name: str, mark: str) -> str:
        """The moment at which what has a name was first seen as a mark says. It is later than that of what was before,
        also where the clock was set back."""
        text = f"{self._state.value('restored') or ''} {mark}"
        before, since = self._known.get(name, ("", ""))
        if before == text:
            return since
        moment = self._clock.moment()
        if since:
            moment = moment_of(max(milliseconds_of(moment), milliseconds_of(since) + 1) / 1000)
        self._known[name] = text, moment
        with suppress(NoRoom):
            self._state.query("INSERT OR REPLACE INTO place (name, text, since) VALUES (?, ?, ?)", name, text, moment)
        return moment


def mark_of(thing: object) -> str:
    """A short text that another thing does not have."""
    return hashlib.blake2b(write_json(thing).encode(), digest_size=16).hexdigest()
