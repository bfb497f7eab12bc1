"""Warns the owner of what the node takes without a word: a clock that was set back, and blocked tokens that are old."""
import logging
import time

from .clock import moment_of, seconds_in, seconds_of
from .events import Outcome
from .ocpi.objects import Objects
from .parties import party_of
from .state import State

LOG = logging.getLogger("bridge")
# In seconds: how far the clock may be behind the last moment that was fed, how often that is warned of, and by how much
# that moment has to be later to be kept.
BEHIND, EACH = 60.0, 60.0


class Warnings:
    """Follows the outcomes of a node. The last moment that was fed is kept, so that a new start knows it too."""

    def __init__(self, state: State, objects: Objects, now: float) -> None:
        self._state, self._objects = state, objects
        self._last = self._kept = float(state.value("node.fed") or 0)
        self._warned = float("-inf")
        self.look(now)

    def note(self, outcome: Outcome) -> None:
        """Keeps the moment of an outcome, once a minute. Called inside of the transaction that forgets its line."""
        if "at" in outcome.event:
            self._last = max(self._last, seconds_of(outcome.event["at"]))
        if self._last >= self._kept + EACH:
            self._kept = self._last
            self._state.set_value("node.fed", repr(self._last))

    def act(self, outcome: Outcome) -> None:
        """Warns of what an outcome shows. Called behind that transaction."""
        if outcome.event["event"] == "tick":
            self.look(seconds_of(outcome.event["at"]))
        elif outcome.event["event"] == "deliver" and outcome.event["packet"]["kind"] == "put_token":
            self._look_at_token(outcome)

    def look(self, now: float) -> None:
        """Warns where the clock is behind."""
        if now < self._last - BEHIND and time.monotonic() >= self._warned + EACH:
            self._warned = time.monotonic()
            LOG.warning("the clock tells %s, and the node was fed %s: what happens now is dated too early. "
                        "Set this machine's clock", moment_of(now), moment_of(self._last))

    def _look_at_token(self, outcome: Outcome) -> None:
        """Warns where a token is blocked by an older version than the one that is held. No log names a token."""
        sender, token = outcome.event["packet"]["from"], outcome.event["packet"]["body"]
        blocked = seconds_in(token.get("last_updated")) if token.get("valid") is False else None
        party = party_of(token.get("country_code"), token.get("party_id"))
        held = self._objects.find("tokens", party, str(token.get("uid")), str(token.get("type")))
        if blocked is not None and held is not None and seconds_of(held["last_updated"]) > blocked:
            LOG.warning("%s blocks a token as of %s, which is older than what is held: as of %s it is %s, and stays so",
                        sender, token["last_updated"], held["last_updated"], "valid" if held["valid"] else "blocked")
