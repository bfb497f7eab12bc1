"""Feeds what the owner asks for: orders, tokens, credits, service and faults, and says what came of it."""
from collections.abc import Callable
from typing import cast

from aiohttp import web

from ..events import Events, Outcome
from ..json_text import JsonObject, write_json
from ..node.feeder import Feeder
from ..ocpi.locations import Locations
from ..ocpi.objects import Objects
from ..ocpp.central_system import CentralSystem
from ..records import Event
from .answers import MARK, Answer, Answers, Told

# The addresses that feed an event, and whether it is an operator's.
EVENTS = {"/orders": ("submit", False), "/tokens": ("token", False), "/credits": ("credit", True),
          "/service": ("service", True), "/faults": ("fault", True)}
# Those that carry nothing out twice for one `Idempotency-Key`.
ONCE = ("/orders", "/credits")


class Feeding:
    """`locations` are an operator's. `central_system` is there where it has charge points. `takes_orders` says whether
    a command more may wait for a partner."""

    def __init__(self, events: Events, feeder: Feeder, objects: Objects, answers: Answers, locations: Locations | None,
                 central_system: CentralSystem | None, takes_orders: Callable[[str], bool]) -> None:
        self._events, self._feeder, self._objects, self._answers = events, feeder, objects, answers
        self._locations, self._central_system, self._takes_orders = locations, central_system, takes_orders

    async def feed(self, path: str, body: JsonObject, key: str | None) -> Answer:
        """Feeds what a request to an address asks for, under an `Idempotency-Key` where it has one.

        Raises HTTPException where nothing was done, and what feeding raises.
        """
        if key is None or path not in ONCE:
            return await self._feed(path, body)
        return await self._answers.once(path, key, write_json(body), lambda mark: self._feed(path, body, mark))

    async def _feed(self, path: str, body: JsonObject, mark: Event | None = None) -> Answer:
        """Of `service` the node is told first, so that nothing new is let charge there while the charge point is asked.
        It has `owner`: no charge point takes it back. The node reads past that, and past the mark of a key.
        """
        event, body = EVENTS[path][0], {name: member for name, member in body.items() if name != MARK}
        if event == "submit" and not self._takes_orders(str(body.get("operator"))):
            raise web.HTTPServiceUnavailable(text="nothing was done: too many orders wait for the operator")
        if event in ("service", "fault") and self._lacks_evse(body.get("evse_uid")):
            raise web.HTTPNotFound(text="nothing was done: the site has no EVSE of that evse_uid")
        members: JsonObject = {"token": body} if event == "token" else body
        if event == "service":
            members["owner"] = True
        outcome = await self._feeder.feed(cast(Event, {**members, **(mark or {}), **self._events.make(event)}))
        status, told = self._told(outcome)
        if event == "service" and status == 200 and self._central_system is not None:
            told["charge_point"] = await self._central_system.change_availability(
                outcome.event["evse_uid"], outcome.event["in_service"])
        return status, told

    def _lacks_evse(self, evse_uid: object) -> bool:
        """Whether a text is the uid of no EVSE. (What is no text the node refuses.)"""
        return isinstance(evse_uid, str) and self._locations is not None and not self._locations.has_evse(evse_uid)

    def _told(self, outcome: Outcome) -> Answer:
        """The status and the body that tell an outcome."""
        told: Told = {"done": outcome.done, "packets": [packet.members() for packet in outcome.packets]}
        if outcome.word not in ("stepped", "idle"):
            words = " ".join(str(word) for word in map(outcome.done.get, ("done", "name", "field")) if word is not None)
            told["error"] = f"the node does not do it: {words}"
            return 400 if outcome.word == "malformed" else 409, told
        if outcome.event["event"] == "credit" and outcome.word == "idle":
            status, words = self._why_no_credit(str(outcome.event["session_id"]))
            told["error"] = f"nothing was done: {words}"
            return status, told
        return 200, told

    def _why_no_credit(self, session_id: str) -> tuple[int, str]:
        session = self._objects.find("sessions", self._events.node, session_id)
        if session is None:
            return 404, "there is no session of that session_id"
        if session["status"] != "COMPLETED":
            return 409, f"the session is {session['status']}, and only a COMPLETED one has a bill"
        return 409, "the session has no bill that was not taken back already"

    def note(self, outcome: Outcome) -> None:
        """Keeps the answer to what has a key. Called in the transaction in which its line is forgotten."""
        if MARK in outcome.event:
            self._answers.keep(outcome.event, self._told(outcome))

    def note_left(self, events: list[Event]) -> None:
        """Keeps that what came of events was lost that stood in the line which a stop left, until it is known."""
        for event in events:
            if MARK in event:
                self._answers.keep_lost(event)
