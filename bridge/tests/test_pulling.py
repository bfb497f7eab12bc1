"""Pulling: what a partner did not push is asked for page by page, once, and from where the last time ended."""
import asyncio
import json
from dataclasses import replace
from unittest.mock import patch
from urllib.parse import unquote

from aiohttp import web

from ocpi_bridge.configuration import PartnerSettings
from ocpi_bridge.events import Outcome, Packet
from ocpi_bridge.node.feeder import OutcomeLost
from ocpi_bridge.ocpi.exchange import NoResponse
from ocpi_bridge.ocpi.objects import Objects
from ocpi_bridge.ocpi.places import Places
from ocpi_bridge.ocpi.pulling import Pulling
from ocpi_bridge.records import Event

from .client_cases import ClientCase
from .ocpi_objects import evse, location, session, tariff, token
from .ocpi_party import OcpiParty, Received, answered
from .running import eventually


class Sessions(ClientCase):
    """A provider's bridge, and an operator whose sessions are listed two a page."""

    kind = "ocpi"
    status_code = 1000

    def begin(self) -> None:
        super().begin()
        self.objects = Objects(self.state)
        self.pulling = Pulling(self.client, self.objects, self.state, False, Places(self.state))

    async def feed(self, event: Event) -> Outcome:
        """Takes an object as a node does that accepts it."""
        await super().feed(event)
        packet = Packet.of(event["packet"])
        ack = Packet(packet.receiver, packet.sender, len(self.delivered), packet.request, "ack",
                     {"status_code": self.status_code, "timestamp": "2025-01-01T10:00:00Z"})
        outcome = Outcome(event, {"done": "stepped", "line": 1, "packets": 1}, (ack,))
        with self.state.transaction():
            self.objects.note(outcome)
        return outcome

    def has(self, *minutes: int, party: str = "BE/BEC") -> None:
        """Has the operator list a session for each minute in which one was last updated."""
        self.party.lists["sessions"] = [
            session(party, token("NL/TNM"), id=f"S{minute}", last_updated=f"2025-01-01T10:{minute:02}:00Z")
            for minute in minutes]

    async def pull(self) -> list[str]:
        """Pulls once, and gives the ids of what was handed on."""
        before = len(self.delivered)
        await self.pulling._pull(self.client.partners.of("BE/BEC"), "sessions")
        return [packet.body["id"] for packet in self.delivered[before:]]

    def asked_from(self) -> list[str]:
        """The moments from which lists were asked for."""
        return [unquote(received.raw_path.partition("date_from=")[2].partition("&")[0])
                for received in self.asked("sessions")]

    async def test_all_pages_and_then_what_is_new(self) -> None:
        self.has(0, 1, 2, 3, 4)
        self.assertEqual(["S0", "S1", "S2", "S3", "S4"], await self.pull())
        packet = self.delivered[0]
        self.assertEqual(("BE/BEC", "NL/TNM", "put_session"), (packet.sender, packet.receiver, packet.kind))
        self.assertEqual(5, len({packet.request for packet in self.delivered}))
        routes = [[received.headers[f"OCPI-{end}-party-id"] for end in ("from", "to")] for received in self.asked()]
        self.assertEqual([["TNM", "BEC"]] * 3, routes)
        self.begin()
        self.has(4, 5)
        self.assertEqual(["S5"], await self.pull())
        self.assertEqual(["1970-01-01T00:00:00.000Z"] * 3 + ["2025-01-01T10:03:00.000Z"], self.asked_from())

    async def test_a_pull_that_fails_is_begun_again_from_where_the_last_one_ended(self) -> None:
        self.has(0, 1, 2)
        pages = iter([True, False])

        async def ends(received: Received) -> web.StreamResponse:
            listed = self.party.lists["sessions"][:2]
            if next(pages):
                return answered(listed, headers={"Link": f'<{self.party.url}/2.2.1/sessions?offset=2>; rel="next"'})
            return web.Response(status=500)
        self.party.answers["sessions"] = ends
        with self.assertRaises(NoResponse):
            await self.pull()
        self.party.answers.clear()
        self.assertEqual(["S2"], await self.pull())
        self.assertEqual({"1970-01-01T00:00:00.000Z", ""}, set(self.asked_from()))

    async def test_what_the_node_took_is_held_also_where_a_stop_lost_its_outcome(self) -> None:
        self.faults = [OutcomeLost()]
        self.has(0)
        self.assertEqual(["S0"], await self.pull())
        self.assertIsNotNone(self.objects.find("sessions", "BE/BEC", "S0"))

    async def test_what_is_anothers_or_has_no_version_is_passed_over(self) -> None:
        self.has(0, party="FR/XXX")
        first = self.party.lists["sessions"][0]
        wrong: list[object] = [first, 7, {}, {**first, "last_updated": 7}, {**first, "id": {"nested": []}}]
        self.has(1)
        listed = [*wrong, *self.party.lists["sessions"]]

        async def gives(received: Received) -> web.StreamResponse:
            return web.Response(text=json.dumps({"data": listed, "status_code": 1000}), content_type="application/json")
        self.party.answers["sessions"] = gives
        with self.assertLogs("ocpi_bridge.ocpi.pulling"):
            self.assertEqual(["S1"], await self.pull())

    async def test_a_turn_reads_so_far_and_the_next_one_goes_on_where_it_stopped(self) -> None:
        self.has(0, 1, 2, 3, 4)
        for name, most in (("PAGES_A_TURN", 2), ("SECONDS_A_TURN", -1.0)):
            with patch(f"ocpi_bridge.ocpi.pulling.{name}", most):
                self.assertIn(await self.pull(), (["S0", "S1", "S2", "S3"], ["S0", "S1"]))
            # Also where the bridge is started again.
            self.begin()
            asked = len(self.asked("sessions"))
            await self.pull()
            self.assertIn("offset=", self.asked("sessions")[asked].raw_path)
            self.assertEqual(5, len(self.objects.newest("sessions")))
            self.configuration = replace(self.configuration, state=self.configuration.state.with_suffix(".2"))
            self.begin()

    async def test_what_the_node_refused_is_not_fed_again_until_it_changes(self) -> None:
        self.has(0, 1)
        self.status_code = 2001
        with self.assertLogs("ocpi_bridge.ocpi.pulling"):
            self.assertEqual(["S0", "S1"], await self.pull())
        self.begin()
        self.state.query("DELETE FROM list_pulled")
        self.assertEqual([], await self.pull())
        self.status_code = 1000
        self.party.lists["sessions"][1] |= {"last_updated": "2025-01-01T10:05:00Z"}
        self.assertEqual(["S1"], await self.pull())

    async def test_a_list_without_an_end_ends(self) -> None:
        async def endless(received: Received) -> web.StreamResponse:
            return answered([], headers={"Link": f'<{self.party.url}/2.2.1/sessions?offset=0>; rel="next"'})
        self.party.answers["sessions"] = endless
        self.assertEqual([], await self.pull())
        self.assertEqual(1, len(self.asked("sessions")))


class TwoPartners(Sessions):
    """The same, and another operator, whose list has no end."""

    async def asyncSetUp(self) -> None:
        self.other = OcpiParty("AT/OTR", "CPO", "their-token")
        await self.other.start()
        self.addAsyncCleanup(self.other.close)
        await super().asyncSetUp()

        async def endless(received: Received) -> web.StreamResponse:
            link = f'<{self.other.url}/2.2.1/sessions?page={len(self.other.requests)}>; rel="next"'
            return answered([session("AT/OTR", token("NL/TNM"), id="S1")], headers={"Link": link})
        self.other.answers["sessions"] = endless
        entry = PartnerSettings("AT/OTR", "ocpi", "another-token", "their-token", self.other.versions_url)
        self.configuration = replace(self.configuration, partners=(entry, *self.configuration.partners))
        self.begin()

    async def test_one_does_not_wait_for_another(self) -> None:
        self.has(0, 1, 2)
        task = asyncio.create_task(self.pulling.run())
        self.addCleanup(task.cancel)

        async def all_came() -> bool:
            return {"S0", "S1", "S2"} == {packet.body["id"] for packet in self.delivered if packet.sender == "BE/BEC"}
        await eventually(all_came, "the sessions of the other partner")
        self.assertGreater(len(self.other.requests), 3)


class PlacesOfNodes(ClientCase):
    """A provider's bridge, and an operator whose locations and tariffs no node hands on."""

    def begin(self) -> None:
        super().begin()
        self.places = Places(self.state)
        self.pulling = Pulling(self.client, Objects(self.state), self.state, False, self.places)

    async def pull(self, module: str) -> None:
        await self.pulling._pull(self.client.partners.of("BE/BEC"), module)

    async def test_all_pages_are_held_and_then_what_is_new(self) -> None:
        self.party.interfaces["tariffs"] = "SENDER"
        self.party.lists["tariffs"] = [tariff("BE/BEC")]
        self.party.lists["locations"] = [
            location("BE/BEC", evse("E1"), id=f"LOC{number}", last_updated=f"2025-01-01T10:0{number}:00Z")
            for number in range(3)]
        for module in ("tariffs", "locations"):
            await self.pull(module)
        self.assertEqual(["T1"], [held["id"] for held in self.places.tariffs(9)])
        self.assertEqual(["LOC2", "LOC1", "LOC0"], [held["id"] for held in self.places.locations(9)])
        self.assertEqual([], self.delivered)
        # What was pushed meanwhile is newer than what is listed.
        self.places.change("BE/BEC", ["LOC0", "E1"], {
            "status": "CHARGING", "last_updated": "2025-01-01T11:00:00Z"}, False)
        self.party.lists["locations"][0] |= {"name": "Market"}
        self.state.query("DELETE FROM list_pulled")
        self.begin()
        await self.pull("locations")
        self.assertEqual(["CHARGING", "AVAILABLE", "AVAILABLE"],
                         [held["evses"][0]["status"] for held in self.places.locations(9)])

    async def test_what_is_anothers_or_does_not_fit_is_passed_over(self) -> None:
        right = location("BE/BEC")
        others = location("FR/XXX", id="LOC9")
        for number, wrong in enumerate([7, {}, {**right, "city": None}, {**right, "evses": [{}]}, others]):
            async def gives(received: Received) -> web.StreamResponse:
                return answered([wrong, {**right, "id": f"LOC{number}"}])
            self.party.answers["locations"] = gives
            self.state.query("DELETE FROM list_pulled")
            await self.pull("locations")
        self.assertEqual({f"LOC{number}" for number in range(5)}, {held["id"] for held in self.places.locations(9)})

    async def test_an_operator_that_begins_to_list_its_tariffs(self) -> None:
        self.party.lists["tariffs"] = [tariff("BE/BEC")]
        with (patch("ocpi_bridge.ocpi.pulling.SECONDS_WITHOUT_A_LIST", 0.1),
              self.assertNoLogs("ocpi_bridge", "WARNING")):
            task = asyncio.create_task(self.pulling.run())
            self.addCleanup(task.cancel)
            await self.party.came("locations")
            self.assertEqual([], self.asked("tariffs"))
            self.party.interfaces["tariffs"] = "SENDER"
            await self.party.came("tariffs")
        self.assertEqual([], self.asked("sessions", "cdrs"))


class Tokens(ClientCase):
    """An operator's bridge, and a provider one of whose tokens the node refuses."""

    is_operator = True
    kind = "ocpi"

    async def feed(self, event: Event) -> Outcome:
        await super().feed(event)
        return Outcome(event, {"done": "refused", "name": "WrongForm", "field": "issuer"}, ())

    async def test_a_drivers_token_stands_in_no_log(self) -> None:
        self.party.lists["tokens"] = [token("NL/TNM", "SHOWN")]
        pulling = Pulling(self.client, Objects(self.state), self.state, True, Places(self.state))
        with self.assertLogs("ocpi_bridge", "INFO") as logs:
            await pulling._pull(self.client.partners.of("NL/TNM"), "tokens")
        self.assertIn("the node refuses an object", logs.output[-1])
        self.assertNotIn("SHOWN", "".join(logs.output))
