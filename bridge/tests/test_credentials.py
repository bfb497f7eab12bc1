"""Credentials: which tokens are whose and for how long, and two bridges that register one another."""
import asyncio
import subprocess
import tempfile
import unittest
from collections.abc import Sequence
from dataclasses import replace
from pathlib import Path
from unittest.mock import patch

from aiohttp import web

from ocpi_bridge.configuration import PartnerSettings
from ocpi_bridge.ocpi.partners import Partner, Partners
from ocpi_bridge.state import State

from .cases import BridgeCase
from .client_cases import configuration
from .ocpi_objects import token
from .ocpi_party import Received, answered
from .running import RUN, Members, RunningBridge, eventually, operator, partner, provider

VERSIONS_URL = "http://127.0.0.1:1/versions"
ENDPOINTS = {("tokens", "RECEIVER"): "http://127.0.0.1:1/tokens"}


class Tokens(unittest.TestCase):
    """What the state has of a partner goes before the configuration."""

    def setUp(self) -> None:
        folder = tempfile.TemporaryDirectory()
        self.addCleanup(folder.cleanup)
        self.folder = Path(folder.name)

    def partners(self, token: str = "first", their_token: str | None = None) -> Partners:
        """The partners of a bridge that starts over the state, with this configuration of BE/BEC."""
        state = State(self.folder / "bridge.db")
        self.addCleanup(state.close)
        settings = PartnerSettings("BE/BEC", "ocpi", token, their_token, their_token and VERSIONS_URL)
        return Partners(configuration(self.folder, False, settings), state)

    def shown(self, partners: Partners, *tokens: str) -> list[bool | None]:
        """Whether each token shows a registered partner, or nobody."""
        found = [next(iter(partners.sharing(each)), None) for each in tokens]
        return [None if each is None else each.is_registered for each in found]

    def test_a_partner_that_will_register(self) -> None:
        partners = self.partners()
        self.assertEqual([False, None, None], self.shown(partners, "first", "", "firs\udc80"))
        partners.register("be/bec", "second", "theirs", VERSIONS_URL, ENDPOINTS)
        wanted = Partner("BE/BEC", "ocpi", "second", "theirs", VERSIONS_URL, endpoints=ENDPOINTS,
                         is_registered=True)
        for each in (partners, self.partners()):
            self.assertEqual([None, True], self.shown(each, "first", "second"))
            self.assertEqual([wanted], each.all())

    def test_a_registration_that_ended_is_over_also_for_the_configuration(self) -> None:
        partners = self.partners("first", "theirs")
        self.assertEqual([True], self.shown(partners, "first"))
        partners.unregister("BE/BEC")
        for each in (partners, self.partners("first", "theirs")):
            self.assertEqual([None], self.shown(each, "first"))
            self.assertEqual((None, False), (each.of("BE/BEC").their_token, each.of("BE/BEC").is_registered))

    def test_a_new_token_of_the_configuration_lets_register_again(self) -> None:
        self.partners().register("BE/BEC", "second", "theirs", VERSIONS_URL, {})
        partners = self.partners("third")
        self.assertEqual([None, True, False], self.shown(partners, "first", "second", "third"))
        partners.register("BE/BEC", "fourth", "theirs", VERSIONS_URL, {})
        self.assertEqual([None, None, True], self.shown(partners, "second", "third", "fourth"))

    def test_what_another_process_does_is_seen_at_once(self) -> None:
        running, registering = self.partners(), self.partners()
        offered = registering.offer("BE/BEC")
        self.assertEqual([False, False], self.shown(running, "first", offered))
        registering.register("BE/BEC", offered, "theirs", VERSIONS_URL, {})
        self.assertEqual([None, True], self.shown(running, "first", offered))

    def test_a_token_is_found_without_reading_what_is_kept_of_each_partner(self) -> None:
        state = State(self.folder / "bridge.db")
        self.addCleanup(state.close)
        many = tuple(PartnerSettings(f"BE/{number:03}", "ocpi", f"token {number}", "theirs", VERSIONS_URL)
                     for number in range(63))
        partners = Partners(replace(configuration(self.folder, False, many[0]), partners=many), state)
        partners.all()
        with patch.object(state, "query", side_effect=state.query) as query:
            found = [partners.sharing(token_of_one)[0].party for token_of_one in ("token 7", "token 62")]
        self.assertEqual(["BE/007", "BE/062"], found)
        self.assertLessEqual(query.call_count, 2)

    def test_endpoints_are_those_of_the_versions_that_are_known(self) -> None:
        partners = self.partners("first", "theirs")
        partners.set_endpoints("BE/BEC", VERSIONS_URL, ENDPOINTS)
        self.assertEqual(ENDPOINTS, partners.of("BE/BEC").endpoints)
        partners.register("BE/BEC", "second", "theirs", VERSIONS_URL + "/2", {})
        self.assertEqual({}, partners.of("BE/BEC").endpoints)


class TwoBridges(BridgeCase):
    """An operator and a provider, both with bridges of their own, and neither with a token of the other."""

    async def asyncSetUp(self) -> None:
        setup = [operator("BE/BEC", ["E1"]), provider("NL/TNM")]
        self.operator = await self.begin_bridge(RunningBridge(
            self.make_folder(), setup, "BE/BEC", [partner("NL/TNM", "node", "given-to-TNM-71")], []), [])
        self.provider = await self.begin_bridge(RunningBridge(
            self.make_folder(), setup, "NL/TNM", [partner("BE/BEC", "node", "given-to-BEC-83")]), [])

    async def end_bridge(self, bridge: RunningBridge, secrets: Sequence[str]) -> None:
        await super().end_bridge(bridge, [*secrets, "given-to-TNM-71", "given-to-BEC-83"])

    async def register(self, url: str, with_token: str) -> "subprocess.CompletedProcess[str]":
        """Has the provider register at the operator."""
        words = [str(RUN), str(self.provider.folder / "bridge.json"), "--register", "BE/BEC", url]
        return await asyncio.to_thread(subprocess.run, words, input=with_token + "\n", capture_output=True, text=True,
                                       timeout=60)

    async def assert_it_is_used(self) -> None:
        """Sees that a token of the provider reaches the operator, and is acknowledged."""
        await self.provider.admin_post("/tokens", token("NL/TNM"))

        async def is_there() -> bool:
            lines = (await self.provider.admin_get("/metrics")).splitlines()
            return bool(await self.operator.admin_get("/tokens")) and "ocpi_unacknowledged_pushes 0.0" in lines
        await eventually(is_there, "a token that was put and acknowledged", 30)

    async def test_they_register_and_use_it_at_once(self) -> None:
        ended = await self.register(self.operator.ocpi_url + "/ocpi/versions", "given-to-TNM-71")
        self.assertEqual(0, ended.returncode, ended.stderr)
        await self.assert_it_is_used()
        # The token that was used to register is forgotten.
        ended = await self.register(self.operator.ocpi_url + "/ocpi/versions", "given-to-TNM-71")
        self.assertEqual((1, True), (ended.returncode, "401" in ended.stderr))
        await self.assert_it_is_used()

    async def test_where_the_answer_is_lost_a_new_token_begins_again(self) -> None:
        proxy = await self.begin_party("BE/BEC", "CPO")
        credentials: list[Members] = []

        async def loses(received: Received) -> web.StreamResponse:
            credentials.append(received.body)
            proxy.deals_with("BE/BEC", "")
            url = self.operator.ocpi_url + "/ocpi/2.2.1/credentials"
            reply = await proxy.ask("POST", url, received.body, token="given-to-TNM-71",
                                    headers={"OCPI-from-country-code": "NL", "OCPI-from-party-id": "TNM"})
            self.assert_status(reply, 200, 1000)
            return web.Response(status=502)
        proxy.token = "given-to-TNM-71"
        proxy.answers["credentials"] = loses
        ended = await self.register(proxy.versions_url, "given-to-TNM-71")
        self.assertEqual((1, True), (ended.returncode, "502" in ended.stderr))
        self.operator.configuration["partners"][0]["token"] = "given-to-TNM-72"
        await self.operator.stop()
        await self.operator.start()
        ended = await self.register(self.operator.ocpi_url + "/ocpi/versions", "given-to-TNM-72")
        self.assertEqual(0, ended.returncode, ended.stderr)
        await self.assert_it_is_used()

    async def test_what_is_no_success_says_why(self) -> None:
        async def no_token(received: Received) -> web.StreamResponse:
            return answered({**party.credentials(), "token": None})

        async def other_party(received: Received) -> web.StreamResponse:
            party_role = {**party.credentials()["roles"][0], "party_id": "XXX"}
            return answered({**party.credentials(), "roles": [party_role]})

        async def older(received: Received) -> web.StreamResponse:
            return answered([{"version": "2.1.1", "url": party.url + "/2.1.1"}])
        party = await self.begin_party("BE/BEC", "CPO")
        for module, answer, words in (("credentials", no_token, "token"), ("credentials", other_party, "roles"),
                                      ("versions", older, "2.2.1")):
            party.answers = {module: answer}
            ended = await self.register(party.versions_url, party.token)
            self.assertEqual((1, True), (ended.returncode, words in ended.stderr), ended.stderr)
