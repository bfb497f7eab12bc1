"""Credentials: a provider that is no node registers with an operator's bridge, and is registered by it."""
import asyncio
import json
import subprocess

from aiohttp import web

from .cases import BridgeCase
from .ocpi_objects import token
from .ocpi_party import Received, answered
from .running import RUN, Members, RunningBridge, free_port, operator, partner, provider


class Registration(BridgeCase):
    """A partner without a token of theirs and an address: it has the first token alone."""

    async def asyncSetUp(self) -> None:
        self.provider = await self.begin_party("NL/PLN", "EMSP")
        self.bridge = await self.begin_bridge(
            RunningBridge(self.make_folder(), [operator("BE/BEC", ["E1"]), provider("NL/PLN")], "BE/BEC",
                          [partner("NL/PLN", "ocpi", self.provider.bridge_token)], []), [self.provider])
        self.url = self.bridge.ocpi_url + "/ocpi/2.2.1/credentials"

    async def register(self) -> str:
        """POSTs the provider's credentials, and gives the token that it got."""
        reply = await self.provider.ask("POST", self.url, self.provider.credentials())
        self.assert_status(reply, 200, 1000)
        self.assertTrue(reply.data["token"])
        return str(reply.data["token"])

    async def reads_sessions(self, with_token: str) -> int:
        """The HTTP status of the list of sessions under a token."""
        url = self.bridge.ocpi_url + "/ocpi/2.2.1/sender/sessions"
        return (await self.provider.ask("GET", url, token=with_token)).http_status

    async def test_versions_and_details(self) -> None:
        versions = await self.provider.ask("GET", self.bridge.ocpi_url + "/ocpi/versions")
        self.assert_status(versions, 200, 1000)
        details_url = self.bridge.ocpi_url + "/ocpi/2.2.1"
        self.assertEqual([{"version": "2.2.1", "url": details_url}], versions.data)
        details = (await self.provider.ask("GET", details_url)).data
        self.assertEqual("2.2.1", details["version"])
        endpoints = {(endpoint["identifier"], endpoint["role"]): endpoint["url"] for endpoint in details["endpoints"]}
        self.assertEqual({("credentials", "SENDER"), ("commands", "RECEIVER"), ("tokens", "RECEIVER"),
                          ("sessions", "SENDER"), ("cdrs", "SENDER"), ("locations", "SENDER"),
                          ("tariffs", "SENDER")}, set(endpoints))
        self.assertEqual(self.url, endpoints["credentials", "SENDER"])
        self.assertEqual(details_url + "/receiver/tokens", endpoints["tokens", "RECEIVER"])

    async def test_a_partner_registers_changes_its_token_and_ends(self) -> None:
        first = self.provider.bridge_token
        self.assertEqual(401, await self.reads_sessions(first))
        self.assertEqual(405, (await self.provider.ask("PUT", self.url, self.provider.credentials())).http_status)
        self.assertEqual(405, (await self.provider.ask("DELETE", self.url)).http_status)
        second = await self.register()
        self.assertNotEqual(first, second)
        # The bridge looked up how to call the provider, with the token that it was given.
        self.assertEqual(["/versions", "/2.2.1"], [request.path for request in self.provider.requests])
        self.assertEqual((401, 200), (await self.reads_sessions(first), await self.reads_sessions(second)))
        self.provider.bridge_token = second
        self.assertEqual(405, (await self.provider.ask("POST", self.url, self.provider.credentials())).http_status)
        ours = await self.provider.ask("GET", self.url)
        self.assertEqual((self.bridge.ocpi_url + "/ocpi/versions", "CPO", "BE", "BEC"), (
            ours.data["url"], *(ours.data["roles"][0][name] for name in ("role", "country_code", "party_id"))))
        self.provider.token = "another-token-for-NL/PLN-77"
        reply = await self.provider.ask("PUT", self.url, self.provider.credentials())
        self.assert_status(reply, 200, 1000)
        third = str(reply.data["token"])
        self.assertEqual((200, 401), (await self.reads_sessions(third), await self.reads_sessions(second)))
        self.assert_status(await self.provider.ask("DELETE", self.url, token=third), 200, 1000)
        self.assertEqual([401] * 3, [await self.reads_sessions(each) for each in (first, second, third)])

    async def test_a_refusal_says_nothing_about_what_listens_there(self) -> None:
        """A partner could else try the addresses of the operator's own network, one after the other."""
        async def greets(_: asyncio.StreamReader, writer: asyncio.StreamWriter) -> None:
            writer.write(b"SSH-2.0-OpenSSH_9.2\r\n")
            writer.close()
        other = await asyncio.start_server(greets, "127.0.0.1", 0)
        self.addCleanup(other.close)
        nobody, admin = free_port(), self.bridge.addresses["admin"]
        port = other.sockets[0].getsockname()[1]
        said = set()
        for url in (f"127.0.0.1:{nobody}", f"127.0.0.1:{port}", f"{admin}/partners"):
            credentials = {**self.provider.credentials(), "url": f"http://{url}"}
            reply = await self.provider.ask("POST", self.url, credentials)
            self.assert_refused(reply, 3001)
            said.add(reply.members["status_message"])
        self.assertEqual(1, len(said), said)

    async def test_what_was_agreed_stands_after_a_restart(self) -> None:
        first = self.provider.bridge_token
        second = await self.register()
        await self.bridge.stop()
        await self.bridge.start()
        self.assertEqual((401, 200), (await self.reads_sessions(first), await self.reads_sessions(second)))
        await self.provider.ask("DELETE", self.url, token=second)
        await self.bridge.stop()
        await self.bridge.start()
        self.assertEqual(401, await self.reads_sessions(second))

    async def test_a_change_of_tokens_whose_answer_is_lost_locks_nobody_out(self) -> None:
        second = self.provider.bridge_token = await self.register()
        lost = str((await self.provider.ask("PUT", self.url, self.provider.credentials())).data["token"])
        self.assertEqual(200, await self.reads_sessions(second))
        await self.bridge.stop()
        await self.bridge.start()
        third = str((await self.provider.ask("PUT", self.url, self.provider.credentials())).data["token"])
        self.assertEqual(401, await self.reads_sessions(lost))
        for token_of_before, status in ((second, 200), (third, 200), (second, 401), (third, 200)):
            self.assertEqual(status, await self.reads_sessions(token_of_before))

    async def test_a_registered_partner_is_called(self) -> None:
        self.provider.bridge_token = await self.register()
        response_url = self.provider.url + "/results/1"
        await self.provider.command("CANCEL_RESERVATION", {"response_url": response_url, "reservation_id": "R1"})
        self.assertEqual("UNKNOWN_RESERVATION", (await self.provider.came("results")).body["result"])

    async def test_credentials_that_cannot_be_used(self) -> None:
        usual = self.provider.credentials()
        role = usual["roles"][0]
        unreachable: Members = {**usual, "url": "http://127.0.0.1:9/versions"}
        self.assert_refused(await self.provider.ask("POST", self.url, unreachable), 3001)
        for wrong in ({**usual, "roles": [{**role, "party_id": "XXX"}]}, {**usual, "roles": [{**role, "role": "CPO"}]},
                      {**usual, "roles": []}, {**usual, "token": None}, {"token": usual["token"]}, [], None):
            with self.subTest(wrong=wrong):
                self.assert_refused(await self.provider.ask("POST", self.url, data=json.dumps(wrong).encode()), 2001)
        # None of this took the first token away.
        await self.register()

    async def test_a_partner_without_our_version(self) -> None:
        async def older(received: Received) -> web.StreamResponse:
            return answered([{"version": "2.1.1", "url": self.provider.url + "/2.1.1"}])
        self.provider.answers["versions"] = older
        reply = await self.provider.ask("POST", self.url, self.provider.credentials())
        self.assertIn(reply.status_code, (3001, 3002))
        del self.provider.answers["versions"]
        await self.register()


class RegisteringOurselves(BridgeCase):
    """`--register` beside a bridge that runs."""

    async def asyncSetUp(self) -> None:
        self.provider = await self.begin_party("NL/PLN", "EMSP")
        self.bridge = await self.begin_bridge(
            RunningBridge(self.make_folder(), [operator("BE/BEC", ["E1"]), provider("NL/PLN")], "BE/BEC",
                          [partner("NL/PLN", "ocpi", "unused-8e1f")], []), [self.provider])

    async def run_register(self, url: str, with_token: str) -> "subprocess.CompletedProcess[str]":
        return await self.run_register_of("NL/PLN", url, with_token)

    async def run_register_of(self, party: str, url: str, with_token: str) -> "subprocess.CompletedProcess[str]":
        """Runs the command for any party, and gives how it ended."""
        words = [str(RUN), str(self.bridge.folder / "bridge.json"), "--register", party, url]
        return await asyncio.to_thread(subprocess.run, words, input=with_token + "\n", capture_output=True, text=True,
                                       timeout=60)

    async def test_both_sides_have_their_tokens(self) -> None:
        final = "final-token-for-NL/PLN-51"

        async def take(received: Received) -> web.StreamResponse:
            """What OCPI wants of a receiver of credentials: it looks them up, makes a token, and answers with it."""
            self.provider.bridge_token = received.body["token"]
            versions = await self.provider.ask("GET", received.body["url"])
            details = await self.provider.ask("GET", versions.data[0]["url"])
            self.assertEqual(200, details.http_status)
            self.provider.token = final
            return answered(self.provider.credentials())
        self.provider.answers["credentials"] = take
        ended = await self.run_register(self.provider.versions_url, self.provider.token)
        self.assertEqual(0, ended.returncode, ended.stderr)
        self.assert_secret_in_no_output(ended, final)
        # The bridge that runs uses both at once.
        put = await self.provider.put_token(token("NL/PLN"))
        self.assert_status(put, 200, 1000)
        await self.provider.command("CANCEL_RESERVATION", {
            "response_url": self.provider.url + "/results/1", "reservation_id": "R1"})
        self.assertEqual("UNKNOWN_RESERVATION", (await self.provider.came("results")).body["result"])
        self.assertNotIn(final, self.bridge.log())

    def assert_secret_in_no_output(self, ended: "subprocess.CompletedProcess[str]", secret: str) -> None:
        for written in (ended.stdout, ended.stderr):
            self.assertNotIn(secret, written)
            self.assertNotIn(self.provider.bridge_token, written)

    async def test_what_fails_can_be_begun_again(self) -> None:
        first = self.provider.token
        ended = await self.run_register("http://127.0.0.1:9/versions", first)
        self.assertEqual(1, ended.returncode)
        self.assertTrue(ended.stderr.strip())

        async def refuse(received: Received) -> web.StreamResponse:
            return answered(status_code=3001)
        self.provider.answers["credentials"] = refuse
        ended = await self.run_register(self.provider.versions_url, first)
        self.assertEqual(1, ended.returncode, ended.stderr)
        await self.test_both_sides_have_their_tokens()

    async def test_a_party_that_is_no_partner(self) -> None:
        ended = await self.run_register_of("FR/XXX", self.provider.versions_url, "any")
        self.assertNotEqual(0, ended.returncode)
        self.assertTrue(ended.stderr.strip())
