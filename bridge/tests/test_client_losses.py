"""The OCPI client: what is lost and why, which addresses are asked anew, and what the log tells of it."""
import asyncio
import shutil
import ssl
import subprocess
import tempfile
import unittest
from collections.abc import Callable
from datetime import datetime, timezone
from email.utils import format_datetime
from pathlib import Path

from aiohttp import web

from ocpi_bridge.ocpi.exchange import NoResponse

from .cases import ProviderCase
from .client_cases import ClientCase, fails, unlock, with_serial
from .ocpi_objects import cdr, token
from .ocpi_party import Answer, Received, answered
from .running import eventually, free_port

ACCEPTED = {"result": "ACCEPTED", "timeout": 30}


class Losses(ClientCase):
    """A provider's bridge, and an operator that is a node."""

    async def rests(self, retry_after: Callable[[], str]) -> float:
        """How long, by the clock, a partner is left alone that answers 503 with this `Retry-After`."""
        moments: list[float] = []

        async def busy(received: Received) -> web.StreamResponse:
            moments.append(self.client.events.clock.seconds())
            if len(moments) == 1:
                return web.Response(status=503, headers={"Retry-After": retry_after()})
            return await with_serial(ACCEPTED)(received)
        self.party.answers["commands"] = busy
        task = asyncio.create_task(self.client.run())
        self.addCleanup(task.cancel)
        for request in (7, 8):
            self.client.send(self.packet("unlock_connector", request, unlock(request)))

            async def came(count: int = request - 6) -> bool:
                return len(moments) == count
            await eventually(came, "a request")
            await asyncio.sleep(0.1)
        return moments[1] - moments[0]

    async def test_retry_after_in_seconds_is_kept(self) -> None:
        self.assertGreaterEqual(await self.rests(lambda: "7"), 7)

    async def test_retry_after_as_a_moment_is_kept(self) -> None:
        def in_ten_seconds() -> str:
            return format_datetime(datetime.fromtimestamp(self.client.events.clock.seconds() + 10, timezone.utc), True)
        self.assertGreaterEqual(await self.rests(in_ten_seconds), 8)

    async def test_details_are_asked_anew_where_an_endpoint_is_dead(self) -> None:
        self.party.answers["commands"] = with_serial(ACCEPTED)
        self.client.partners.set_endpoints("BE/BEC", self.party.versions_url, {
            ("commands", "RECEIVER"): f"http://127.0.0.1:{free_port()}"})
        await self.carry(*[self.packet("unlock_connector", 7, unlock(7)) for _ in range(2)])
        self.assertEqual([7], [answer.request for answer in self.delivered])

    async def test_versions_are_asked_anew_where_the_details_are_dead(self) -> None:
        addresses = [f"http://127.0.0.1:{free_port()}/2.2.1", self.party.url + "/2.2.1"]

        async def moves(received: Received) -> web.StreamResponse:
            return answered([{"version": "2.2.1", "url": addresses.pop(0)}])
        self.party.answers["versions"] = moves
        partner = self.client.partners.of("BE/BEC")
        for _ in range(2):
            with self.assertRaises(NoResponse):
                await self.client.exchange.endpoints(partner)
        self.assertIn(("commands", "RECEIVER"), await self.client.exchange.endpoints(partner))

    async def test_an_endpoint_with_a_slash_at_its_end(self) -> None:
        self.party.answers = {"commands": with_serial(ACCEPTED), "cdrs": with_serial()}
        self.client.partners.set_endpoints("BE/BEC", self.party.versions_url, {
            (module, "RECEIVER"): f"{self.party.url}/2.2.1/{module}/" for module in ("commands", "cdrs")})
        await self.carry(self.packet("unlock_connector", 7, unlock(7)),
                         self.packet("post_cdr", 8, cdr("NL/TNM", token("NL/TNM"), "S1")))
        self.assertEqual(["/2.2.1/commands/UNLOCK_CONNECTOR", "/2.2.1/cdrs/"],
                         [received.raw_path for received in self.asked()])

    async def test_what_is_lost_is_told_with_its_ids_and_its_address(self) -> None:
        dead = f"http://127.0.0.1:{free_port()}"
        for url, answer in ((dead, fails(500)), (self.party.url, fails(500))):
            self.party.answers["commands"] = answer
            self.client.partners.set_endpoints("BE/BEC", self.party.versions_url, {("commands", "RECEIVER"): url})
            with self.assertLogs("ocpi_bridge.ocpi.client", "WARNING") as logs:
                await self.carry(self.packet("unlock_connector", 7, unlock(7), serial=19))
            for words in (f"{url}/UNLOCK_CONNECTOR", "NL/TNM/19", "NL/TNM/7"):
                self.assertIn(words, logs.output[0])

    async def test_a_drivers_token_stands_in_no_log(self) -> None:
        dead = f"http://127.0.0.1:{free_port()}"
        self.party.answers["tokens"] = fails(500)
        for url in (dead, self.party.url):
            self.client.partners.set_endpoints("BE/BEC", self.party.versions_url, {("tokens", "RECEIVER"): url})
            with self.assertLogs("ocpi_bridge", "INFO") as logs:
                await self.carry(self.packet("put_token", 7, token("NL/TNM", "SHOWN/1")))
            self.assertIn(f"{url}/NL/TNM/...?type=RFID", logs.output[-1])
            self.assertNotIn("SHOWN", "".join(logs.output))
        self.assertEqual(["/NL/TNM/SHOWN%2F1?type=RFID"], [received.raw_path for received in self.asked()])


class Certificates(ClientCase):
    """The same, over TLS, whose beginning takes its time."""

    clock_factor = 0.5

    @unittest.skipUnless(shutil.which("openssl"), "there is no openssl, which makes a certificate")
    async def test_a_certificate_that_is_not_trusted_is_told_as_that(self) -> None:
        folder = Path(self.enterContext(tempfile.TemporaryDirectory()))
        subprocess.run(["openssl", "req", "-x509", "-newkey", "rsa:2048", "-nodes", "-subj", "/CN=127.0.0.1", "-keyout",
                        folder / "key", "-out", folder / "certificate"], check=True, capture_output=True, timeout=60)
        context = ssl.SSLContext(ssl.PROTOCOL_TLS_SERVER)
        context.load_cert_chain(folder / "certificate", folder / "key")

        async def ends(_: asyncio.StreamReader, writer: asyncio.StreamWriter) -> None:
            writer.close()
        server = await asyncio.start_server(ends, "127.0.0.1", 0, ssl=context)
        self.addCleanup(server.close)
        self.client.partners.set_endpoints("BE/BEC", self.party.versions_url, {
            ("commands", "RECEIVER"): f"https://127.0.0.1:{server.sockets[0].getsockname()[1]}"})
        with self.assertLogs("ocpi_bridge.ocpi.client", "WARNING") as logs:
            await self.carry(self.packet("unlock_connector", 7, unlock(7)))
        self.assertIn("certificate is not trusted", logs.output[0])


class Operators(ClientCase):
    """An operator's bridge, and a provider that is no node."""

    is_operator = True
    kind = "ocpi"

    async def test_a_question_that_is_answered_nothing_of_its_token_is_lost(self) -> None:
        question = self.packet("authorize", 5, {"token_uid": "AA01", "type": "RFID"})
        for status in (401, 408, 429):
            self.party.answers["tokens"] = fails(status)
            await self.carry(question)
        self.assertEqual([], self.delivered)
        self.party.answers["tokens"] = fails(404)
        await self.carry(question)
        self.assertEqual([2001], [answer.body["status_code"] for answer in self.delivered])

    async def test_the_token_of_a_question_stands_in_no_log(self) -> None:
        self.party.answers["tokens"] = fails(500)
        with self.assertLogs("ocpi_bridge", "INFO") as logs:
            await self.carry(self.packet("authorize", 5, {"token_uid": "SHOWN", "type": "RFID"}))
        self.assertIn("/.../authorize?type=RFID", logs.output[-1])
        self.assertNotIn("SHOWN", "".join(logs.output))

    async def test_a_bill_that_is_not_taken_is_warned_of(self) -> None:
        async def refuses(received: Received) -> web.StreamResponse:
            return answered(status_code=2001)
        answer: Answer = refuses
        self.party.answers["cdrs"] = answer
        with self.assertLogs("ocpi_bridge.ocpi.client", "WARNING") as logs:
            await self.carry(self.packet("post_cdr", 8, cdr("BE/BEC", token("NL/TNM"), "S1")))
        self.assertIn("the bill is not taken there", logs.output[0])


class Bills(ProviderCase):
    """A whole bridge of a provider, which gets two bills of a session."""

    async def test_a_bill_that_contradicts_the_one_that_is_held_is_warned_of(self) -> None:
        url = await self.operator.endpoint("cdrs", "RECEIVER")
        first, second = [cdr(self.operator.party, self.token, "S1") for _ in range(2)]
        for bill, status_code in ((first, 1000), (second, 2001), (first, 1000)):
            self.assertEqual(status_code, (await self.operator.ask("POST", url, bill)).status_code)
        warned = [line for line in self.bridge.log().splitlines() if "contradicts" in line]
        self.assertEqual(1, len(warned), warned)
        for words in (first["id"], second["id"], "S1"):
            self.assertIn(words, warned[0])

    async def test_requests_are_logged_with_their_ids(self) -> None:
        url = await self.operator.endpoint("cdrs", "RECEIVER")
        await self.operator.ask("POST", url, cdr(self.operator.party, self.token, "S1"), correlation="correlation-17",
                                headers={"X-Request-ID": "request-17"})
        log = self.bridge.log()
        self.assertRegex(log, r"BE/PLO POST .*: 200 \(request-17, correlation-17\)")
        self.assertRegex(log, r"to BE/PLO: PUT \(NL/TNM/\d+, NL/TNM/\d+\): 200")
