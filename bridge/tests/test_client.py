"""The OCPI client: what a packet is over HTTP, what an answer is as a packet, and what is lost, and when it is sent."""
import asyncio
from collections.abc import Callable

from aiohttp import web

from ocpi_bridge.json_text import NotJson
from ocpi_bridge.node.feeder import OutcomeLost

from .client_cases import BRIDGE_URL, ClientCase, fails, stop, unlock, with_serial
from .ocpi_objects import session, token
from .ocpi_party import Received, answered, token_header
from .running import Members, eventually, free_port

ACCEPTED = {"result": "ACCEPTED", "timeout": 30}


class Commands(ClientCase):
    """A provider's bridge, and an operator that is a node."""

    async def test_a_command_is_a_request_and_its_response_a_packet(self) -> None:
        self.party.answers["commands"] = with_serial(ACCEPTED, serial=41)
        await self.carry(self.packet("unlock_connector", 7, unlock(7), serial=19))
        received, = self.asked()
        self.assertEqual(("POST", "/2.2.1/commands/UNLOCK_CONNECTOR"), (received.method, received.raw_path))
        self.assertEqual({"Authorization": token_header("their-token"), "X-Request-ID": "NL/TNM/19",
                          "X-Correlation-ID": "NL/TNM/7", "OCPI-from-country-code": "NL", "OCPI-from-party-id": "TNM",
                          "OCPI-to-country-code": "BE", "OCPI-to-party-id": "BEC"},
                         {name: received.headers[name] for name in (
                             "Authorization", "X-Request-ID", "X-Correlation-ID", "OCPI-from-country-code",
                             "OCPI-from-party-id", "OCPI-to-country-code", "OCPI-to-party-id")})
        self.assertEqual({**unlock(7), "response_url": f"{BRIDGE_URL}/ocpi/2.2.1/sender/commands/results/7"},
                         received.body)
        answer, = self.delivered
        self.assertEqual(("BE/BEC", "NL/TNM", 41, 7, "command_response"),
                         (answer.sender, answer.receiver, answer.serial, answer.request, answer.kind))
        self.assertEqual(ACCEPTED, answer.body["data"])
        self.assertEqual({"status_code", "timestamp", "data"}, set(answer.body))

    async def test_what_is_no_packet_of_the_partners_node_is_lost(self) -> None:
        async def no_serial(received: Received) -> web.StreamResponse:
            return answered(ACCEPTED)
        for answer in (no_serial, with_serial(ACCEPTED, serial=-1), fails(400), fails(504)):
            self.party.answers["commands"] = answer
            await self.carry(self.packet("unlock_connector", 7, unlock(7)))
        self.assertEqual((4, []), (len(self.asked()), self.delivered))

    async def test_a_node_repeats_what_its_partner_knows_again(self) -> None:
        self.party.answers["commands"] = with_serial(ACCEPTED)
        await self.carry(*[self.packet("stop_session", 7, stop(7), serial) for serial in (3, 4)])
        self.assertEqual(["NL/TNM/7"] * 2, [received.headers["X-Correlation-ID"] for received in self.asked()])

    async def test_ids_are_one_segment_of_the_path(self) -> None:
        self.party.answers["tokens"] = with_serial()
        for uid in ("A/B?C D", "..", "%2F"):
            await self.carry(self.packet("put_token", 1, token("NL/TNM", uid)))
        self.assertEqual(["/2.2.1/tokens/NL/TNM/A%2FB%3FC%20D?type=RFID", "/2.2.1/tokens/NL/TNM/..?type=RFID",
                          "/2.2.1/tokens/NL/TNM/%252F?type=RFID"], [received.raw_path for received in self.asked()])
        self.assertEqual({("ack", 41)}, {(answer.kind, answer.serial) for answer in self.delivered})

    async def test_a_404_has_the_endpoints_asked_again(self) -> None:
        self.party.answers["commands"] = fails(404)
        await self.carry(*[self.packet("unlock_connector", 7, unlock(7)) for _ in range(2)])
        paths = [received.path for received in self.party.requests]
        self.assertEqual(["/versions", "/2.2.1", "/2.2.1/commands/UNLOCK_CONNECTOR"] * 2, paths)

    async def test_too_much_and_nothing_at_all_are_lost(self) -> None:
        async def too_much(received: Received) -> web.StreamResponse:
            return answered("x" * 1_000_000, headers={"X-Serial": "3"})

        async def nothing(received: Received) -> web.StreamResponse:
            await asyncio.sleep(60)
            return answered()
        for answer in (too_much, nothing):
            self.party.answers["commands"] = answer
            await asyncio.wait_for(self.carry(self.packet("unlock_connector", 7, unlock(7))), 20)
        self.assertEqual([], self.delivered)
        self.assertIn('ocpi_http_requests_total{direction="out",partner="BE/BEC",status="lost"} 2.0',
                      self.metrics.text())


class Questions(ClientCase):
    """An operator's bridge asks whether a token may be used, of a provider that is a node."""

    is_operator = True
    place = {"location_id": "LOC1", "evse_uids": ["E1"]}
    # What comes of a refusal by the node, of a 404 and a refusal that are not its packet, of another 404, and of a 500:
    # the serial and the status of what is fed. Nothing is that the provider's node did not send.
    refusals: tuple[list[tuple[int, int]], ...] = ([(9, 2004)], [], [], [], [])

    async def ask(self) -> None:
        await self.carry(self.packet("authorize", 5, {"token_uid": "AA01", "type": "RFID", "location": self.place}))

    async def test_what_comes_of_a_refusal(self) -> None:
        async def refuses(received: Received) -> web.StreamResponse:
            return answered(status_code=2004)

        async def numbered(received: Received) -> web.StreamResponse:
            response = answered(status_code=2004, headers={"X-Serial": "9"})
            response.set_status(404)
            return response
        answers = (with_serial(status_code=2004, serial=9), fails(404), refuses, numbered, fails(500))
        for answer, wanted in zip(answers, self.refusals, strict=True):
            self.delivered.clear()
            self.party.answers["tokens"] = answer
            await self.ask()
            self.assertEqual(wanted, [(each.serial, each.body["status_code"]) for each in self.delivered])
            for each in self.delivered:
                self.assertEqual(("authorization", 5, {"status_code", "timestamp"}),
                                 (each.kind, each.request, set(each.body)))

    async def test_the_location_is_the_body(self) -> None:
        self.party.answers["tokens"] = with_serial({"allowed": "ALLOWED", "token": token("NL/TNM")})
        await self.ask()
        received, = self.asked()
        self.assertEqual(("POST", "/2.2.1/tokens/AA01/authorize?type=RFID", self.place),
                         (received.method, received.raw_path, received.body))
        self.assertEqual("ALLOWED", self.delivered[0].body["data"]["allowed"])

    async def test_a_result_goes_where_the_provider_wants_it(self) -> None:
        self.party.answers["results"] = with_serial()
        self.requests.keep_url("NL/TNM", 7, self.party.url + "/results/a?b=c d")
        for number in (7, 8):
            await self.carry(self.packet("command_result", 9, {
                "result": "ACCEPTED", "response_url": f"https://node.invalid/NL/TNM/{number}"}))
        received, = self.asked()
        self.assertEqual(("/results/a?b=c%20d", {"result": "ACCEPTED"}), (received.raw_path, received.body))
        self.assertEqual(token_header("their-token"), received.headers["Authorization"])
        self.assertEqual([("ack", 9)], [(answer.kind, answer.request) for answer in self.delivered])


class OtherProvider(Questions):
    """The same, of a provider that is no node: a refusal over HTTP is an answer, and a fault is none."""

    kind = "ocpi"
    refusals = ([(0, 2004)], [(0, 2001)], [(0, 2004)], [(0, 2001)], [])

    async def allowed(self, **members: object) -> str:
        """What comes of an ALLOWED with these members."""
        information: Members = {"allowed": "ALLOWED", "token": token("NL/TNM"), **members}

        async def allows(received: Received) -> web.StreamResponse:
            return answered(information)
        self.party.answers["tokens"] = allows
        await self.ask()
        return str(self.delivered[-1].body["data"]["allowed"])

    async def test_a_location_without_the_evse_allows_nothing_there(self) -> None:
        places: list[object] = [
            {"location_id": "loc1", "evse_uids": ["E0", "e1"]}, {"location_id": "LOC1", "evse_uids": ["E2"]},
            {"location_id": "LOC2", "evse_uids": ["E1"]}, {"location_id": "LOC1"}, "LOC1"]
        self.assertEqual(["ALLOWED"] + ["NOT_ALLOWED"] * 4, [await self.allowed(location=place) for place in places])
        self.assertEqual("ALLOWED", await self.allowed())

    async def test_a_result_goes_where_the_provider_wants_it(self) -> None:
        url = self.party.url + "/results/77"
        await self.carry(self.packet("command_result", 9, {"result": "ACCEPTED", "response_url": url}))
        self.assertEqual(["/results/77"], [received.path for received in self.asked()])

    async def test_moments_that_no_node_reads(self) -> None:
        for written, read in (("2025-01-01T12:00:00+02:00", "2025-01-01T10:00:00.000Z"), ("yesterday", None)):
            async def pushes(received: Received, timestamp: str = written) -> web.StreamResponse:
                return web.json_response({"status_code": 1000, "timestamp": timestamp})
            self.party.answers["sessions"] = pushes
            await self.carry(self.packet("put_session", 5, session("BE/BEC", token("NL/TNM"), id="S1")))
            self.assertRegex(self.delivered[-1].body["timestamp"], read or r"^\d{4}-\d\d-\d\dT\d\d:\d\d:\d\d\.\d{3}Z$")
            self.assertEqual(0, self.delivered[-1].serial)


class Once(ClientCase):
    """A provider's bridge, and an operator that knows no repeats. The clock goes as fast as the machine's."""

    kind = "ocpi"
    clock_factor = 1.0

    async def test_a_repeat_is_not_sent_and_gets_the_answer_that_came(self) -> None:
        await self.carry(*[self.packet("stop_session", 7, stop(7), serial) for serial in (3, 4)])
        self.begin()
        await self.carry(self.packet("stop_session", 7, stop(7), 5), self.packet("stop_session", 8, stop(8)))
        self.assertEqual(["NL/TNM/7", "NL/TNM/8"], [received.headers["X-Correlation-ID"] for received in self.asked()])
        self.assertEqual([7, 7, 7, 8], [answer.request for answer in self.delivered])

    async def test_what_was_perhaps_received_is_not_sent_again(self) -> None:
        self.party.answers["commands"] = fails(500)
        await self.carry(*[self.packet("stop_session", 7, stop(7)) for _ in range(2)])
        self.assertEqual((1, []), (len(self.asked()), self.delivered))

    async def test_what_surely_was_not_sent_goes_again(self) -> None:
        async def says_nothing(_: asyncio.StreamReader, writer: asyncio.StreamWriter) -> None:
            self.addCleanup(writer.close)
        silent = await asyncio.start_server(says_nothing, "127.0.0.1", 0)
        self.addCleanup(silent.close)
        port = silent.sockets[0].getsockname()[1]
        for url in (f"http://127.0.0.1:{free_port()}", f"https://127.0.0.1:{port}"):
            self.client.partners.set_endpoints("BE/BEC", self.party.versions_url, {("commands", "RECEIVER"): url})
            await self.carry(self.packet("stop_session", 7, stop(7)))
        self.client.partners.set_endpoints("BE/BEC", self.party.versions_url, {})
        await self.carry(self.packet("stop_session", 7, stop(7)))
        self.assertEqual((1, [7]), (len(self.asked()), [answer.request for answer in self.delivered]))

    async def test_others_are_repeated(self) -> None:
        await self.carry(*[self.packet("unlock_connector", 7, unlock(7)) for _ in range(2)])
        self.assertEqual(2, len(self.asked()))
