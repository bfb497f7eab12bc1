"""What waits for a partner: what goes first, how many at once, in which order, and how one that fails is asked."""
import asyncio
import signal
from collections.abc import Callable
from contextlib import suppress
from unittest.mock import patch

from aiohttp import web

from ocpi_bridge.application import Bridge
from ocpi_bridge.configuration import read_configuration
from ocpi_bridge.events import Packet
from ocpi_bridge.json_text import NotJson
from ocpi_bridge.node.feeder import OutcomeLost

from . import ocpi_objects
from .cases import BridgeCase
from .client_cases import ClientCase, unlock, with_serial
from .ocpi_objects import start_session
from .ocpi_party import OcpiParty, Received
from .running import Members, RunningBridge, eventually, free_port, operator, partner, provider

ACCEPTED = {"result": "ACCEPTED", "timeout": 30}
PLACE = {"token_uid": "AA01", "token_type": "RFID", "location_id": "LOC1", "evse_uid": "E1", "connector_id": "1"}


class LanesCase(ClientCase):
    """A client that sends what it is given. `begun` has what came, as it came, and `at_once` the most at once."""

    clock_factor = 5.0

    async def asyncSetUp(self) -> None:
        await super().asyncSetUp()
        self.begun: list[Received] = []
        self.under_way = self.at_once = 0
        self.ends = asyncio.Event()
        self.addAsyncCleanup(self.end)
        asyncio.get_running_loop().set_debug(False)

    async def end(self) -> None:
        self.ends.set()

    def answers_after(self, seconds: float, *modules: str) -> None:
        """Has the partner answer requests to some modules after so long, in real time."""
        async def give(received: Received) -> web.StreamResponse:
            self.begun.append(received)
            self.under_way += 1
            self.at_once = max(self.at_once, self.under_way)
            with suppress(TimeoutError):
                await asyncio.wait_for(self.ends.wait(), seconds)
            self.under_way -= 1
            return await with_serial(ACCEPTED if received.module == "commands" else None)(received)
        for module in modules:
            self.party.answers[module] = give

    def begin_to_send(self) -> None:
        task = asyncio.create_task(self.client.run())
        self.addCleanup(task.cancel)

    async def until(self, look: Callable[[], bool], within: float = 60.0) -> None:
        async def looks() -> bool:
            return look()
        await eventually(looks, "what was sent", within)

    def is_delivered(self, request: int) -> bool:
        """Whether the answer to a request came."""
        return any(answer.request == request for answer in self.delivered)

    def put_token(self, request: int, uid: str, serial: int = 0) -> Packet:
        return self.packet("put_token", request, ocpi_objects.token("NL/TNM", uid), serial)


class First(LanesCase):
    """Commands, results and questions go before all else."""

    async def test_a_command_does_not_wait_behind_tokens(self) -> None:
        self.answers_after(0.05, "tokens", "commands")
        for request in range(200):
            self.client.send(self.put_token(request, f"T{request}"))
        self.begin_to_send()
        await self.until(lambda: len(self.begun) > 8)
        self.client.send(self.packet("unlock_connector", 900, unlock(900)))
        await self.until(lambda: self.is_delivered(900))
        self.assertLess(len(self.delivered), 100)

    async def test_a_question_and_a_result_go_before_sessions(self) -> None:
        self.answers_after(0.05, "sessions", "tokens", "results")
        for request in range(100):
            self.client.send(self.packet("put_session", request, {
                **ocpi_objects.session("BE/BEC", ocpi_objects.token("NL/TNM")), "id": f"S{request}"}))
        self.party.role = "EMSP"
        self.requests.keep_url(self.party.party, 7, self.party.url + "/results/7")
        self.begin_to_send()
        self.client.partners.set_endpoints(self.party.party, self.party.versions_url, {
            ("sessions", "RECEIVER"): self.party.url + "/sessions", ("tokens", "SENDER"): self.party.url + "/tokens"})
        self.client.send(self.packet("command_result", 901, {
            "result": "ACCEPTED", "response_url": f"https://node.invalid/{self.party.party}/7"}))
        self.client.send(self.packet("authorize", 902, {"token_uid": "AA01", "type": "RFID"}))
        await self.until(lambda: self.is_delivered(901) and self.is_delivered(902))
        self.assertLess(len(self.delivered), 50)

    async def test_a_command_does_not_wait_for_three_tokens_that_are_never_answered(self) -> None:
        self.answers_after(60, "tokens")
        self.answers_after(0, "commands")
        for request in range(9):
            self.client.send(self.put_token(request, f"T{request}"))
        self.begin_to_send()
        await self.until(lambda: len(self.begun) >= 3)
        self.client.send(self.packet("unlock_connector", 900, unlock(900)))
        await self.until(lambda: self.is_delivered(900))
        self.assertLess(len(self.begun), 9)


class Order(LanesCase):
    """How many requests are under way at once, and in which order those about one object come."""

    async def test_four_at_once(self) -> None:
        self.answers_after(0.1, "commands")
        for request in range(12):
            self.client.send(self.packet("unlock_connector", request, unlock(request)))
        self.begin_to_send()
        await self.until(lambda: len(self.delivered) == 12)
        self.assertEqual(4, self.at_once)

    async def test_a_sessions_versions_and_its_bill_in_order(self) -> None:
        self.answers_after(0.05, "sessions", "cdrs")
        self.client.partners.set_endpoints(self.party.party, self.party.versions_url, {
            (module, "RECEIVER"): f"{self.party.url}/{module}" for module in ("sessions", "cdrs")})
        of = ocpi_objects.token("NL/TNM")
        ids = ("S1", "S2", "S3")
        for round_, request in enumerate((1, 11, 21)):
            for place, name in enumerate(ids):
                self.client.send(self.packet("put_session", request + place, {
                    **ocpi_objects.session("BE/BEC", of), "id": name, "kwh": round_}))
            if round_ == 0:
                self.begin_to_send()
                await self.until(lambda: len(self.begun) == 3)
        for place, name in enumerate(ids):
            self.client.send(self.packet("post_cdr", 31 + place, ocpi_objects.cdr("BE/BEC", of, name)))
        await self.until(lambda: len(self.delivered) == 9)
        for name in ids:
            came = [received.body.get("kwh", "bill") for received in self.begun
                    if name in (received.body["id"], received.body.get("session_id"))]
            # The second version was overtaken while it waited.
            self.assertEqual([0, 2, "bill"], came)

    async def test_a_repeat_takes_the_place_of_what_waits(self) -> None:
        self.answers_after(0.05, "commands")
        for serial, request in enumerate([4, 5, 4, 6], 1):
            self.client.send(self.packet("unlock_connector", request, unlock(request), serial))
        self.begin_to_send()
        await self.until(lambda: len(self.delivered) == 3)
        self.assertEqual({"NL/TNM/3", "NL/TNM/2", "NL/TNM/4"},
                         {received.headers["X-Request-ID"] for received in self.begun})

    async def test_a_command_that_is_under_way_is_not_sent_beside_itself(self) -> None:
        self.answers_after(60, "commands")
        self.begin_to_send()
        for serial in range(1, 5):
            self.client.send(self.packet("start_session", 7, start_session(
                ocpi_objects.token("NL/TNM"), "https://node.invalid/NL/TNM/7"), serial))
            await self.until(lambda: len(self.begun) == 1)
        self.ends.set()
        await self.until(lambda: len(self.delivered) == 1)
        await asyncio.sleep(0.3)
        self.assertEqual((1, 1), (self.at_once, len(self.begun)))

    async def test_no_command_is_lost_where_thousands_wait(self) -> None:
        self.answers_after(0, "commands")
        for request in range(2500):
            self.client.send(self.packet("unlock_connector", request, unlock(request)))
        self.begin_to_send()
        await self.until(lambda: len(self.delivered) == 2500, 400)


class Failing(LanesCase):
    """A partner that fails is asked less often, each lane by itself, and one that answers stops nothing."""

    async def test_one_that_fails_again_and_again_is_asked_less_often(self) -> None:
        moments: list[float] = []

        async def note(received: Received) -> web.StreamResponse:
            moments.append(self.client.events.clock.seconds())
            return web.Response(status=503)
        self.party.answers["commands"] = note
        self.client.send(self.packet("unlock_connector", 0, unlock(0)))
        self.begin_to_send()
        await self.until(lambda: len(moments) == 1)
        await asyncio.sleep(0.1)
        for request in range(1, 7):
            self.client.send(self.packet("unlock_connector", request, unlock(request)))
        await self.until(lambda: len(moments) >= 6)
        pauses = [later - earlier for earlier, later in zip(moments, moments[1:])]
        for pause, least in zip(pauses, (0, 1, 2, 4, 5)):
            self.assertGreaterEqual(pause, least)
        self.party.answers["commands"] = with_serial(ACCEPTED)
        for request in range(7, 10):
            self.client.send(self.packet("unlock_connector", request, unlock(request)))
        await self.until(lambda: len(self.delivered) >= 3)

    async def test_failing_pushes_do_not_keep_a_command(self) -> None:
        async def fail(received: Received) -> web.StreamResponse:
            self.begun.append(received)
            return web.Response(status=503)
        self.party.answers["tokens"] = fail
        self.answers_after(0, "commands")
        for request in range(40):
            self.client.send(self.put_token(request, f"T{request}"))
        self.begin_to_send()
        await self.until(lambda: len(self.begun) >= 7)
        self.client.send(self.packet("unlock_connector", 900, unlock(900)))
        await self.until(lambda: self.is_delivered(900))
        self.assertLess(len(self.begun), 20)

    async def test_what_is_not_taken_stops_nothing(self) -> None:
        self.faults = [NotJson("nested too deep"), RuntimeError("a fault"), OutcomeLost()]
        self.party.answers["commands"] = with_serial(ACCEPTED)
        self.begin_to_send()
        with self.assertLogs("ocpi_bridge.ocpi.client"):
            for request in range(1, 5):
                self.client.send(self.packet("unlock_connector", request, unlock(request)))
            await self.until(lambda: len(self.delivered) == 2)


class TooMany(BridgeCase):
    """A provider's bridge in this process, where three commands wait at most, and an operator that answers none."""

    async def post(self, url: str, operator_party: OcpiParty) -> Members:
        reply = await operator_party.ask("POST", url, {"operator": "BE/PLO", "order": "start_session", **PLACE},
                                         headers={"Authorization": None})
        return {"status": reply.http_status, **reply.members}

    async def test_an_order_above_the_most_that_wait_gets_503(self) -> None:
        operator_party = await self.begin_party("BE/PLO", "CPO")

        ends = asyncio.Event()

        async def never(received: Received) -> web.StreamResponse:
            await ends.wait()
            return web.Response()
        operator_party.answers["commands"] = never
        running = RunningBridge(self.make_folder(), [provider("NL/TNM"), operator("BE/PLO", ["E1"])], "NL/TNM", [
            partner("BE/PLO", "ocpi", "ours", operator_party.token, operator_party.versions_url)])
        admin = f"127.0.0.1:{free_port()}"
        running.configuration["admin"]["listen"] = admin
        running.write()
        operator_party.deals_with("NL/TNM", running.ocpi_url + "/ocpi/versions")
        with patch("ocpi_bridge.ocpi.lanes.MOST_WAITING", 3):
            configuration = read_configuration(running.folder / "bridge.json")
            bridge = asyncio.create_task(Bridge(configuration, lambda: configuration).run())
            self.addCleanup(bridge.cancel)

            async def listens() -> bool:
                try:
                    return (await operator_party.ask("GET", f"http://{admin}/health",
                                                     headers={"Authorization": None})).http_status == 200
                except OSError:
                    return False
            await eventually(listens, "the bridge listens")
            await operator_party.ask("POST", f"http://{admin}/tokens", ocpi_objects.token("NL/TNM"),
                                     headers={"Authorization": None})
            statuses = [(await self.post(f"http://{admin}/orders", operator_party))["status"] for _ in range(7)]
            self.assertEqual([200] * 7, statuses)
            refused = await self.post(f"http://{admin}/orders", operator_party)
            self.assertEqual(503, refused["status"], refused)
            self.assertIn("nothing was done", refused["error"])
            ends.set()
            signal.raise_signal(signal.SIGTERM)
            await asyncio.wait_for(bridge, 30)
