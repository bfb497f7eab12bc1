"""Orders that come late: what is sent, what the provider's node is told, and what is stopped."""
import asyncio

from ocpi_bridge.events import Outcome, Packet

from .cases import PASSWORD, BridgeCase, ProviderCase
from .charge_point_frames import ChargePoint
from .client_cases import ClientCase, fails, unlock, with_serial
from .ocpi_objects import session, start_session, token
from .ocpi_party import Received
from .running import Members, RunningBridge, charge_point, eventually, operator, partner, provider

START = {"token_uid": "AA01", "token_type": "RFID", "location_id": "LOC1", "evse_uid": "E1", "connector_id": "1"}


class Age(ClientCase):
    """A provider's bridge, and an operator that is a node: the age of an order goes with it."""

    clock_factor = 20.0

    def given(self, packet: Packet, event: str = "submit", at: str | None = None) -> None:
        """Has the node send a packet for an event."""
        moment = at or self.client.events.clock.moment()
        outcome = Outcome({"event": event, "at": moment}, {"done": "stepped"}, (packet,))
        with self.state.transaction():
            self.orders.note(outcome)

    async def ages(self, packet: Packet) -> list[int | None]:
        await self.carry(packet)
        return [int(received.headers["X-Order-Age"]) if "X-Order-Age" in received.headers else None
                for received in self.asked()]

    async def test_the_age_of_an_order_goes_with_a_start_and_an_unlocking(self) -> None:
        self.party.answers["commands"] = with_serial({"result": "ACCEPTED", "timeout": 30})
        command = self.packet("unlock_connector", 7, unlock(7))
        begun = self.client.events.clock.seconds()
        self.given(command)
        await asyncio.sleep(0.25)
        self.given(command, "tick")
        self.given(self.packet("stop_session", 8, {}))
        first, = await self.ages(command)
        self.assertIsNotNone(first)
        most = 1000 * (self.client.events.clock.seconds() - begun) + 1
        self.assertTrue(4000 < (first or 0) <= most, (first, most))
        stop = {"response_url": "https://node.invalid/NL/TNM/8", "session_id": "S1"}
        self.assertIsNone((await self.ages(self.packet("stop_session", 8, stop)))[-1])

    async def test_an_order_whose_outcome_a_stop_lost_is_as_old_as_its_line(self) -> None:
        command = self.packet("unlock_connector", 7, unlock(7))
        given = "2025-01-01T10:00:00.000Z"
        self.orders.note_left([{"event": "tick", "at": given}, {"event": "submit", "at": given}])
        self.given(command, "tick")
        self.assertGreater(self.orders.age(command), 60_000)


class ToNodes(BridgeCase):
    """An operator's bridge, and a provider of kind `node`, whose order is old when it comes."""

    async def asyncSetUp(self) -> None:
        self.provider = await self.begin_party("NL/PLN", "EMSP")
        self.bridge = await self.begin_bridge(
            RunningBridge(self.make_folder(), [operator("BE/BEC", ["E1"]), provider("NL/PLN")], "BE/BEC",
                          [partner("NL/PLN", "node", self.provider.bridge_token, self.provider.token,
                                   self.provider.versions_url)], [charge_point("CP1", ["E1"], PASSWORD)]),
            [self.provider])
        self.connected = ChargePoint(self.bridge.ocpp_url, "CP1", PASSWORD)
        self.addAsyncCleanup(self.connected.close)
        await self.connected.connect()

    async def start(self, number: int, age: int) -> None:
        """Orders a session, and sees that the node has accepted the command."""
        reply = await self.provider.command(
            "START_SESSION", start_session(token("NL/PLN"), f"{self.provider.url}/results/{number}"),
            correlation=f"NL/PLN/{number}", headers={"X-Request-ID": f"NL/PLN/{number}", "X-Order-Age": str(age)})
        self.assertEqual("ACCEPTED", reply.data["result"])

    async def result(self, number: int) -> str:
        received = await self.provider.came("results", lambda request: request.path == f"/results/{number}")
        return str(received.body["result"])

    async def test_an_old_start_is_asked_of_no_charge_point(self) -> None:
        await self.start(5, 60_001)
        self.assertEqual("FAILED", await self.result(5))
        self.assertTrue(self.connected.was_not_asked())
        await self.start(6, 59_000)
        identifier, _ = await self.connected.asked("RemoteStartTransaction")
        await self.connected.give(identifier, {"status": "Accepted"})
        self.assertEqual("ACCEPTED", await self.result(6))

    async def test_one_that_waits_for_its_charge_point_is_refused_by_its_repeat(self) -> None:
        await self.connected.close()
        for age in (59_000, 69_000):
            await self.start(5, age)
        self.assertEqual("FAILED", await self.result(5))
        await self.connected.connect()
        self.assertTrue(self.connected.was_not_asked())


class ToOthers(ProviderCase):
    """A provider's bridge, and an operator that is no node. The clock goes fifteen times as fast."""

    clock_factor = 15.0

    async def is_told(self, result: str, member: str = "response") -> None:
        """Waits until the node's newest command has a response, or a result."""
        async def looks() -> bool:
            return bool((await self.bridge.admin_get("/commands"))[0][member] == result)
        await eventually(looks, f"{member} {result}")

    def commands(self, name: str) -> list[Received]:
        return [received for received in self.operator.requests if received.path.endswith(name)]

    async def start(self) -> str:
        """Orders a session, and gives its authorization reference."""
        return str((await self.order("start_session", **START))["body"]["authorization_reference"])

    async def puts_session(self, reference: str, **members: object) -> Members:
        put: Members = {**session(self.operator.party, self.token), "authorization_reference": reference, **members}
        self.assert_status(await self.operator.put_session(put), 200, 1000)
        return put

    async def test_a_start_without_an_answer_is_given_up_and_its_session_stopped(self) -> None:
        self.operator.answers["commands"] = fails(500)
        reference = await self.start()
        await self.is_told("REJECTED")
        del self.operator.answers["commands"]
        put = await self.puts_session(reference)
        stop = await self.operator.came("commands", lambda received: received.path.endswith("/STOP_SESSION"))
        self.assertEqual(put["id"], stop.body["session_id"])
        self.assertEqual(1, len(self.commands("/START_SESSION")))
        self.assertIn("STOP_SESSION is ordered", self.bridge.log())
        # It is ordered again while the session goes on, and not once it is over.
        await self.operator.came("commands", lambda received: received.path.endswith("/STOP_SESSION"))
        await self.puts_session(reference, **{**put, "status": "COMPLETED", "last_updated": "2098-01-01T00:00:00Z"})
        await asyncio.sleep(1)
        self.operator.requests.clear()
        await asyncio.sleep(6)
        self.assertEqual([], self.commands("/STOP_SESSION"))

    async def test_an_order_that_was_given_while_the_operator_was_down_is_not_sent_later(self) -> None:
        url = self.operator.url
        await self.operator.close()
        await self.start()
        await self.bridge.stop()
        await asyncio.sleep(4)
        await self.bridge.start()
        await self.is_told("REJECTED")
        await self.operator.start(int(url.rpartition(":")[2]))
        await asyncio.sleep(2)
        self.assertEqual([], self.commands("/START_SESSION"))

    async def test_a_command_without_a_result_gets_timeout(self) -> None:
        await self.start()
        await self.is_told("ACCEPTED")
        self.assertIsNone((await self.bridge.admin_get("/commands"))[0]["result"])
        await self.bridge.stop()
        await self.bridge.start()
        await self.is_told("TIMEOUT", "result")
        # What comes later is answered, and changes nothing.
        posted = self.commands("/START_SESSION")[0].body["response_url"]
        self.assert_status(await self.operator.ask("POST", posted, {"result": "ACCEPTED"}), 200, 1000)
        await self.is_told("TIMEOUT", "result")

    async def test_a_session_whose_start_was_answered_is_not_stopped(self) -> None:
        reference = await self.start()
        await self.is_told("ACCEPTED")
        await self.puts_session(reference)
        await self.is_told("TIMEOUT", "result")
        await asyncio.sleep(1)
        self.assertEqual([], self.commands("/STOP_SESSION"))
