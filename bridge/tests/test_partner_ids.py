"""The ids of requests of a partner that is a node's bridge, by which a repeated request is known."""
from .cases import PASSWORD, BridgeCase
from .charge_point_frames import ChargePoint
from .ocpi_objects import start_session, token
from .running import RunningBridge, charge_point, operator, partner, provider


class Ids(BridgeCase):
    """A provider of kind `node`: its correlation ids are `NL/PLN/n`."""

    async def asyncSetUp(self) -> None:
        self.provider = await self.begin_party("NL/PLN", "EMSP")
        self.bridge = await self.begin_bridge(
            RunningBridge(self.make_folder(), [operator("BE/BEC", ["E1"]), provider("NL/PLN")], "BE/BEC",
                          [partner("NL/PLN", "node", self.provider.bridge_token, self.provider.token,
                                   self.provider.versions_url)], [charge_point("CP1", ["E1"], PASSWORD)]),
            [self.provider])
        self.token = token(self.provider.party)

    async def test_correlation_ids_that_are_no_numbers_of_the_partner(self) -> None:
        for correlation in ("3f2c6a7e-0000-4000-8000-000000000000", "DE/OTR/1", "NL/PLN/", "NL/PLN/x", "NL/PLN/-1",
                            "NL/PLN/1/2", "7", "NL/PLN/1.5", "NL/PLN/" + "9" * 30):
            with self.subTest(correlation=correlation):
                reply = await self.provider.put_token(self.token, correlation=correlation,
                                                      headers={"X-Request-ID": "NL/PLN/1"})
                self.assert_refused(reply, 2001)
        reply = await self.provider.put_token(self.token, headers={"X-Correlation-ID": None})
        self.assert_refused(reply, 2001)
        self.assertEqual([], await self.bridge.admin_get("/tokens"))

    async def test_a_number_that_comes_again_gets_its_first_answer(self) -> None:
        connected = ChargePoint(self.bridge.ocpp_url, "CP1", PASSWORD)
        self.addAsyncCleanup(connected.close)
        await connected.connect()
        start = start_session(self.token, "https://node.invalid/NL/PLN/5")
        other = start_session(self.token, "https://node.invalid/NL/PLN/5")
        replies = [await self.provider.command("START_SESSION", body, correlation="NL/PLN/5",
                                               headers={"X-Request-ID": f"NL/PLN/{serial}"})
                   for serial, body in ((1, start), (2, start), (3, other))]
        self.assertEqual([replies[0].members] * 3, [reply.members for reply in replies])
        # Each response is a packet of its own, and tells its serial.
        serials = [int(reply.headers["X-Serial"]) for reply in replies]
        self.assertEqual(sorted(set(serials)), serials)
        identifier, _ = await connected.asked("RemoteStartTransaction")
        await connected.give(identifier, {"status": "Accepted"})
        await self.provider.came("sessions")
        self.assertTrue(connected.was_not_asked())
        self.assertEqual(1, len(await self.bridge.admin_get("/sessions")))
