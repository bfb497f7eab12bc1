"""Charge points that send too much at once, and connections that nobody asked for."""
import asyncio
import json

import aiohttp

from .cases import PASSWORD
from .charge_point_cases import START, FramesCase
from .charge_point_frames import ChargePoint


class Floods(FramesCase):
    """Many frames at once, large ones, and many connections."""

    async def test_500_calls_at_once_are_answered_in_order(self) -> None:
        identifiers = [await self.charge_point.begin_call("StartTransaction", START) if number % 2 else
                       await self.charge_point.begin_call("Heartbeat", {}) for number in range(500)]
        answers = [await self.charge_point.answer() for _ in identifiers]
        self.assertEqual(identifiers, [answer[1] for answer in answers])
        self.assertEqual({3}, {answer[0] for answer in answers})
        self.assertEqual(1, len({answer[2]["transactionId"] for answer in answers if "transactionId" in answer[2]}))
        self.assertEqual(1, len(await self.bridge.admin_get("/sessions")))
        self.assert_memory()

    async def test_frames_that_are_too_large(self) -> None:
        """Such a frame is answered by an error, or ends the connection. The charge point may come again."""
        large = json.dumps([2, "large", "DataTransfer", {"vendorId": "v", "data": "x" * 10_000_000}])
        ends = [asyncio.create_task(self.charge_point.was_closed()), asyncio.create_task(self.charge_point.answer())]
        try:
            await self.charge_point.send(large)
            await asyncio.wait(ends, return_when=asyncio.FIRST_COMPLETED)
        except (ConnectionError, aiohttp.ClientError):
            pass
        for end in ends:
            end.cancel()
        await self.charge_point.connect()
        self.assertEqual(["currentTime"], list(await self.charge_point.call("Heartbeat", {})))
        self.assert_memory()

    async def test_connections_without_end(self) -> None:
        """One that connects again and again, and a hundred with wrong passwords, leave room for the other."""
        other = await self.connected("CP2", None)
        for _ in range(50):
            await self.charge_point.connect()

        async def refused(number: int) -> int:
            try:
                await ChargePoint(self.bridge.ocpp_url, "CP1", f"wrong-password-{number}").connect()
            except aiohttp.WSServerHandshakeError as refusal:
                return refusal.status
            return 101
        self.assertEqual([401] * 100, await asyncio.gather(*(refused(number) for number in range(100))))
        self.assertEqual(["currentTime"], list(await other.call("Heartbeat", {})))
        self.assertEqual(["currentTime"], list(await self.charge_point.call("Heartbeat", {})))
        self.assertNotIn("wrong-password", self.bridge.log())

    async def test_a_charge_point_that_loses_its_connection_before_each_answer(self) -> None:
        for _ in range(10):
            await self.charge_point.begin_call("StartTransaction", START)
            await self.charge_point.connect()
        begun = await self.charge_point.call("StartTransaction", START)
        self.assertEqual("Accepted", begun["idTagInfo"]["status"])
        stop = {"transactionId": begun["transactionId"], "meterStop": 3000, "timestamp": "2025-01-01T11:00:00Z"}
        for _ in range(10):
            await self.charge_point.begin_call("StopTransaction", stop)
            await self.charge_point.connect()
        await self.charge_point.call("StopTransaction", stop)
        bills = await self.bridge.admin_get("/cdrs")
        self.assertEqual([2.0], [bill["total_energy"] for bill in bills])

    async def test_a_socket_without_the_subprotocol(self) -> None:
        """It is refused; nothing breaks."""
        async with aiohttp.ClientSession(auth=aiohttp.BasicAuth("CP1", PASSWORD)) as client:
            with self.assertRaises(aiohttp.WSServerHandshakeError):
                await client.ws_connect(f"{self.bridge.ocpp_url}/CP1", protocols=("ocpp1.2",))
        self.assertEqual(["currentTime"], list(await self.charge_point.call("Heartbeat", {})))
