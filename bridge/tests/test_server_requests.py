"""The OCPI server: which request is a repeat, and what becomes of one that nobody awaits any more."""
import asyncio

from ocpi_bridge.ocpi.requests import Requests, digest_of

from . import ocpi_objects
from .running import Members
from .server_cases import Answer, ServerCase


class Repeats(ServerCase):
    """An operator, and a provider that is no node."""

    async def put(self, uid: str, correlation: str, **members: object) -> Answer:
        return await self.ask("ocpi", "PUT", f"receiver/tokens/DE/EVC/{uid}", {
            **ocpi_objects.token("DE/EVC", uid), **members}, headers={"X-Correlation-ID": correlation})

    async def test_one_correlation_id_over_two_requests_loses_none(self) -> None:
        with self.assertLogs("ocpi_bridge.ocpi.requests", "WARNING") as logs:
            changed: Members = {"valid": False, "last_updated": "2025-01-01T11:00:00Z"}
            asked: list[tuple[str, Members]] = [("AA01", {}), ("AA02", {}), ("AA01", {}), ("AA01", changed)]
            for uid, members in asked:
                self.assertEqual((200, 1000), (await self.put(uid, "one", **members)).told)
        numbers = [outcome.event["packet"]["request"] for outcome in self.outcomes if "packet" in outcome.event]
        self.assertEqual([0, 1, 0, 2], [number - numbers[0] for number in numbers])
        self.assertEqual({("AA01", False), ("AA02", True)},
                         {(held["uid"], held["valid"]) for held in self.objects.newest("tokens")})
        self.assertEqual(2, len(logs.output))
        self.assertIn("DE/EVC: X-Correlation-ID one is that of another request too", logs.output[0])

    async def test_members_in_another_order_are_the_same_request(self) -> None:
        one, other = b'{"a": 1, "b": [{"c": 2, "d": "x"}]}', b'{"b":[{"d":"x","c":2}],"a":1}'
        self.assertEqual(digest_of("PUT /", one), digest_of("PUT /", other))
        for asked, body in (("PUT /", b"{}"), ("PUT /a", one), ("POST /", one), ("PUT /", one.replace(b"2", b"3"))):
            self.assertNotEqual(digest_of("PUT /", one), digest_of(asked, body))

    async def test_a_number_that_an_earlier_bridge_kept_is_that_of_the_repeat(self) -> None:
        self.state.query("INSERT INTO request_digest (partner, correlation, digest, number)"
                         " VALUES ('DE/EVC', 'one', x'', 7)")
        self.state.set_value("last_request", "9")
        requests = Requests(self.state)
        numbers = [requests.number("de/evc", "one", digest) for digest in (b"a", b"a", b"b", b"a")]
        self.assertEqual([7, 7, 10, 7], numbers)


class NobodyWaits(ServerCase):
    """The node is closed for longer than a request waits."""

    async def while_closed(self, *asked: "asyncio.Task[Answer]") -> list[Answer]:
        """What is answered to requests that are asked while the node is closed."""
        opens = asyncio.Event()
        closed = asyncio.create_task(self.feeder.while_closed(opens.wait))
        try:
            return list(await asyncio.gather(*asked))
        finally:
            opens.set()
            await closed

    def begin(self, number: int, reference: str) -> "asyncio.Task[Answer]":
        body: Members = ocpi_objects.start_session(ocpi_objects.token("NL/TNM"), "https://tnm.example/results/7",
                                                   authorization_reference=reference)
        return asyncio.create_task(self.ask("node", "POST", "receiver/commands/START_SESSION", body, number))

    def started(self) -> int:
        return sum(1 for outcome in self.outcomes if outcome.event["event"] == "deliver")

    async def test_a_request_that_was_answered_504_is_not_carried_out_later(self) -> None:
        answers = await self.while_closed(self.begin(7, "one"), self.begin(7, "one"), self.begin(8, "two"))
        self.assertEqual([504] * 3, [answer.status for answer in answers])
        await self.tell("tick")
        self.assertEqual(0, self.started())
        # What comes again is carried out.
        self.assertEqual((200, 1000), (await self.begin(7, "one")).told)
        self.assertEqual(1, self.started())

    async def test_a_request_that_is_still_awaited_is_carried_out(self) -> None:
        async def later() -> Answer:
            await asyncio.sleep(4)
            return await self.begin(7, "one")
        opens = asyncio.Event()
        closed = asyncio.create_task(self.feeder.while_closed(opens.wait))
        first, second = self.begin(7, "one"), asyncio.create_task(later())
        self.assertEqual(504, (await first).status)
        opens.set()
        await closed
        self.assertEqual((200, 1000), (await second).told)
        self.assertEqual(1, self.started())


class Full(ServerCase):
    """Too many results wait for a provider."""

    takes_orders = False

    async def test_a_command_gets_503(self) -> None:
        body = ocpi_objects.start_session(ocpi_objects.token("NL/TNM"), "https://tnm.example/results/7")
        answer = await self.ask("node", "POST", "receiver/commands/START_SESSION", body, 7)
        self.assertEqual(503, answer.status)
