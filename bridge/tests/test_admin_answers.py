"""What the admin addresses answer: what happened, and to a repeat of a request with a key the first answer."""
import asyncio
import os
import random
import signal
import tempfile
import unittest
from pathlib import Path

import aiohttp

from ocpi_bridge.admin.answers import LOST, MARK, SECONDS_KEPT, Answer, Answers
from ocpi_bridge.admin.feeding import Feeding
from ocpi_bridge.clock import Clock
from ocpi_bridge.events import Events, Outcome
from ocpi_bridge.ocpi.objects import Objects
from ocpi_bridge.records import Event
from ocpi_bridge.state import State

from .cases import OperatorCase
from .running import eventually
from .test_admin import START, TOKEN, AdminTest

STARTED = "2025-01-01T10:00:00Z"


class HappenedTest(OperatorCase):
    """Nothing that did not happen is answered 200."""

    async def refused(self, path: str, status: int, words: str, **body: object) -> None:
        """Sees that a request is refused with a status and words."""
        told = await self.bridge.admin_post(path, body)
        self.assertEqual(status, told["status"], told)
        self.assertIn(words, told["answer"]["error"])

    async def test_a_credit_tells_whether_there_is_a_bill(self) -> None:
        await self.refused("/credits", 404, "no session", session_id="S")
        await self.refused("/credits", 400, "malformed", session_id=1)
        await self.provider.put_token(self.token)
        point = await self.begin_charge_point()
        start = {"connectorId": 1, "idTag": "AA01", "meterStart": 0, "timestamp": STARTED}
        begun = await point.call("StartTransaction", start)
        session_id = (await self.version("ACTIVE"))["id"]
        await self.refused("/credits", 409, "the session is ACTIVE", session_id=session_id)
        await point.call("StopTransaction", {
            "transactionId": begun["transactionId"], "meterStop": 4000, "timestamp": "2025-01-01T11:00:00Z"})
        await self.version("COMPLETED")
        told = [await self.bridge.admin_post("/credits", {"session_id": session_id}, "one") for _ in range(2)]
        self.assertEqual((200, told[0]), (told[0]["status"], told[1]))
        await self.refused("/credits", 409, "taken back already", session_id=session_id)

    async def test_an_evse_that_is_not_there(self) -> None:
        await self.refused("/service", 404, "no EVSE", evse_uid="E9", in_service=False)
        await self.refused("/faults", 404, "no EVSE", evse_uid="E9")
        await self.refused("/faults", 400, "malformed", evse_uid=9)
        told = [await self.bridge.admin_post("/service", {"evse_uid": "e1", "in_service": False}),
                await self.bridge.admin_post("/faults", {"evse_uid": "e2"})]
        self.assertEqual([200, 200], [one["status"] for one in told])


class KeyTest(AdminTest):
    """An `Idempotency-Key` at a provider."""

    async def numbers(self) -> list[int]:
        return [command["number"] for command in await self.bridge.admin_get("/commands")]

    async def test_a_repeat_is_given_the_first_answer(self) -> None:
        refused = await self.bridge.admin_post("/orders", START, "before its token")
        self.assertEqual((409, "UnknownToken"), (refused["status"], refused["answer"]["done"]["name"]))
        await self.bridge.admin_post("/tokens", TOKEN)
        self.assertEqual(refused, await self.bridge.admin_post("/orders", START, "before its token"))
        told = await asyncio.gather(*(self.bridge.admin_post("/orders", START, "one") for _ in range(8)))
        self.assertEqual([told[0]] * 8, told)
        self.assertEqual((200, "start_session"), (told[0]["status"], told[0]["answer"]["packets"][0]["kind"]))
        other = await self.bridge.admin_post("/orders", {**START, "evse_uid": "E2"}, "one")
        self.assertEqual(422, other["status"])
        spoiled = await self.bridge.admin_post("/orders", {**START, "evse_uid": "E2", MARK: ["a"]}, "two")
        self.assertEqual(200, spoiled["status"])
        self.assertEqual(2, len(await self.numbers()))
        self.assertEqual(400, (await self.bridge.admin_post("/orders", START, "k" * 256))["status"])
        # 1, since the node refused a line.
        self.assertEqual(1, await self.bridge.stop())
        await self.bridge.start()
        self.assertEqual(told[0], await self.bridge.admin_post("/orders", START, "one"))
        self.assertEqual(2, len(await self.numbers()))

    async def test_an_order_with_a_key_is_given_once_whatever_is_killed(self) -> None:
        """The node or the bridge is killed while orders are given, and each is repeated until it is answered."""
        await self.bridge.admin_post("/tokens", TOKEN)
        drawn = random.Random(11)

        async def insist(key: str) -> int:
            while True:
                try:
                    told = await self.bridge.admin_post("/orders", START, key)
                except (aiohttp.ClientError, OSError, KeyError):
                    told = {"status": 503}
                if told["status"] != 503:
                    return int(told["status"])
                await asyncio.sleep(0.05)

        for turn in range(6):
            ordering = [asyncio.create_task(insist(f"{turn} {number}")) for number in range(6)]
            await asyncio.sleep(drawn.uniform(0.0, 0.04))
            if turn % 2:
                self.bridge.kill()
                await self.bridge.start()
            else:
                os.kill(self.bridge.node_pid(), signal.SIGKILL)
            self.assertLessEqual(set(await asyncio.gather(*ordering)), {200, 504})
            again = await asyncio.gather(*(insist(f"{turn} {number}") for number in range(6)))
            self.assertLessEqual(set(again), {200, 504})

        async def all_given() -> bool:
            return len(await self.numbers()) >= 36
        await eventually(all_given, "each order is in the list")
        self.assertEqual(36, len(await self.numbers()))


class AnswersTest(unittest.IsolatedAsyncioTestCase):
    """What a stop leaves of requests with a key."""

    async def asyncSetUp(self) -> None:
        folder = tempfile.TemporaryDirectory()
        self.addCleanup(folder.cleanup)
        self.state = State(Path(folder.name) / "state.db")
        self.addCleanup(self.state.close)
        self.clock = Clock()
        self.event: Event = {"event": "submit", "idempotency": ["/orders", "key", ""]}

    def feeding(self) -> Feeding:
        """A feeding that never feeds."""
        return Feeding(Events("NL/TNM", self.clock), None, Objects(self.state),  # type: ignore[arg-type]
                       Answers(self.state, self.clock), None, None, lambda _: True)

    async def told(self) -> Answer:
        """What a repeat is answered after a new start."""
        async def feed(mark: Event) -> Answer:
            self.marked = mark
            return 200, {"error": "fed"}

        await Answers(self.state, self.clock).once("/orders", "other", "text", feed)
        self.event[MARK][2] = self.marked[MARK][2]
        return await Answers(self.state, self.clock).once("/orders", "key", "text", feed)

    async def test_what_was_carried_out_is_not_fed_again(self) -> None:
        self.assertEqual(200, (await self.told())[0])
        self.feeding().note_left([{"event": "tick"}, self.event])
        self.assertEqual(LOST, await self.told())
        self.feeding().note(Outcome(self.event, {"done": "malformed", "name": "Missing"}, ()))
        self.assertEqual((400, "the node does not do it: malformed Missing"),
                         ((found := await self.told())[0], found[1]["error"]))
        self.feeding().note_left([self.event])
        self.assertEqual(400, (await self.told())[0])

    async def test_an_answer_is_kept_for_thirty_days(self) -> None:
        await self.told()
        self.feeding().note(Outcome(self.event, {"done": "stepped", "packets": 0}, ()))
        self.assertEqual({"done": {"done": "stepped", "packets": 0}, "packets": []}, (await self.told())[1])
        self.state.query("UPDATE answer_given SET at = at - ?", SECONDS_KEPT + 1)
        self.event[MARK][1] = "another"
        self.feeding().note(Outcome(self.event, {"done": "idle"}, ()))
        self.assertEqual({"error": "fed"}, (await self.told())[1])


if __name__ == "__main__":
    unittest.main()
