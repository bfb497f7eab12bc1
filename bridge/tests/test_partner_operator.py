"""An operator that is no node, against the bridge of a provider: orders come once, sessions and bills count once."""
import asyncio
import json
from typing import Any

from aiohttp import web

from .cases import ProviderCase
from .ocpi_objects import cdr, session, token
from .ocpi_party import Received, answered, gathered, now
from .running import Members, eventually

START = {"token_uid": "AA01", "token_type": "RFID", "location_id": "LOC1", "evse_uid": "E1", "connector_id": "1"}


class Orders(ProviderCase):
    """What a provider orders. The clock goes ten times as fast, so that repeats would come within seconds."""

    clock_factor = 10.0

    async def commands(self) -> list[Any]:
        return list(await self.bridge.admin_get("/commands"))

    async def test_a_start_is_asked_once_and_its_result_is_taken(self) -> None:
        await self.order("start_session", **START)
        received = await self.operator.came("commands")
        self.assertEqual(("POST", "/2.2.1/commands/START_SESSION"), (received.method, received.path))
        body = received.body
        self.assertEqual(("AA01", "LOC1", "E1", "1"), (
            body["token"]["uid"], body["location_id"], body["evse_uid"], body["connector_id"]))
        self.assertTrue(body["authorization_reference"])
        self.assertTrue(body["response_url"].startswith(
            self.bridge.ocpi_url + "/ocpi/2.2.1/sender/commands/results/"))
        for _ in range(2):
            self.assert_status(await self.operator.ask("POST", body["response_url"], {"result": "ACCEPTED"}), 200, 1000)
        self.assertIn("ACCEPTED", str(await self.commands()))
        await asyncio.sleep(3)
        self.assertEqual([], [request for request in self.operator.requests if request.module == "commands"])

    async def test_what_is_not_answered_is_not_asked_again(self) -> None:
        async def fail(received: Received) -> web.StreamResponse:
            return web.Response(status=500)
        self.operator.answers["commands"] = fail
        reservation = {"token_uid": "AA01", "token_type": "RFID", "location_id": "LOC1",
                       "expiry_date": "2099-01-01T00:00:00Z", "reservation_id": "R1"}
        await self.order("start_session", **START)
        await self.order("reserve_now", **reservation)
        await self.order("stop_session", session_id="S1")
        names = [(await self.operator.came("commands")).path.rpartition("/")[2] for _ in range(3)]
        self.assertEqual(["RESERVE_NOW", "START_SESSION", "STOP_SESSION"], sorted(names))
        await asyncio.sleep(4)
        self.assertEqual([], [request for request in self.operator.requests if request.module == "commands"])

    async def test_cancelling_and_unlocking(self) -> None:
        await self.order("cancel_reservation", reservation_id="R1")
        received = await self.operator.came("commands")
        self.assertEqual("/2.2.1/commands/CANCEL_RESERVATION", received.path)
        self.assertEqual("R1", received.body["reservation_id"])
        await self.order("unlock_connector", location_id="LOC1", evse_uid="E1", connector_id="1")
        received = await self.operator.came("commands")
        self.assertEqual("/2.2.1/commands/UNLOCK_CONNECTOR", received.path)

    async def test_a_result_of_no_command_is_refused(self) -> None:
        url = self.bridge.ocpi_url + "/ocpi/2.2.1/sender/commands/results/99"
        self.assert_refused(await self.operator.ask("POST", url, {"result": "ACCEPTED"}), 2001)

    async def test_a_token_that_changes_is_pushed(self) -> None:
        changed = await self.add_token({**self.token, "valid": False})
        self.assertIs(False, changed["valid"])


class Sessions(ProviderCase):
    """Sessions and bills that an operator pushes."""

    async def test_sessions_are_held_in_their_last_version(self) -> None:
        active = session(self.operator.party, self.token, last_updated="2025-01-01T10:10:00Z")
        url = await self.operator.session_url(active)
        reply = await self.operator.ask("GET", url)
        self.assert_status(reply, 404, 2003)
        later = {**active, "kwh": 3.25, "last_updated": "2025-01-01T10:20:00Z"}
        for version in (active, later, active):
            reply = await self.operator.put_session(version)
            self.assertEqual(1000, reply.status_code)
            self.assertIn(reply.http_status, (200, 201))
        self.assertEqual((3.25, "2025-01-01T10:20:00Z"), await self.held(url))
        completed = {**later, "status": "COMPLETED", "kwh": 4, "end_date_time": "2025-01-01T10:30:00Z",
                     "last_updated": "2025-01-01T10:30:00Z"}
        await self.operator.put_session(completed)
        await self.operator.put_session({**later, "last_updated": "2025-01-01T11:00:00Z"})
        self.assertEqual((4, "2025-01-01T10:30:00Z"), await self.held(url))

    async def test_a_patch_right_behind_a_put_is_of_what_that_put(self) -> None:
        active = session(self.operator.party, self.token, last_updated="2025-01-01T10:10:00Z")
        url = await self.operator.session_url(active)
        await self.operator.put_session(active)
        put = {**active, "kwh": 9.5, "last_updated": "2025-01-01T10:20:00Z"}
        change = {"total_cost": {"excl_vat": 2.5}, "last_updated": "2025-01-01T10:20:01Z"}
        for reply in await gathered([self.operator.ask("PUT", url, put), self.operator.ask("PATCH", url, change)], 60):
            self.assert_status(reply, 200, 1000)
        self.assertEqual((9.5, "2025-01-01T10:20:01Z"), await self.held(url))

    async def held(self, url: str) -> tuple[float, str]:
        """The energy and the last change of the session that is held there."""
        reply = await self.operator.ask("GET", url)
        self.assert_status(reply, 200, 1000)
        return reply.data["kwh"], reply.data["last_updated"]

    async def test_patches(self) -> None:
        active = session(self.operator.party, self.token, last_updated="2025-01-01T10:10:00Z")
        url = await self.operator.session_url(active)
        change: Members = {"kwh": 7.125, "last_updated": "2025-01-01T10:15:00Z"}
        self.assert_refused(await self.operator.ask("PATCH", url, change), 2003)
        await self.operator.put_session(active)
        self.assert_status(await self.operator.ask("PATCH", url, change), 200, 1000)
        self.assertEqual((7.125, "2025-01-01T10:15:00Z"), await self.held(url))
        self.assert_refused(await self.operator.ask("PATCH", url, {"kwh": 8}), 2001)
        self.assertEqual((7.125, "2025-01-01T10:15:00Z"), await self.held(url))
        reply = await self.operator.ask("GET", url)
        self.assertEqual(("ACTIVE", "E1"), (reply.data["status"], reply.data["evse_uid"]))

    async def test_what_a_session_may_not_say(self) -> None:
        active = session(self.operator.party, self.token)
        strange = session(self.operator.party, token("DE/OTR"))
        url = await self.operator.session_url(active)
        self.assert_status(await self.operator.put_session(strange), 200, 2001)
        self.assert_status(await self.operator.ask("PUT", url, {**active, "id": "another"}), 200, 2001)
        self.assert_status(await self.operator.ask("PUT", url, {**active, "status": "CHARGING"}), 200, 2001)
        self.assert_status(await self.operator.ask("PUT", url, {**active, "kwh": "much"}), 200, 2001)
        incomplete = {name: member for name, member in active.items() if name != "currency"}
        reply = await self.operator.ask("PUT", url, incomplete)
        self.assert_status(reply, 200, 2001)
        self.assertIn("currency", reply.members["status_message"])
        self.assert_status(await self.operator.ask("GET", url), 404, 2003)

    async def test_numbers_with_an_exponent(self) -> None:
        active = session(self.operator.party, self.token, kwh=12345)
        url = await self.operator.session_url(active)
        text = json.dumps(active).replace("12345", "1.5e1")
        self.assertEqual(1000, (await self.operator.ask("PUT", url, data=text.encode())).status_code)
        self.assertEqual(15, (await self.held(url))[0])
        for number in ("1e15", "1e999999999"):
            text = json.dumps({**active, "last_updated": now()}).replace("12345", number)
            self.assert_refused(await self.operator.ask("PUT", url, data=text.encode()), 2001)



class Bills(ProviderCase):
    """Charge detail records, and what is owed by them."""

    async def post(self, record: Members) -> tuple[int, str]:
        """POSTs a record: the status of OCPI, and the `Location` of the response."""
        reply = await self.operator.ask("POST", await self.operator.endpoint("cdrs", "RECEIVER"), record)
        self.assertIn(reply.http_status, (200, 201))
        return reply.status_code, reply.headers.get("Location", "")

    async def test_a_session_is_billed_once(self) -> None:
        bill = cdr(self.operator.party, self.token, "S1")
        status_code, location = await self.post(bill)
        self.assertEqual(1000, status_code)
        read = await self.operator.ask("GET", location)
        self.assert_status(read, 200, 1000)
        self.assertEqual((bill["id"], 12, 3), (
            read.data["id"], read.data["total_energy"], read.data["total_cost"]["excl_vat"]))
        self.assertEqual(1000, (await self.post(bill))[0])
        self.assertEqual(2001, (await self.post(cdr(self.operator.party, self.token, "S1")))[0])
        self.assertEqual(2001, (await self.post({**bill, "total_energy": 13}))[0])
        self.assertEqual(1000, (await self.post(cdr(self.operator.party, self.token, "S2")))[0])
        self.assertEqual(2, len(await self.bridge.admin_get("/cdrs")))
        await self.bridge.stop()
        self.assertEqual("owed BE/PLO EUR 6.0000\n", self.settle(self.bridge))

    async def test_a_credit_is_taken_once(self) -> None:
        bill = cdr(self.operator.party, self.token, "S1")
        credit = {**bill, "id": bill["id"] + "-C", "credit": True, "credit_reference_id": bill["id"],
                  "total_cost": {"excl_vat": -3.0}, "last_updated": now()}
        self.assertEqual([1000] * 3, [(await self.post(record))[0] for record in (bill, credit, credit)])
        corrected = cdr(self.operator.party, self.token, "S1", total_cost={"excl_vat": 2.0})
        self.assertEqual(2001, (await self.post(corrected))[0])
        await self.bridge.stop()
        self.assertEqual("owed BE/PLO EUR 0.0000\n", self.settle(self.bridge))

    async def test_a_record_that_is_not_held(self) -> None:
        _, location = await self.post(cdr(self.operator.party, self.token, "S1"))
        reply = await self.operator.ask("GET", location.rpartition("/")[0] + "/none")
        self.assert_status(reply, 404, 2003)


class Questions(ProviderCase):
    """Real-time authorization, and the list of tokens."""

    async def authorize(self, path: str, body: Members | None = None) -> tuple[int, Members]:
        """Asks about a token: the status of OCPI, and the AuthorizationInfo."""
        reply = await self.operator.ask("POST", f"{await self.operator.endpoint('tokens', 'SENDER')}/{path}", body)
        return reply.status_code, reply.data or {}

    async def test_whether_a_token_may_be_used(self) -> None:
        place = {"location_id": "LOC1", "evse_uids": ["E1"]}
        references = set()
        for path, body in (("AA01/authorize?type=RFID", place), ("AA01/authorize", place), ("AA01/authorize", None)):
            status_code, info = await self.authorize(path, body)
            self.assertEqual((1000, "ALLOWED", "AA01"), (status_code, info["allowed"], info["token"]["uid"]))
            self.assertEqual(body, info.get("location"))
            references.add(info["authorization_reference"])
        self.assertEqual(3, len(references))
        self.assertEqual(2004, (await self.authorize("AA02/authorize", place))[0])
        self.assertEqual(2004, (await self.authorize("AA01/authorize?type=APP_USER", place))[0])
        await self.add_token({**self.token, "valid": False})
        status_code, info = await self.authorize("AA01/authorize", place)
        self.assertEqual((1000, "BLOCKED"), (status_code, info["allowed"]))

    async def test_the_same_question_again_gets_the_same_answer(self) -> None:
        url = f"{await self.operator.endpoint('tokens', 'SENDER')}/AA01/authorize"
        once, twice = [await self.operator.ask("POST", url, correlation="one") for _ in range(2)]
        self.assertEqual(once.members, twice.members)

    async def test_tokens_by_pages(self) -> None:
        for number in range(2, 6):
            await self.add_token({**self.token, "uid": f"AA0{number}"})
        url: str | None = await self.operator.endpoint("tokens", "SENDER") + "?limit=2"
        uids = []
        while url is not None:
            reply = await self.operator.ask("GET", url)
            self.assertEqual(("5", "2"), (reply.headers["X-Total-Count"], reply.headers["X-Limit"]))
            uids.append([element["uid"] for element in reply.data])
            link = reply.headers.get("Link")
            url = link and link.partition("<")[2].partition(">")[0]
        self.assertEqual([["AA01", "AA02"], ["AA03", "AA04"], ["AA05"]], uids)


class Pulling(ProviderCase):
    """An operator that pushes nothing is asked for what it has."""

    async def prepare(self) -> None:
        of = token("NL/TNM")
        moments = [f"2025-01-01T10:0{number}:00Z" for number in range(3)]
        self.operator.lists["sessions"] = [session(self.operator.party, of, id=f"S{number}", last_updated=moment)
                                           for number, moment in enumerate(moments)]
        self.operator.lists["cdrs"] = [cdr(self.operator.party, of, f"S{number}", last_updated=moment)
                                       for number, moment in enumerate(moments)]

    async def test_what_was_not_pushed_is_pulled(self) -> None:
        async def are_held() -> bool:
            return [len(await self.bridge.admin_get(path)) for path in ("/sessions", "/cdrs")] == [3, 3]
        await eventually(are_held, "three sessions and three bills that were pulled")
        await self.bridge.stop()
        self.assertEqual("owed BE/PLO EUR 9.0000\n", self.settle(self.bridge))


class PullingAgain(ProviderCase):
    """What an operator got to later is asked for every five minutes, which are ten seconds here."""

    clock_factor = 30.0

    async def test_what_changes_later_is_pulled(self) -> None:
        later = session(self.operator.party, self.token, id="S9", last_updated="2098-01-01T00:00:00Z")
        self.operator.lists["sessions"] = [later]

        async def is_held() -> bool:
            return len(await self.bridge.admin_get("/sessions")) == 1
        await eventually(is_held, "a session that was pulled", 40)
