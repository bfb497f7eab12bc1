"""An operator's OCPI server before a real node: requests, lists, PATCH, paths and refusals, as OCPI has them."""
import asyncio
import base64

from ocpi_bridge.events import Outcome
from ocpi_bridge.node.feeder import OutcomeLost
from ocpi_bridge.records import Event

from . import ocpi_objects
from .running import Members
from .server_cases import URL_OF_BRIDGE, Answer, ServerCase


class OperatorServer(ServerCase):
    """What providers ask of an operator."""

    token = ocpi_objects.token("NL/TNM")
    token_path = "receiver/tokens/NL/TNM/AA01"

    async def start(self, number: int, evse_uid: str = "E1") -> Answer:
        body = ocpi_objects.start_session(self.token, "https://tnm.example/results/7", evse_uid)
        return await self.ask("node", "POST", "receiver/commands/START_SESSION", body, number)

    async def test_a_token_is_acknowledged_and_can_be_read(self) -> None:
        put = await self.ask("node", "PUT", self.token_path + "?type=RFID", self.token, 1)
        self.assertEqual(put.told, (200, 1000))
        self.assertNotIn("data", put.body)
        self.assertRegex(put.body["timestamp"], r"^20\d\d-\d\d-\d\dT\d\d:\d\d:\d\d(\.\d{3})?Z$")
        self.assertEqual(put.headers["Content-Type"], "application/json")
        self.assertEqual(put.headers["X-Request-ID"], "NL/TNM/101")
        self.assertEqual(put.headers["X-Correlation-ID"], "NL/TNM/1")
        self.assertEqual(put.headers["X-Serial"], "1")
        routing = [put.headers[f"OCPI-{name}"] for name in
                   ("from-country-code", "from-party-id", "to-country-code", "to-party-id")]
        self.assertEqual(routing, ["BE", "BEC", "NL", "TNM"])
        got = await self.ask("node", "GET", "receiver/tokens/nl/tnm/aa01")
        self.assertEqual((got.told, got.body["data"]), ((200, 1000), self.token))
        self.assertEqual((await self.ask("node", "GET", self.token_path + "?type=OTHER")).told, (404, 2004))
        self.assertEqual((await self.ask("ocpi", "GET", self.token_path)).told, (404, 2004))

    async def test_a_path_or_a_query_that_says_otherwise_is_refused(self) -> None:
        for path in ("receiver/tokens/NL/TNM/AA02", "receiver/tokens/DE/TNM/AA01", self.token_path + "?type=OTHER"):
            answer = await self.ask("node", "PUT", path, self.token, 1)
            self.assertEqual(answer.told, (200, 2001), path)
        self.assertEqual(answer.body["status_message"], "type: the path says otherwise")
        other = {**self.token, "type": "OTHER"}
        self.assertEqual((await self.ask("node", "PUT", self.token_path, other, 2)).told, (200, 2001))
        put = await self.ask("node", "PUT", "receiver/tokens/nl/tnm/aa01", self.token, 3)
        self.assertEqual(put.told, (200, 1000))

    async def test_ids_may_have_any_character_of_printable_ascii(self) -> None:
        for number, (segment, uid) in enumerate((("A%2F1%20%3F%2B+%25", "A/1 ?++%"), ("", ""), ("%2e%2E", "..")), 1):
            put = await self.ask("node", "PUT", f"receiver/tokens/NL/TNM/{segment}", {**self.token, "uid": uid}, number)
            self.assertEqual(put.told, (200, 1000), uid)
            got = await self.ask("node", "GET", f"receiver/tokens/NL/TNM/{segment}")
            self.assertEqual(got.body["data"]["uid"], uid)
        for segment in ("A%00", "A%0D%0AB", "%C3%A9", "%FF"):
            self.assertEqual((await self.ask("node", "GET", f"receiver/tokens/NL/TNM/{segment}")).told, (200, 2001))

    async def test_a_command_is_answered_and_its_address_kept(self) -> None:
        answer = await self.start(7)
        self.assertEqual((answer.told, answer.body["data"]), ((200, 1000), {"result": "ACCEPTED", "timeout": 30}))
        self.assertEqual(self.last_delivered()["response_url"], "https://node.invalid/NL/TNM/7")
        self.assertEqual(self.requests.url("nl/tnm", 7), "https://tnm.example/results/7")
        again = await self.start(7)
        self.assertEqual(again.body, answer.body)
        self.assertEqual([answer.headers["X-Serial"], again.headers["X-Serial"]], ["1", "2"])
        self.assertEqual((await self.start(8, "E9")).body["data"]["result"], "REJECTED")
        unknown = {"location_id": "LOC9", "evse_uid": "E1", "connector_id": "1", "response_url": "https://tnm.example"}
        answer = await self.ask("node", "POST", "receiver/commands/UNLOCK_CONNECTOR", unknown, 9)
        self.assertEqual(answer.told, (200, 2003))
        self.assertEqual((await self.ask("node", "POST", "receiver/commands/JUMP", unknown, 10)).status, 404)

    async def test_a_node_numbers_its_requests(self) -> None:
        right = {"X-Request-ID": "NL/TNM/5", "X-Correlation-ID": "NL/TNM/5"}
        for name, text in (("X-Correlation-ID", "5"), ("X-Correlation-ID", "DE/EVC/5"), ("X-Correlation-ID", "NL/TNM/"),
                           ("X-Correlation-ID", "NL/TNM/-5"), ("X-Request-ID", "NL/TNM/" + "9" * 19)):
            answer = await self.ask("node", "PUT", self.token_path, self.token, headers={**right, name: text})
            self.assertEqual((answer.told, answer.body["status_message"]),
                             ((200, 2001), f"{name}: wanted is NL/TNM/NUMBER"))
        self.assertEqual((await self.ask("node", "PUT", self.token_path, self.token)).told, (200, 2001))

    async def test_another_party_has_a_number_for_each_correlation_id(self) -> None:
        token = ocpi_objects.token("DE/EVC")
        ids: list[str | None] = ["one", "two", "one", None, None]
        for correlation in ids:
            headers = {} if correlation is None else {"X-Correlation-ID": correlation}
            answer = await self.ask("ocpi", "PUT", "receiver/tokens/DE/EVC/AA01", token, headers=headers)
            self.assertEqual(answer.told, (200, 1000))
        numbers = [outcome.event["packet"]["request"] for outcome in self.outcomes if "packet" in outcome.event]
        self.assertEqual([number - numbers[0] for number in numbers], [0, 1, 0, 2, 3])

    async def test_another_party_has_to_give_a_reference(self) -> None:
        body = ocpi_objects.start_session(ocpi_objects.token("DE/EVC"), "https://evc.example/results/a")
        answer = await self.ask("ocpi", "POST", "receiver/commands/START_SESSION",
                                {name: value for name, value in body.items() if name != "authorization_reference"})
        self.assertEqual((answer.told, answer.body["status_message"]),
                         ((200, 2001), "authorization_reference: missing"))
        answer = await self.ask("ocpi", "POST", "receiver/commands/START_SESSION", body)
        self.assertEqual(answer.body["data"]["result"], "ACCEPTED")
        self.assertEqual(self.last_delivered()["response_url"], "https://evc.example/results/a")
        again = await self.ask("ocpi", "POST", "receiver/commands/START_SESSION", body)
        self.assertEqual(again.body["data"]["result"], "REJECTED")

    async def test_refusals_of_the_node_name_the_member(self) -> None:
        changes: list[tuple[Members, str]] = [
            ({"valid": None}, "valid: missing"),
            ({"valid": 1}, "valid: wanted is true or false"),
            ({"uid": "AA01\u00e9"}, "uid: the path says otherwise"),
            ({"contract_id": "A" * 37}, "contract_id: wanted is at most 36 characters of printable ASCII"),
            ({"whitelist": "NO"}, "whitelist: wanted is one of ALWAYS, ALLOWED, ALLOWED_OFFLINE, NEVER")]
        for change, words in changes:
            answer = await self.ask("node", "PUT", self.token_path, {**self.token, **change}, 1)
            self.assertEqual(answer.told, (200, 2001))
            self.assertEqual(answer.body["status_message"], words)
        self.assertEqual((await self.ask("node", "PUT", self.token_path, self.token, 1)).told, (200, 1000))

    async def test_bodies_that_are_none(self) -> None:
        path = "receiver/commands/STOP_SESSION"
        deep = b'{"session_id":' + b"[" * 200 + b"]" * 200 + b"}"
        for text in (b"", b"{", b"\xff{}", b'{"a":01}', b'{"a":NaN}', b'{"session_id":"\\u0001"}', deep):
            self.assertEqual((await self.ask("node", "POST", path, number=1, text=text)).told, (400, 2001), text[:20])
        for text in (b"[]", b"1", b"null", b"{}", b'{"session_id":1e999999999}'):
            self.assertEqual((await self.ask("node", "POST", path, number=1, text=text)).told, (200, 2001), text)
        for size, status in ((1_000_000, 200), (1_000_001, 413)):
            large = b'{"session_id":"' + b"A" * (size - 17) + b'"}'
            self.assertEqual((await self.ask("node", "POST", path, number=1, text=large)).status, status)

    async def test_who_may_ask(self) -> None:
        path = "receiver/commands/STOP_SESSION"
        for header in ("", "Token", "Token %%%", "Token " + base64.b64encode(b"\xff").decode(), "Token bm9kZQ==",
                       "Basic " + base64.b64encode(b"node token").decode(), "node token"):
            answer = await self.ask("node", "POST", path, {}, 1, headers={"Authorization": header})
            self.assertEqual(answer.told, (401, 2001), header)
        other = {"OCPI-from-country-code": "DE", "OCPI-from-party-id": "EVC"}
        self.assertEqual((await self.ask("node", "POST", path, {}, 1, headers=other)).told, (401, 2001))
        elsewhere = {"OCPI-to-country-code": "FR", "OCPI-to-party-id": "CPX"}
        self.assertEqual((await self.ask("node", "POST", path, {}, 1, headers=elsewhere)).told, (200, 2001))
        self.assertEqual((await self.ask("new", "GET", "sender/sessions")).told, (401, 2001))
        self.assertEqual((await self.ask("new", "GET", "credentials")).told, (200, 1000))
        self.assertNotIn("X-Serial", answer.headers)

    async def test_paths_and_methods_that_are_not_there(self) -> None:
        for path in ("sender/sessions/", "receiver/sessions/NL/TNM/1", "receiver/tokens/NL/TNM", "sender/tokens",
                     "sender/commands/results/1", "receiver/tokens/NL/TNM/AA01/x"):
            answer = await self.ask("node", "GET", path)
            self.assertEqual(answer.told, (404, 2000), path)
        answer = await self.ask("node", "DELETE", self.token_path)
        self.assertEqual((answer.told, answer.headers["Allow"]), ((405, 2000), "GET,HEAD,PATCH,PUT"))
        self.assertEqual((await self.ask("node", "PATCH", "credentials", {})).status, 405)

    async def test_a_token_that_is_changed(self) -> None:
        changes: Members = {"valid": False, "last_updated": "2025-02-01T10:00:00Z"}
        self.assertEqual((await self.ask("ocpi", "PATCH", "receiver/tokens/DE/EVC/AA01", changes)).told, (404, 2004))
        token = ocpi_objects.token("DE/EVC")
        await self.ask("ocpi", "PUT", "receiver/tokens/DE/EVC/AA01", token)
        answer = await self.ask("ocpi", "PATCH", "receiver/tokens/DE/EVC/AA01", {"valid": False})
        self.assertEqual((answer.told, answer.body["status_message"]), ((200, 2001), "last_updated: missing"))
        moved = {**changes, "uid": "AA02"}
        self.assertEqual((await self.ask("ocpi", "PATCH", "receiver/tokens/DE/EVC/AA01", moved)).told, (200, 2001))
        self.assertEqual((await self.ask("ocpi", "PATCH", "receiver/tokens/DE/EVC/AA01", changes)).told, (200, 1000))
        self.assertEqual(self.last_delivered(), {**token, **changes})
        self.assertEqual((await self.ask("ocpi", "GET", "receiver/tokens/DE/EVC/AA01")).body["data"],
                         {**token, **changes})

    async def test_sessions_and_bills_by_pages(self) -> None:
        await self.ask("node", "PUT", self.token_path, self.token, 1)
        for _ in range(3):
            await self.tell("swipe", evse_uid="E1", connector_id="1", token_uid="AA01", token_type="RFID")
            await self.tell("starts", evse_uid="E1")
            await self.tell("meter", evse_uid="E1", kwh=4)
            await self.tell("stops", evse_uid="E1")
        for module in ("sessions", "cdrs"):
            first = await self.ask("node", "GET", f"sender/{module}?limit=2")
            self.assertEqual([first.headers[name] for name in ("X-Total-Count", "X-Limit")], ["3", "2"])
            link = f'<{URL_OF_BRIDGE}/ocpi/2.2.1/sender/{module}?limit=2&offset=2>; rel="next"'
            self.assertEqual(first.headers["Link"], link)
            second = await self.ask("node", "GET", f"sender/{module}?offset=2&limit=2")
            self.assertNotIn("Link", second.headers)
            listed = first.body["data"] + second.body["data"]
            moments = [one["last_updated"] for one in listed]
            self.assertEqual((len(listed), moments), (3, sorted(moments)))
            dates = f"date_from={moments[1]}&date_to={moments[2]}"
            self.assertEqual((await self.ask("node", "GET", f"sender/{module}?{dates}")).body["data"], listed[1:2])
            self.assertEqual((await self.ask("node", "GET", f"sender/{module}?limit=5000")).headers["X-Limit"], "1000")
            self.assertEqual((await self.ask("ocpi", "GET", f"sender/{module}")).body["data"], [])
            for query in ("limit=0", "limit=x", "offset=-1", "date_from=yesterday", "date_to=", "offset=" + "9" * 19):
                self.assertEqual((await self.ask("node", "GET", f"sender/{module}?{query}")).told, (200, 2001), query)
        self.assertEqual([one["total_cost"] for one in listed], [{"excl_vat": 1.0}] * 3)

    async def test_what_stands_on_an_evse(self) -> None:
        async def status() -> str:
            answer = await self.ask("node", "GET", "sender/locations/LOC1/E1")
            return str(answer.body["data"]["status"])
        self.assertEqual(await status(), "AVAILABLE")
        reservation = ocpi_objects.reserve_now(self.token, "https://tnm.example", "E1")
        await self.ask("node", "POST", "receiver/commands/RESERVE_NOW", reservation, 1)
        self.assertEqual(await status(), "RESERVED")
        await self.start(2)
        self.assertEqual(await status(), "BLOCKED")
        await self.tell("accepts", provider="NL/TNM", number=2)
        self.assertEqual(await status(), "BLOCKED")
        await self.tell("starts", evse_uid="E1")
        self.assertEqual(await status(), "CHARGING")
        await self.tell("stops", evse_uid="E1")
        self.assertEqual(await status(), "AVAILABLE")
        await self.start(3)
        await self.tell("refuses", provider="NL/TNM", number=3)
        await self.start(3)
        self.assertEqual(await status(), "AVAILABLE")
        await self.ask("node", "POST", "receiver/commands/RESERVE_NOW", reservation, 4)
        cancel = {"response_url": "https://tnm.example", "reservation_id": "r1"}
        await self.ask("node", "POST", "receiver/commands/CANCEL_RESERVATION", cancel, 5)
        await self.ask("node", "POST", "receiver/commands/RESERVE_NOW", reservation, 4)
        self.assertEqual(await status(), "AVAILABLE")
        self.unusable["E1"] = "OUTOFORDER"
        self.assertEqual(await status(), "OUTOFORDER")

    async def test_locations(self) -> None:
        answer = await self.ask("node", "GET", "sender/locations")
        location, = answer.body["data"]
        self.assertEqual(answer.headers["X-Total-Count"], "1")
        self.assertEqual({name: location[name] for name in ("country_code", "party_id", "id", "publish", "time_zone")},
                         {"country_code": "BE", "party_id": "BEC", "id": "LOC1", "publish": True, "time_zone": "UTC"})
        self.assertEqual(location["coordinates"], {"latitude": "51.05421", "longitude": "3.72180"})
        self.assertEqual([evse["uid"] for evse in location["evses"]], ["E1", "E2"])
        connector = await self.ask("node", "GET", "sender/locations/loc1/e1/1")
        self.assertEqual(connector.body["data"]["standard"], "IEC_62196_T2")
        for path, told in (("LOC2", 2003), ("LOC1/E9", 2003), ("LOC1/E1/9", 2003), ("", 2003), ("LOC1/E1/1/x", 2000)):
            self.assertEqual((await self.ask("node", "GET", f"sender/locations/{path}")).told, (404, told), path)
        seen = location["last_updated"]
        self.assertEqual((await self.ask("node", "GET", f"sender/locations?date_to={seen}")).body["data"], [])
        await asyncio.sleep(0.002)
        self.unusable["E2"] = "INOPERATIVE"
        changed, = (await self.ask("node", "GET", f"sender/locations?date_from={seen}")).body["data"]
        self.assertGreater(changed["last_updated"], seen)
        self.assertEqual([evse["last_updated"] > seen for evse in changed["evses"]], [False, True])

    async def test_an_answer_that_is_late_or_lost(self) -> None:
        async def late(_: Event) -> Outcome:
            await asyncio.Event().wait()
            raise AssertionError

        async def lost(_: Event) -> Outcome:
            raise OutcomeLost()
        self.clock.factor = 40.0
        for self.feeding in (late, lost):
            answer = await self.ask("node", "PUT", self.token_path, self.token, 1)
            self.assertEqual(answer.told, (504, 3000))
            self.assertNotIn("X-Serial", answer.headers)

    async def test_what_is_counted_and_what_is_logged(self) -> None:
        with self.assertLogs("ocpi_bridge.ocpi.server") as logs:
            await self.ask("node", "GET", self.token_path + "?type=RFID")
            await self.ask("wrong", "GET", "sender/tokens%0A")
        self.assertEqual([record.getMessage() for record in logs.records],
                         ["NL/TNM GET /ocpi/2.2.1/receiver/tokens/{country_code}/{party_id}/{identifier}: 404",
                          "unknown GET unknown path: 401"])
        counted = 'ocpi_http_requests_total{direction="in",partner="NL/TNM",status="404"} 1.0'
        self.assertIn(counted, self.metrics.text().splitlines())
