"""What a provider that is no node asks of an operator's bridge: lists by pages, places, tokens, and what is refused."""
import gzip
from typing import Any

from .cases import OperatorCase
from .charge_point_frames import ChargePoint
from .ocpi_objects import reserve_now, start_session, token
from .ocpi_party import Reply, quoted, token_header
from .running import Members, eventually


def next_link(reply: Reply) -> str | None:
    """The URL of the next page, where there is one."""
    link = reply.headers.get("Link")
    if link is None:
        return None
    url, _, relation = link.partition(";")
    assert relation.strip() == 'rel="next"', link
    return url.strip().removeprefix("<").removesuffix(">")


class Lists(OperatorCase):
    """Three sessions and three bills, by pages, by moments, and to nobody else."""

    async def asyncSetUp(self) -> None:
        await super().asyncSetUp()
        await self.provider.put_token(self.token)
        charge_point = await self.begin_charge_point("CP2", ["Available"], None)
        for number in range(3):
            begun = await charge_point.call("StartTransaction", {
                "connectorId": 1, "idTag": "AA01", "meterStart": 0, "timestamp": f"2025-01-01T1{number}:00:00Z"})
            await charge_point.call("StopTransaction", {
                "transactionId": begun["transactionId"], "meterStop": 4000 * (number + 1),
                "timestamp": f"2025-01-01T1{number}:30:00Z"})

    async def ask(self, module: str, query: str = "") -> Reply:
        return await self.provider.ask("GET", await self.provider.endpoint(module, "SENDER") + query)

    async def test_pages(self) -> None:
        for module, energy in (("sessions", "kwh"), ("cdrs", "total_energy")):
            reply = await self.ask(module, "?limit=2")
            self.assert_status(reply, 200, 1000)
            self.assertEqual(("3", "2"), (reply.headers["X-Total-Count"], reply.headers["X-Limit"]))
            elements = list(reply.data)
            self.assertEqual(2, len(elements))
            following = next_link(reply)
            assert following is not None
            reply = await self.provider.ask("GET", following)
            self.assert_status(reply, 200, 1000)
            self.assertIsNone(next_link(reply))
            elements += reply.data
            self.assertEqual([4, 8, 12], [element[energy] for element in elements])
            moments = [element["last_updated"] for element in elements]
            self.assertEqual(sorted(moments), moments)

    async def test_a_limit_above_the_most(self) -> None:
        self.assertEqual("1000", (await self.ask("sessions", "?limit=5000")).headers["X-Limit"])

    async def test_moments(self) -> None:
        everything = (await self.ask("sessions")).data
        middle = everything[1]["last_updated"]
        cases = [(f"?date_from={middle}", everything[1:]), (f"?date_to={middle}", everything[:1]),
                 (f"?date_from={middle}&date_to={everything[2]['last_updated']}", everything[1:2]),
                 ("?date_from=2098-01-01T00:00:00Z", []), ("?offset=2", everything[2:]), ("?offset=7", [])]
        for query, wanted in cases:
            with self.subTest(query=query):
                reply = await self.ask("sessions", query)
                self.assert_status(reply, 200, 1000)
                self.assertEqual(wanted, reply.data)

    async def test_a_page_keeps_its_moments(self) -> None:
        reply = await self.ask("sessions", "?limit=1&date_to=2098-01-01T00:00:00Z")
        following = next_link(reply)
        assert following is not None
        self.assertIn("date_to=2098", following)

    async def test_wrong_parameters(self) -> None:
        for query in ("limit=many", "limit=-1", "offset=-1", "offset=x", "date_from=yesterday", "date_to=2025-13-01"):
            with self.subTest(query=query):
                self.assert_refused(await self.ask("sessions", "?" + query), 2001)

    async def test_nobody_sees_what_is_anothers(self) -> None:
        for module in ("sessions", "cdrs"):
            reply = await self.other.ask("GET", await self.other.endpoint(module, "SENDER"))
            self.assert_status(reply, 200, 1000)
            self.assertEqual(([], "0"), (reply.data, reply.headers["X-Total-Count"]))


class Places(OperatorCase):
    """The list of locations, with the status of each EVSE."""

    async def locations(self) -> list[Any]:
        reply = await self.provider.ask("GET", await self.provider.endpoint("locations", "SENDER"))
        self.assert_status(reply, 200, 1000)
        return list(reply.data)

    async def await_statuses(self, **wanted: str) -> None:
        """Waits until EVSEs have these statuses."""
        async def have() -> bool:
            statuses = {evse["uid"]: evse["status"] for evse in (await self.locations())[0]["evses"]}
            return {uid: statuses[uid] for uid in wanted} == wanted
        await eventually(have, str(wanted))

    async def test_the_location_of_the_setup(self) -> None:
        location = (await self.locations())[0]
        wanted = {"country_code": "BE", "party_id": "BEC", "id": "LOC1", "publish": True, "address": "Korenmarkt 1",
                  "city": "Gent", "country": "BEL", "time_zone": "UTC",
                  "coordinates": {"latitude": "51.05421", "longitude": "3.72180"}}
        self.assertEqual(wanted, {name: location[name] for name in wanted})
        self.assertIn("last_updated", location)
        evse = location["evses"][0]
        self.assertEqual(("E1", "BE*BEC*E1"), (evse["uid"], evse["evse_id"]))
        connector = {name: evse["connectors"][0][name] for name in ("id", "standard", "format", "power_type")}
        self.assertEqual({"id": "1", "standard": "IEC_62196_T2", "format": "SOCKET", "power_type": "AC_3_PHASE"},
                         connector)
        url = await self.provider.endpoint("locations", "SENDER")
        self.assert_status(await self.provider.ask("GET", f"{url}/LOC1"), 200, 1000)
        self.assertEqual("E2", (await self.provider.ask("GET", f"{url}/LOC1/E2")).data["uid"])
        self.assertEqual("1", (await self.provider.ask("GET", f"{url}/LOC1/E2/1")).data["id"])
        self.assert_status(await self.provider.ask("GET", f"{url}/LOC9"), 404, 2003)

    async def test_a_car_that_is_plugged_in_blocks_its_evse(self) -> None:
        """Whoever has it may start there all the same."""
        charge_point = await self.begin_charge_point("CP2", ["Available"], None)
        await self.await_statuses(E3="AVAILABLE")
        await charge_point.call("StatusNotification", {
            "connectorId": 1, "errorCode": "NoError", "status": "Preparing"})
        await self.await_statuses(E3="BLOCKED")
        await self.provider.put_token(self.token)
        started = await self.provider.command(
            "START_SESSION", start_session(self.token, self.response_url("start"), "E3"))
        self.assertEqual("ACCEPTED", started.data["result"])
        await charge_point.call("StatusNotification", {
            "connectorId": 1, "errorCode": "NoError", "status": "Available"})

    async def test_statuses(self) -> None:
        await self.await_statuses(E1="OUTOFORDER", E2="OUTOFORDER", E3="OUTOFORDER")
        charge_point = await self.begin_charge_point()
        await self.await_statuses(E1="AVAILABLE", E2="AVAILABLE", E3="OUTOFORDER")
        await self.provider.command("RESERVE_NOW", reserve_now(self.token, self.response_url("reserve"), "E2"))
        await self.provider.command("START_SESSION", start_session(self.token, self.response_url("start")))
        await self.await_statuses(E1="BLOCKED", E2="RESERVED")
        identifier, _ = await charge_point.asked("RemoteStartTransaction")
        await charge_point.give(identifier, {"status": "Accepted"})
        await self.version("PENDING")
        await self.await_statuses(E1="BLOCKED")
        await charge_point.call("StartTransaction", {
            "connectorId": 1, "idTag": "AA01", "meterStart": 0, "timestamp": "2025-01-01T10:00:00Z"})
        await self.await_statuses(E1="CHARGING")
        await self.status_of(charge_point, 2, "Unavailable")
        await self.await_statuses(E2="INOPERATIVE")
        await self.status_of(charge_point, 2, "Faulted")
        await self.await_statuses(E2="OUTOFORDER")
        await self.status_of(charge_point, 2, "Available")
        await self.await_statuses(E2="RESERVED")

    async def status_of(self, charge_point: ChargePoint, connector: int, status: str) -> None:
        await charge_point.call("StatusNotification", {
            "connectorId": connector, "errorCode": "OtherError" if status == "Faulted" else "NoError",
            "status": status})


class Tokens(OperatorCase):
    """Tokens that a provider PUTs and PATCHes."""

    async def url_of(self, of: Members) -> str:
        path = "/".join(quoted(of[name]) for name in ("country_code", "party_id", "uid"))
        return f"{await self.provider.endpoint('tokens', 'RECEIVER')}/{path}"

    async def test_what_was_put_is_read(self) -> None:
        for uid in ("AA01", "A/B?C D", "100%"):
            put = token(self.provider.party, uid)
            url = await self.url_of(put)
            self.assert_status(await self.provider.ask("GET", url), 404, 2004)
            self.assertEqual(1000, (await self.provider.put_token(put)).status_code)
            read = await self.provider.ask("GET", url + "?type=RFID")
            self.assert_status(read, 200, 1000)
            self.assertEqual((uid, put["last_updated"]), (read.data["uid"], read.data["last_updated"]))
            self.assert_status(await self.provider.ask("GET", url + "?type=APP_USER"), 404, 2004)

    async def test_patches(self) -> None:
        url = await self.url_of(self.token)
        change = {"valid": False, "last_updated": "2025-02-01T00:00:00Z"}
        self.assert_refused(await self.provider.ask("PATCH", url, change), 2004)
        await self.provider.put_token(self.token)
        self.assert_refused(await self.provider.ask("PATCH", url, {"valid": False}), 2001)
        self.assertIs(True, (await self.provider.ask("GET", url)).data["valid"])
        self.assert_status(await self.provider.ask("PATCH", url, change), 200, 1000)
        read = (await self.provider.ask("GET", url)).data
        self.assertEqual((False, "2025-02-01T00:00:00Z", "C-AA01"), (
            read["valid"], read["last_updated"], read["contract_id"]))

    async def test_a_path_that_says_otherwise(self) -> None:
        url = await self.url_of(self.token)
        self.assert_status(await self.provider.ask("PUT", url, token(self.provider.party, "AA02")), 200, 2001)
        self.assert_status(await self.provider.ask("PUT", url + "?type=OTHER", self.token), 200, 2001)
        self.assert_status(await self.provider.ask("PUT", url.lower() + "?type=RFID", self.token), 200, 1000)


class Statuses(OperatorCase):
    """HTTP statuses that OCPI wants where a request is none that can be taken."""

    async def test_401(self) -> None:
        url = await self.provider.endpoint("sessions", "SENDER")
        for value in (None, "Token", "Token " + self.provider.bridge_token, "Bearer abc", "Token !!!",
                      token_header("unknown"), "Token w6k=", "Token /w=="):
            with self.subTest(value=value):
                self.assert_status(await self.provider.ask("GET", url, headers={"Authorization": value}), 401, 2001)
        stranger = {"OCPI-from-country-code": "DE", "OCPI-from-party-id": "OTR"}
        self.assert_status(await self.provider.ask("GET", url, headers=stranger), 401, 2001)

    async def test_a_request_without_routing_headers_is_taken(self) -> None:
        dropped = {f"OCPI-{way}-{name}": None for way in ("from", "to") for name in ("country-code", "party-id")}
        self.assert_status(await self.provider.put_token(self.token, headers=dropped), 200, 1000)

    async def test_404_and_405(self) -> None:
        commands = await self.provider.endpoint("commands", "RECEIVER")
        sessions = await self.provider.endpoint("sessions", "SENDER")
        for url in (commands + "/FLY_AWAY", sessions + "/a/b/c/d", self.bridge.ocpi_url + "/ocpi/2.2.1/sender/chargers",
                    self.bridge.ocpi_url + "/ocpi/2.1.1", self.bridge.ocpi_url + "/elsewhere"):
            with self.subTest(url=url):
                self.assertEqual(404, (await self.provider.ask("POST", url, {})).http_status)
        for method, url in (("GET", commands + "/START_SESSION"), ("DELETE", sessions), ("POST", sessions)):
            with self.subTest(method=method, url=url):
                self.assertEqual(405, (await self.provider.ask(method, url)).http_status)

    async def test_400_and_413(self) -> None:
        url = await self.provider.endpoint("commands", "RECEIVER") + "/STOP_SESSION"
        for text in (b"", b"{", b"hello", b"\xff\xfe", b'{"session_id": 01}', b'{"session_id": NaN}'):
            with self.subTest(text=text):
                self.assert_status(await self.provider.ask("POST", url, data=text), 400, 2001)
        for text in (b"[]", b"7", b"null"):
            with self.subTest(text=text):
                self.assert_refused(await self.provider.ask("POST", url, data=text), 2001)
        self.assertEqual(413, (await self.provider.ask("POST", url, data=b" " * 2_000_000)).http_status)

    async def test_no_body_is_made_larger(self) -> None:
        """A body that were above 1 MB if it were decompressed is no JSON as it comes."""
        url = await self.provider.endpoint("commands", "RECEIVER") + "/STOP_SESSION"
        packed = gzip.compress(b" " * 10_000_000)
        reply = await self.provider.ask("POST", url, data=packed, headers={"Content-Encoding": "gzip"})
        self.assert_status(reply, 400, 2001)

    async def test_a_body_of_another_content_type_is_taken(self) -> None:
        reply = await self.provider.put_token(self.token, headers={"Content-Type": "text/plain"})
        self.assert_status(reply, 200, 1000)
