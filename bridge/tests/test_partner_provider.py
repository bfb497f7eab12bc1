"""A provider that is no node, against the bridge of an operator: orders, results, sessions and bills."""
import asyncio
import uuid

from aiohttp import web

from .cases import OperatorCase
from .charge_point_frames import ChargePoint
from .ocpi_objects import reserve_now, start_session, token
from .ocpi_party import Received, answered, token_header
from .running import Members, eventually


class Orders(OperatorCase):
    """The five commands of a provider, and what it is sent for them."""

    async def assert_accepted(self, name: str, body: Members) -> None:
        """Sends a command, which must be answered ACCEPTED with a timeout."""
        reply = await self.provider.command(name, body)
        self.assert_status(reply, 200, 1000)
        self.assertEqual("ACCEPTED", reply.data["result"])
        self.assertEqual(30, reply.data["timeout"])

    async def start(self, name: str, charge_point: ChargePoint, evse_uid: str = "E1") -> Members:
        """Starts a session that a charge point accepts, and gives its first version."""
        await self.assert_accepted("START_SESSION", start_session(self.token, self.response_url(name), evse_uid))
        identifier, payload = await charge_point.asked("RemoteStartTransaction")
        self.assertEqual("AA01", payload["idTag"])
        self.assertEqual({"E1": 1, "E2": 2}[evse_uid], payload["connectorId"])
        await charge_point.give(identifier, {"status": "Accepted"})
        self.assertEqual("ACCEPTED", await self.result(name))
        return await self.version("PENDING")

    async def test_a_charge_from_start_to_bill(self) -> None:
        self.assert_status(await self.provider.put_token(self.token), 200, 1000)
        charge_point = await self.begin_charge_point()
        pending = await self.start("start", charge_point)
        self.assertEqual(("BE", "BEC", 0, "COMMAND"), tuple(
            pending[name] for name in ("country_code", "party_id", "kwh", "auth_method")))
        begun = await charge_point.call("StartTransaction", {
            "connectorId": 1, "idTag": "AA01", "meterStart": 1000, "timestamp": "2025-01-01T10:00:00Z"})
        self.assertEqual("Accepted", begun["idTagInfo"]["status"])
        await self.version("ACTIVE")
        sample = {"timestamp": "2025-01-01T10:10:00Z", "sampledValue": [{"value": "13345.6"}]}
        await charge_point.call("MeterValues", {
            "connectorId": 1, "transactionId": begun["transactionId"], "meterValue": [sample]})
        active = await self.version("ACTIVE", 12.3456)
        self.assertEqual(3.0864, active["total_cost"]["excl_vat"])
        await self.assert_accepted("STOP_SESSION", {
            "response_url": self.response_url("stop"), "session_id": pending["id"]})
        identifier, payload = await charge_point.asked("RemoteStopTransaction")
        self.assertEqual({"transactionId": begun["transactionId"]}, payload)
        await charge_point.give(identifier, {"status": "Accepted"})
        self.assertEqual("ACCEPTED", await self.result("stop"))
        await charge_point.call("StopTransaction", {
            "transactionId": begun["transactionId"], "meterStop": 13500, "timestamp": "2025-01-01T10:30:00Z"})
        completed = await self.version("COMPLETED")
        self.assertEqual((pending["id"], 12.5), (completed["id"], completed["kwh"]))
        bill = (await self.provider.came("cdrs")).body
        self.assertEqual((pending["id"], 12.5, 3.125), (
            bill["session_id"], bill["total_energy"], bill["total_cost"]["excl_vat"]))

    async def test_requests_of_the_bridge_have_the_headers_of_ocpi(self) -> None:
        charge_point = await self.begin_charge_point()
        await self.assert_accepted("START_SESSION", start_session(self.token, self.response_url("start")))
        identifier, _ = await charge_point.asked("RemoteStartTransaction")
        await charge_point.give(identifier, {"status": "Accepted"})
        for module in ("results", "sessions"):
            headers = (await self.provider.came(module)).headers
            self.assertEqual(token_header(self.provider.token), headers["Authorization"])
            routing = [headers[f"OCPI-{name}"] for name in (
                "from-country-code", "from-party-id", "to-country-code", "to-party-id")]
            self.assertEqual(["BE", "BEC", "NL", "PLN"], routing)
            self.assertTrue(headers["X-Request-ID"] and headers["X-Correlation-ID"])

    async def test_responses_have_the_ids_of_their_requests(self) -> None:
        reply = await self.provider.put_token(self.token, correlation="a-correlation", headers={"X-Request-ID": "a-1"})
        self.assertEqual(("a-1", "a-correlation"), (reply.headers["X-Request-ID"], reply.headers["X-Correlation-ID"]))
        self.assertEqual("application/json", reply.headers["Content-Type"].partition(";")[0])
        self.assertIn("timestamp", reply.members)

    async def test_a_start_that_comes_again_starts_once(self) -> None:
        charge_point = await self.begin_charge_point()
        body = start_session(self.token, self.response_url("start"))
        first = await self.provider.command("START_SESSION", body, correlation="one")
        identifier, _ = await charge_point.asked("RemoteStartTransaction")
        second = await self.provider.command("START_SESSION", body, correlation="one")
        self.assertEqual(first.members, second.members)
        # Under another correlation id it is another request, and its reference was spent.
        third = await self.provider.command("START_SESSION", body, correlation=str(uuid.uuid4()))
        self.assertEqual("REJECTED", third.data["result"])
        await charge_point.give(identifier, {"status": "Accepted"})
        await self.version("PENDING")
        await asyncio.sleep(1)
        self.assertTrue(charge_point.was_not_asked())
        self.assertEqual(1, len(await self.bridge.admin_get("/sessions")))

    async def test_a_start_without_a_reference_is_refused(self) -> None:
        charge_point = await self.begin_charge_point()
        body = start_session(self.token, self.response_url("start"))
        del body["authorization_reference"]
        self.assert_status(await self.provider.command("START_SESSION", body), 200, 2001)
        await asyncio.sleep(1)
        self.assertTrue(charge_point.was_not_asked())

    async def test_a_charge_point_that_refuses(self) -> None:
        charge_point = await self.begin_charge_point()
        await self.assert_accepted("START_SESSION", start_session(self.token, self.response_url("start")))
        identifier, _ = await charge_point.asked("RemoteStartTransaction")
        await charge_point.give(identifier, {"status": "Rejected"})
        self.assertEqual("FAILED", await self.result("start"))
        self.assertEqual([], await self.bridge.admin_get("/sessions"))

    async def test_a_start_that_names_no_evse(self) -> None:
        # Only CP2 serves: the two EVSEs of CP1 are out of service.
        for uid in ("E1", "E2"):
            await self.bridge.admin_post("/service", {"evse_uid": uid, "in_service": False})
        charge_point = await self.begin_charge_point("CP2", ["Available"], None)
        await self.assert_accepted("START_SESSION", start_session(self.token, self.response_url("start"), None))
        self.assertEqual("ACCEPTED", await self.result("start"))
        self.assertEqual("E3", (await self.version("PENDING"))["evse_uid"])
        identifier, payload = await charge_point.asked("RemoteStartTransaction")
        self.assertEqual(1, payload["connectorId"])
        await charge_point.give(identifier, {"status": "Rejected"})
        self.assertEqual("E3", (await self.version("INVALID"))["evse_uid"])

    async def test_reservations(self) -> None:
        await self.assert_accepted("RESERVE_NOW", reserve_now(self.token, self.response_url("reserve"), "E1"))
        self.assertEqual("ACCEPTED", await self.result("reserve"))
        others = token(self.other.party)
        url = self.other.url + "/results/start"
        reply = await self.other.command("START_SESSION", start_session(others, url))
        self.assertEqual("ACCEPTED", reply.data["result"])
        self.assertEqual("EVSE_OCCUPIED", (await self.other.came("results")).body["result"])
        for name, result in (("once", "ACCEPTED"), ("twice", "UNKNOWN_RESERVATION")):
            await self.assert_accepted("CANCEL_RESERVATION", {
                "response_url": self.response_url(name), "reservation_id": "R1"})
            self.assertEqual(result, await self.result(name))

    async def test_unlocking(self) -> None:
        charge_point = await self.begin_charge_point()
        for status, result in (("Unlocked", "ACCEPTED"), ("UnlockFailed", "FAILED"), ("NotSupported", "FAILED")):
            await self.assert_accepted("UNLOCK_CONNECTOR", {
                "response_url": self.response_url(status), "location_id": "LOC1", "evse_uid": "E2",
                "connector_id": "1"})
            identifier, payload = await charge_point.asked("UnlockConnector")
            self.assertEqual({"connectorId": 2}, payload)
            await charge_point.give(identifier, {"status": status})
            self.assertEqual(result, await self.result(status))

    async def test_what_does_not_exist(self) -> None:
        url = self.response_url("none")
        start = start_session(self.token, url)
        self.assert_status(await self.provider.command("START_SESSION", {**start, "location_id": "LOC9"}), 200, 2003)
        reply = await self.provider.command("START_SESSION", {**start, "evse_uid": "E9"})
        self.assertEqual("REJECTED", reply.data["result"])
        reply = await self.provider.command("STOP_SESSION", {"response_url": url, "session_id": "none"})
        self.assertEqual("UNKNOWN_SESSION", reply.data["result"])
        self.assert_status(await self.provider.command("STOP_SESSION", {"response_url": url}), 200, 2001)


class Losses(OperatorCase):
    """What is sent again, and what ends by time. The clock goes ten times as fast."""

    clock_factor = 10.0

    async def test_a_push_comes_again_until_it_is_acknowledged(self) -> None:
        async def refuse(received: Received) -> web.StreamResponse:
            return answered(status_code=3000)
        self.provider.answers["sessions"] = refuse
        await self.provider.put_token(self.token)
        charge_point = await self.begin_charge_point()
        await charge_point.call("StartTransaction", {
            "connectorId": 1, "idTag": "AA01", "meterStart": 0, "timestamp": "2025-01-01T10:00:00Z"})
        first, again = [await self.provider.came("sessions", lambda request: bool(request.body["status"] == "ACTIVE"))
                        for _ in range(2)]
        self.assertEqual((first.path, first.body), (again.path, again.body))
        self.assertEqual(first.headers["X-Correlation-ID"], again.headers["X-Correlation-ID"])
        self.assertNotEqual(first.headers["X-Request-ID"], again.headers["X-Request-ID"])
        del self.provider.answers["sessions"]

        async def is_acknowledged() -> bool:
            return "\nocpi_unacknowledged_pushes 0" in await self.bridge.admin_get("/metrics")
        await eventually(is_acknowledged, "no push that waits")

    async def test_a_command_fails_where_its_charge_point_is_away(self) -> None:
        reply = await self.provider.command("START_SESSION", start_session(self.token, self.response_url("start")))
        self.assertEqual("ACCEPTED", reply.data["result"])
        self.assertEqual("FAILED", await self.result("start"))

    async def test_a_charge_point_that_starts_too_late_is_stopped(self) -> None:
        charge_point = await self.begin_charge_point()
        await self.provider.command("START_SESSION", start_session(self.token, self.response_url("start")))
        identifier, _ = await charge_point.asked("RemoteStartTransaction")
        self.assertEqual("TIMEOUT", await self.result("start"))
        await charge_point.give(identifier, {"status": "Accepted"})
        begun = await charge_point.call("StartTransaction", {
            "connectorId": 1, "idTag": "AA01", "meterStart": 0, "timestamp": "2025-01-01T10:00:00Z"})
        _, payload = await charge_point.asked("RemoteStopTransaction")
        self.assertEqual({"transactionId": begun["transactionId"]}, payload)
        self.assertEqual([], await self.bridge.admin_get("/sessions"))

    async def test_nobody_plugs_in(self) -> None:
        charge_point = await self.begin_charge_point()
        await self.provider.command("START_SESSION", start_session(self.token, self.response_url("start")))
        identifier, _ = await charge_point.asked("RemoteStartTransaction")
        await charge_point.give(identifier, {"status": "Accepted"})
        pending = await self.version("PENDING")
        self.assertEqual(pending["id"], (await self.version("INVALID"))["id"])
