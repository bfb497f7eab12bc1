"""Calls of the bridge, answered as a charge point answers, and what follows from each answer."""
import asyncio

from .charge_point_cases import START, STATUS, FramesCase
from .ocpi_objects import start_session, token


class RemoteCalls(FramesCase):
    """What the bridge asks of a charge point, and what follows from each answer."""

    async def test_a_long_token_has_a_text_in_its_place(self) -> None:
        uid = "0123456789-0123456789-0123456789"
        long = token(self.provider.party, uid)
        await self.provider.command("START_SESSION", start_session(long, self.response_url("start")))
        identifier, payload = await self.charge_point.asked("RemoteStartTransaction")
        self.assertLessEqual(len(payload["idTag"]), 20)
        await self.charge_point.give(identifier, {"status": "Accepted"})
        begun = await self.charge_point.call("StartTransaction", {**START, "idTag": payload["idTag"]})
        self.assertEqual("Accepted", begun["idTagInfo"]["status"])
        self.assertEqual(uid, (await self.version("ACTIVE"))["cdr_token"]["uid"])

    async def test_a_start_right_behind_the_answer(self) -> None:
        await self.provider.command("START_SESSION", start_session(self.token, self.response_url("start")))
        identifier, _ = await self.charge_point.asked("RemoteStartTransaction")
        await self.charge_point.give(identifier, {"status": "Accepted"})
        begun = await self.charge_point.call("StartTransaction", START)
        self.assertEqual("Accepted", begun["idTagInfo"]["status"])
        sessions, _ = await self.counted()
        self.assertEqual([("ACTIVE", "COMMAND")], [(each["status"], each["auth_method"]) for each in sessions])

    async def test_service(self) -> None:
        for in_service, kind in ((False, "Inoperative"), (True, "Operative")):
            service = {"evse_uid": "E2", "in_service": in_service}
            posted = asyncio.create_task(self.bridge.admin_post("/service", service))
            identifier, payload = await self.charge_point.asked("ChangeAvailability")
            self.assertEqual({"connectorId": 2, "type": kind}, payload)
            await self.charge_point.give(identifier, {"status": "Accepted"})
            self.assertEqual(200, (await posted)["status"])
            reply = await self.provider.command(
                "START_SESSION", start_session(self.token, self.response_url(kind), "E2"))
            self.assertEqual("ACCEPTED", reply.data["result"])
            if not in_service:
                self.assertEqual("EVSE_INOPERATIVE", await self.result(kind))
        await self.charge_point.asked("RemoteStartTransaction")

    async def serve(self, in_service: bool) -> None:
        """The owner takes E2 out of service or puts it back, and its charge point takes that."""
        posted = asyncio.create_task(self.bridge.admin_post("/service", {"evse_uid": "E2", "in_service": in_service}))
        identifier, _ = await self.charge_point.asked("ChangeAvailability")
        await self.charge_point.give(identifier, {"status": "Accepted"})
        self.assertEqual(200, (await posted)["status"])

    async def test_what_the_owner_took_out_of_service_stays_so_whatever_statuses_come(self) -> None:
        await self.serve(False)
        for status in ("Unavailable", "Available", "Faulted", "Preparing", "Available"):
            await self.charge_point.call("StatusNotification", {**STATUS, "connectorId": 2, "status": status})
            start = start_session(self.token, self.response_url(status), "E2")
            self.assertEqual("ACCEPTED", (await self.provider.command("START_SESSION", start)).data["result"])
            self.assertEqual("EVSE_INOPERATIVE", await self.result(status), status)
        locations = await self.provider.ask("GET", await self.provider.endpoint("locations", "SENDER"))
        self.assertEqual("INOPERATIVE", locations.data[0]["evses"][1]["status"])
        await self.serve(True)
        await self.provider.command("START_SESSION", start_session(self.token, self.response_url("start"), "E2"))
        await self.charge_point.asked("RemoteStartTransaction")

    async def test_what_a_charge_point_answers_wrongly(self) -> None:
        for answer in ('[4,"{}","InternalError","",{{}}]', '[3,"{}",{{"status":"Perhaps"}}]', '[3,"{}",{{}}]'):
            start = start_session(self.token, self.response_url("start"))
            await self.provider.command("START_SESSION", start)
            identifier, _ = await self.charge_point.asked("RemoteStartTransaction")
            await self.charge_point.send(answer.format(identifier))
            self.assertEqual("FAILED", await self.result("start"), answer)
