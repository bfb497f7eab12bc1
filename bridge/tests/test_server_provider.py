"""A provider's OCPI server before a real node: what is asked, put, changed, billed and listed, as OCPI has it."""
import json

from ocpi_bridge.json_text import write_json

from . import ocpi_objects
from .running import Members
from .server_cases import URL_OF_BRIDGE, ServerCase


class ProviderServer(ServerCase):
    """What operators ask of a provider."""

    party = "NL/TNM"
    node_partner = "BE/BEC"
    ocpi_partner = "FR/CPX"
    token = ocpi_objects.token("NL/TNM")

    async def test_a_token_that_is_asked_about(self) -> None:
        await self.tell("token", token=self.token)
        place = {"location_id": "LOC1", "evse_uids": ["E1"]}
        first = await self.ask("node", "POST", "sender/tokens/AA01/authorize?type=RFID", place, 1)
        self.assertEqual((first.told, first.body["data"]["allowed"]), ((200, 1000), "ALLOWED"))
        self.assertNotIn("location", first.body["data"])
        self.assertEqual(self.last_delivered(), {"token_uid": "AA01", "type": "RFID", "location": place})
        again = await self.ask("node", "POST", "sender/tokens/AA01/authorize?type=RFID", place, 1)
        self.assertEqual(again.body, first.body)
        without = await self.ask("node", "POST", "sender/tokens/AA01/authorize", number=2)
        self.assertEqual(self.last_delivered(), {"token_uid": "AA01"})
        self.assertNotEqual(without.body["data"]["authorization_reference"],
                            first.body["data"]["authorization_reference"])
        other = await self.ask("ocpi", "POST", "sender/tokens/AA01/authorize", place)
        self.assertEqual(other.body["data"]["location"], place)
        self.assertEqual((await self.ask("node", "POST", "sender/tokens/AA02/authorize", number=3)).told, (200, 2004))
        self.assertEqual((await self.ask("ocpi", "POST", "sender/tokens/AA02/authorize")).told, (404, 2004))
        self.assertEqual((await self.ask("node", "POST", "sender/tokens/AA01/authorize?type=X", number=4)).told,
                         (200, 2001))

    async def test_the_result_of_a_command(self) -> None:
        await self.tell("token", token=self.token)
        await self.tell("submit", operator="BE/BEC", order="stop_session", session_id="S1")
        number = self.outcomes[-1].packets[0].request
        path = f"sender/commands/results/{number}"
        answer = await self.ask("node", "POST", path, {"result": "ACCEPTED"}, 1)
        self.assertEqual(answer.told, (200, 1000))
        self.assertEqual(self.last_delivered(),
                         {"result": "ACCEPTED", "response_url": f"https://node.invalid/NL/TNM/{number}"})
        self.assertEqual((await self.ask("node", "POST", "sender/commands/results/99", {"result": "FAILED"}, 2)).told,
                         (200, 2001))
        answer = await self.ask("node", "POST", path, {"result": "MAYBE"}, 3)
        self.assertRegex(answer.body["status_message"], "^result: wanted is one of ACCEPTED, ")

    async def test_a_session_that_is_put_and_changed(self) -> None:
        session = ocpi_objects.session("FR/CPX", self.token, last_updated="2025-01-01T10:00:00Z")
        path = f"receiver/sessions/FR/CPX/{session['id']}"
        changes: Members = {"status": "COMPLETED", "kwh": 2.5, "last_updated": "2025-01-01T11:00:00Z"}
        self.assertEqual((await self.ask("ocpi", "PATCH", path, changes)).told, (404, 2003))
        self.assertEqual((await self.ask("ocpi", "PUT", path, session)).told, (200, 1000))
        early = {**changes, "kwh": 9, "last_updated": "2025-01-01T09:00:00Z"}
        self.assertEqual((await self.ask("ocpi", "PATCH", path, early)).told, (200, 1000))
        self.assertEqual((await self.ask("ocpi", "GET", path)).body["data"], session)
        self.assertEqual((await self.ask("ocpi", "PATCH", path, changes)).told, (200, 1000))
        self.assertEqual(self.last_delivered()["connector_id"], "1")
        late = {**changes, "status": "ACTIVE", "last_updated": "2025-01-01T12:00:00Z"}
        self.assertEqual((await self.ask("ocpi", "PATCH", path, late)).told, (200, 1000))
        self.assertEqual((await self.ask("ocpi", "GET", path)).body["data"], {**session, **changes})
        self.assertEqual((await self.ask("node", "GET", path)).told, (404, 2003))
        forged = {**session, "id": "S2"}
        self.assertEqual((await self.ask("node", "PUT", "receiver/sessions/FR/CPX/S2", forged, 1)).told, (200, 2001))
        self.assertEqual((await self.ask("ocpi", "GET", "receiver/sessions/FR/CPX/S2")).told, (404, 2003))

    async def test_a_bill_can_be_read_at_its_location(self) -> None:
        cdr = ocpi_objects.cdr("FR/CPX", self.token, "S1", id="C/1 ?")
        answer = await self.ask("ocpi", "POST", "receiver/cdrs", cdr)
        self.assertEqual(answer.told, (200, 1000))
        self.assertEqual(answer.headers["Location"], URL_OF_BRIDGE + "/ocpi/2.2.1/receiver/cdrs/FR/CPX/C%2F1%20%3F")
        path = answer.headers["Location"].removeprefix(URL_OF_BRIDGE + "/ocpi/2.2.1/")
        self.assertEqual((await self.ask("ocpi", "GET", path)).body["data"], cdr)
        for method in ("PUT", "PATCH"):
            self.assertEqual((await self.ask("ocpi", method, path, cdr)).status, 405)
        second = await self.ask("ocpi", "POST", "receiver/cdrs", {**cdr, "id": "C2"})
        self.assertEqual((second.told, second.headers.get("Location")), ((200, 2001), None))

    async def test_a_repeat_with_another_object_changes_nothing(self) -> None:
        first, other = (ocpi_objects.cdr("BE/BEC", self.token, "S1", id=identifier) for identifier in ("C1", "C2"))
        for cdr in (first, other, {**first, "last_updated": "2099-01-01T00:00:00Z"}):
            self.assertEqual((await self.ask("node", "POST", "receiver/cdrs", cdr, 1)).told, (200, 1000))
        self.assertEqual((await self.ask("node", "GET", "receiver/cdrs/BE/BEC/C1")).body["data"], first)
        self.assertEqual((await self.ask("node", "GET", "receiver/cdrs/BE/BEC/C2")).told, (404, 2003))

    async def test_members_that_no_node_reads_may_be_anything(self) -> None:
        cdr = ocpi_objects.cdr("BE/BEC", self.token, "S1", id="C1", evse_uid=5, status=[None], type={})
        self.assertEqual((await self.ask("node", "POST", "receiver/cdrs", cdr, 1)).told, (200, 1000))
        self.assertEqual((await self.ask("node", "GET", "receiver/cdrs/BE/BEC/C1")).body["data"], cdr)

    async def test_tokens_by_pages(self) -> None:
        for uid in ("AA01", "AA02", "AA03"):
            await self.tell("token", token={**self.token, "uid": uid})
        await self.tell("token", token={**self.token, "uid": "AA01", "valid": False})
        answer = await self.ask("ocpi", "GET", "sender/tokens")
        self.assertEqual([token["uid"] for token in answer.body["data"]], ["AA02", "AA03", "AA01"])
        self.assertEqual((await self.ask("node", "GET", "sender/tokens?offset=2")).body["data"][0]["valid"], False)
        self.assertEqual((await self.ask("node", "GET", "sender/sessions")).status, 404)

    async def test_a_number_is_handed_on_as_it_was_spelled(self) -> None:
        session = ocpi_objects.session("FR/CPX", self.token)
        text = json.dumps({**session, "kwh": 0}).replace('"kwh": 0', '"kwh": 15e-1').encode()
        path = f"receiver/sessions/FR/CPX/{session['id']}"
        self.assertEqual((await self.ask("ocpi", "PUT", path, text=text)).told, (200, 1000))
        self.assertEqual(write_json(self.last_delivered()["kwh"]), "1.5")
