"""Whoever holds a token speaks for its own party alone: in each request with an object, each command, each list, and
each address for the result of a command. What is another party's is refused, and the node never hears of it."""
from collections.abc import Mapping

from . import ocpi_objects
from .running import Members
from .server_cases import Answer, ServerCase

URL = "https://other.example/results/1"
UPDATED = {"last_updated": "2099-01-01T00:00:00Z"}


class OwnParties(ServerCase):
    """A partner of each kind, with the token of that kind. Each tries what is the other's."""

    def party_of(self, holder: str) -> str:
        """The party of a token."""
        return self.node_partner if holder == "node" else self.ocpi_partner

    def other_of(self, holder: str) -> str:
        return self.party_of("ocpi" if holder == "node" else "node")

    def delivered(self) -> list[Members]:
        """The packets that were fed."""
        return [dict(outcome.event["packet"]) for outcome in self.outcomes if outcome.event["event"] == "deliver"]

    async def ask_as(self, holder: str, method: str, path: str, body: object = None, number: int = 900,
                     headers: Mapping[str, str] | None = None) -> Answer:
        """Asks with the token of a partner, which has the ids of a node's request where its party is a node."""
        return await self.ask(holder, method, path, body, number if holder == "node" else None, headers)

    async def assert_refused(self, holder: str, method: str, path: str, body: object, told: tuple[int, int],
                             headers: Mapping[str, str] | None = None) -> None:
        """A request is answered by an error, and nothing of it is fed."""
        before = self.delivered()
        answer = await self.ask_as(holder, method, path, body, headers=headers)
        self.assertEqual(told, answer.told, (holder, method, path, answer.body))
        self.assertNotIn("data", answer.body)
        self.assertEqual(before, self.delivered(), (holder, method, path))

    async def assert_own(self, holder: str, method: str, path: str, body: object, number: int) -> Answer:
        """The same request of the partner's own is taken, and what is fed is from its party."""
        answer = await self.ask_as(holder, method, path, body, number)
        self.assertEqual((200, 1000), answer.told, (holder, method, path, answer.body))
        if method != "GET":
            self.assertEqual(self.party_of(holder), self.delivered()[-1]["from"])
        return answer

    async def assert_not_by_headers(self, holder: str, method: str, path: str, body: object) -> None:
        """A token with the routing headers, or the ids, of another party is refused."""
        country, name = self.other_of(holder).split("/")
        routing = {"OCPI-from-country-code": country, "OCPI-from-party-id": name}
        for headers in (routing, {"OCPI-from-country-code": country}, {"OCPI-from-party-id": name}):
            await self.assert_refused(holder, method, path, body, (401, 2001), headers)
        if holder == "node":
            for header in ("X-Request-ID", "X-Correlation-ID"):
                ids = {"X-Request-ID": f"{self.node_partner}/1", "X-Correlation-ID": f"{self.node_partner}/1"}
                before = self.delivered()
                answer = await self.ask("node", method, path, body, headers={**ids, header: f"{self.ocpi_partner}/1"})
                self.assertEqual((200, 2001), answer.told)
                self.assertEqual(before, self.delivered())

    async def refuses_credentials(self, role: str) -> None:
        """No partner registers, changes or ends the registration of another."""
        for holder in ("node", "ocpi"):
            country, name = self.other_of(holder).split("/")
            body = {"token": "t", "url": "https://other.example/versions", "roles": [
                {"role": role, "country_code": country, "party_id": name, "business_details": {"name": "Other"}}]}
            await self.assert_refused(holder, "PUT", "credentials", body, (200, 2001))
            routing = {"OCPI-from-country-code": country, "OCPI-from-party-id": name}
            for method in ("PUT", "DELETE"):
                await self.assert_refused(holder, method, "credentials", body, (401, 2001), routing)
        await self.assert_refused("new", "POST", "credentials", body, (200, 2001))


class AtAnOperator(OwnParties):
    """Providers at an operator."""

    async def test_tokens_of_another_party(self) -> None:
        for holder in ("node", "ocpi"):
            party, other = self.party_of(holder), self.other_of(holder)
            own, token = ocpi_objects.token(party), ocpi_objects.token(other)
            await self.assert_own(holder, "PUT", f"receiver/tokens/{party}/AA01", own, 1)
            for path, body in ((other, token), (party, token), (other, own)):
                await self.assert_refused(holder, "PUT", f"receiver/tokens/{path}/AA01", body, (200, 2001))
            await self.assert_refused(holder, "PATCH", f"receiver/tokens/{other}/AA01", UPDATED, (404, 2004))
            for codes in (ocpi_objects.codes(other), {"party_id": other[3:]}):
                await self.assert_refused(holder, "PATCH", f"receiver/tokens/{party}/AA01", {**UPDATED, **codes},
                                          (200, 2001))
            await self.assert_refused(holder, "GET", f"receiver/tokens/{other}/AA01", None, (404, 2004))
            await self.assert_not_by_headers(holder, "PUT", f"receiver/tokens/{party}/AA01", {**own, **UPDATED})
            held = await self.assert_own(holder, "GET", f"receiver/tokens/{party}/AA01", None, 2)
            self.assertEqual(own, held.body["data"])

    async def test_commands_with_a_token_of_another_party(self) -> None:
        for holder in ("node", "ocpi"):
            own, token = (ocpi_objects.token(party) for party in (self.party_of(holder), self.other_of(holder)))
            for name, made in (("START_SESSION", ocpi_objects.start_session(own, URL)),
                               ("RESERVE_NOW", ocpi_objects.reserve_now(own, URL, "E1"))):
                path = f"receiver/commands/{name}"
                await self.assert_refused(holder, "POST", path, {**made, "token": token}, (200, 2001))
                await self.assert_not_by_headers(holder, "POST", path, made)

    async def test_what_stands_at_the_site_for_another_party(self) -> None:
        """Ids of sessions and reservations are no party's by their form: the node says whose they are."""
        for holder, evses in (("node", ("E1", "E2")), ("ocpi", ("E2", "E1"))):
            other = "ocpi" if holder == "node" else "node"
            token = ocpi_objects.token(self.party_of(holder))
            start = ocpi_objects.start_session(token, URL, evses[0])
            await self.assert_own(holder, "POST", "receiver/commands/START_SESSION", start, 11)
            number = self.delivered()[-1]["request"]
            begun = await self.tell("accepts", provider=self.party_of(holder), number=number)
            session = next(packet.body for packet in begun.packets if packet.kind == "put_session")
            reserve = ocpi_objects.reserve_now(token, URL, evses[1])
            await self.assert_own(holder, "POST", "receiver/commands/RESERVE_NOW", reserve, 12)
            for name, body, result in (
                    ("STOP_SESSION", {"session_id": session["id"]}, "UNKNOWN_SESSION"),
                    ("CANCEL_RESERVATION", {"reservation_id": "R1"}, "ACCEPTED"),
                    ("UNLOCK_CONNECTOR", {"location_id": "LOC1", "evse_uid": evses[0], "connector_id": "1"},
                     "REJECTED")):
                asked, number = {**body, "response_url": URL}, 20 + len(self.outcomes)
                answer = await self.assert_own(other, "POST", f"receiver/commands/{name}", asked, number)
                self.assertEqual(result, answer.body["data"]["result"], name)
                await self.assert_not_by_headers(other, "POST", f"receiver/commands/{name}", asked)
            others = (await self.ask_as(other, "GET", "sender/sessions")).body["data"]
            self.assertNotIn(session["id"], [each["id"] for each in others])
            listed = (await self.ask_as(holder, "GET", "sender/sessions")).body["data"]
            self.assertIn((session["id"], "PENDING"), [(each["id"], each["status"]) for each in listed])
            await self.assert_own(holder, "POST", "receiver/commands/CANCEL_RESERVATION",
                                  {"reservation_id": "R1", "response_url": URL}, 13)
            self.assertEqual(["ACCEPTED"], [each.body["result"] for each in self.outcomes[-1].sent("command_result")])
            await self.bill(holder, other, evses[0])

    async def bill(self, holder: str, other: str, evse_uid: str) -> None:
        """A session ends. Its bill is in the list of its provider alone, and then nothing stands there any more."""
        for event in ("starts", "stops"):
            await self.tell(event, evse_uid=evse_uid)
        for party in (holder, other):
            records = (await self.ask_as(party, "GET", "sender/cdrs")).body["data"]
            self.assertEqual({self.party_of(party)[3:]} if records else set(),
                             {record["cdr_token"]["party_id"] for record in records})
        self.assertEqual(1, len((await self.ask_as(holder, "GET", "sender/cdrs")).body["data"]))

    async def test_credentials_of_another_party(self) -> None:
        await self.refuses_credentials("EMSP")


class AtAProvider(OwnParties):
    """Operators at a provider."""

    party = "NL/TNM"
    node_partner = "BE/BEC"
    ocpi_partner = "FR/CPX"
    token = ocpi_objects.token("NL/TNM")

    async def test_sessions_of_another_party(self) -> None:
        for holder in ("node", "ocpi"):
            party, other = self.party_of(holder), self.other_of(holder)
            own, session = (ocpi_objects.session(each, self.token, id="S1") for each in (party, other))
            await self.assert_own(holder, "PUT", f"receiver/sessions/{party}/S1", own, 1)
            for path, body in ((other, session), (party, session), (other, own)):
                await self.assert_refused(holder, "PUT", f"receiver/sessions/{path}/S1", body, (200, 2001))
            await self.assert_refused(holder, "PATCH", f"receiver/sessions/{other}/S1", UPDATED, (404, 2003))
            for codes in (ocpi_objects.codes(other), {"country_code": other[:2]}):
                await self.assert_refused(holder, "PATCH", f"receiver/sessions/{party}/S1", {**UPDATED, **codes},
                                          (200, 2001))
            await self.assert_refused(holder, "GET", f"receiver/sessions/{other}/S1", None, (404, 2003))
            await self.assert_not_by_headers(holder, "PUT", f"receiver/sessions/{party}/S1", {**own, **UPDATED})
            held = await self.assert_own(holder, "GET", f"receiver/sessions/{party}/S1", None, 2)
            self.assertEqual(own, held.body["data"])

    async def test_bills_of_another_party(self) -> None:
        for holder in ("node", "ocpi"):
            party, other = self.party_of(holder), self.other_of(holder)
            own, cdr = (ocpi_objects.cdr(each, self.token, "S1", id="C1") for each in (party, other))
            await self.assert_refused(holder, "POST", "receiver/cdrs", cdr, (200, 2001))
            await self.assert_refused(holder, "GET", f"receiver/cdrs/{other}/C1", None, (404, 2003))
            await self.assert_not_by_headers(holder, "POST", "receiver/cdrs", own)
            await self.assert_own(holder, "POST", "receiver/cdrs", own, 1)
            await self.assert_own(holder, "GET", f"receiver/cdrs/{party}/C1", None, 2)

    async def test_the_result_of_a_command_to_another_party(self) -> None:
        for holder, other in (("node", "ocpi"), ("ocpi", "node")):
            await self.tell("submit", operator=self.party_of(other), order="stop_session", session_id="S1")
            path = f"sender/commands/results/{self.outcomes[-1].packets[0].request}"
            await self.assert_refused(holder, "POST", path, {"result": "ACCEPTED"}, (200, 2001))
            await self.assert_not_by_headers(other, "POST", path, {"result": "ACCEPTED"})
            await self.assert_own(other, "POST", path, {"result": "FAILED"}, 1)

    async def test_a_token_that_is_asked_about(self) -> None:
        await self.tell("token", token=self.token)
        for holder in ("node", "ocpi"):
            await self.assert_not_by_headers(holder, "POST", "sender/tokens/AA01/authorize", None)
            await self.assert_own(holder, "POST", "sender/tokens/AA01/authorize", None, 1)

    async def test_places_and_tariffs_of_another_party(self) -> None:
        for holder in ("node", "ocpi"):
            party, other = self.party_of(holder), self.other_of(holder)
            for module, own in (("locations", ocpi_objects.location(party)), ("tariffs", ocpi_objects.tariff(party))):
                body = {**own, **ocpi_objects.codes(other)}
                path, of_other = f"receiver/{module}/{party}/{own['id']}", f"receiver/{module}/{other}/{own['id']}"
                self.assertEqual((200, 1000), (await self.ask_as(holder, "PUT", path, own)).told)
                await self.assert_refused(holder, "PUT", path, body, (200, 2001))
                methods = ("GET", "PUT", "PATCH" if module == "locations" else "DELETE")
                for method in methods:
                    await self.assert_refused(holder, method, of_other, None if method == "GET" else body, (404, 2003))
                    await self.assert_by_routing(holder, method, path, None if method == "GET" else own)
                self.assertEqual(own, (await self.ask_as(holder, "GET", path)).body["data"])
            evse = f"receiver/locations/{other}/LOC1/E1"
            await self.assert_refused(holder, "PATCH", evse, {**UPDATED, "status": "BLOCKED"}, (404, 2003))
            await self.assert_refused(holder, "PUT", evse, ocpi_objects.evse("E1"), (404, 2003))
            await self.assert_refused(holder, "PATCH", f"receiver/locations/{party}/LOC1",
                                      {**UPDATED, **ocpi_objects.codes(other)}, (200, 2001))

    async def assert_by_routing(self, holder: str, method: str, path: str, body: object) -> None:
        country, name = self.other_of(holder).split("/")
        routing = {"OCPI-from-country-code": country, "OCPI-from-party-id": name}
        await self.assert_refused(holder, method, path, body, (401, 2001), routing)

    async def test_credentials_of_another_party(self) -> None:
        await self.refuses_credentials("CPO")


del OwnParties, ServerCase
