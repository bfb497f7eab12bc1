"""A provider that is no node, and its tokens at an operator's charge points: questions, lists and credits."""
import asyncio

from aiohttp import web

from .cases import PASSWORD, OperatorCase
from .charge_point_frames import ChargePoint
from .ocpi_objects import token
from .ocpi_party import Answer, Received, answered
from .running import Members, eventually


class ShownTokens(OperatorCase):
    """Tokens whose provider is asked, and what it may answer. The clock goes five times as fast."""

    clock_factor = 5.0

    async def show(self, charge_point: ChargePoint, of: Members, hour: int = 10) -> Members:
        """Begins a transaction by a token. Gives the answer."""
        await self.provider.put_token(of)
        return await charge_point.call("StartTransaction", {
            "connectorId": 1, "idTag": of["uid"], "meterStart": 0, "timestamp": f"2025-01-01T{hour}:00:00Z"})

    async def stop(self, charge_point: ChargePoint, begun: Members) -> None:
        """Ends a transaction, after what the bridge asks about it."""
        await charge_point.call("StopTransaction", {
            "transactionId": begun["transactionId"], "meterStop": 1000, "timestamp": "2025-01-01T23:00:00Z"})

    def answer(self, asked: Members, **other: object) -> Answer:
        """Answers a question with an AuthorizationInfo that says ALLOWED, but for its other members."""
        information: Members = {"allowed": "ALLOWED", "token": asked, **other}

        async def give(received: Received) -> web.StreamResponse:
            return answered(information)
        return give

    async def test_a_provider_that_allows(self) -> None:
        charge_point = await self.begin_charge_point()
        asked = token(self.provider.party, whitelist="NEVER")
        place = {"location_id": "LOC1", "evse_uids": ["E1"]}
        self.provider.answers["tokens"] = self.answer(asked, authorization_reference="reference-1", location=place)
        begun = await self.show(charge_point, asked)
        self.assertEqual("Accepted", begun["idTagInfo"]["status"])
        received = await self.provider.came("tokens", lambda request: request.method == "POST")
        self.assertEqual(("/2.2.1/tokens/AA01/authorize", place), (received.path, received.body))
        self.assertTrue(received.raw_path.endswith("?type=RFID"))
        active = await self.version("ACTIVE")
        self.assertEqual(("AUTH_REQUEST", "reference-1"), (active["auth_method"], active["authorization_reference"]))

    async def test_a_provider_that_does_not_allow(self) -> None:
        charge_point = await self.begin_charge_point()
        asked = token(self.provider.party, whitelist="NEVER")
        elsewhere = {"location_id": "LOC1", "evse_uids": ["E2", "E3"]}

        async def refuse(received: Received) -> web.StreamResponse:
            return web.Response(status=404)
        answers = [self.answer(asked, allowed="BLOCKED"), self.answer(asked, allowed="NO_CREDIT"),
                   self.answer(asked, location=elsewhere), self.answer(token(self.provider.party, "AA02")), refuse]
        for hour, given in enumerate(answers, 10):
            self.provider.answers["tokens"] = given
            begun = await self.show(charge_point, asked, hour)
            self.assertEqual("Invalid", begun["idTagInfo"]["status"], hour)
            await self.stop(charge_point, begun)
        self.assertEqual([], await self.bridge.admin_get("/sessions"))

    async def test_a_provider_that_does_not_answer(self) -> None:
        """A token that may be used offline is accepted then, and one that may not is not. A 4xx is an answer."""
        charge_point = await self.begin_charge_point()

        async def never(received: Received) -> web.StreamResponse:
            await asyncio.sleep(600)
            return answered()

        async def refuse(received: Received) -> web.StreamResponse:
            return web.Response(status=404)
        cases = (("NEVER", never, "Invalid"), ("ALLOWED_OFFLINE", refuse, "Invalid"),
                 ("ALLOWED_OFFLINE", never, "Accepted"))
        for hour, (whitelist, given, status) in enumerate(cases, 10):
            self.provider.answers["tokens"] = given
            asked = token(self.provider.party, f"AA{hour}", whitelist=whitelist)
            begun = await self.show(charge_point, asked, hour)
            self.assertEqual(status, begun["idTagInfo"]["status"], (whitelist, given.__name__))
            await self.stop(charge_point, begun)
        self.assertEqual(1, len(await self.bridge.admin_get("/sessions")))


class PulledTokens(OperatorCase):
    """Tokens that a provider does not push stand in its list."""

    async def asyncSetUp(self) -> None:
        await super().asyncSetUp()
        await self.bridge.stop()
        self.provider.lists["tokens"] = [token(self.provider.party, f"AA0{number}") for number in range(1, 6)]
        await self.bridge.start()

    async def test_they_are_pulled(self) -> None:
        async def are_held() -> bool:
            return len(await self.bridge.admin_get("/tokens")) == 5
        await eventually(are_held, "five tokens that were pulled")
        charge_point = await self.begin_charge_point("CP1", ["Preparing", "Available"], PASSWORD)
        answer = await charge_point.call("Authorize", {"idTag": "AA05"})
        self.assertEqual("Accepted", answer["idTagInfo"]["status"])


class Credits(OperatorCase):
    """A bill that the operator takes back."""

    async def test_a_credit_is_made_once(self) -> None:
        await self.provider.put_token(self.token)
        charge_point = await self.begin_charge_point()
        begun = await charge_point.call("StartTransaction", {
            "connectorId": 1, "idTag": "AA01", "meterStart": 0, "timestamp": "2025-01-01T10:00:00Z"})
        await charge_point.call("StopTransaction", {
            "transactionId": begun["transactionId"], "meterStop": 4000, "timestamp": "2025-01-01T11:00:00Z"})
        bill = (await self.provider.came("cdrs")).body
        credited = [await self.bridge.admin_post("/credits", {"session_id": bill["session_id"]}) for _ in range(2)]
        self.assertEqual([(200, "stepped"), (409, "idle")],
                         [(told["status"], told["answer"]["done"]["done"]) for told in credited])
        credit = (await self.provider.came("cdrs", lambda request: "credit" in request.body)).body
        self.assertEqual((True, bill["id"], -1.0, 4.0), (
            credit["credit"], credit["credit_reference_id"], credit["total_cost"]["excl_vat"], credit["total_energy"]))
        records = await self.bridge.admin_get("/cdrs")
        self.assertEqual({bill["id"], credit["id"]}, {record["id"] for record in records})
        moments = sorted([bill["last_updated"], credit["last_updated"]])
        totals = [await self.bridge.admin_get(f"/totals?date_from={date_from}&date_to={date_to}")
                  for date_from, date_to in (moments, ("1970-01-01", "2100-01-01"), ("1970-01-01", moments[0]))]
        self.assertEqual([
            [{"currency": "EUR", "bills": 1, "credits": 0, "kwh": 4.0, "excl_vat": 1.0}],
            [{"currency": "EUR", "bills": 1, "credits": 1, "kwh": 0.0, "excl_vat": 0.0}], []], totals)
