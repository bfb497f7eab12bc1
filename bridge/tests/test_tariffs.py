"""Tariffs of an operator: each price of its site, which connectors name them, and which stands in a bill."""
from ocpi_bridge.clock import Clock
from ocpi_bridge.ocpi.first_seen import FirstSeen
from ocpi_bridge.ocpi.tariffs import Tariffs

from . import ocpi_objects
from .client_cases import ClientCase, with_serial
from .running import operator
from .server_cases import ServerCase

LONG_AGO, AGO, LATER = "2024-01-01T00:00:00Z", "2024-06-01T00:00:00.5Z", "2090-01-01T00:00:00Z"
PRICES = [{"start_date_time": LONG_AGO, "price": 0.3}, {"start_date_time": AGO, "price": 0.4},
          {"start_date_time": LATER, "price": 0.5}]
IDS = ["ENERGY", "ENERGY-20240101T000000.000Z", "ENERGY-20240601T000000.500Z", "ENERGY-20900101T000000.000Z"]


class OperatorTariffs(ServerCase):
    """A site with a price from each of three moments on, and one before."""

    prices = PRICES

    async def test_each_price_is_a_tariff_that_ends_as_the_next_begins(self) -> None:
        for token in ("node", "ocpi"):
            answer = await self.ask(token, "GET", "sender/tariffs")
            self.assertEqual(answer.headers["X-Total-Count"], "4")
        tariffs = answer.body["data"]
        self.assertEqual([tariff["id"] for tariff in tariffs], IDS)
        moments = ["2024-01-01T00:00:00.000Z", "2024-06-01T00:00:00.500Z", "2090-01-01T00:00:00.000Z"]
        self.assertEqual([tariff.get("start_date_time") for tariff in tariffs], [None, *moments])
        self.assertEqual([tariff.get("end_date_time") for tariff in tariffs], [*moments, None])
        self.assertEqual([tariff["elements"] for tariff in tariffs], [
            [{"price_components": [{"type": "ENERGY", "price": price, "step_size": 1}]}]
            for price in (0.25, 0.3, 0.4, 0.5)])
        self.assertEqual({(tariff["country_code"], tariff["party_id"], tariff["currency"]) for tariff in tariffs},
                         {("BE", "BEC", "EUR")})
        # What has ended is named by no connector.
        connector = await self.ask("node", "GET", "sender/locations/LOC1/E1/1")
        self.assertEqual(connector.body["data"]["tariff_ids"], IDS[2:])
        page = await self.ask("node", "GET", "sender/tariffs?offset=1&limit=2")
        self.assertEqual([tariff["id"] for tariff in page.body["data"]], IDS[1:3])

    async def test_a_bill_names_its_tariff_to_partners_that_are_no_nodes(self) -> None:
        for number, party in enumerate(("DE/EVC", "NL/TNM")):
            token = ocpi_objects.token(party, f"AA0{number}")
            await self.ask("ocpi" if party == "DE/EVC" else "node", "PUT", f"receiver/tokens/{party}/{token['uid']}",
                           token, None if party == "DE/EVC" else 1)
            await self.tell("swipe", evse_uid="E1", connector_id="1", token_uid=token["uid"], token_type="RFID")
            await self.tell("starts", evse_uid="E1")
            await self.tell("meter", evse_uid="E1", kwh=1)
            await self.tell("stops", evse_uid="E1")
        bill, = (await self.ask("ocpi", "GET", "sender/cdrs")).body["data"]
        self.assertEqual(["ENERGY-20240601T000000.500Z"], [tariff["id"] for tariff in bill["tariffs"]])
        self.assertEqual(bill["total_cost"]["excl_vat"], 0.4)
        bill, = (await self.ask("node", "GET", "sender/cdrs")).body["data"]
        self.assertNotIn("tariffs", bill)


class PostedBills(ClientCase):
    """What a partner of kind `ocpi` is posted. Its bill is of a charge in 2025."""

    is_operator = True
    kind = "ocpi"
    names = IDS[2:3]

    def tariffs(self, clock: Clock) -> Tariffs:
        made = Tariffs(FirstSeen(self.state, clock), clock, "BE/BEC")
        made.take(operator("BE/BEC", ["E1"])["site"] | {"prices": PRICES})
        return made

    async def test_a_bill_names_its_tariff(self) -> None:
        self.party.answers["cdrs"] = with_serial()
        bill = ocpi_objects.cdr("BE/BEC", ocpi_objects.token("NL/TNM"), "S1")
        del bill["tariffs"]
        await self.carry(self.packet("post_cdr", 8, bill), self.packet("post_cdr", 9, {**bill, "currency": "SEK"}))
        told, other = (received.body for received in self.asked("cdrs"))
        self.assertEqual(self.names, [tariff["id"] for tariff in told.pop("tariffs", ())])
        self.assertEqual([bill, {**bill, "currency": "SEK"}], [told, other])


class PostedToNodes(PostedBills):
    """A partner's node is posted what the node sent."""

    kind = "node"
    names: list[str] = []

