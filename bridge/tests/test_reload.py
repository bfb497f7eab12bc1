"""A configuration that is read again, while charges go on."""
import asyncio
import json
import os
import signal

import aiohttp

from .cases import PASSWORD, OperatorCase, ProviderCase
from .charge_point_frames import ChargePoint
from .ocpi_objects import start_session, token
from .ocpi_party import Received, now
from .running import Members, charge_point, eventually, operator, partner, provider


class OperatorReload(OperatorCase):
    """CP1 charges, CP2 goes, and CP3 comes; of the providers DE/OTR goes, and FR/NEW comes."""

    async def asyncSetUp(self) -> None:
        await super().asyncSetUp()
        self.new = await self.begin_party("FR/NEW", "EMSP")
        self.new.deals_with(self.bridge.party, self.bridge.ocpi_url + "/ocpi/versions")

    def change(self) -> None:
        """Writes the configuration and the setup with the parties and charge points that come."""
        setup = [operator("BE/BEC", ["E1", "E2", "E4"]), provider(self.provider.party), provider(self.new.party)]
        (self.bridge.folder / "setup.json").write_text(json.dumps({"nodes": setup}))
        self.bridge.configuration["partners"] = [
            partner(party.party, "ocpi", party.bridge_token, party.token, party.versions_url)
            for party in (self.provider, self.new)]
        self.bridge.configuration["ocpp"]["charge_points"] = [
            charge_point("CP1", ["E1", "E2"], PASSWORD), charge_point("CP3", ["E4"])]
        self.bridge.write()

    async def reload(self) -> Members:
        return await self.bridge.admin_post("/reload", {})

    async def begin_charge(self) -> tuple[ChargePoint, int]:
        """A car that charges at CP1: its charge point, and the transaction."""
        charging = await self.begin_charge_point()
        await self.provider.put_token(self.token)
        await self.provider.command("START_SESSION", start_session(self.token, self.response_url("first")))
        identifier, _ = await charging.asked("RemoteStartTransaction")
        await charging.give(identifier, {"status": "Accepted"})
        started = await charging.call("StartTransaction", {
            "connectorId": 1, "idTag": "AA01", "meterStart": 0, "timestamp": now()})
        await self.version("ACTIVE")
        return charging, int(started["transactionId"])

    async def end_charge(self, charging: ChargePoint, transaction: int) -> None:
        """Sees that the charge goes on by the connection of before, and ends with a bill."""
        await charging.call("StopTransaction", {"transactionId": transaction, "meterStop": 700, "timestamp": now()})
        self.assertEqual(0.7, (await self.provider.came("cdrs")).body["total_energy"])

    async def test_parties_and_charge_points_come_and_go_while_a_car_charges(self) -> None:
        charging, transaction = await self.begin_charge()
        going = ChargePoint(self.bridge.ocpp_url, "CP2")
        self.addAsyncCleanup(going.close)
        await going.connect()
        self.change()
        reloading, waiting = asyncio.create_task(self.reload()), asyncio.create_task(
            self.provider.put_token(token(self.provider.party, "AA02")))
        self.assertEqual(200, (await reloading)["status"])
        self.assert_status(await waiting, 200, 1000)
        await going.was_closed()
        with self.assertRaises(aiohttp.WSServerHandshakeError):
            await ChargePoint(self.bridge.ocpp_url, "CP2").connect()
        self.assert_status(await self.other.ask("GET", self.bridge.ocpi_url + "/ocpi/versions"), 401, 2001)
        locations = await self.new.ask("GET", await self.new.endpoint("locations", "SENDER"))
        self.assertEqual(["E1", "E2", "E4"], [evse["uid"] for evse in locations.data[0]["evses"]])
        coming = await self.begin_charge_point("CP3", ["Available"], None)
        driver = token(self.new.party)
        await self.new.put_token(driver)
        await self.new.command("START_SESSION", start_session(driver, f"{self.new.url}/results/new", "E4"))
        identifier, _ = await coming.asked("RemoteStartTransaction")
        await coming.give(identifier, {"status": "Accepted"})
        self.assertEqual("ACCEPTED", (await self.new.came("results")).body["result"])
        await self.end_charge(charging, transaction)

    async def test_what_is_wrong_is_told_and_the_old_one_goes_on(self) -> None:
        charging, transaction = await self.begin_charge()
        before, setup = json.dumps(self.bridge.configuration), (self.bridge.folder / "setup.json").read_text()
        for change, words in (
                (self.drop_partners, "partners: missing"), (self.change_business, "ocpi: changed: restart"),
                # The node has a session there.
                (self.drop_first_evse, "the setup's site has no such EVSE")):
            change()
            self.bridge.write()
            refused = await self.reload()
            self.assertEqual(409, refused["status"])
            self.assertIn(words, refused["answer"]["error"])
            self.bridge.configuration = json.loads(before)
        (self.bridge.folder / "setup.json").write_text(setup)
        self.assert_status(await self.other.ask("GET", self.bridge.ocpi_url + "/ocpi/versions"), 200, 1000)
        await self.end_charge(charging, transaction)

    def drop_partners(self) -> None:
        del self.bridge.configuration["partners"]

    def change_business(self) -> None:
        self.bridge.configuration["ocpi"]["business"] = "Other"

    def drop_first_evse(self) -> None:
        setup = [operator("BE/BEC", ["E2", "E3"]), provider(self.provider.party), provider(self.other.party)]
        (self.bridge.folder / "setup.json").write_text(json.dumps({"nodes": setup}))
        self.bridge.configuration["ocpp"]["charge_points"] = [charge_point("CP1", ["E2"], PASSWORD)]

    async def test_locations_and_tariffs_are_sent_anew(self) -> None:
        def statuses(received: Received) -> dict[str, str]:
            return {evse["uid"]: evse["status"] for evse in received.body["evses"]}
        self.new.interfaces |= {"locations": "RECEIVER", "tariffs": "RECEIVER"}
        self.change()
        for _ in range(2):
            self.assertEqual(200, (await self.reload())["status"])
            self.assertEqual(0.25, (await self.new.came("tariffs")).body["elements"][0]["price_components"][0]["price"])
            location = await self.new.came("locations")
            self.assertEqual("PUT", location.method)
            self.assertEqual(dict.fromkeys(("E1", "E2", "E4"), "OUTOFORDER"), statuses(location))
        await self.begin_charge_point("CP3", ["Available"], None)
        change = await self.new.came("locations")
        self.assertEqual(("PATCH", "AVAILABLE"), (change.method, change.body["status"]))
        self.assertTrue(change.path.endswith("/BE/BEC/LOC1/E4"))
        # The other provider takes neither.
        self.assertEqual([], [received for received in self.provider.requests
                              if received.module in ("locations", "tariffs")])

    async def test_a_price_that_changed_counts(self) -> None:
        setup = [operator("BE/BEC", ["E1", "E2", "E3"], 0.5), provider(self.provider.party), provider(self.other.party)]
        (self.bridge.folder / "setup.json").write_text(json.dumps({"nodes": setup}))
        self.assertEqual(200, (await self.reload())["status"])
        charging, transaction = await self.begin_charge()
        await charging.call("StopTransaction", {"transactionId": transaction, "meterStop": 1000, "timestamp": now()})
        self.assertEqual(0.5, (await self.provider.came("cdrs")).body["total_cost"]["excl_vat"])

    async def test_a_signal_does_the_same(self) -> None:
        self.change()
        os.kill(self.bridge.pid, signal.SIGHUP)

        async def is_taken() -> bool:
            return "the configuration was read again" in self.bridge.log()
        await eventually(is_taken, "the configuration is taken")
        self.assert_status(await self.new.ask("GET", self.bridge.ocpi_url + "/ocpi/versions"), 200, 1000)
        self.bridge.configuration["state"] = "other.db"
        self.bridge.write()
        os.kill(self.bridge.pid, signal.SIGHUP)

        async def is_refused() -> bool:
            return "the configuration is as before: state: changed: restart the bridge for that" in self.bridge.log()
        await eventually(is_refused, "the configuration is refused")


class ProviderReload(ProviderCase):
    """An operator comes, and its sessions are pulled."""

    async def test_an_operator_that_comes_is_sent_tokens_and_pulled_from(self) -> None:
        new = await self.begin_party("DE/NEW", "CPO")
        new.deals_with(self.bridge.party, self.bridge.ocpi_url + "/ocpi/versions")
        setup = [provider("NL/TNM"), operator(self.operator.party, ["E1"]), operator(new.party, ["E7"])]
        (self.bridge.folder / "setup.json").write_text(json.dumps({"nodes": setup}))
        self.bridge.configuration["partners"].append(
            partner(new.party, "ocpi", new.bridge_token, new.token, new.versions_url))
        self.bridge.write()
        self.assertEqual(200, (await self.bridge.admin_post("/reload", {}))["status"])
        self.assertEqual([self.operator.party, new.party],
                         [partner["party"] for partner in await self.bridge.admin_get("/partners")])
        await new.came("cdrs", lambda request: request.method == "GET")
        await self.bridge.admin_post("/tokens", token("NL/TNM", "AA02"))
        await new.came("tokens", lambda request: request.method == "PUT")
