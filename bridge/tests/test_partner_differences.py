"""Where partners differ: tokens as they are, starts without a reference, and several parties behind one token."""
from collections.abc import Sequence

from .cases import PASSWORD, BridgeCase
from .charge_point_frames import ChargePoint
from .ocpi_objects import start_session, token
from .ocpi_party import OcpiParty, Reply
from .running import Members, RunningBridge, charge_point, operator, partner, provider


class Differences(BridgeCase):
    """The bridge of BE/BEC with two EVSEs, and the providers NL/PLN and DE/OTR."""

    async def begin(self, first: Members, second: Members) -> None:
        """Starts it with these members of the entries of both partners."""
        self.provider = await self.begin_party("NL/PLN", "EMSP")
        self.other = await self.begin_party("DE/OTR", "EMSP")
        parties, entries = [self.provider, self.other], []
        for party, members in zip(parties, (first, second)):
            party.bridge_token = members.get("token", party.bridge_token)
            party.token_base64 = members.get("token_base64", True)
            entries.append({**partner(party.party, "ocpi", party.bridge_token, party.token, party.versions_url),
                            **members})
        self.bridge = await self.begin_bridge(RunningBridge(
            self.make_folder(), [operator("BE/BEC", ["E1", "E2"]), *(provider(party.party) for party in parties)],
            "BE/BEC", entries, [charge_point("CP1", ["E1", "E2"], PASSWORD)]), parties)

    async def held(self) -> list[str]:
        """The parties of the tokens that are held."""
        return sorted(f"{held['country_code']}/{held['party_id']}" for held in await self.bridge.admin_get("/tokens"))

    async def puts(self, party: OcpiParty, of: str | None = None, **headers: str | None) -> Reply:
        """PUTs a token of a party, or of another one, with some routing headers changed."""
        changed = {name.replace("_", "-"): text for name, text in headers.items()}
        return await party.put_token(token(of or party.party), headers=changed)


class Tokens(Differences):
    """One party writes its tokens as they are."""

    async def test_tokens_as_they_are(self) -> None:
        await self.begin({"token_base64": False}, {})
        for party in (self.provider, self.other):
            self.assert_status(await self.puts(party), 200, 1000)
            await party.command("CANCEL_RESERVATION", {"response_url": f"{party.url}/results/1",
                                                       "reservation_id": "R1"})
            self.assertEqual("UNKNOWN_RESERVATION", (await party.came("results")).body["result"])
        for party in (self.provider, self.other):
            party.token_base64 = not party.token_base64
            self.assertEqual(401, (await self.puts(party)).http_status)


class References(Differences):
    """One party gives its starts no references."""

    async def test_a_start_without_a_reference_gets_one_for_each_request(self) -> None:
        await self.begin({"own_references": True}, {})
        connected = ChargePoint(self.bridge.ocpp_url, "CP1", PASSWORD)
        self.addAsyncCleanup(connected.close)
        await connected.connect()
        references = []
        for evse_uid in ("E1", "E2"):
            start = start_session(token("NL/PLN", evse_uid), f"{self.provider.url}/results/{evse_uid}", evse_uid)
            del start["authorization_reference"]
            replies = [await self.provider.command("START_SESSION", start, correlation=evse_uid) for _ in range(2)]
            self.assertEqual(["ACCEPTED"] * 2, [reply.data["result"] for reply in replies])
            identifier, _ = await connected.asked("RemoteStartTransaction")
            await connected.give(identifier, {"status": "Accepted"})
            begun = await self.provider.came("sessions")
            references.append(begun.body["authorization_reference"])
        self.assertTrue(connected.was_not_asked())
        self.assertEqual(2, len(set(references)), references)
        start["token"] = token("DE/OTR")
        self.assert_refused(await self.other.command("START_SESSION", start), 2001)


class Sharing(Differences):
    """Both parties stand behind one token."""

    async def asyncSetUp(self) -> None:
        await self.begin({"token": "shared-token-61"}, {"token": "shared-token-61"})

    async def end_bridge(self, bridge: RunningBridge, secrets: Sequence[str]) -> None:
        await super().end_bridge(bridge, [*secrets, "shared-token-61"])

    async def test_routing_headers_tell_parties_behind_one_token_apart(self) -> None:
        for party in (self.provider, self.other):
            self.assert_status(await self.puts(party), 200, 1000)
        self.assertEqual(["DE/OTR", "NL/PLN"], await self.held())
        nobody: dict[str, str | None] = {"OCPI_from_country_code": None, "OCPI_from_party_id": None}
        others: list[dict[str, str | None]] = [{"OCPI_from_country_code": "BE", "OCPI_from_party_id": "BEC"},
                                               {"OCPI_from_party_id": "OTR"}]
        for headers in (nobody, *others):
            self.assertEqual(401, (await self.puts(self.provider, **headers)).http_status)
        self.assert_refused(await self.puts(self.provider, "DE/OTR"), 2001)
        versions = await self.provider.ask("GET", self.bridge.ocpi_url + "/ocpi/versions", headers={
            "OCPI-from-country-code": None, "OCPI-from-party-id": None})
        self.assert_status(versions, 200, 1000)

    async def test_credentials_are_of_the_parties_that_they_name(self) -> None:
        url = self.bridge.ocpi_url + "/ocpi/2.2.1/credentials"
        credentials = self.provider.credentials()
        credentials["roles"] += self.other.credentials()["roles"]
        reply = await self.provider.ask("PUT", url, credentials)
        self.assert_status(reply, 200, 1000)
        for with_token in ("shared-token-61", reply.data["token"]):
            for party in (self.provider, self.other):
                party.bridge_token = with_token
                self.assert_status(await self.puts(party), 200, 1000)
        self.assertEqual(401, (await self.provider.ask("GET", url, token="shared-token-61")).http_status)
