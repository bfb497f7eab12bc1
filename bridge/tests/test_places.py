"""Locations and tariffs that a provider receives: what is held of them, in whatever order and how often it comes."""
from . import ocpi_objects
from .ocpi_objects import evse, location, tariff
from .running import Members
from .server_cases import Answer, ServerCase

LOCATION, TARIFF = "receiver/locations/FR/CPX/LOC1", "receiver/tariffs/FR/CPX/T1"


class ProviderPlaces(ServerCase):
    """What operators tell a provider of their places."""

    party = "NL/TNM"
    node_partner = "BE/BEC"
    ocpi_partner = "FR/CPX"

    async def asyncSetUp(self) -> None:
        await super().asyncSetUp()
        self.location = location("FR/CPX", evse("E1"), evse("E2"))

    async def put(self, path: str, body: Members) -> Answer:
        return await self.ask("ocpi", "PUT", path, body)

    async def patch(self, path: str, minute: int, **changes: object) -> Answer:
        """Changes something as of a minute past ten."""
        return await self.ask("ocpi", "PATCH", path, changes | {"last_updated": f"2025-01-01T10:{minute:02}:00Z"})

    async def statuses(self) -> list[str]:
        """The statuses of the EVSEs that are held."""
        held = await self.ask("ocpi", "GET", LOCATION)
        return [each["status"] for each in held.body["data"]["evses"]]

    async def test_a_location_that_is_put_and_what_changes_there(self) -> None:
        self.assertEqual((await self.patch(f"{LOCATION}/E1", 1, status="CHARGING")).told, (404, 2003))
        self.assertEqual((await self.put(f"{LOCATION}/E1", evse("E1"))).told, (404, 2003))
        self.assertEqual((await self.ask("ocpi", "GET", LOCATION)).told, (404, 2003))
        for _ in range(2):
            self.assertEqual((await self.put(LOCATION, self.location)).told, (200, 1000))
        self.assertEqual((await self.ask("ocpi", "GET", LOCATION)).body["data"], self.location)
        self.assertEqual((await self.patch("receiver/locations/fr/cpx/loc1/e2", 3, status="CHARGING")).told,
                         (200, 1000))
        self.assertEqual(await self.statuses(), ["AVAILABLE", "CHARGING"])
        held = (await self.ask("ocpi", "GET", LOCATION)).body["data"]
        self.assertEqual([held["last_updated"], held["evses"][1]["last_updated"]], ["2025-01-01T10:03:00Z"] * 2)
        self.assertEqual((await self.put(f"{LOCATION}/E3", evse("E3", status="RESERVED"))).told, (200, 1000))
        self.assertEqual(await self.statuses(), ["AVAILABLE", "CHARGING", "RESERVED"])
        connector = {**evse("E3")["connectors"][0], "max_amperage": 16, "last_updated": "2025-01-01T10:05:00Z"}
        self.assertEqual((await self.put(f"{LOCATION}/E3/1", connector)).told, (200, 1000))
        self.assertEqual((await self.ask("ocpi", "GET", f"{LOCATION}/E3/1")).body["data"], connector)
        self.assertEqual((await self.patch(LOCATION, 6, name="Market")).told, (200, 1000))
        self.assertEqual((await self.ask("ocpi", "GET", LOCATION)).body["data"]["name"], "Market")

    async def test_what_was_overtaken_changes_nothing(self) -> None:
        await self.put(LOCATION, self.location)
        await self.patch(f"{LOCATION}/E1", 5, status="AVAILABLE")
        await self.patch(f"{LOCATION}/E2", 6, status="CHARGING")
        self.assertEqual((await self.patch(f"{LOCATION}/E1", 4, status="CHARGING")).told, (200, 1000))
        self.assertEqual((await self.put(LOCATION, self.location)).told, (200, 1000))
        self.assertEqual(await self.statuses(), ["AVAILABLE", "CHARGING"])
        # As a text this moment is less than the one that is held.
        self.assertEqual((await self.ask("ocpi", "PATCH", f"{LOCATION}/E1", {
            "status": "BLOCKED", "last_updated": "2025-01-01T10:05:00.500Z"})).told, (200, 1000))
        self.assertEqual(await self.statuses(), ["BLOCKED", "CHARGING"])

    async def test_what_does_not_fit_is_refused_and_named(self) -> None:
        await self.put(LOCATION, self.location)
        wrong: list[tuple[str, str, Members, str]] = [
            ("PUT", LOCATION, {**self.location, "city": 7}, "city"),
            ("PUT", LOCATION, {**self.location, "id": "LOC2"}, "id"),
            ("PUT", LOCATION, {**self.location, "evses": [{"uid": "E1"}]}, r"evses\[0\]\.status"),
            ("PUT", LOCATION, {**self.location, "last_updated": "today"}, "last_updated"),
            ("PUT", f"{LOCATION}/E1", evse("E2"), "uid"),
            ("PATCH", f"{LOCATION}/E1", {"status": "CHARGING"}, "last_updated"),
            ("PATCH", LOCATION, {"party_id": "BEC", "last_updated": "2025-01-01T11:00:00Z"}, "party_id"),
            ("PATCH", LOCATION, {"id": 7, "last_updated": "2025-01-01T11:00:00Z"}, "id"),
            ("PATCH", f"{LOCATION}/E1", {"status": 5, "last_updated": "2025-01-01T11:00:00Z"}, "status"),
            ("PUT", TARIFF, tariff("FR/CPX", elements=[{"price_components": 1}]), r"elements\[0\]\.price_components")]
        for method, path, body, member in wrong:
            answer = await self.ask("ocpi", method, path, body)
            self.assertEqual(answer.told, (200, 2001), member)
            self.assertRegex(answer.body["status_message"], f"^{member}: ")
        others = "receiver/locations/BE/BEC/LOC1"
        self.assertEqual((await self.put(others, location("BE/BEC"))).told, (404, 2003))
        self.assertEqual((await self.ask("ocpi", "GET", others)).told, (404, 2003))
        self.assertEqual((await self.ask("ocpi", "GET", LOCATION)).body["data"], self.location)

    async def test_a_tariff_that_is_put_and_deleted(self) -> None:
        self.assertEqual((await self.ask("ocpi", "GET", TARIFF)).told, (404, 2003))
        for price in (0.25, 0.5):
            self.assertEqual((await self.put(TARIFF, tariff("FR/CPX", price))).told, (200, 1000))
            self.assertEqual((await self.ask("ocpi", "GET", TARIFF)).body["data"], tariff("FR/CPX", price))
        for _ in range(2):
            self.assertEqual((await self.ask("ocpi", "DELETE", TARIFF)).told, (200, 1000))
            self.assertEqual((await self.ask("ocpi", "GET", TARIFF)).told, (404, 2003))

    async def test_a_partner_of_either_kind_tells_its_places(self) -> None:
        self.assertEqual((await self.ask("node", "PUT", "receiver/locations/BE/BEC/LOC1",
                                         ocpi_objects.location("BE/BEC"))).told, (200, 1000))
