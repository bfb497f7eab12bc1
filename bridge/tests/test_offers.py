"""What a provider's page offers, of the locations and tariffs that are held."""
import tempfile
import unittest
from pathlib import Path

from ocpi_bridge.admin.offers import Offers
from ocpi_bridge.clock import Clock
from ocpi_bridge.json_text import JsonObject, read_json, write_json
from ocpi_bridge.ocpi.places import Places
from ocpi_bridge.state import State

from .ocpi_objects import evse, location, tariff
from .running import Members


class OffersTest(unittest.TestCase):
    def setUp(self) -> None:
        folder = Path(self.enterContext(tempfile.TemporaryDirectory()))
        state = State(folder / "state.db")
        self.addCleanup(state.close)
        self.places = Places(state)
        self.offers = Offers(self.places, Clock(), lambda party: party != "FR/OLD")

    def hold(self, module: str, *objects: Members) -> None:
        for each in objects:
            self.places.take(module, read_json(write_json(each)))

    def told(self, *names: str) -> list[list[object]]:
        """These members of each offer."""
        return [[offer[name] for name in names] for offer in self.offers.all()]

    def test_what_is_free_comes_first_and_what_is_no_more_not_at_all(self) -> None:
        self.hold("locations", location("BE/BEC", evse("E1", status="CHARGING"), evse("E2"),
                                        evse("E3", status="REMOVED"), evse("E4")),
                  location("AT/ABC", evse("E2")), location("BE/BEC", evse("E5"), id="LOC2", publish=False),
                  location("FR/OLD", evse("E1")), {**location("BE/BEC", id="LOC3"), "evses": None})
        self.assertEqual([["AT/ABC", "E2", "AVAILABLE"], ["BE/BEC", "E2", "AVAILABLE"], ["BE/BEC", "E4", "AVAILABLE"],
                          ["BE/BEC", "E1", "CHARGING"]], self.told("operator", "evse_uid", "status"))

    def test_an_operator_with_very_much_is_shown_in_part(self) -> None:
        for number in range(6):
            self.hold("locations", location("BE/BEC", evse(f"E{number}"), id=f"LOC{number}", name="N" * 900_000,
                                            last_updated=f"2025-01-01T10:0{number}:00Z"))
        self.assertEqual([["E2"], ["E3"], ["E4"], ["E5"]], self.told("evse_uid"))

    def test_the_power_of_a_connector(self) -> None:
        usual = {**evse("E1")["connectors"][0], "max_voltage": 230, "max_amperage": 16}
        cases: list[tuple[Members, str | None]] = [
            ({}, "11.04"), ({"power_type": "AC_1_PHASE"}, "3.68"), ({"power_type": "DC"}, "3.68"),
            ({"max_electric_power": 11000}, "11"), ({"max_amperage": 0}, None), ({"max_voltage": "high"}, None)]
        for changes, kw in cases:
            self.hold("locations", location("BE/BEC", evse("E1", connectors=[usual | changes])))
            self.assertEqual([[kw]], self.told("kw"), changes)

    def test_the_price_that_holds_now(self) -> None:
        self.hold("locations", location("BE/BEC", evse("E1")))
        self.assertEqual([[None, None, False]], self.told("price", "currency", "has_more"))
        self.hold("tariffs", tariff("AT/ABC", 9.0))
        self.assertEqual([[None, None, False]], self.told("price", "currency", "has_more"))
        flat: JsonObject = {"type": "FLAT", "price": 1.0, "step_size": 1}
        for tariffs, price, has_more in (
                ([tariff("BE/BEC", 0.25)], "0.25", False),
                ([tariff("BE/BEC", 0.25, end_date_time="2024-01-01T00:00:00Z"),
                  tariff("BE/BEC", 0.5, id="t2", start_date_time="2024-01-01T00:00:00Z")], "0.5", False),
                ([tariff("BE/BEC", 0.5, id="T2", start_date_time="2099-01-01T00:00:00Z")], None, False),
                ([tariff("BE/BEC", elements=[{"price_components": [flat]}])], None, True)):
            self.hold("tariffs", tariff("BE/BEC", id="T2", end_date_time="2024-01-01T00:00:00Z"), *tariffs)
            self.hold("locations", location("BE/BEC", evse("E1", connectors=[
                {**evse("E1")["connectors"][0], "tariff_ids": [each["id"] for each in tariffs]}])))
            self.assertEqual([[price, has_more]], self.told("price", "has_more"))
