"""Locations: what is asked for alone is made, however large the site."""
import tempfile
import time
import unittest
from pathlib import Path
from unittest.mock import patch

from ocpi_bridge.clock import Clock
from ocpi_bridge.ocpi.locations import Locations
from ocpi_bridge.ocpi.objects import Objects
from ocpi_bridge.state import State

from .running import Members, operator


class Alone(unittest.TestCase):
    """A site of one location with a number of EVSEs."""

    def locations(self, count: int) -> Locations:
        folder = Path(self.enterContext(tempfile.TemporaryDirectory()))
        state = State(folder / "bridge.db")
        self.addCleanup(state.close)
        site = operator("BE/BEC", [f"E{number}" for number in range(count)])["site"]
        self.statuses: dict[str, str] = {}
        return Locations(state, Clock(), Objects(state), "BE/BEC", site, lambda uid: self.statuses.get(uid))

    def seconds(self, locations: Locations, *identifiers: str) -> float:
        """The processor time of twenty looks, of the best of ten."""
        taken = []
        for _ in range(10):
            begun = time.process_time()
            for _ in range(20):
                self.assertIsNotNone(locations.find(*identifiers))
            taken.append(time.process_time() - begun)
        return min(taken)

    def test_a_connector_of_two_thousand_evses_takes_as_long_as_one_of_twenty(self) -> None:
        small, large = self.locations(20), self.locations(2000)
        for identifiers in (("LOC1", "E7"), ("LOC1", "E7", "1")):
            self.assertLess(self.seconds(large, *identifiers), 2 * self.seconds(small, *identifiers))

    def test_what_is_found_alone_is_what_stands_in_the_list(self) -> None:
        locations = self.locations(3)
        whole, = locations.all()
        evse = whole["evses"][1]
        self.assertEqual([whole, evse, evse["connectors"][0]],
                         [locations.find(*names) for names in (("loc1",), ("loc1", "e1"), ("loc1", "e1", "1"))])
        for names in (("LOC2",), ("LOC1", "E9"), ("LOC1", "E1", "2"), ("LOC2", "E1"), ("LOC1", "")):
            self.assertIsNone(locations.find(*names), names)

    def test_what_changes_is_later_than_before_also_where_the_clock_was_set_back(self) -> None:
        locations = self.locations(2)
        found = [locations.all()[0]]
        for moment, status in (("2020-01-01T00:00:00.000Z", "OUTOFORDER"), ("2020-01-01T00:00:00.000Z", "BLOCKED")):
            self.statuses["E1"] = status
            with patch.object(Clock, "moment", return_value=moment):
                found += [locations.all()[0]] * 2
        updated = [(place["last_updated"], place["evses"][1]["last_updated"]) for place in found]
        self.assertEqual([True, False, True, False], [one < other for one, other in zip(updated, updated[1:])])
        self.assertEqual({found[0]["evses"][0]["last_updated"]}, {place["evses"][0]["last_updated"] for place in found})

    def test_a_location_is_another_one_where_an_evse_comes_or_goes(self) -> None:
        locations = self.locations(2)
        before = locations.all()[0]
        locations.take(operator("BE/BEC", ["E0"])["site"])
        with patch.object(Clock, "moment", return_value="2099-01-01T00:00:00.000Z"):
            self.assertEqual("2099-01-01T00:00:00.000Z", locations.all()[0]["last_updated"])
        self.assertLess(before["last_updated"], "2099")

    def test_what_is_told_of_a_connector(self) -> None:
        """OCPI wants voltage and amperage: 0 where the setup does not tell them. The power may be left out."""
        locations, told = self.locations(1), []
        unknown: Members = {}
        for known in (unknown, {"max_voltage": 230, "max_amperage": 32, "max_electric_power": 22000}):
            locations.take(operator("BE/BEC", ["E1"], 0.25, **known)["site"])
            connector = locations.all()[0]["evses"][0]["connectors"][0]
            told.append([connector.get("max_voltage"), connector.get("max_amperage"),
                         connector.get("max_electric_power"), connector.get("tariff_ids")])
        self.assertEqual([[0, 0, None, ["ENERGY"]], [230, 32, 22000, ["ENERGY"]]], told)
