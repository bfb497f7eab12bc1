"""Each fault of a configuration is refused by its path."""
import copy
import json
import os
import re
import subprocess
import tempfile
import unittest
from collections.abc import Iterator
from pathlib import Path
from typing import Any

import fastjsonschema

from ocpi_bridge.configuration import WrongConfiguration, read_configuration

from .running import REPOSITORY, RUN, charge_point, operator, partner, provider

NOBODY = "http://127.0.0.1:9/ocpi/versions"
SETUP: dict[str, Any] = {"nodes": [operator("BE/BEC", ["E1", "E2"]), operator("BE/OTH", ["E9"]), provider("NL/TNM"),
                                   provider("DE/ABC")]}
GIVEN: dict[str, Any] = {
    "node": {"program": "program", "party": "be/bec", "setup": "setup.json", "store": "be.db"},
    "state": "be.bridge.db",
    "ocpi": {"listen": "127.0.0.1:8101", "url": "https://ocpi.example.com/bec/", "business": "BEC"},
    "ocpp": {"listen": "[::1]:0", "charge_points": [charge_point("CP1", ["e1"], "secret", max_kw=22.5),
                                                    charge_point("CP2", ["E2"])]},
    "admin": {"listen": "127.0.0.1:8103"},
    "partners": [partner("nl/tnm", "node", "A", "B", NOBODY), partner("DE/ABC", "ocpi", "C")]}
MISSING = object()


class ConfigurationTest(unittest.TestCase):
    """A configuration in a folder, whose members are changed."""

    def setUp(self) -> None:
        folder = tempfile.TemporaryDirectory()
        self.addCleanup(folder.cleanup)
        self.folder = Path(folder.name)
        (self.folder / "program").write_text("#!/bin/sh\n")
        (self.folder / "program").chmod(0o755)
        (self.folder / "setup.json").write_text(json.dumps(SETUP, indent=2))

    def read(self, *changes: tuple[str, Any]) -> Any:
        """Reads the configuration with some members, given by their paths, changed."""
        given: Any = copy.deepcopy(GIVEN)
        for path, value in changes:
            *way, last = path.split("/")
            place = given
            for name in way:
                place = place[name]
            if value is MISSING:
                del place[last]
            else:
                place[last] = value
        (self.folder / "bridge.json").write_text(json.dumps(given))
        return read_configuration(self.folder / "bridge.json")

    def refused(self, refusal: str, *changes: tuple[str, Any]) -> None:
        with self.subTest(refusal), self.assertRaises(WrongConfiguration) as caught:
            self.read(*changes)
        self.assertEqual(refusal, str(caught.exception))

    def test_a_setup_does_not_say_where_numbers_of_lines_begin(self) -> None:
        (self.folder / "setup.json").write_text(json.dumps(SETUP | {"line": 7}))
        self.assertEqual(SETUP, json.loads(self.read().node.setup_line))

    def test_names_are_spelled_as_in_the_setup_and_paths_are_relative_to_the_file(self) -> None:
        configuration = self.read(("node/transcript", "be.transcript"), ("clock_factor", 20))
        self.assertEqual("BE/BEC", configuration.node.party)
        self.assertEqual(SETUP, json.loads(configuration.node.setup_line))
        self.assertNotIn("\n", configuration.node.setup_line)
        self.assertEqual(self.folder / "be.db", configuration.node.store)
        self.assertEqual(["NL/TNM", "DE/ABC"], [settings.party for settings in configuration.partners])
        self.assertEqual("https://ocpi.example.com/bec", configuration.ocpi.url)
        self.assertEqual("E1", configuration.ocpp.charge_points["CP1"].connectors[1].evse_uid)
        self.assertIsNone(configuration.ocpp.charge_points["CP2"].password)
        self.assertEqual([22.5, 400], [configuration.ocpp.charge_points[name].connectors[1].max_kw
                                       for name in ("CP1", "CP2")])
        self.assertEqual("[::1]:0", configuration.ocpp.listen)
        self.assertEqual(20, configuration.clock_factor)
        self.assertTrue(configuration.is_operator)

    def test_members_that_are_missing_unknown_or_of_a_wrong_form(self) -> None:
        self.refused("node: missing", ("node", MISSING))
        self.refused("node: no object", ("node", 5))
        self.refused("node.stor: unknown", ("node/stor", "x"))
        self.refused("partner: unknown", ("partner", []))
        self.refused("partners: no list", ("partners", {}))
        self.refused("partners[1]: no object", ("partners", [GIVEN["partners"][0], 7]))
        self.refused("node.setup: No such file or directory", ("node/setup", "none.json"))
        self.refused("node.program: no program", ("node/program", "setup.json"))
        self.refused(f"state: no folder {self.folder}/none", ("state", "none/be.db"))
        self.refused("state: the node's store", ("state", "be.db"))
        self.refused("ocpi.listen: no HOST:PORT", ("ocpi/listen", "127.0.0.1"))
        self.refused("ocpi.listen: no HOST:PORT", ("ocpi/listen", "127.0.0.1:70000"))
        self.refused("ocpi.url: no address with http or https", ("ocpi/url", "ftp://ocpi.example.com"))
        self.refused("ocpi.business: no text of 1 to 100 printable characters", ("ocpi/business", ""))
        self.refused("clock_factor: no number above 0", ("clock_factor", 0))
        self.refused("admin.listen: no HOST:PORT of loopback", ("admin/listen", "0.0.0.0:8103"))

    def test_the_setup_and_the_partners(self) -> None:
        first, second = GIVEN["partners"]
        self.refused("node.party: not in the setup", ("node/party", "AT/XXX"))
        self.refused("partners: none for DE/ABC", ("partners", [first]))
        no_partner = "partners[1].party: no partner of this node in the setup, or here twice"
        for party in ("BE/OTH", "AT/XXX", "NL/TNM"):
            self.refused(no_partner, ("partners", [first, {**second, "party": party}]))
        self.refused("partners[1].kind: neither node nor ocpi", ("partners", [first, {**second, "kind": "hub"}]))
        self.refused("partners[1].token: that of another partner", ("partners", [first, {**second, "token": "A"}]))
        self.refused("partners[1].token_base64: neither true nor false",
                     ("partners", [first, {**second, "token_base64": 1}]))
        self.refused("partners[1].token: missing", ("partners", [first, {"party": "DE/ABC", "kind": "ocpi"}]))
        self.refused("partners[1].versions_url: missing", ("partners", [first, {**second, "their_token": "D"}]))
        self.refused("partners[1].their_token: missing", ("partners", [first, {**second, "versions_url": NOBODY}]))
        (self.folder / "setup.json").write_text("{")
        self.refused("node.setup: no JSON")
        (self.folder / "setup.json").write_text('{"nodes": [{}]}')
        self.refused("node.setup: no setup of nodes, each with its party")

    def test_editors_may_be_told_the_schema(self) -> None:
        """It stands beside the bridge's programs. Each part of it that may be refused says by which words."""
        self.assertEqual("BE/BEC", self.read(("$schema", "../bridge/configuration.schema.json")).node.party)

        def parts(form: Any) -> Iterator[Any]:
            if isinstance(form, dict):
                yield from [form] if {"type", "enum"} & form.keys() else []
                for part in form.values():
                    yield from parts(part)

        schema = json.loads((REPOSITORY / "bridge" / "configuration.schema.json").read_text())
        found = list(parts(schema))
        self.assertGreater(len(found), 15)
        self.assertEqual([], [part for part in found if isinstance(part["type" if "type" in part else "enum"],
                                                                   (str, list)) and "fault" not in part])
        example = re.search(r"```json\n(.*?)```", (REPOSITORY / "bridge" / "README.md").read_text(), re.DOTALL)
        assert example is not None
        fastjsonschema.compile(schema)(json.loads(example[1]))

    def test_without_a_package_it_is_told_what_to_install(self) -> None:
        (self.folder / "sitecustomize.py").write_text(
            "import sys\nclass None_:\n    def find_spec(name, *_):\n        if name == 'fastjsonschema':\n"
            "            raise ModuleNotFoundError(name)\nsys.meta_path.insert(0, None_)\n")
        run = subprocess.run([RUN, self.folder / "bridge.json"], capture_output=True, text=True, timeout=60,
                             env={**os.environ, "PYTHONPATH": str(self.folder)})
        self.assertEqual(2, run.returncode, run.stderr)
        self.assertIn("apt install python3-aiohttp python3-fastjsonschema python3-prometheus-client", run.stderr)

    def test_an_evse_with_several_connectors(self) -> None:
        setup = copy.deepcopy(SETUP)
        connectors = setup["nodes"][0]["site"]["locations"][0]["evses"][0]["connectors"]
        connectors += [{**connectors[0], "id": name} for name in ("B", "C")]
        (self.folder / "setup.json").write_text(json.dumps(setup))
        path = "ocpp/charge_points", [charge_point("CP1", ["E1"], other_connectors={"2": "b", "10": "C"})]
        settings = self.read(path).ocpp.charge_points["CP1"].connectors[1]
        self.assertEqual({1: "1", 2: "B", 10: "C"}, settings.connector_ids)
        self.assertEqual([10, None], [settings.number_of(name) for name in ("c", "D")])
        place = "ocpp.charge_points[0].connectors.1.other_connectors"
        for others, refusal in (({"1": "B"}, f"{place}.1: no number of a connector, from 2"),
                                ([], f"{place}: no object"),
                                ({"2": "1"}, f"{place}.2: not at the EVSE E1, or that of another number"),
                                ({"2": "B", "3": "b"}, f"{place}.3: not at the EVSE E1, or that of another number")):
            self.refused(refusal, ("ocpp/charge_points", [charge_point("CP1", ["E1"], other_connectors=others)]))

    def test_charge_points(self) -> None:
        first = charge_point("CP1", ["E1"])

        def points(*given: Any) -> tuple[str, Any]:
            return "ocpp", {"listen": "127.0.0.1:0", "charge_points": list(given)}

        self.refused("ocpp.charge_points[1].id: that of another charge point",
                     points(first, charge_point("CP1", ["E2"])))
        self.refused("ocpp.charge_points[1].connectors.1.evse_uid: not in the site, or that of another connector",
                     points(first, charge_point("CP2", ["E1"])))
        self.refused("ocpp.charge_points[0].connectors.1.evse_uid: not in the site, or that of another connector",
                     points(charge_point("CP2", ["E9"])))
        self.refused("ocpp.charge_points[0].connectors.1.connector_id: not at the EVSE E1",
                     points({"id": "CP1", "connectors": {"1": {"evse_uid": "E1", "connector_id": "2"}}}))
        self.refused("ocpp.charge_points[0].connectors.1.max_kw: no number above 0",
                     points(charge_point("CP1", ["E1"], max_kw=0)))
        self.refused("ocpp.charge_points[0].connectors.0: no number of a connector, from 1",
                     points({"id": "CP1", "connectors": {"0": {"evse_uid": "E1", "connector_id": "1"}}}))
        operators = [partner("BE/BEC", "node", "A"), partner("BE/OTH", "node", "B")]
        self.refused("ocpp: a provider has no charge points", ("node/party", "NL/TNM"), ("partners", operators))
