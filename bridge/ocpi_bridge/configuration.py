"""The configuration of a bridge: a JSON file, whose every fault is refused by its path before anything starts.

Its form is the JSON Schema configuration.schema.json, where `fault` is what is said of a value that does not fit, and
`unknown` of a name. Here is what the parts, the files and the setup must have in common.
"""
import json
import os
import re
from collections.abc import Iterable
from dataclasses import dataclass, field, replace
from decimal import Decimal
from pathlib import Path
from typing import Any, NoReturn

import fastjsonschema

from .entries import ConnectorEntry, OcppEntry, PartnerEntry
from .json_text import NotJson, Number, NumberTooLarge, read_json, write_json
from .records import Setup, Site

USUAL_MAX_KW = 400
SCHEMA = Path(__file__).parents[1] / "configuration.schema.json"


class WrongConfiguration(Exception):
    """What is wrong, behind the path of the member."""


@dataclass(frozen=True)
class NodeSettings:
    """The program, the party that it is, and its files. `setup_line` is the setup on one line.

    Only with `takes_new_state` may the store have rows where the state is new.
    """

    program: Path
    party: str
    setup_line: str
    store: Path
    transcript: Path | None
    takes_new_state: bool = False


@dataclass(frozen=True)
class OcpiSettings:
    """`url` is what partners are told, without a slash at its end."""

    listen: str
    url: str
    business: str


@dataclass(frozen=True)
class ConnectorSettings:
    """The EVSE and the connector of the site, as the setup spells them, that a connector of a charge point is.

    `max_kw` is the most that it can give. Of OCPP 2.0.1 an EVSE of a charge point is that, and its connector 1; it may
    have `other_connectors`.
    """

    evse_uid: str
    connector_id: str
    max_kw: Decimal = Decimal(USUAL_MAX_KW)
    other_connectors: dict[int, str] = field(default_factory=dict)

    @property
    def connector_ids(self) -> dict[int, str]:
        """The connectors of the EVSE, by their numbers at the charge point."""
        return {1: self.connector_id, **self.other_connectors}

    def number_of(self, connector_id: str | None) -> int | None:
        """The number of a connector, whose id is compared without case."""
        return next((number for number, known in self.connector_ids.items()
                     if known.upper() == str(connector_id).upper()), None)


@dataclass(frozen=True)
class ChargePointSettings:
    """A charge point. One without a password connects without authentication."""

    id: str
    password: str | None
    connectors: dict[int, ConnectorSettings]


@dataclass(frozen=True)
class OcppSettings:
    """The charge points by their ids."""

    listen: str
    charge_points: dict[str, ChargePointSettings]


@dataclass(frozen=True)
class PartnerSettings:
    """A partner of the kind `node` or `ocpi`. `token` is what it presents, `their_token` what it wants to see.

    Without `token_base64` tokens stand in headers as they are. With `own_references` a start needs no reference.
    """

    party: str
    kind: str
    token: str | None = None
    their_token: str | None = None
    versions_url: str | None = None
    token_base64: bool = True
    own_references: bool = False


@dataclass
class Configuration:
    """All of it. `site` is the node's site in the setup, and None for a provider. Where to listen is HOST:PORT.

    The state may be a backup where it `is_restored`. All parts of a bridge have one such object, which changes where it
    is read again.
    """

    node: NodeSettings
    state: Path
    ocpi: OcpiSettings
    ocpp: OcppSettings | None
    admin: str
    partners: tuple[PartnerSettings, ...]
    clock_factor: float
    site: Site | None
    setup: Setup
    is_restored: bool = False

    @property
    def is_operator(self) -> bool:
        return self.site is not None

    def become(self, other: "Configuration") -> None:
        """Has all that another has, of which `refuse_other` found nothing."""
        vars(self).update(vars(other))

    def refuse_other(self, other: "Configuration") -> None:
        """Raises WrongConfiguration where another has more that is new than a bridge that runs can take: the setup, the
        partners and the charge points."""
        for path, before, now in (
                ("node", replace(self.node, setup_line=""), replace(other.node, setup_line="")),
                ("node.party", self.is_operator, other.is_operator), ("state", self.state, other.state),
                ("ocpi", self.ocpi, other.ocpi), ("admin", self.admin, other.admin),
                ("ocpp.listen", self.ocpp and self.ocpp.listen, other.ocpp and other.ocpp.listen),
                ("clock_factor", self.clock_factor, other.clock_factor)):
            if before != now:
                refuse(path, "changed: restart the bridge for that")


def read_configuration(path: Path, is_restored: bool = False, takes_new_state: bool = False) -> Configuration:
    """Reads the file, and the setup that it names. Raises WrongConfiguration with the path of what is wrong."""
    text, file = _read_file(path, str(path))
    _try_form(json.loads(text))
    folder, ocpi = path.absolute().parent, file["ocpi"]
    files = {name: _file(folder, file["node"][name], f"node.{name}")
             for name in ("program", "setup", "store", "transcript") if name in file["node"]}
    state = _file(folder, file["state"], "state")
    _, setup = _read_file(files["setup"], "node.setup")
    sites = _sites(setup)
    # Where the numbers of lines begin the feeder says.
    setup.pop("line", None)
    party = spelled(file["node"]["party"], sites) or refuse("node.party", "not in the setup")
    site = sites[party]
    if not os.access(files["program"], os.X_OK):
        refuse("node.program", "no program")
    if state == files["store"]:
        refuse("state", "the node's store")
    if "ocpp" in file and site is None:
        refuse("ocpp", "a provider has no charge points")
    return Configuration(
        node=NodeSettings(files["program"], party, write_json(setup), files["store"], files.get("transcript"),
                          takes_new_state),
        state=state, ocpi=OcpiSettings(ocpi["listen"], ocpi["url"].rstrip("/"), ocpi["business"]),
        ocpp=_ocpp(file["ocpp"], site) if "ocpp" in file and site else None, admin=file["admin"]["listen"],
        partners=_partners(file["partners"], [name for name in sites if (sites[name] is None) == (site is not None)]),
        clock_factor=float(file.get("clock_factor", 1)), site=site, setup=setup, is_restored=is_restored)


def refuse(path: str, fault: str) -> NoReturn:
    raise WrongConfiguration(f"{path}: {fault}")


def _read_file(path: Path, name: str) -> tuple[bytes, Any]:
    """The text of a file, which a refusal calls by its name, and the JSON there."""
    try:
        text = path.read_bytes()
        return text, read_json(text)
    except OSError as fault:
        refuse(name, fault.strerror)
    except (NotJson, NumberTooLarge):
        refuse(name, "no JSON")


def _try_form(value: object) -> None:
    """Sees that a value is what the schema wants. A name that is missing or unknown is told by its own path."""
    try:
        fastjsonschema.compile(json.loads(SCHEMA.read_text()))(value)
    except fastjsonschema.JsonSchemaValueException as wrong:
        path, form = wrong.name.partition(".")[2], wrong.definition
        start = f"{path}." if path else ""
        if wrong.rule == "required":
            refuse(start + next(name for name in form["required"] if name not in wrong.value), "missing")
        if wrong.rule == "additionalProperties":
            patterns = "|".join(form.get("patternProperties", ()))
            refuse(start + next(name for name in wrong.value if name not in form.get("properties", ())
                                and not (patterns and re.fullmatch(patterns, name))), form.get("unknown", "unknown"))
        refuse(path or "configuration", form["fault"])


def _file(folder: Path, name: str, path: str) -> Path:
    """A file in a folder that is there."""
    file = folder / name
    return file if file.parent.is_dir() else refuse(path, f"no folder {file.parent}")


def spelled(name: str, names: Iterable[str]) -> str | None:
    """The one of some names that is the given one without regard to case, as it stands there."""
    return next((known for known in names if known.upper() == name.upper()), None)


def _sites(setup: Setup) -> dict[str, Site | None]:
    """The site of each party of a setup. Only what the bridge itself needs is tried here: the node reads the rest."""
    try:
        return {str(node["party"]): node.get("site") for node in setup["nodes"]}
    except (AttributeError, KeyError, TypeError):
        refuse("node.setup", "no setup of nodes, each with its party")


def _ocpp(ocpp: OcppEntry, site: Site) -> OcppSettings:
    evses = {evse["uid"]: [connector["id"] for connector in evse["connectors"]]
             for location in site["locations"] for evse in location["evses"]}
    charge_points: dict[str, ChargePointSettings] = {}
    for place, entry in enumerate(ocpp["charge_points"]):
        path = f"ocpp.charge_points[{place}]"
        if entry["id"] in charge_points:
            refuse(f"{path}.id", "that of another charge point")
        connectors = {int(number): _connector(connector, f"{path}.connectors.{number}", evses)
                      for number, connector in entry["connectors"].items()}
        charge_points[entry["id"]] = ChargePointSettings(entry["id"], entry.get("password"), connectors)
    return OcppSettings(ocpp["listen"], charge_points)


def _connector(connector: ConnectorEntry, path: str, evses: dict[str, list[str]]) -> ConnectorSettings:
    """Takes the EVSE out of those of the site that are free, so that none is used twice."""
    evse_uid = (spelled(connector["evse_uid"], evses)
                or refuse(f"{path}.evse_uid", "not in the site, or that of another connector"))
    known, others = evses.pop(evse_uid), connector.get("other_connectors", {})

    def take(connector_id: str, path: str, more: str = "") -> str:
        found = spelled(connector_id, known) or refuse(path, f"not at the EVSE {evse_uid}{more}")
        known.remove(found)
        return found
    return ConnectorSettings(
        evse_uid, take(connector["connector_id"], f"{path}.connector_id"),
        Decimal(str(connector.get("max_kw", USUAL_MAX_KW))),
        {int(number): take(others[number], f"{path}.other_connectors.{number}", ", or that of another number")
         for number in others})


def _partners(entries: list[PartnerEntry], missing: list[str]) -> tuple[PartnerSettings, ...]:
    """The partners. An operator's are the providers of the setup, each once, and a provider's its operators.

    Several of kind `ocpi` may present one token: their routing headers tell which of them asks.
    """
    found: list[PartnerSettings] = []
    for place, entry in enumerate(entries):
        path = f"partners[{place}]"
        party = (spelled(entry["party"], missing)
                 or refuse(f"{path}.party", "no partner of this node in the setup, or here twice"))
        missing.remove(party)
        for name, other in (("their_token", "versions_url"), ("versions_url", "their_token")):
            if name not in entry and other in entry:
                refuse(f"{path}.{name}", "missing")
        for name in ("token_base64", "own_references"):
            if name in entry and entry["kind"] != "ocpi":
                refuse(f"{path}.{name}", "only of a partner of kind ocpi")
        partner = replace(PartnerSettings(**entry), party=party)
        if any(partner.token == other.token and ((partner.kind, other.kind) != ("ocpi", "ocpi")
                                                 or partner.token_base64 != other.token_base64) for other in found):
            refuse(f"{path}.token", "that of another partner")
        found.append(partner)
    if missing:
        refuse("partners", f"none for {missing[0]}")
    return tuple(found)
