"""The entries of a configuration file, as its schema wants them."""
from __future__ import annotations

from typing import TypedDict

from .json_text import Number


class ConnectorEntry(TypedDict, total=False):
    """A connector of a charge point."""

    evse_uid: str
    connector_id: str
    max_kw: int | Number
    other_connectors: dict[str, str]


class ChargePointEntry(TypedDict, total=False):
    id: str
    password: str
    connectors: dict[str, ConnectorEntry]


class OcppEntry(TypedDict):
    listen: str
    charge_points: list[ChargePointEntry]


class PartnerEntry(TypedDict, total=False):
    party: str
    kind: str
    token: str
    their_token: str
    versions_url: str
    token_base64: bool
    own_references: bool
