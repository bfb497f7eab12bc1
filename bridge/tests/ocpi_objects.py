"""Objects of OCPI 2.2.1 as other parties write them: with members that no node keeps, too."""
import uuid

from .ocpi_party import now
from .running import Members


def codes(party: str) -> Members:
    """The country code and the party id of an object."""
    country_code, party_id = party.split("/")
    return {"country_code": country_code, "party_id": party_id}


def token(party: str, uid: str = "AA01", **other: object) -> Members:
    """A Token of a provider."""
    return {**codes(party), "uid": uid, "type": "RFID", "contract_id": f"C-{uid}"[:36], "visual_number": "DF0001",
            "issuer": "Provider", "valid": True, "whitelist": "ALWAYS", "language": "nl",
            "last_updated": "2025-01-01T10:00:00Z", **other}


def cdr_token(of: Members) -> Members:
    """The CdrToken of a Token."""
    return {name: of[name] for name in ("country_code", "party_id", "uid", "type", "contract_id")}


def start_session(of: Members, response_url: str, evse_uid: str | None = "E1", **other: object) -> Members:
    """A StartSession with a reference of its own, at connector 1 of an EVSE, or at any EVSE of the location."""
    started: Members = {"response_url": response_url, "token": of, "location_id": "LOC1",
               "authorization_reference": str(uuid.uuid4()), **other}
    if evse_uid is not None:
        started |= {"evse_uid": evse_uid, "connector_id": "1"}
    return started


def reserve_now(of: Members, response_url: str, evse_uid: str, reservation_id: str = "R1") -> Members:
    """A ReserveNow of an EVSE for a time that does not end within a test."""
    return {"response_url": response_url, "token": of, "expiry_date": "2099-01-01T00:00:00Z",
            "reservation_id": reservation_id, "location_id": "LOC1", "evse_uid": evse_uid}


def session(party: str, of: Members, **other: object) -> Members:
    """A Session of an operator that is ACTIVE, with a charging period, for a Token."""
    period = {"start_date_time": "2025-01-01T10:00:00Z", "dimensions": [{"type": "ENERGY", "volume": 1.5}]}
    return {**codes(party), "id": str(uuid.uuid4()), "start_date_time": "2025-01-01T10:00:00Z", "kwh": 1.5,
            "cdr_token": cdr_token(of), "auth_method": "WHITELIST", "location_id": "LOC1", "evse_uid": "E1",
            "connector_id": "1", "meter_id": "M1", "currency": "EUR", "charging_periods": [period],
            "total_cost": {"excl_vat": 0.375, "incl_vat": 0.45375}, "status": "ACTIVE", "last_updated": now(), **other}


def cdr(party: str, of: Members, session_id: str, **other: object) -> Members:
    """A CDR of an operator for 12 kWh, which cost 3 EUR."""
    period = {"start_date_time": "2025-01-01T10:00:00Z", "dimensions": [{"type": "ENERGY", "volume": 12.0},
                                                                       {"type": "TIME", "volume": 0.5}]}
    location = {"id": "LOC1", "name": "Market", "address": "Korenmarkt 1", "city": "Gent", "postal_code": "9000",
                "country": "BEL", "coordinates": {"latitude": "51.05421", "longitude": "3.72180"}, "evse_uid": "E1",
                "evse_id": "BE*PLO*E1", "connector_id": "1", "connector_standard": "IEC_62196_T2",
                "connector_format": "SOCKET", "connector_power_type": "AC_3_PHASE"}
    return {**codes(party), "id": str(uuid.uuid4()), "start_date_time": "2025-01-01T10:00:00Z",
            "end_date_time": "2025-01-01T10:30:00Z", "session_id": session_id, "cdr_token": cdr_token(of),
            "auth_method": "WHITELIST", "cdr_location": location, "currency": "EUR", "tariffs": [],
            "charging_periods": [period], "total_cost": {"excl_vat": 3.0, "incl_vat": 3.63}, "total_energy": 12.0,
            "total_energy_cost": {"excl_vat": 3.0}, "total_time": 0.5, "remark": "Thank you", "last_updated": now(),
            **other}


def location(party: str, *evses: Members, **other: object) -> Members:
    """A Location of an operator."""
    return {**codes(party), "id": "LOC1", "publish": True, "address": "Korenmarkt 1", "city": "Gent", "country": "BEL",
            "coordinates": {"latitude": "51.05421", "longitude": "3.72180"}, "evses": list(evses),
            "time_zone": "Europe/Brussels", "last_updated": "2025-01-01T10:00:00Z", **other}


def evse(uid: str, **other: object) -> Members:
    """An EVSE that is free, with a connector of 22.08 kW."""
    connector = {"id": "1", "standard": "IEC_62196_T2", "format": "SOCKET", "power_type": "AC_3_PHASE",
                 "max_voltage": 230, "max_amperage": 32, "tariff_ids": ["T1"], "last_updated": "2025-01-01T10:00:00Z"}
    return {"uid": uid, "status": "AVAILABLE", "connectors": [connector], "last_updated": "2025-01-01T10:00:00Z",
            **other}


def tariff(party: str, price: float = 0.25, **other: object) -> Members:
    """A Tariff of an operator for energy alone."""
    component = {"type": "ENERGY", "price": price, "step_size": 1}
    return {**codes(party), "id": "T1", "currency": "EUR", "elements": [{"price_components": [component]}],
            "last_updated": "2025-01-01T10:00:00Z", **other}
