python3 - << 'END'
import json
import sqlite3


def record(number, operator, provider, currency, cost, credited=None):
    """The kind, the key and the text of a bill, or of the credit of one."""
    country, party = operator.split("/")
    contract, issuer = provider.split("/")
    body = {
        "auth_method": "COMMAND",
        "cdr_location": {
            "address": "Korenmarkt 1", "city": "Gent", "connector_format": "SOCKET", "connector_id": "1",
            "connector_power_type": "AC_3_PHASE", "connector_standard": "IEC_62196_T2",
            "coordinates": {"latitude": "51.05421", "longitude": "3.72180"}, "country": "BEL",
            "evse_id": "BE*BEC*E1", "evse_uid": "E1", "id": "LOC1",
        },
        "cdr_token": {"contract_id": "C1", "country_code": contract, "party_id": issuer, "type": "RFID", "uid": "AA01"},
        "charging_periods": [{"dimensions": [{"type": "ENERGY", "volume": 1.0}], "start_date_time": "2025-01-01T10:00:10Z"}],
        "country_code": country, "credit": credited is not None, "currency": currency,
        "end_date_time": "2025-01-01T10:30:10Z", "id": f"R{number}", "last_updated": "2025-01-01T10:30:10Z",
        "party_id": party, "session_id": f"S{credited or number}", "start_date_time": "2025-01-01T10:00:10Z",
        "total_cost": {"excl_vat": cost}, "total_energy": 1.0, "total_time": 0.5,
    }
    if credited is not None:
        body["credit_reference_id"] = f"R{credited}"
    return "cdr", f"{operator}/R{number}", json.dumps(body, sort_keys=True, separators=(",", ":"))


conn = sqlite3.connect("bills.db")
conn.execute("CREATE TABLE layout(version INTEGER NOT NULL) STRICT")
conn.execute("CREATE TABLE row_text(kind TEXT NOT NULL, name TEXT NOT NULL, body TEXT NOT NULL, PRIMARY KEY(kind, name)) STRICT")
conn.execute("INSERT INTO layout VALUES (2)")
conn.executemany("INSERT INTO row_text VALUES (?, ?, ?)", [
    record(1, "BE/BEC", "NL/TNM", "EUR", 3.0864),
    record(2, "BE/BEC", "DE/EMP", "EUR", 10.0),
    record(3, "BE/BEC", "NL/TNM", "EUR", 1.25),
    record(4, "BE/BEC", "NL/TNM", "EUR", -3.0864, credited=1),
    record(5, "BE/BEC", "NL/TNM", "CHF", 0.0001),
    # the same provider, as it may be spelled too
    record(6, "BE/BEC", "nl/tnm", "EUR", 0.75),
    # and another operator, as a provider's file may have it
    record(7, "AT/AAA", "NL/TNM", "EUR", 5.0),
])
conn.commit()
conn.close()
END
