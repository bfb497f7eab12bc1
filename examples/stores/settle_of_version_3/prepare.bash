python3 - << 'END'
import sqlite3

conn = sqlite3.connect("old.db")
conn.execute("CREATE TABLE layout(version INTEGER NOT NULL) STRICT")
conn.execute("CREATE TABLE row_text(kind TEXT NOT NULL, name TEXT NOT NULL, body TEXT NOT NULL, PRIMARY KEY(kind, name)) STRICT")
conn.execute("INSERT INTO layout VALUES (3)")
conn.execute("INSERT INTO row_text VALUES ('cdr', 'BE/BEC/43424542-4543-0000-0000-000000000001', ?)", (
    '{"auth_method":"COMMAND","authorization_reference":"414e4c54-4e4d-0000-0000-000000000001",'
    '"cdr_location":{"address":"Korenmarkt 1","city":"Gent","connector_format":"SOCKET",'
    '"connector_id":"1","connector_power_type":"AC_3_PHASE","connector_standard":"IEC_62196_T2",'
    '"coordinates":{"latitude":"51.05421","longitude":"3.72180"},"country":"BEL","evse_id":"BE*BEC*E1",'
    '"evse_uid":"E1","id":"LOC1"},"cdr_token":{"contract_id":"NL-TNM-000001","country_code":"NL",'
    '"party_id":"TNM","type":"RFID","uid":"AA01"},"charging_periods":[{"dimensions":[{"type":"ENERGY",'
    '"volume":12.3456}],"start_date_time":"2025-01-01T10:00:10Z"}],"country_code":"BE","currency":"EUR",'
    '"end_date_time":"2025-01-01T10:30:10Z","id":"43424542-4543-0000-0000-000000000001",'
    '"last_updated":"2025-01-01T10:30:10Z","party_id":"BEC",'
    '"session_id":"53424542-4543-0000-0000-000000000001","start_date_time":"2025-01-01T10:00:10Z",'
    '"total_cost":{"excl_vat":3.0864},"total_energy":12.3456,"total_time":0.5000}',
))
conn.commit()
conn.close()
END
