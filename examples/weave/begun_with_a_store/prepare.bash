# The charge of `weave/charge`. The file of BE/BEC was begun anew while the car charged, with a copy of its store; that of
# NL/TNM is whole.
cat > be.transcript <<'END'


{"nodes":[{"party":"BE/BEC","site":{"currency":"EUR","locations":[{"address":"Korenmarkt 1","city":"Gent","country":"BEL","evses":[{"connectors":[{"format":"SOCKET","id":"1","power_type":"AC_3_PHASE","standard":"IEC_62196_T2"}],"evse_id":"BE*BEC*E1","uid":"E1"}],"id":"LOC1","latitude":"51.05421","longitude":"3.72180"}],"price":0.25}},{"party":"NL/TNM"}],"line":8}
{"done":"opened","line":8,"party":"BE/BEC","rows":9,"serial":5}
{"event":"meter","node":"BE/BEC","at":"2025-01-01T10:30:00Z","evse_uid":"E1","kwh":12.3456}
{"body":{"auth_method":"COMMAND","authorization_reference":"414e4c54-4e4d-0000-0000-000000000001","cdr_token":{"contract_id":"NL-TNM-000001","country_code":"NL","party_id":"TNM","type":"RFID","uid":"AA01"},"connector_id":"1","country_code":"BE","currency":"EUR","evse_uid":"E1","id":"53424542-4543-0000-0000-000000000001","kwh":12.3456,"last_updated":"2025-01-01T10:30:00Z","location_id":"LOC1","party_id":"BEC","start_date_time":"2025-01-01T10:00:10Z","status":"ACTIVE","total_cost":{"excl_vat":3.0864}},"from":"BE/BEC","kind":"put_session","request":4,"serial":6,"to":"NL/TNM"}
{"done":"stepped","line":9,"packets":1}
{"at":"2025-01-01T10:30:01Z","event":"deliver","node":"BE/BEC","packet":{"body":{"status_code":1000,"timestamp":"2025-01-01T10:30:00Z"},"from":"NL/TNM","kind":"ack","request":4,"serial":6,"to":"BE/BEC"}}
{"done":"stepped","line":10,"packets":0}
{"event":"stops","node":"BE/BEC","at":"2025-01-01T10:30:10Z","evse_uid":"E1"}
{"body":{"auth_method":"COMMAND","authorization_reference":"414e4c54-4e4d-0000-0000-000000000001","cdr_token":{"contract_id":"NL-TNM-000001","country_code":"NL","party_id":"TNM","type":"RFID","uid":"AA01"},"connector_id":"1","country_code":"BE","currency":"EUR","end_date_time":"2025-01-01T10:30:10Z","evse_uid":"E1","id":"53424542-4543-0000-0000-000000000001","kwh":12.3456,"last_updated":"2025-01-01T10:30:10Z","location_id":"LOC1","party_id":"BEC","start_date_time":"2025-01-01T10:00:10Z","status":"COMPLETED","total_cost":{"excl_vat":3.0864}},"from":"BE/BEC","kind":"put_session","request":5,"serial":7,"to":"NL/TNM"}
{"body":{"auth_method":"COMMAND","authorization_reference":"414e4c54-4e4d-0000-0000-000000000001","cdr_location":{"address":"Korenmarkt 1","city":"Gent","connector_format":"SOCKET","connector_id":"1","connector_power_type":"AC_3_PHASE","connector_standard":"IEC_62196_T2","coordinates":{"latitude":"51.05421","longitude":"3.72180"},"country":"BEL","evse_id":"BE*BEC*E1","evse_uid":"E1","id":"LOC1"},"cdr_token":{"contract_id":"NL-TNM-000001","country_code":"NL","party_id":"TNM","type":"RFID","uid":"AA01"},"charging_periods":[{"dimensions":[{"type":"ENERGY","volume":12.3456}],"start_date_time":"2025-01-01T10:00:10Z"}],"country_code":"BE","currency":"EUR","end_date_time":"2025-01-01T10:30:10Z","id":"43424542-4543-0000-0000-000000000001","last_updated":"2025-01-01T10:30:10Z","party_id":"BEC","session_id":"53424542-4543-0000-0000-000000000001","start_date_time":"2025-01-01T10:00:10Z","total_cost":{"excl_vat":3.0864},"total_energy":12.3456,"total_time":0.5000},"from":"BE/BEC","kind":"post_cdr","request":6,"serial":8,"to":"NL/TNM"}
{"done":"stepped","line":11,"packets":2}
{"at":"2025-01-01T10:30:11Z","event":"deliver","node":"BE/BEC","packet":{"body":{"status_code":1000,"timestamp":"2025-01-01T10:30:10Z"},"from":"NL/TNM","kind":"ack","request":5,"serial":7,"to":"BE/BEC"}}
{"done":"stepped","line":12,"packets":0}
{"at":"2025-01-01T10:30:11Z","event":"deliver","node":"BE/BEC","packet":{"body":{"status_code":1000,"timestamp":"2025-01-01T10:30:10Z"},"from":"NL/TNM","kind":"ack","request":6,"serial":8,"to":"BE/BEC"}}
{"done":"stepped","line":13,"packets":0}
{"event":"tick","node":"BE/BEC","at":"2025-01-01T10:31:00Z"}
{"done":"idle","line":14}
END
cat > nl.transcript <<'END'


{"nodes":[{"party":"BE/BEC","site":{"currency":"EUR","locations":[{"address":"Korenmarkt 1","city":"Gent","country":"BEL","evses":[{"connectors":[{"format":"SOCKET","id":"1","power_type":"AC_3_PHASE","standard":"IEC_62196_T2"}],"evse_id":"BE*BEC*E1","uid":"E1"}],"id":"LOC1","latitude":"51.05421","longitude":"3.72180"}],"price":0.25}},{"party":"NL/TNM"}],"line":1}
{"done":"opened","line":1,"party":"NL/TNM","rows":0,"serial":0}
{"event":"token","node":"NL/TNM","at":"2025-01-01T09:59:00Z","token":{"contract_id":"NL-TNM-000001","country_code":"NL","issuer":"TNM","last_updated":"2025-01-01T09:00:00Z","party_id":"TNM","type":"RFID","uid":"AA01","valid":true,"whitelist":"ALWAYS"}}
{"body":{"contract_id":"NL-TNM-000001","country_code":"NL","issuer":"TNM","last_updated":"2025-01-01T09:59:00Z","party_id":"TNM","type":"RFID","uid":"AA01","valid":true,"whitelist":"ALWAYS"},"from":"NL/TNM","kind":"put_token","request":1,"serial":1,"to":"BE/BEC"}
{"done":"stepped","line":2,"packets":1}
{"at":"2025-01-01T09:59:01Z","event":"deliver","node":"NL/TNM","packet":{"body":{"status_code":1000,"timestamp":"2025-01-01T09:59:00Z"},"from":"BE/BEC","kind":"ack","request":1,"serial":1,"to":"NL/TNM"}}
{"done":"stepped","line":3,"packets":0}
{"event":"submit","node":"NL/TNM","at":"2025-01-01T10:00:00Z","operator":"BE/BEC","order":"start_session","token_uid":"AA01","token_type":"RFID","location_id":"LOC1","evse_uid":"E1","connector_id":"1"}
{"body":{"authorization_reference":"414e4c54-4e4d-0000-0000-000000000001","connector_id":"1","evse_uid":"E1","location_id":"LOC1","response_url":"https://node.invalid/NL/TNM/2","token":{"contract_id":"NL-TNM-000001","country_code":"NL","issuer":"TNM","last_updated":"2025-01-01T09:59:00Z","party_id":"TNM","type":"RFID","uid":"AA01","valid":true,"whitelist":"ALWAYS"}},"from":"NL/TNM","kind":"start_session","request":2,"serial":2,"to":"BE/BEC"}
{"done":"stepped","line":4,"packets":1}
{"at":"2025-01-01T10:00:01Z","event":"deliver","node":"NL/TNM","packet":{"body":{"data":{"result":"ACCEPTED","timeout":30},"status_code":1000,"timestamp":"2025-01-01T10:00:00Z"},"from":"BE/BEC","kind":"command_response","request":2,"serial":2,"to":"NL/TNM"}}
{"done":"stepped","line":5,"packets":0}
{"at":"2025-01-01T10:00:05Z","event":"deliver","node":"NL/TNM","packet":{"body":{"response_url":"https://node.invalid/NL/TNM/2","result":"ACCEPTED"},"from":"BE/BEC","kind":"command_result","request":1,"serial":3,"to":"NL/TNM"}}
{"body":{"status_code":1000,"timestamp":"2025-01-01T10:00:05Z"},"from":"NL/TNM","kind":"ack","request":1,"serial":3,"to":"BE/BEC"}
{"done":"stepped","line":6,"packets":1}
{"at":"2025-01-01T10:00:05Z","event":"deliver","node":"NL/TNM","packet":{"body":{"auth_method":"COMMAND","authorization_reference":"414e4c54-4e4d-0000-0000-000000000001","cdr_token":{"contract_id":"NL-TNM-000001","country_code":"NL","party_id":"TNM","type":"RFID","uid":"AA01"},"connector_id":"1","country_code":"BE","currency":"EUR","evse_uid":"E1","id":"53424542-4543-0000-0000-000000000001","kwh":0.0000,"last_updated":"2025-01-01T10:00:05Z","location_id":"LOC1","party_id":"BEC","start_date_time":"2025-01-01T10:00:05Z","status":"PENDING","total_cost":{"excl_vat":0.0000}},"from":"BE/BEC","kind":"put_session","request":2,"serial":4,"to":"NL/TNM"}}
{"body":{"status_code":1000,"timestamp":"2025-01-01T10:00:05Z"},"from":"NL/TNM","kind":"ack","request":2,"serial":4,"to":"BE/BEC"}
{"done":"stepped","line":7,"packets":1}
{"at":"2025-01-01T10:00:10Z","event":"deliver","node":"NL/TNM","packet":{"body":{"auth_method":"COMMAND","authorization_reference":"414e4c54-4e4d-0000-0000-000000000001","cdr_token":{"contract_id":"NL-TNM-000001","country_code":"NL","party_id":"TNM","type":"RFID","uid":"AA01"},"connector_id":"1","country_code":"BE","currency":"EUR","evse_uid":"E1","id":"53424542-4543-0000-0000-000000000001","kwh":0.0000,"last_updated":"2025-01-01T10:00:10Z","location_id":"LOC1","party_id":"BEC","start_date_time":"2025-01-01T10:00:10Z","status":"ACTIVE","total_cost":{"excl_vat":0.0000}},"from":"BE/BEC","kind":"put_session","request":3,"serial":5,"to":"NL/TNM"}}
{"body":{"status_code":1000,"timestamp":"2025-01-01T10:00:10Z"},"from":"NL/TNM","kind":"ack","request":3,"serial":5,"to":"BE/BEC"}
{"done":"stepped","line":8,"packets":1}
{"at":"2025-01-01T10:30:00Z","event":"deliver","node":"NL/TNM","packet":{"body":{"auth_method":"COMMAND","authorization_reference":"414e4c54-4e4d-0000-0000-000000000001","cdr_token":{"contract_id":"NL-TNM-000001","country_code":"NL","party_id":"TNM","type":"RFID","uid":"AA01"},"connector_id":"1","country_code":"BE","currency":"EUR","evse_uid":"E1","id":"53424542-4543-0000-0000-000000000001","kwh":12.3456,"last_updated":"2025-01-01T10:30:00Z","location_id":"LOC1","party_id":"BEC","start_date_time":"2025-01-01T10:00:10Z","status":"ACTIVE","total_cost":{"excl_vat":3.0864}},"from":"BE/BEC","kind":"put_session","request":4,"serial":6,"to":"NL/TNM"}}
{"body":{"status_code":1000,"timestamp":"2025-01-01T10:30:00Z"},"from":"NL/TNM","kind":"ack","request":4,"serial":6,"to":"BE/BEC"}
{"done":"stepped","line":9,"packets":1}
{"at":"2025-01-01T10:30:10Z","event":"deliver","node":"NL/TNM","packet":{"body":{"auth_method":"COMMAND","authorization_reference":"414e4c54-4e4d-0000-0000-000000000001","cdr_token":{"contract_id":"NL-TNM-000001","country_code":"NL","party_id":"TNM","type":"RFID","uid":"AA01"},"connector_id":"1","country_code":"BE","currency":"EUR","end_date_time":"2025-01-01T10:30:10Z","evse_uid":"E1","id":"53424542-4543-0000-0000-000000000001","kwh":12.3456,"last_updated":"2025-01-01T10:30:10Z","location_id":"LOC1","party_id":"BEC","start_date_time":"2025-01-01T10:00:10Z","status":"COMPLETED","total_cost":{"excl_vat":3.0864}},"from":"BE/BEC","kind":"put_session","request":5,"serial":7,"to":"NL/TNM"}}
{"body":{"status_code":1000,"timestamp":"2025-01-01T10:30:10Z"},"from":"NL/TNM","kind":"ack","request":5,"serial":7,"to":"BE/BEC"}
{"done":"stepped","line":10,"packets":1}
{"at":"2025-01-01T10:30:10Z","event":"deliver","node":"NL/TNM","packet":{"body":{"auth_method":"COMMAND","authorization_reference":"414e4c54-4e4d-0000-0000-000000000001","cdr_location":{"address":"Korenmarkt 1","city":"Gent","connector_format":"SOCKET","connector_id":"1","connector_power_type":"AC_3_PHASE","connector_standard":"IEC_62196_T2","coordinates":{"latitude":"51.05421","longitude":"3.72180"},"country":"BEL","evse_id":"BE*BEC*E1","evse_uid":"E1","id":"LOC1"},"cdr_token":{"contract_id":"NL-TNM-000001","country_code":"NL","party_id":"TNM","type":"RFID","uid":"AA01"},"charging_periods":[{"dimensions":[{"type":"ENERGY","volume":12.3456}],"start_date_time":"2025-01-01T10:00:10Z"}],"country_code":"BE","currency":"EUR","end_date_time":"2025-01-01T10:30:10Z","id":"43424542-4543-0000-0000-000000000001","last_updated":"2025-01-01T10:30:10Z","party_id":"BEC","session_id":"53424542-4543-0000-0000-000000000001","start_date_time":"2025-01-01T10:00:10Z","total_cost":{"excl_vat":3.0864},"total_energy":12.3456,"total_time":0.5000},"from":"BE/BEC","kind":"post_cdr","request":6,"serial":8,"to":"NL/TNM"}}
{"body":{"status_code":1000,"timestamp":"2025-01-01T10:30:10Z"},"from":"NL/TNM","kind":"ack","request":6,"serial":8,"to":"BE/BEC"}
{"done":"stepped","line":11,"packets":1}
{"event":"tick","node":"NL/TNM","at":"2025-01-01T10:31:00Z"}
{"done":"idle","line":12}
END
python3 - << 'END'
import sqlite3

conn = sqlite3.connect("be.2025-01.db")
conn.execute("CREATE TABLE layout(version INTEGER NOT NULL) STRICT")
conn.execute("CREATE TABLE row_text(kind TEXT NOT NULL, name TEXT NOT NULL, body TEXT NOT NULL, PRIMARY KEY(kind, name)) STRICT")
conn.execute("INSERT INTO layout VALUES (2)")
conn.executemany("INSERT INTO row_text VALUES (?, ?, ?)", [
    ('count', 'line', '{"last":8}'),
    ('count', 'request', '{"last":3}'),
    ('count', 'serial', '{"last":5}'),
    ('count', 'session', '{"last":1}'),
    ('reply', 'NL/TNM/1', '{"body":{"status_code":1000,"timestamp":"2025-01-01T09:59:00Z"},"kind":"ack"}'),
    ('reply', 'NL/TNM/2', '{"body":{"data":{"result":"ACCEPTED","timeout":30},"status_code":1000,"timestamp":"2025-01-01T10:00:00Z"},"kind":"command_response"}'),
    ('result', 'NL/TNM/2', '{"result":"ACCEPTED"}'),
    ('session', 'BE/BEC/53424542-4543-0000-0000-000000000001', '{"auth_method":"COMMAND","authorization_reference":"414e4c54-4e4d-0000-0000-000000000001","cdr_token":{"contract_id":"NL-TNM-000001","country_code":"NL","party_id":"TNM","type":"RFID","uid":"AA01"},"connector_id":"1","country_code":"BE","currency":"EUR","evse_uid":"E1","id":"53424542-4543-0000-0000-000000000001","kwh":0.0000,"last_updated":"2025-01-01T10:00:10Z","location_id":"LOC1","party_id":"BEC","start_date_time":"2025-01-01T10:00:10Z","status":"ACTIVE","total_cost":{"excl_vat":0.0000}}'),
    ('spent', 'NL/TNM/414E4C54-4E4D-0000-0000-000000000001', '{}'),
    ('token', 'NL/TNM/RFID/AA01', '{"contract_id":"NL-TNM-000001","country_code":"NL","issuer":"TNM","last_updated":"2025-01-01T09:59:00Z","party_id":"TNM","type":"RFID","uid":"AA01","valid":true,"whitelist":"ALWAYS"}'),
])
conn.commit()
conn.close()
END
