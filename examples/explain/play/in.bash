# Writes the setup of a charge and lines that are wrong, each in another way; the last one has 1,100,000 bytes.
head -n 1 examples/play/charge/in.jsonl
cat <<'LINES'
{"event":"tick","node":"BE/BEC","at":"2025-01-01 10:00:00"}
{"event":"meter","node":"BE/BEC","at":"2025-01-01T10:00:00Z","evse_uid":"E1"}
{"event":"meter","node":"BE/BEC","at":"2025-01-01T10:00:00Z","evse_uid":"E1","kwh":"1.5"}
{"event":"meter","node":"BE/BEC","at":"2025-01-01T10:00:00Z","evse_uid":"E1","kwh":1.5e0}
{"event":"meter","node":"BE/BEC","at":"2025-01-01T10:00:00Z","evse_uid":"E1","kwh":1,5}
{"event":"metre","node":"BE/BEC","at":"2025-01-01T10:00:00Z","evse_uid":"E1","kwh":1.5}
{"event":"starts","node":"BE/BEC","at":"2025-01-01T10:00:00Z","evse_id":"E1"}
{"event":"token","node":"NL/TNM","at":"2025-01-01T10:00:00Z","token":{"contract_id":"C","country_code":"NL","issuer":"TNM","last_updated":"2025-01-01T09:00:00Z","party_id":"TNM","type":"CARD","uid":"AA01","valid":true,"whitelist":"ALWAYS"}}
{"event":"token","node":"NL/TNM","at":"2025-01-01T10:00:00Z","token":{"contract_id":"C","country_code":"NL","issuer":"TNM","last_updated":"2025-01-01T09:00:00Z","party_id":"TNM","type":"RFID","uid":4711,"valid":true,"whitelist":"ALWAYS"}}
{"event":"tick","node":"BELUX","at":"2025-01-01T10:00:00Z"}
{"event":"tick","node":"BE/BCE","at":"2025-01-01T10:00:00Z"}
{"event":"starts","node":"BE/BEC","at":"2025-01-01T10:00:00Z","evse_uid":"E11"}
{"event":"stops","node":"BE/BEC","at":"2025-01-01T10:00:00Z","evse_uid":"E1"}
{"event":"stops","node":"NL/TNM","at":"2025-01-01T10:00:00Z","evse_uid":"E1"}
{"event":"accepts","node":"BE/BEC","at":"2025-01-01T10:00:00Z","provider":"NL/TNN","number":2}
{"event":"accepts","node":"BE/BEC","at":"2025-01-01T10:00:00Z","provider":"NL/TNM","number":2}
{"event":"service","node":"BE/BEC","evse_uid":"AMS1_1","in_service":false}
{"event":"submit","node":"NL/TNM","at":"2025-01-01T10:00:00Z","operator":"BE/BCE","order":"stop_session","session_id":"S"}
{"event":"submit","node":"NL/TNM","at":"2025-01-01T10:00:00Z","operator":"BE/BEC","order":"start_session","token_uid":"AA02","token_type":"RFID","location_id":"LOC1"}
{"event":"submit","node":"NL/TNM","at":"2025-01-01T10:00:00Z","operator":"BE/BEC","order":"start"}
{"event":"deliver","node":"NL/TNM","at":"2025-01-01T10:00:00Z","from":"BE/BEC","serial":7}

{
  "event": "tick",
  "node": "BE/BEC"
}
{"event":"tick","node":"BE/BEC","at":"2025-01-01T10:00:00Z",}
{"event":"tick","node":"BE/BEC","at":"2025-01-01T10:00:00Z"} {"event":"tick"}
{"event":"meter","node":"BE/BEC","at":"2025-01-01T10:00:00Z","evse_uid":"E1","kwh":01}
["tick"]
LINES
printf '{"event":"service","node":"BE/BEC","evse_uid":"Caf\351","in_service":false}\n'
printf '{"event":"service","node":"BE/BEC","evse_uid":"a\\u0007 text of more than forty characters, so that it is cut"}\n'
printf '%-1100000s\n' '{"event":"tick","node":"BE/BEC","at":"2025-01-01T10:00:00Z"}'
