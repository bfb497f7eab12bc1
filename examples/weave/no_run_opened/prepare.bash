# A node whose input was empty, and one whose first line was an event.
cat > nl.transcript <<'END'


{"done":"malformed","line":0,"name":"Syntax","number":1}


{"event":"token","node":"NL/TNM","at":"2025-01-01T09:59:01Z","token":{"contract_id":"NL-TNM-000001","country_code":"NL","issuer":"TNM","last_updated":"2025-01-01T09:00:00Z","party_id":"TNM","type":"RFID","uid":"AA01","valid":true,"whitelist":"ALWAYS"}}
{"done":"malformed","field":"nodes","line":1,"name":"Missing","number":4}
END
