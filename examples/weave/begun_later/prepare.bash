# The second run of a node, without the first.
cat > nl.transcript <<'END'


{"nodes":[{"party":"NL/TNM"}],"line":3}
{"done":"opened","line":3,"party":"NL/TNM","rows":2,"serial":0}
{"event":"token","node":"NL/TNM","at":"2025-01-01T09:59:03Z","token":{"contract_id":"NL-TNM-000001","country_code":"NL","issuer":"TNM","last_updated":"2025-01-01T09:00:00Z","party_id":"TNM","type":"RFID","uid":"AA03","valid":true,"whitelist":"ALWAYS"}}
{"done":"stepped","line":4,"packets":0}
END
