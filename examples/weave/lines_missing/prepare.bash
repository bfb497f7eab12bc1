# The second of three runs of a node is missing, in which line 4 took hold.
cat > nl.transcript <<'END'


{"nodes":[{"party":"NL/TNM"}],"line":1}
{"done":"opened","line":1,"party":"NL/TNM","rows":0,"serial":0}
{"event":"token","node":"NL/TNM","at":"2025-01-01T09:59:01Z","token":{"contract_id":"NL-TNM-000001","country_code":"NL","issuer":"TNM","last_updated":"2025-01-01T09:00:00Z","party_id":"TNM","type":"RFID","uid":"AA01","valid":true,"whitelist":"ALWAYS"}}
{"done":"stepped","line":2,"packets":0}
{"event":"token","node":"NL/TNM","at":"2025-01-01T09:59:02Z","token":{"contract_id":"NL-TNM-000001","country_code":"NL","issuer":"TNM","last_updated":"2025-01-01T09:00:00Z","party_id":"TNM","type":"RFID","uid":"AA02","valid":true,"whitelist":"ALWAYS"}}
{"done":"stepped","line":3,"packets":0}


{"nodes":[{"party":"NL/TNM"}],"line":4}
{"done":"opened","line":4,"party":"NL/TNM","rows":3,"serial":0}
{"event":"token","node":"NL/TNM","at":"2025-01-01T09:59:04Z","token":{"contract_id":"NL-TNM-000001","country_code":"NL","issuer":"TNM","last_updated":"2025-01-01T09:00:00Z","party_id":"TNM","type":"RFID","uid":"AA04","valid":true,"whitelist":"ALWAYS"}}
{"done":"stepped","line":5,"packets":0}
END
