# NL/TNM has the acknowledgement of its second token before it sends this.
cat > be.transcript <<'END'


{"nodes":[{"party":"BE/BEC","site":{"currency":"EUR","locations":[{"address":"Korenmarkt 1","city":"Gent","country":"BEL","evses":[{"connectors":[{"format":"SOCKET","id":"1","power_type":"AC_3_PHASE","standard":"IEC_62196_T2"}],"evse_id":"BE*BEC*E1","uid":"E1"}],"id":"LOC1","latitude":"51.05421","longitude":"3.72180"}],"price":0.25}},{"party":"NL/TNM"}]}
{"done":"opened","line":1,"party":"BE/BEC","rows":0,"serial":0}
{"at":"2025-01-01T09:59:06Z","event":"deliver","node":"BE/BEC","packet":{"body":{"contract_id":"NL-TNM-000002","country_code":"NL","issuer":"TNM","last_updated":"2025-01-01T09:59:05Z","party_id":"TNM","type":"RFID","uid":"AA02","valid":true,"whitelist":"ALWAYS"},"from":"NL/TNM","kind":"put_token","request":2,"serial":2,"to":"BE/BEC"}}
{"body":{"status_code":1000,"timestamp":"2025-01-01T09:59:06Z"},"from":"BE/BEC","kind":"ack","request":2,"serial":1,"to":"NL/TNM"}
{"done":"stepped","line":2,"packets":1}
END
cat > nl.transcript <<'END'


{"nodes":[{"party":"BE/BEC","site":{"currency":"EUR","locations":[{"address":"Korenmarkt 1","city":"Gent","country":"BEL","evses":[{"connectors":[{"format":"SOCKET","id":"1","power_type":"AC_3_PHASE","standard":"IEC_62196_T2"}],"evse_id":"BE*BEC*E1","uid":"E1"}],"id":"LOC1","latitude":"51.05421","longitude":"3.72180"}],"price":0.25}},{"party":"NL/TNM"}]}
{"done":"opened","line":1,"party":"NL/TNM","rows":0,"serial":0}
{"event":"token","node":"NL/TNM","at":"2025-01-01T09:59:00Z","token":{"contract_id":"NL-TNM-000001","country_code":"NL","issuer":"TNM","last_updated":"2025-01-01T09:00:00Z","party_id":"TNM","type":"RFID","uid":"AA01","valid":true,"whitelist":"ALWAYS"}}
{"body":{"contract_id":"NL-TNM-000001","country_code":"NL","issuer":"TNM","last_updated":"2025-01-01T09:59:00Z","party_id":"TNM","type":"RFID","uid":"AA01","valid":true,"whitelist":"ALWAYS"},"from":"NL/TNM","kind":"put_token","request":1,"serial":1,"to":"BE/BEC"}
{"done":"stepped","line":2,"packets":1}
{"at":"2025-01-01T09:59:02Z","event":"deliver","node":"NL/TNM","packet":{"body":{"status_code":1000,"timestamp":"2025-01-01T09:59:06Z"},"from":"BE/BEC","kind":"ack","request":2,"serial":1,"to":"NL/TNM"}}
{"done":"idle","line":3}
{"event":"token","node":"NL/TNM","at":"2025-01-01T09:59:05Z","token":{"contract_id":"NL-TNM-000002","country_code":"NL","issuer":"TNM","last_updated":"2025-01-01T09:00:00Z","party_id":"TNM","type":"RFID","uid":"AA02","valid":true,"whitelist":"ALWAYS"}}
{"body":{"contract_id":"NL-TNM-000002","country_code":"NL","issuer":"TNM","last_updated":"2025-01-01T09:59:05Z","party_id":"TNM","type":"RFID","uid":"AA02","valid":true,"whitelist":"ALWAYS"},"from":"NL/TNM","kind":"put_token","request":2,"serial":2,"to":"BE/BEC"}
{"done":"stepped","line":4,"packets":1}
END
