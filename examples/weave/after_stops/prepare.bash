# BE/BEC was stopped behind the echoes of lines 2 and 4. Its `opened` tells that line 2 took hold, and then that line 4 did
# not. Line 2, whose `done` was not seen, is fed again, and known.
cat > be.transcript <<'END'


{"nodes":[{"party":"BE/BEC","site":{"currency":"EUR","locations":[{"address":"Korenmarkt 1","city":"Gent","country":"BEL","evses":[{"connectors":[{"format":"SOCKET","id":"1","power_type":"AC_3_PHASE","standard":"IEC_62196_T2"}],"evse_id":"BE*BEC*E1","uid":"E1"}],"id":"LOC1","latitude":"51.05421","longitude":"3.72180"}],"price":0.25}},{"party":"NL/TNM"}],"line":1}
{"done":"opened","line":1,"party":"BE/BEC","rows":0,"serial":0}
{"at":"2025-01-01T09:59:00Z","event":"deliver","node":"BE/BEC","packet":{"body":{"contract_id":"NL-TNM-000001","country_code":"NL","issuer":"TNM","last_updated":"2025-01-01T09:59:00Z","party_id":"TNM","type":"RFID","uid":"AA01","valid":true,"whitelist":"ALWAYS"},"from":"NL/TNM","kind":"put_token","request":1,"serial":1,"to":"BE/BEC"}}


{"nodes":[{"party":"BE/BEC","site":{"currency":"EUR","locations":[{"address":"Korenmarkt 1","city":"Gent","country":"BEL","evses":[{"connectors":[{"format":"SOCKET","id":"1","power_type":"AC_3_PHASE","standard":"IEC_62196_T2"}],"evse_id":"BE*BEC*E1","uid":"E1"}],"id":"LOC1","latitude":"51.05421","longitude":"3.72180"}],"price":0.25}},{"party":"NL/TNM"}],"line":1}
{"done":"opened","line":2,"party":"BE/BEC","rows":3,"serial":1}
{"at":"2025-01-01T09:59:00Z","event":"deliver","node":"BE/BEC","packet":{"body":{"contract_id":"NL-TNM-000001","country_code":"NL","issuer":"TNM","last_updated":"2025-01-01T09:59:00Z","party_id":"TNM","type":"RFID","uid":"AA01","valid":true,"whitelist":"ALWAYS"},"from":"NL/TNM","kind":"put_token","request":1,"serial":1,"to":"BE/BEC"}}
{"done":"known","line":2}
{"at":"2025-01-01T09:59:10Z","event":"deliver","node":"BE/BEC","packet":{"body":{"contract_id":"NL-TNM-000001","country_code":"NL","issuer":"TNM","last_updated":"2025-01-01T09:59:00Z","party_id":"TNM","type":"RFID","uid":"AA01","valid":true,"whitelist":"ALWAYS"},"from":"NL/TNM","kind":"put_token","request":1,"serial":1,"to":"BE/BEC"}}
{"body":{"status_code":1000,"timestamp":"2025-01-01T09:59:00Z"},"from":"BE/BEC","kind":"ack","request":1,"serial":2,"to":"NL/TNM"}
{"done":"stepped","line":3,"packets":1}
{"at":"2025-01-01T09:59:20Z","event":"deliver","node":"BE/BEC","packet":{"body":{"contract_id":"NL-TNM-000001","country_code":"NL","issuer":"TNM","last_updated":"2025-01-01T09:59:00Z","party_id":"TNM","type":"RFID","uid":"AA01","valid":true,"whitelist":"ALWAYS"},"from":"NL/TNM","kind":"put_token","request":1,"serial":1,"to":"BE/BEC"}}


{"nodes":[{"party":"BE/BEC","site":{"currency":"EUR","locations":[{"address":"Korenmarkt 1","city":"Gent","country":"BEL","evses":[{"connectors":[{"format":"SOCKET","id":"1","power_type":"AC_3_PHASE","standard":"IEC_62196_T2"}],"evse_id":"BE*BEC*E1","uid":"E1"}],"id":"LOC1","latitude":"51.05421","longitude":"3.72180"}],"price":0.25}},{"party":"NL/TNM"}],"line":3}
{"done":"opened","line":3,"party":"BE/BEC","rows":3,"serial":2}
END
cat > nl.transcript <<'END'


{"nodes":[{"party":"BE/BEC","site":{"currency":"EUR","locations":[{"address":"Korenmarkt 1","city":"Gent","country":"BEL","evses":[{"connectors":[{"format":"SOCKET","id":"1","power_type":"AC_3_PHASE","standard":"IEC_62196_T2"}],"evse_id":"BE*BEC*E1","uid":"E1"}],"id":"LOC1","latitude":"51.05421","longitude":"3.72180"}],"price":0.25}},{"party":"NL/TNM"}],"line":1}
{"done":"opened","line":1,"party":"NL/TNM","rows":0,"serial":0}
{"event":"token","node":"NL/TNM","at":"2025-01-01T09:59:00Z","token":{"contract_id":"NL-TNM-000001","country_code":"NL","issuer":"TNM","last_updated":"2025-01-01T09:00:00Z","party_id":"TNM","type":"RFID","uid":"AA01","valid":true,"whitelist":"ALWAYS"}}
{"body":{"contract_id":"NL-TNM-000001","country_code":"NL","issuer":"TNM","last_updated":"2025-01-01T09:59:00Z","party_id":"TNM","type":"RFID","uid":"AA01","valid":true,"whitelist":"ALWAYS"},"from":"NL/TNM","kind":"put_token","request":1,"serial":1,"to":"BE/BEC"}
{"done":"stepped","line":2,"packets":1}
{"at":"2025-01-01T09:59:11Z","event":"deliver","node":"NL/TNM","packet":{"body":{"status_code":1000,"timestamp":"2025-01-01T09:59:00Z"},"from":"BE/BEC","kind":"ack","request":1,"serial":2,"to":"NL/TNM"}}
{"done":"stepped","line":3,"packets":0}
END
