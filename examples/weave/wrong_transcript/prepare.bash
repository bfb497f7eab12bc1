# What a node printed without `--echo`.
cat > nl.transcript <<'END'
{"done":"opened","line":1,"party":"NL/TNM","rows":0,"serial":0}
{"done":"stepped","line":2,"packets":0}
END
