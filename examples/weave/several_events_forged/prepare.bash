# The transcripts of weave/several_events, but one event of line 5 is told to have been refused, which the node carried out.
bash "${0%/*}/../several_events/prepare.bash"
sed -i 's/{"done":"stepped","event":1,"line":2,"packets":1}/{"done":"refused","event":1,"line":2,"name":"NotForMe","number":1}/' be.transcript
