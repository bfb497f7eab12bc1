# The transcripts of `weave/two_of_four`, where NL/TNM tells of another bill than it got.
bash "${0%/*}/../two_of_four/prepare.bash"
sed -i '/^{.*"event":"deliver".*"kind":"post_cdr"/ { s/12\.3456/4.3456/g; s/3\.0864/1.0864/g }' nl.transcript
