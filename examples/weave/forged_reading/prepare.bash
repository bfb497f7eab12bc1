# The charge of `weave/charge`, whose bill was changed on its way to NL/TNM.
bash "${0%/*}/../charge/prepare.bash"
sed -i '/^{.*"event":"deliver".*"kind":"post_cdr"/ { s/12\.3456/92.3456/g; s/3\.0864/23.0864/g }' nl.transcript
