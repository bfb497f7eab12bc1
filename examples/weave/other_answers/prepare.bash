# The charge of `weave/charge`, with a higher bill written into both transcripts: as sent, and as it came.
bash "${0%/*}/../charge/prepare.bash"
sed -i '/"kind":"post_cdr"/ s/3\.0864/23.0864/g' be.transcript nl.transcript
