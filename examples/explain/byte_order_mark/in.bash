# Writes a byte order mark, and then the setup of a charge.
printf '\357\273\277'
head -n 1 examples/play/charge/in.jsonl
