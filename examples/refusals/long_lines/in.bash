# Writes a site line and the START_SESSION after it as two lines with spaces at their ends, one of a byte too many and
# one of the most bytes that a line may have.
{ read -r site; read -r start; } < "${0%/*}/../../answer/start_session/in.jsonl"
printf '%s\n' "$site"
for length in 1048577 1048576; do
    printf '%-*s\n' "$length" "$start"
done
