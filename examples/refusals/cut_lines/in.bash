# Writes a site line, each beginning of the START_SESSION after it that is shorter than the whole, and the whole.
{ read -r site; read -r start; } < "${0%/*}/../../answer/start_session/in.jsonl"
printf '%s\n' "$site"
for ((length = 1; length < ${#start}; length++)); do
    printf '%s\n' "${start:0:length}"
done
printf '%s\n' "$start"
