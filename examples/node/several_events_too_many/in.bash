# 257 events in a line, and 256; an array within the array as deep as a line may be, and one deeper.
head -n 1 "${0%/*}/../several_events/in.jsonl"
tick='{"event":"tick","node":"BE/BEC","at":"2025-01-01T10:00:00Z"}'
for count in 257 256; do
    printf '[%s' "$tick"
    for ((number = 1; number < count; number++)); do
        printf ',%s' "$tick"
    done
    printf ']\n'
done
for depth in 127 128; do
    printf '[%.0s' $(seq "$depth")
    printf ']%.0s' $(seq "$depth")
    printf '\n'
done
