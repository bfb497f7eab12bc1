#!/usr/bin/env bash
# Runs the program case_lines, built at the path $1 with faults/fail_allocation.c (tools/try cases), once for each allocation
# that it makes on each of some cases of an operator, a provider, and nodes that are made of rows or are over a keeper, with
# that allocation failing. Its output must be what the case wants, or a beginning of it where the program then ends with status
# 1: a step, or the making of a node, that finds no memory is tried again there, and must give the answer and the rows that it
# gives with ample memory. No run may try more than one again, and none where no allocation failed. Where one run fails, so does
# this. The cases are the files of cases/out/without_memory, each with what it must give. The last line says what was tried.
set -euo pipefail
top=$(cd "$(dirname "${BASH_SOURCE[0]}")/.." && pwd)
program=$1
room=$(mktemp -d)
trap 'rm -rf "$room"' EXIT

# Runs the program on the case $1 with the allocation $2 failing, if it makes so many, and tells how that is not as wanted. Sets
# `fails` to how many failed, which is 0 or 1, and `again` to how many steps were tried again.
try_allocation() {
    local ended=0 size
    FAIL_ALLOCATION=$2 timeout 60 "$program" < "$1" > "$room/out" 2> "$room/said" || ended=$?
    fails=$(grep -cx 'an allocation failed' "$room/said") || :
    again=$(sed -n 's/^steps that were made once more: //p' "$room/said")
    again=${again:-0}
    size=$(stat -c %s "$room/out")
    if ((ended == 0 && again <= fails)); then
        cmp -s "$room/out" "$1.stdout" && return
    elif ((ended == 1 && again == 0 && fails == 1)); then
        cmp -s -n "$size" "$room/out" "$1.stdout" && return
    fi
    echo "${1##*/}, allocation $2: status $ended, $(head -c 300 "$room/said")" >&2
    status=1
}

status=0 failed=0 repeated=0
for wanted in "$top"/cases/out/without_memory/*.stdout; do
    number=1
    while try_allocation "${wanted%.stdout}" "$number"; ((fails > 0)); do
        number=$((number + 1)) failed=$((failed + 1)) repeated=$((repeated + again))
    done
done
((failed > 0 && repeated > 0)) || status=1
echo "each of $failed allocations failed once; $repeated times a step was tried again, and its output was whole"
exit $status
