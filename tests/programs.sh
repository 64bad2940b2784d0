#!/usr/bin/env bash
# Runs the built program `clear` and compares what it prints and its status: what no proof can say.
set -euo pipefail
cd "$(dirname "$0")/.."
clear=$PWD/crates/clear/out/clear
scratch=$(mktemp -d)
trap 'rm -rf "$scratch"' EXIT
runs=0

# whether the text is a part of what was written to standard error; an empty one, whether nothing was
said() {
    if [ -z "$1" ]; then
        [ ! -s "$scratch/err" ]
    else
        grep -qF -- "$1" "$scratch/err"
    fi
}

# expect STATUS OUTPUT ERROR COMMAND..
expect() {
    local status=$1 output=$2 error=$3 got=0
    shift 3
    "$@" >"$scratch/out" 2>"$scratch/err" || got=$?
    if [ "$got" != "$status" ] || [ "$(cat "$scratch/out")" != "$output" ]; then
        echo "$*: status $got, printed '$(cat "$scratch/out")'; expected status $status and '$output'" >&2
        exit 1
    fi
    if ! said "$error"; then
        echo "$*: wrote '$(cat "$scratch/err")' on standard error; expected '$error'" >&2
        exit 1
    fi
    runs=$((runs + 1))
}

from() {
    local input=$1
    shift
    "$@" <"$input"
}

# with a standard output that takes nothing
full() {
    "$@" >/dev/full
}

# a file of so many bytes: 2 firms, and 0 in all other bytes
zeros() {
    printf '\002\000' >"$scratch/zeros.day"
    head -c "$(($1 - 2))" /dev/zero >>"$scratch/zeros.day"
}

# the samples, as a file and on standard input
while read -r sample status line; do
    expect "$status" "$line" "" "$clear" "samples/$sample.day"
    expect "$status" "$line" "" from "samples/$sample.day" "$clear"
done <<'SAMPLES'
pair 0 taken: 2 firms, 2 invoices
three 0 taken: 3 firms, 3 invoices
chain 0 taken: 3 firms, 2 invoices
two_rings 0 taken: 4 firms, 5 invoices
pair_and_three 0 taken: 4 firms, 5 invoices
pair_or_three 0 taken: 3 firms, 4 invoices
refused 1 refused 4 at 2
valley 0 taken: 300 firms, 2000 invoices
SAMPLES

# no input, and as many and more invoices than a day may have: want of memory never hides another refusal
expect 1 "refused 1 at 0" "" from /dev/null "$clear"
zeros 49154
expect 1 "refused 4 at 0" "" "$clear" "$scratch/zeros.day"
zeros 49166
expect 1 "refused 2 at 49166" "" "$clear" "$scratch/zeros.day"
zeros 1000001
expect 1 "refused 2 at 1000001" "" from "$scratch/zeros.day" "$clear"

# what can't be read
expect 1 "" "clear: can't read $scratch/missing.day: No such file" "$clear" "$scratch/missing.day"
expect 1 "" "clear: can't read $scratch: Is a directory" "$clear" "$scratch"
expect 1 "" "usage: clear [FILE]" "$clear" samples/pair.day samples/three.day
long=$scratch/$(printf 'n%.0s' {1..200})
expect 1 "" "clear: can't read $long: No such file" "$clear" "$long"

# an answer that can't be written ends with status 1 and no word more
expect 1 "" "" full "$clear" samples/pair.day
expect 1 "" "" full "$clear" samples/refused.day

echo "clear: $runs runs as expected"
