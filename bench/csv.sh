#!/usr/bin/env bash
# What it costs to type the records of a text of CSV, beside the csv crate's own reading of them. Instructions are those
# that callgrind counts, as the difference of runs with two rounds and with one; times are those of the processor, the
# least of five differences of runs with eleven rounds and with one. It wants rt on the path, and valgrind.
set -euo pipefail
cd "$(dirname "$0")/.."
folder=$(mktemp -d)
trap 'rm -rf "$folder"' EXIT
(cd crates/bench && rt run) >/dev/null 2>&1
program=crates/bench/out/bench

# instructions ROUNDS WORK
instructions() {
    valgrind --tool=callgrind --callgrind-out-file=/dev/null "$program" csv "$folder/csv" "$@" 2>&1 >/dev/null |
        sed -n 's/.*Collected : //p'
}

# Microseconds of the processor: ROUNDS WORK
spent() {
    local TIMEFORMAT='%3U %3S'
    { time "$program" csv "$folder/csv" "$@" >/dev/null; } 2>&1 | awk '{ printf "%.0f", ($1 + $2) * 1000000 }'
}

# The least of five differences: WORK
least() {
    local best= took
    for _ in 1 2 3 4 5; do
        took=$((($(spent 11 "$1") - $(spent 1 "$1")) / 10))
        if [ -z "$best" ] || [ "$took" -lt "$best" ]; then best=$took; fi
    done
    echo "$best"
}

echo "| records | work | instructions | a record | ms |"
echo "|---|---|---|---|---|"
for records in 5000 20000 80000; do
    bench/make_csv $records >"$folder/csv"
    for work in same records rows; do
        count=$(($(instructions 2 $work) - $(instructions 1 $work)))
        awk -v records=$records -v work=$work -v count=$count -v least="$(least $work)" 'BEGIN {
            printf "| %d | %s | %d | %d | %.2f |\n", records, work, count, count / records, least / 1000
        }'
    done
done
