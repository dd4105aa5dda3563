#!/usr/bin/env bash
# What it costs to read scripts and values and to print histories, beside copying the file's bytes. Instructions are those
# that callgrind counts, as the difference of runs with two rounds and with one; times are those of the processor, the
# least of five differences of runs with eleven rounds and with one. It wants rt on the path, and valgrind.
set -euo pipefail
cd "$(dirname "$0")/.."
folder=$(mktemp -d)
trap 'rm -rf "$folder"' EXIT
(cd crates/bench && rt run) >/dev/null 2>&1
program=crates/bench/out/bench

# instructions ROUNDS WORK
instructions() {
    valgrind --tool=callgrind --callgrind-out-file=/dev/null "$program" texts "$folder/file" "$@" 2>&1 >/dev/null |
        sed -n 's/.*Collected : //p'
}

# Microseconds of the processor: ROUNDS WORK
spent() {
    local TIMEFORMAT='%3U %3S'
    { time "$program" texts "$folder/file" "$@" >/dev/null; } 2>&1 | awk '{ printf "%.0f", ($1 + $2) * 1000000 }'
}

# The least of five differences: WORK
least() {
    local best= took
    for _ in 1 2 3 4 5; do
        took=$((($(spent 11 "$1") - $(spent 1 "$1")) / 10))
        if [ -z "$best" ] || [ "$took" -lt "$best" ]; then best=$took; fi
    done
    echo "$best"
}

# The rows of one file: what its lines are, how many, and what is done with it.
measure() {
    bench/make_script "$2" "$1" >"$folder/file"
    local copied=0 took work count
    for work in copy $3; do
        count=$(($(instructions 2 "$work") - $(instructions 1 "$work")))
        took=$(least "$work")
        if [ "$work" = copy ]; then copied=$took; fi
        awk -v kind="$1" -v lines="$2" -v work="$work" -v count=$count -v took="$took" -v copied="$copied" 'BEGIN {
            printf "| %s | %d | %s | %d | %d | %.2f | %.0f %% |\n", kind, lines, work, count, count / lines, took / 1000,
                (took > 0 ? 100 * copied / took : 100)
        }'
    done
}

echo "| lines | how many | work | instructions | a line | ms | of copying's speed |"
echo "|---|---|---|---|---|---|---|"
for lines in 10000 50000 100000; do measure built $lines read; done
for lines in 10000 50000 100000; do measure all $lines lines; done
for lines in 10000 100000; do measure integers $lines "values history"; done
for lines in 1000 10000; do measure texts $lines "values history"; done
