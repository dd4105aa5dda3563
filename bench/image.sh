#!/bin/sh
# Times the writing and reading of image files against copying their bytes: for each case the least of
# five runs with its rounds, less the least of five with none, divided by the rounds.
cd "$(dirname "$0")/.." || exit 1
(cd crates/bench && rt run -- image 1 1 1 copy) >/dev/null 2>&1 || exit 1

# The least time of five runs with these arguments, in microseconds.
least() {
    best=
    for _ in 1 2 3 4 5; do
        start=$(date +%s%N)
        crates/bench/out/bench image "$@" >/dev/null || exit 1
        spent=$((($(date +%s%N) - start) / 1000))
        if [ -z "$best" ] || [ "$spent" -lt "$best" ]; then best=$spent; fi
    done
    echo "$best"
}

# The lines of one image: its segments, the filled pages of each, and the rounds.
measure() {
    bytes=$((20 + 4100 * $1 * $2))
    for work in copy encode decode; do
        spent=$(($(least "$1" "$2" "$3" $work) - $(least "$1" "$2" 0 $work)))
        if [ $work = copy ]; then copied=$spent; fi
        awk -v segments="$1" -v filled="$2" -v rounds="$3" -v work=$work -v bytes=$bytes -v spent=$spent -v copied="$copied" 'BEGIN {
            printf "| %d | %d | %s | %.3f | %d | %d %% |\n", segments, filled, work,
                spent / rounds / 1000, bytes * rounds / spent, 100 * copied / spent
        }'
    done
}

echo "| segments | filled pages of each | work | ms | MB of file a second | of copying |"
echo "|---|---|---|---|---|---|"
measure 128 64 40
measure 120 64 40
measure 1 64 4000
measure 128 1 40
