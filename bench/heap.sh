#!/usr/bin/env bash
# What it costs to plan an allocation or a freeing, and to play the plan; how their time grows, and what a reopen costs.
# Instructions are those that callgrind counts, as the difference of two runs. Those of playing are counted by themselves,
# inside of the function that takes the actions from a plan and plays them. Times are those of the processor, the least of
# five runs. It wants rt on the path, and valgrind.
set -euo pipefail
cd "$(dirname "$0")/../crates/bench"

# instructions SEGMENTS ROUNDS WORK
instructions() {
    valgrind --tool=callgrind --callgrind-out-file=/dev/null out/bench heap "$@" 2>&1 >/dev/null |
        sed -n 's/.*Collected : //p'
}

# The same, inside of the function that plays a plan: SEGMENTS ROUNDS WORK
playing() {
    valgrind --tool=callgrind --callgrind-out-file=/dev/null --toggle-collect='*playing::play_whole*' out/bench heap "$@" 2>&1 >/dev/null |
        sed -n 's/.*Collected : //p'
}

# actions SEGMENTS ROUNDS WORK
actions() {
    out/bench heap "$@" | sed 's/ actions.*//'
}

# Instructions of a round's planning, and those of its playing: SEGMENTS FEWER MORE WORK
round() {
    awk -v spent=$(($(instructions "$1" "$3" "$4") - $(instructions "$1" "$2" "$4"))) \
        -v played=$(($(playing "$1" "$3" "$4") - $(playing "$1" "$2" "$4"))) \
        -v actions=$(($(actions "$1" "$3" "$4") - $(actions "$1" "$2" "$4"))) -v rounds=$(($3 - $2)) \
        'BEGIN { printf "%.0f instructions to plan it, %.0f to play its %.1f actions", (spent - played) / rounds, played / rounds, actions / rounds }'
}

# Microseconds of the processor, the least of five runs: SEGMENTS ROUNDS WORK
least() {
    local TIMEFORMAT='%3U %3S'
    for _ in 1 2 3 4 5; do
        { time out/bench heap "$@" >/dev/null; } 2>&1
    done | awk '{ spent = ($1 + $2) * 1000000; if (NR == 1 || spent < best) best = spent } END { printf "%.0f", best }'
}

rt run -- heap 1 1 mixed >/dev/null 2>&1
fewer=$(instructions 32 1000 device)
more=$(instructions 32 11000 device)
action=$(awk -v spent=$((more - fewer)) 'BEGIN { printf "%.2f", spent / 160000 }')
echo "an action of the device: $action instructions"
echo "an allocation on 128 segments: $(round 128 0 1344 turns)"
echo "a freeing on 128 segments: $(round 128 1344 2688 turns)"
for segments in 32 128; do
    echo "mixed, $segments segments: $(round $segments 10000 20000 mixed)"
done
echo "beside 672 holes: $(round 32 1000 2000 holes)"
for rounds in 0 10000 20000 50000 100000; do
    echo "$rounds rounds, mixed, 32 segments: $(least 32 $rounds mixed) microseconds"
done
for segments in 8 32 128; do
    fewer=$(instructions $segments 1 reopen)
    more=$(instructions $segments 11 reopen)
    spent=$(($(least $segments 1000 reopen) - $(least $segments 0 reopen)))
    echo "reopen of $segments segments: $(((more - fewer) / 10)) instructions, $spent nanoseconds"
done
