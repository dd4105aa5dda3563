#!/usr/bin/env bash
# What the soundness check of an image that is full of live blocks costs, as the image grows. Instructions are those that
# callgrind counts. Both figures are the difference of two runs, times the least of five. It wants rt on the path, and
# valgrind.
set -euo pipefail
cd "$(dirname "$0")/../crates/bench"

# instructions SEGMENTS ROUNDS
instructions() {
    valgrind --tool=callgrind --callgrind-out-file=/dev/null out/bench check "$@" 2>&1 >/dev/null |
        sed -n 's/.*Collected : //p'
}

# Microseconds, the least of five runs: SEGMENTS ROUNDS
least() {
    local best='' start spent
    for _ in 1 2 3 4 5; do
        start=$(date +%s%N)
        out/bench check "$@" >/dev/null
        spent=$((($(date +%s%N) - start) / 1000))
        if [[ -z $best || $spent -lt $best ]]; then best=$spent; fi
    done
    echo "$best"
}

rt run -- check 4 1 >/dev/null 2>&1
for segments in 8 32 128; do
    blocks=$(out/bench check $segments 0 | sed 's/ live.*//')
    fewer=$(instructions $segments 1)
    more=$(instructions $segments 3)
    spent=$(($(least $segments 21) - $(least $segments 1)))
    echo "$segments segments, $blocks live blocks: $(((more - fewer) / 2)) instructions, $((spent / 20)) microseconds"
done
