#!/usr/bin/env bash
# What an action of the device costs on 1 segment and on 128: instructions as callgrind counts them, and time.
# The set-up is taken out by the difference of two runs. It wants rt on the path, and valgrind.
set -euo pipefail
cd "$(dirname "$0")/../crates/bench"

actions_in_a_round=$((16 * 17))

# instructions SEGMENTS ROUNDS
instructions() {
    valgrind --tool=callgrind --callgrind-out-file=/dev/null out/bench device "$1" "$2" 2>&1 >/dev/null |
        sed -n 's/.*Collected : //p'
}

# milliseconds SEGMENTS ROUNDS: of the processor, as user
milliseconds() {
    local TIMEFORMAT=%3U
    { time out/bench device "$1" "$2" >/dev/null; } 2>&1 | tr -d .,
}

# per_action FEW MANY ROUNDS UNIT: the difference of two runs, by the actions of so many rounds
per_action() {
    awk -v few="$1" -v many="$2" -v actions=$((actions_in_a_round * $3)) -v unit="$4" \
        'BEGIN { printf "%.2f", (many - few) * unit / actions }'
}

rt run -- device 1 1 >/dev/null 2>&1
for segments in 1 128; do
    few=$(instructions $segments 100)
    many=$(instructions $segments 1100)
    echo "$segments segments: $(per_action "$few" "$many" 1000 1) instructions per action"
done

# The sizes take turns, so that a busy machine slows both; the least difference of ten counts.
declare -A least=([1]=0 [128]=0)
for _ in {1..10}; do
    for segments in 1 128; do
        few=$(milliseconds $segments 1000)
        many=$(milliseconds $segments 101000)
        took=$((10#$many - 10#$few))
        if ((least[$segments] == 0 || took < least[$segments])); then least[$segments]=$took; fi
    done
done
for segments in 1 128; do
    echo "$segments segments: $(per_action 0 "${least[$segments]}" 100000 1000000) nanoseconds per action"
done
