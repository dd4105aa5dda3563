#!/bin/sh
# Times the engine over device words: the least of three runs each, in milliseconds.
cd "$(dirname "$0")/../crates/bench" || exit 1
rt run -- engine 1 1 >/dev/null 2>&1 || exit 1
for sizes in '1 10000' '1 100000' '128 10000' '128 1'; do
    least=
    for _ in 1 2 3; do
        start=$(date +%s%N)
        # The sizes are two words.
        # shellcheck disable=SC2086
        counts=$(out/bench engine $sizes) || exit 1
        spent=$((($(date +%s%N) - start) / 1000000))
        if [ -z "$least" ] || [ "$spent" -lt "$least" ]; then least=$spent; fi
    done
    echo "segments and inserts $sizes: $least ms, $counts"
done
