#!/bin/sh
# Times `sofort script` with an empty script over formatted images of growing size: reading, opening and writing, the least of
# five runs each, in milliseconds.
cd "$(dirname "$0")/.." || exit 1
folder=$(mktemp -d) || exit 1
trap 'rm -rf "$folder"' EXIT
bin/sofort format "$folder/first.img" || exit 1
: >"$folder/script"
for segments in 1 8 32 128; do
    bench/make_image $segments >"$folder/image"
    least=
    for _ in 1 2 3 4 5; do
        start=$(date +%s%N)
        crates/sofort_main/out/sofort_main script "$folder/image" "$folder/script" "$folder/out" || exit 1
        spent=$((($(date +%s%N) - start) / 1000))
        if [ -z "$least" ] || [ "$spent" -lt "$least" ]; then least=$spent; fi
    done
    cmp -s "$folder/image" "$folder/out" || exit 1
    echo "$segments segments: $((least / 1000)).$((least % 1000 / 100)) ms, $(wc -c <"$folder/image") bytes"
done
