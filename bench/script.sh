#!/bin/sh
# Times `sofort script` over a newly formatted image and scripts of growing length: the least of five runs each, in
# milliseconds.
cd "$(dirname "$0")/.." || exit 1
folder=$(mktemp -d) || exit 1
trap 'rm -rf "$folder"' EXIT
bin/sofort format "$folder/empty.img" || exit 1
for count in 10000 20000 50000 100000; do
    bench/make_script $count >"$folder/script"
    least=
    for _ in 1 2 3 4 5; do
        start=$(date +%s%N)
        crates/sofort_main/out/sofort_main script "$folder/empty.img" "$folder/script" "$folder/left.img" >"$folder/text" || exit 1
        spent=$((($(date +%s%N) - start) / 1000))
        if [ -z "$least" ] || [ "$spent" -lt "$least" ]; then least=$spent; fi
    done
    echo "$count statements: $((least / 1000)).$((least % 1000 / 100)) ms, $(wc -c <"$folder/text") bytes printed"
done
