#!/usr/bin/env bash
# What the first answer costs: one `get` over an image of so many segments, which was closed or left by a power cut, with
# reading, opening, printing and writing. And what a statement costs of one session. Instructions are those of the program
# that callgrind counts, faults and peak memory those that the system tells, the time the least of ten runs. Where sqlite3 is
# there, the same answer of a table in its file stands beside. It wants valgrind, and GNU time as /usr/bin/time.
set -euo pipefail
cd "$(dirname "$0")/.."
folder=$(mktemp -d)
trap 'rm -rf "$folder"' EXIT
bin/sofort format "$folder/first.img"
program=$PWD/build/sofort

instructions() {
    valgrind --tool=callgrind --callgrind-out-file=/dev/null "$@" 2>&1 >/dev/null | sed -n 's/.*Collected : //p'
}

# Page faults and the highest memory in KB.
faults() {
    /usr/bin/time -f '%R faults, %M KB' "$@" 2>&1 >/dev/null | tail -n 1
}

# Microseconds, the least of ten runs.
least() {
    local best='' start spent
    for _ in 1 2 3 4 5 6 7 8 9 10; do
        start=$(date +%s%N)
        "$@" >/dev/null
        spent=$((($(date +%s%N) - start) / 1000))
        if [[ -z $best || $spent -lt $best ]]; then best=$spent; fi
    done
    echo "$best"
}

# answer WHAT COMMAND..
answer() {
    local what=$1
    shift
    echo "$what: $(instructions "$@") instructions, $(faults "$@"), $(least "$@") microseconds"
}

printf 's1 begin\ns1 insert t 7\ns1 commit\n' >"$folder/row"
printf 's1 begin\ns1 get t 0\n' >"$folder/get"
for segments in 1 32 128; do
    bench/make_image $segments >"$folder/image"
    "$program" script "$folder/image" "$folder/row" "$folder/closed" >/dev/null
    "$program" script "$folder/closed" "$folder/row" "$folder/cut" --cut 17 --keep all >/dev/null || [[ $? == 4 ]]
    for left in closed cut; do
        answer "$segments segments, $left" "$program" script "$folder/$left" "$folder/get" "$folder/out"
    done
done
if command -v sqlite3 >/dev/null; then
    sqlite3 "$folder/peer.db" 'create table t (a integer); insert into t values (7)'
    answer sqlite3 sqlite3 "$folder/peer.db" 'select a from t where rowid = 1'
fi

# What a statement costs: the difference of two scripts, of so many statements and of three times as many.
bench/make_image 1 >"$folder/image"
"$program" script "$folder/image" "$folder/row" "$folder/closed" >/dev/null
for kind in gets ones fifties; do
    for count in 1040 3120; do
        bench/make_script $count $kind >"$folder/$count"
    done
    few=$(instructions "$program" script "$folder/closed" "$folder/1040" "$folder/out")
    many=$(instructions "$program" script "$folder/closed" "$folder/3120" "$folder/out")
    small=$(faults "$program" script "$folder/closed" "$folder/1040" "$folder/out")
    large=$(faults "$program" script "$folder/closed" "$folder/3120" "$folder/out")
    echo "$kind: $(((many - few) / 2080)) instructions a statement; of 1,040 statements $small, of 3,120 $large"
done
