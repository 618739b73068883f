#!/bin/sh
# What the events of a plan cost: S statements on 64 nodes, each with 512 operations, are planned and printed. The instructions are of
# the whole of `distal plan`, reading and printing included, and are told for each pair of operations that share a buffer.
#
# On each node the S zeros and S folds share a home, the S copies another, and within a statement four operations share each of the
# two scratches: S(2S-1) + S(S-1)/2 + 12S pairs.
set -eu
cd "$(dirname "$0")/.."
. bench/counting.sh

job() {
    printf 'distal 1\nmachine 64\ntensor a 64\ntensor b 64\nplace a x -> x\nplace b x -> x\nfill b ramp\n'
    s=0
    while [ "$s" -lt "$1" ]; do
        printf 'stmt a(i) = b(i)\ndivide i io ii 64\ndistribute io\nend\n'
        s=$((s + 1))
    done
}

printf '%-12s%12s%12s%14s%10s%14s\n' statements operations pairs instructions 'a pair' milliseconds
for statements in 4 8 16; do
    job "$statements" >"$folder/job"
    pairs=$((64 * (statements * (2 * statements - 1) + statements * (statements - 1) / 2 + 12 * statements)))
    counted=$(valgrind --tool=callgrind --callgrind-out-file=/dev/null "$program" plan <"$folder/job" 2>&1 >/dev/null | sed -n 's/.*Collected : *//p')
    begun=$(date +%s%N)
    "$program" plan <"$folder/job" >/dev/null
    ended=$(date +%s%N)
    echo "$statements $pairs $counted $(((ended - begun) / 1000000))" |
        awk '{ printf "%-12d%12d%12d%14d%10.1f%14d\n", $1, $1 * 512, $2, $3, $3 / $2, $4 }'
done
