#!/bin/sh
# How many instructions the homes of a square matrix in 8x8 blocks on 64 nodes take, all 64 together, for each of their
# intervals (8 for each row), and how that grows with the rows.
set -eu
cd "$(dirname "$0")/.."
. bench/calls.sh

printf '%-8s%12s%14s%14s%8s\n' rows intervals instructions 'an interval' ratio
before=
for rows in 128 256 512 1024; do
    counted=$(($(instructions homes "$rows") - $(instructions matrix "$rows")))
    echo "$rows $((8 * rows)) $counted ${before:-0}" |
        awk '{ printf "%-8d%12d%14d%14.1f%8s\n", $1, $2, $3, $3 / $2, $4 == 0 ? "-" : sprintf("%.2f", $3 / $4) }'
    before=$counted
done
