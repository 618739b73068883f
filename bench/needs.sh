#!/bin/sh
# How many instructions all needed words of a matrix product after SUMMA take, on a grid of 4x4 nodes in four steps, for each
# visit that is walked: each of the three matrices has its own walk over all visits, the cube of the rows.
set -eu
cd "$(dirname "$0")/.."
. bench/calls.sh

printf '%-6s%10s%14s%10s%8s\n' rows walked instructions 'a visit' ratio
before=
for rows in 16 32 64; do
    walked=$((3 * rows * rows * rows))
    counted=$(($(instructions needs "$rows") - $(instructions job "$rows")))
    echo "$rows $walked $counted ${before:-0}" |
        awk '{ printf "%-6d%10d%14d%10.1f%8s\n", $1, $2, $3, $3 / $2, $4 == 0 ? "-" : sprintf("%.2f", $3 / $4) }'
    before=$counted
done
