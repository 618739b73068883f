#!/bin/sh
# How many instructions a visit takes in the nest of a matrix product whose three loops are cut by splits of 8, in the
# order io jo ko ii ji ki: to come to it, to come to it and its leaf, and with the values of its three variables too. The
# visits are the cube of the extent.
set -eu
cd "$(dirname "$0")/.."
. bench/calls.sh

printf '%-8s%10s%12s%12s%12s%14s%8s\n' extent visits 'a visit' 'and leaf' 'and values' instructions ratio
before=
for extent in 16 32 64; do
    made=$(instructions schedule "$extent")
    visited=$(($(instructions visits "$extent") - made))
    leaves=$(($(instructions leaves "$extent") - made))
    valued=$(($(instructions values "$extent") - made))
    echo "$extent $((extent * extent * extent)) $visited $leaves $valued ${before:-0}" |
        awk '{ printf "%-8d%10d%12.1f%12.1f%12.1f%14d%8s\n", $1, $2, $3 / $2, $4 / $2, $5 / $2, $5, $6 == 0 ? "-" : sprintf("%.2f", $5 / $6) }'
    before=$valued
done
