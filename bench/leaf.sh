#!/bin/sh
# How many instructions one visit of A(i,j) += B(i,k) * C(k,j) takes on the memory of one node, in a nest whose three loops are cut
# by splits of 8, in the order io jo ko ii ji ki: coming to it, the values of its variables, both reads and the fold. A word is for
# each of the three tensors. The second column is to make the memory and to test that it holds all words, for each word.
set -eu
cd "$(dirname "$0")/.."
. bench/calls.sh

printf '%-8s%10s%12s%12s%14s%8s\n' extent visits 'a word' 'a visit' instructions ratio
before=
for extent in 16 32 64; do
    read=$(instructions node-job "$extent")
    made=$(instructions node-memory "$extent")
    run=$(instructions node-visits "$extent")
    echo "$extent $((extent * extent * extent)) $((made - read)) $((run - made)) ${before:-0}" |
        awk '{ printf "%-8d%10d%12.1f%12.1f%14d%8s\n", $1, $2, $3 / (3 * $1 * $1), $4 / $2, $4, $5 == 0 ? "-" : sprintf("%.2f", $4 / $5) }'
    before=$((run - made))
done
