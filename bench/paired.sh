#!/bin/sh
# How many instructions one value of a substituted loop costs in a nest whose outer loop was split and collapsed 24 times, and a
# visit of the same nest without a substituted loop, where the loop that was cut is the inner one: both with the value of the variable
# that was cut. There are as many of each as the square of the extent.
set -eu
cd "$(dirname "$0")/.."
. bench/calls.sh

printf '%-8s%10s%12s%12s%8s\n' extent values 'a value' 'a visit' ratio
for extent in 16 32 64; do
    lanes=$(($(instructions paired-lanes "$extent") - $(instructions paired-lanes-made "$extent")))
    plain=$(($(instructions paired-plain "$extent") - $(instructions paired-plain-made "$extent")))
    echo "$extent $((extent * extent)) $lanes $plain" |
        awk '{ printf "%-8d%10d%12.1f%12.1f%8.2f\n", $1, $2, $3 / $2, $4 / $2, $3 / $4 }'
done
