#!/bin/sh
# How the commands of one statement grow: a loop is split in pieces of 1 and its two parts are collapsed again, so many times.
# Prints the instructions of the whole run by callgrind, those of a pair of commands, and the ratio to the size before.
set -eu
cd "$(dirname "$0")/.."
. bench/counting.sh

# A statement with this many pairs of commands.
job() {
    cat <<JOB
distal 1
machine 1
tensor a 4
fill a ramp
tensor s scalar
stmt s = a(v0)
JOB
    awk -v pairs="$1" 'BEGIN { for (i = 0; i < pairs; i++) printf "split v%d o%d i%d 1\ncollapse o%d i%d v%d\n", i, i, i, i, i, i + 1 }'
    printf 'end\nprint s\n'
}

printf '%-8s%16s%12s%8s\n' pairs instructions 'a pair' ratio
before=
for pairs in 1000 2000 4000 8000; do
    job "$pairs" >"$folder/job"
    counted=$(instructions "$folder/job")
    echo "$pairs $counted ${before:-0}" |
        awk '{ printf "%-8d%16d%12.0f%8s\n", $1, $2, $2 / $1, $3 == 0 ? "-" : sprintf("%.2f", $2 / $3) }'
    before=$counted
done
