#!/bin/sh
# How many instructions the calls of sorted sets take, and how that grows with the number of intervals.
# It wants valgrind, and crates/dt_bench/out/dt_bench as `rt run` in crates/dt_bench builds it.
set -eu
cd "$(dirname "$0")/.."
program=crates/dt_bench/out/dt_bench
sizes="1000 10000 100000"

# The instructions of a whole run of a case at a size.
instructions() {
    valgrind --tool=callgrind --callgrind-out-file=/dev/null "$program" "$1" "$2" 2>&1 >/dev/null |
        sed -n 's/.*Collected : *//p'
}

# A line with a name, a number for each size, and each number divided by the one before.
row() {
    echo "$@" | awk '{
        printf "%-10s", $1
        for (i = 2; i <= NF; i++) printf "%12d", $i
        for (i = 3; i <= NF; i++) printf "%8s", $(i - 1) == 0 ? "-" : sprintf("%.2f", $i / $(i - 1))
        print ""
    }'
}

# The row of a case: its instructions above those of building the sets, divided by the number of its calls.
case_row() {
    counts=
    for size in $sizes; do
        eval "base=\$build_$size"
        counts="$counts $((($(instructions "$1" "$size") - base) / $2))"
    done
    row "$1" $counts
}

printf '%-10s%12s%12s%12s   ratios\n' intervals $sizes
start=$(instructions build 0)
counts=
for size in $sizes; do
    whole=$(instructions build "$size")
    eval "build_$size=$whole"
    counts="$counts $((whole - start))"
done
row build $counts
for case in meet minus union touches; do
    case_row "$case" 1
done
for case in at rank count; do
    case_row "$case" 1000
done
