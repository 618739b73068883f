#!/bin/sh
# How many instructions reading a job takes, at half of the greatest input and at the whole of it.
set -eu
cd "$(dirname "$0")/.."
. bench/counting.sh

# A job with this many tensors of 256,000 values: a data line of a million bytes for each but one, which is filled, and
# 2,000 comments for each.
job() {
    awk -v count="$1" 'BEGIN {
        print "distal 1"
        print "machine 1"
        for (t = 0; t < count; t++) {
            print "tensor big" t " 512x500"
            for (c = 0; c < 2000; c++) print "# a comment of the " t "th tensor"
            if (t == 0) { print "fill big0 seed 7"; continue }
            printf "data big%d", t
            for (v = 0; v < 256000; v++) printf " %03d", v % 1000
            printf "\n"
        }
        print "print big0"
    }'
}

# The milliseconds of a run of a job, without valgrind.
milliseconds() {
    start=$(date +%s%N)
    "$program" run <"$1" >/dev/null
    end=$(date +%s%N)
    echo "$(((end - start) / 1000000))"
}

job 8 >"$folder/half"
job 15 >"$folder/whole"
half=$(instructions "$folder/half")
whole=$(instructions "$folder/whole")
half_time=$(milliseconds "$folder/half")
whole_time=$(milliseconds "$folder/whole")
half_size=$(wc -c <"$folder/half")
whole_size=$(wc -c <"$folder/whole")
awk -v hs="$half_size" -v ws="$whole_size" -v h="$half" -v w="$whole" -v ht="$half_time" -v wt="$whole_time" 'BEGIN {
    printf "%12s%16s%16s%14s\n", "bytes", "instructions", "per byte", "milliseconds"
    printf "%12d%16d%16.1f%14d\n", hs, h, h / hs, ht
    printf "%12d%16d%16.1f%14d\n", ws, w, w / ws, wt
    printf "%12.2f%16.2f%16.2f%14.2f\n", ws / hs, w / h, (w / ws) / (h / hs), wt / (ht > 0 ? ht : 1)
}'
