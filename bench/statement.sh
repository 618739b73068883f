#!/bin/sh
# How many instructions a statement takes that is as long as a line may be, with a new variable at each place: its tests
# go over 70,000 and 140,000 different variables before it is refused as TooManyTerms.
set -eu
cd "$(dirname "$0")/.."
. bench/counting.sh

# A job whose statement has this many factors, each with four variables of its own.
job() {
    awk -v count="$1" 'BEGIN {
        print "distal 1"
        print "machine 1"
        print "tensor s scalar"
        print "tensor e 1x1x1x1"
        printf "stmt s = 1"
        for (f = 0; f < count; f++) printf "*e(v%x,w%x,x%x,y%x)", f, f, f, f
        printf "\n"
    }'
}

job 17500 >"$folder/half"
job 35000 >"$folder/whole"
for size in half whole; do
    "$program" run <"$folder/$size" | grep -q '^refused line 5: TooManyTerms$' || echo "another refusal at $size"
done
half=$(instructions "$folder/half")
whole=$(instructions "$folder/whole")
awk -v h="$half" -v w="$whole" 'BEGIN {
    printf "%12s%16s\n%12d%16d\n%12d%16d\n%12.2f%16.2f\n", "variables", "instructions", 70000, h, 140000, w, 2, w / h
}'
