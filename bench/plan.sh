#!/bin/sh
# How a plan grows: the product of two square matrices after SUMMA, on 8x8 nodes in eight steps, is planned and printed. The
# instructions are of the whole of `distal plan`, and are told for each visit of its tasks.
set -eu
cd "$(dirname "$0")/.."
. bench/counting.sh

job() {
    cat <<JOB
distal 1
machine 8x8
tensor A $1x$1
tensor B $1x$1
tensor C $1x$1
place A xy -> xy
place B xy -> xy
place C xy -> xy
fill B ramp
fill C ramp
stmt A(i,j) = B(i,k) * C(k,j)
divide i io ii 8
divide j jo ji 8
reorder io jo ii ji
divide k ko ki 8
reorder ko ii ji
distribute io jo
communicate jo A
communicate ko B C
end
JOB
}

printf '%-8s%12s%16s%10s%8s\n' rows visits instructions 'a visit' ratio
before=0
for rows in 16 32 64; do
    job "$rows" >"$folder/job"
    counted=$(valgrind --tool=callgrind --callgrind-out-file=/dev/null "$program" plan <"$folder/job" 2>&1 >/dev/null | sed -n 's/.*Collected : *//p')
    echo "$rows $((rows * rows * rows)) $counted $before" |
        awk '{ printf "%-8s%12s%16s%10.1f%8s\n", $1, $2, $3, $3 / $2, $4 == 0 ? "-" : sprintf("%.2f", $3 / $4) }'
    before=$counted
done
