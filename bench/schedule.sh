#!/bin/sh
# How many instructions a run of a square matrix product takes for each of its visits, under a schedule that cuts its three
# loops in tiles of 8, and how that grows from 16 to 64 rows.
set -eu
cd "$(dirname "$0")/.."
. bench/counting.sh

# The product of two square matrices with this many rows.
job() {
    cat <<JOB
distal 1
machine 1
tensor A $1x$1
tensor B $1x$1
tensor C $1x$1
fill B ramp
fill C ramp
stmt A(i,j) = B(i,k) * C(k,j)
split i io ii 8
split j jo ji 8
reorder io jo ii ji
split k ko ki 8
reorder ko ii ji
end
print A
JOB
}

printf '%-6s%10s%14s%12s%8s\n' rows visits instructions 'a visit' ratio
before=
for rows in 16 32 64; do
    job "$rows" >"$folder/job"
    visits=$((rows * rows * rows))
    counted=$(instructions "$folder/job")
    echo "$rows $visits $counted ${before:-0}" |
        awk '{ printf "%-6d%10d%14d%12.1f%8s\n", $1, $2, $3, $3 / $2, $4 == 0 ? "-" : sprintf("%.2f", $3 / $4) }'
    before=$counted
done
