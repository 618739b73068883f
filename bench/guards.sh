#!/bin/sh
# How many instructions a leaf costs that a search passes, since its guards fail: three loops of extent 1, each cut in a piece
# of 8, of 16, of 32, have one visit.
set -eu
cd "$(dirname "$0")/.."
. bench/counting.sh

# The product of two matrices of one number, its loops cut in pieces of this size.
job() {
    cat <<JOB
distal 1
machine 1
tensor A 1x1
tensor B 1x1
tensor C 1x1
fill B ramp
fill C ramp
stmt A(i,j) = B(i,k) * C(k,j)
split i io ii $1
split j jo ji $1
split k ko ki $1
end
print A
JOB
}

printf '%-6s%10s%14s%12s\n' piece leaves instructions 'a leaf more'
leaves=0
before=0
for piece in 8 16 32; do
    job "$piece" >"$folder/job"
    more=$((piece * piece * piece))
    counted=$(instructions "$folder/job")
    echo "$piece $more $counted $leaves $before" |
        awk '{ printf "%-6d%10d%14d%12s\n", $1, $2, $3, $4 == 0 ? "-" : sprintf("%.1f", ($3 - $5) / ($2 - $4)) }'
    leaves=$more
    before=$counted
done
