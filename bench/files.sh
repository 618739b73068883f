#!/bin/sh
# How many instructions it takes to write the file of a matrix with so many stored numbers, and to read it, for each byte.
set -eu
cd "$(dirname "$0")/.."
. bench/calls.sh

printf '%-10s%12s%12s%12s%14s%8s\n' numbers bytes 'a byte put' 'a byte read' instructions ratio
before=
for numbers in 10000 100000 1000000; do
    bytes=$("$program" write-rows "$numbers" | sed 's/.*: //')
    packed=$(instructions pack-dc "$numbers")
    written=$(instructions write-rows "$numbers")
    read=$(($(instructions read-rows "$numbers") - written))
    echo "$numbers $bytes $((written - packed)) $read ${before:-0}" |
        awk '{ printf "%-10d%12d%12.1f%12.1f%14d%8s\n", $1, $2, $3 / $2, $4 / $2, $4, $5 == 0 ? "-" : sprintf("%.2f", $4 / $5) }'
    before=$read
done
