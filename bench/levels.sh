#!/bin/sh
# How many instructions it takes to pack entries that are in order, for each entry, by the levels of the tensor (`d` dense, `c`
# compressed); to find the place of an entry, for each level; and to find the coordinates of a position.
set -eu
cd "$(dirname "$0")/.."
. bench/calls.sh

# The number that a case answers.
answer() {
    "$program" "$1" "$2" | sed 's/.*: //'
}

printf '%-8s%10s%12s%12s%12s%12s\n' levels entries positions 'an entry' 'a level' coordinates
for mix in dd cd dc cc ddc; do
    for entries in 10 100000 1000000; do
        stored=$(answer "pack-$mix" "$entries")
        given=$(instructions "given-$mix" "$entries")
        packed=$(instructions "pack-$mix" "$entries")
        placed=$(($(instructions "place-$mix" "$entries") - packed))
        coords=$(($(instructions "coords-$mix" "$entries") - packed))
        echo "$mix $entries $stored $((packed - given)) $placed $coords ${#mix}" |
            awk '{ printf "%-8s%10d%12d%12.0f%12.0f%12.0f\n", $1, $2, $3, $4 / $2, $5 / $2 / $7, $6 / $3 }'
    done
done
