#!/bin/sh
# How many instructions a word of a buffer takes: to ask whether the buffer holds it, and besides to read it, to write it, to add to
# it; then when the buffer begins, and when it ends. The words are one interval, or an interval for each two words, both in
# ascending order; or these with a long way between each two.
set -eu
cd "$(dirname "$0")/.."
. bench/calls.sh

# The instructions that 100,000 words take more than 10,000.
more() {
    echo "$(($(instructions "$1" 100000) - $(instructions "$1" 10000)))"
}

# The same for each word, where there are so many words more.
a_word() {
    echo "$(more "$1") $2" | awk '{ printf "%.0f", $1 / $2 }'
}

printf '%-28s%8s%8s%8s%8s\n' words hold read write fold
hold=$(a_word hold-one 90000)
printf '%-28s%8d%8d%8d%8d\n' 'one interval' "$hold" $(($(a_word read-one 90000) - hold)) $(($(a_word write-one 90000) - hold)) $(($(a_word fold-one 90000) - hold))
hold=$(a_word hold-many 90000)
printf '%-28s%8d%8d%8d%8d\n' 'intervals of two, ascending' "$hold" $(($(a_word read-many 90000) - hold)) $(($(a_word write-many 90000) - hold)) $(($(a_word fold-many 90000) - hold))
hold=$(a_word hold-far 45000)
printf '%-28s%8d%8s%8s%8d\n' 'intervals of two, far apart' "$hold" - - $(($(a_word fold-far 45000) - hold))

printf '\n%-28s%8s%8s\n' words begin end
for spread in one many; do
    echo "$spread $(more "absent-$spread") $(more "begin-$spread") $(more "end-$spread")" |
        awk '{ printf "%-28s%8.1f%8.1f\n", $1 == "one" ? "one interval" : "intervals of two", ($3 - $2) / 90000, ($4 - $3) / 90000 }'
done
