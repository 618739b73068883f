# What the benchmarks of whole jobs share; `bench/reading.sh`, `bench/statement.sh`, `bench/schedule.sh` and `bench/guards.sh`
# read it from the top of the repository.
# It wants valgrind, and crates/distal/out/distal as `rt ci` or `./distal` builds it.
program=crates/distal/out/distal
folder=$(mktemp -d)
trap 'rm -rf "$folder"' EXIT

# The instructions of a whole run of the job in a file.
instructions() {
    valgrind --tool=callgrind --callgrind-out-file=/dev/null "$program" run <"$1" 2>&1 >/dev/null |
        sed -n 's/.*Collected : *//p'
}
