# What the benchmarks of calls share; `bench/homes.sh`, `bench/needs.sh` and `bench/visits.sh` read it from the top of the
# repository. It wants valgrind, and crates/dt_bench/out/dt_bench as `rt run` in crates/dt_bench builds it.
program=crates/dt_bench/out/dt_bench

# The instructions of a whole run of a case at a size.
instructions() {
    valgrind --tool=callgrind --callgrind-out-file=/dev/null "$program" "$1" "$2" 2>&1 >/dev/null |
        sed -n 's/.*Collected : *//p'
}
