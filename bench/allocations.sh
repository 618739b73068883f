#!/bin/sh
# Runs jobs once for each of their allocations, with that one failing: the run must end with status 9 and nothing written, or
# write the whole text. The built program runs under an allocator that fails once. It wants a C compiler, and
# crates/distal/out/distal as `rt ci` or `./distal` builds it.
cd "$(dirname "$0")/.." || exit 1
program=$(pwd)/crates/distal/out/distal
[ -x "$program" ] || {
    echo "$program is missing: ./distal builds it"
    exit 1
}
folder=$(mktemp -d)
trap 'rm -rf "$folder"' EXIT

cat >"$folder/fail.c" <<'C'
#define _GNU_SOURCE
#include <dlfcn.h>
#include <errno.h>
#include <stdio.h>
#include <stdlib.h>
#include <string.h>
#include <unistd.h>

/* The allocations of the program itself, after the loader's; the one with the number FAIL fails. */
static long asked, failing = -1;
static void *(*next_malloc)(size_t);
static void *(*next_calloc)(size_t, size_t);
static void *(*next_realloc)(void *, size_t);
static int (*next_memalign)(void **, size_t, size_t);

__attribute__((constructor)) static void begin(void) {
    const char *number = getenv("FAIL");
    next_malloc = dlsym(RTLD_NEXT, "malloc");
    next_calloc = dlsym(RTLD_NEXT, "calloc");
    next_realloc = dlsym(RTLD_NEXT, "realloc");
    next_memalign = dlsym(RTLD_NEXT, "posix_memalign");
    failing = number ? atol(number) : 0;
    asked = 0;
}

__attribute__((destructor)) static void end(void) {
    if (getenv("COUNT")) dprintf(2, "%ld\n", asked);
}

static int fails(void) { return failing >= 0 && ++asked == failing; }

extern void *__libc_malloc(size_t);
extern void *__libc_calloc(size_t, size_t);
extern void *__libc_realloc(void *, size_t);

void *malloc(size_t n) { return fails() ? NULL : next_malloc ? next_malloc(n) : __libc_malloc(n); }
void *calloc(size_t n, size_t m) { return fails() ? NULL : next_calloc ? next_calloc(n, m) : __libc_calloc(n, m); }
void *realloc(void *p, size_t n) { return fails() ? NULL : next_realloc ? next_realloc(p, n) : __libc_realloc(p, n); }
int posix_memalign(void **p, size_t a, size_t n) { return fails() ? ENOMEM : next_memalign(p, a, n); }
void *aligned_alloc(size_t a, size_t n) {
    void *p = NULL;
    return posix_memalign(&p, a, n) ? NULL : p;
}
C
cc -shared -fPIC -O1 -o "$folder/fail.so" "$folder/fail.c" -ldl || exit 1

# How a run of the job ends whose allocation with this number fails: its status, and what it wrote.
run() {
    FAIL=$2 LD_PRELOAD="$folder/fail.so" "$program" run <"$1" >"$folder/out" 2>/dev/null
    status=$?
}

bad=0
for job in examples/summa.job examples/chain.job examples/refused.job; do
    count=$(COUNT=1 FAIL=0 LD_PRELOAD="$folder/fail.so" "$program" run <"$job" 2>&1 >/dev/null)
    run "$job" 0
    cp "$folder/out" "$folder/wanted"
    wanted=$status
    ended=0
    whole=0
    number=1
    while [ "$number" -le "$count" ]; do
        run "$job" "$number"
        if [ "$status" = 9 ] && [ ! -s "$folder/out" ]; then
            ended=$((ended + 1))
        elif [ "$status" = "$wanted" ] && cmp -s "$folder/out" "$folder/wanted"; then
            whole=$((whole + 1))
        else
            echo "$job: allocation $number failed, status $status"
            bad=$((bad + 1))
        fi
        number=$((number + 1))
    done
    echo "$job: $count allocations; status 9 and nothing written in $ended runs, the whole text in $whole"
done
[ "$bad" = 0 ]
