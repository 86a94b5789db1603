#!/usr/bin/env bash
# Prints messages per second of two light threads that send each other messages on one machine thread, with the log of what was
# run kept, beside those of a ring alone, with their ratio: 1 and 8 at a time. Then the nanoseconds of a poll that finds nothing,
# among 64 light threads without a poller, and how many allocations twice as many messages or polls take more. The word is the
# number of messages a run. Wants a C compiler.
set -euo pipefail
messages=${1:-1000000}
bench=$(cd "$(dirname "$0")" && pwd)
crate=$bench/../crates/thread_bench
(cd "$crate" && rt run -- measure "$messages")

work=$(mktemp -d)
trap 'rm -rf "$work"' EXIT
# In place of the C library's calls: they are counted, and the file COUNT gets their number.
cat >"$work/count.c" <<'SHIM'
#define _GNU_SOURCE
#include <dlfcn.h>
#include <stdio.h>
#include <stdlib.h>

static long count;
static void *next(const char *name) {
    __atomic_add_fetch(&count, 1, __ATOMIC_RELAXED);
    return dlsym(RTLD_NEXT, name);
}
void *malloc(size_t size) { return ((void *(*)(size_t))next("malloc"))(size); }
void *realloc(void *old, size_t size) { return ((void *(*)(void *, size_t))next("realloc"))(old, size); }
int posix_memalign(void **out, size_t align, size_t size) {
    return ((int (*)(void **, size_t, size_t))next("posix_memalign"))(out, align, size);
}
void *aligned_alloc(size_t align, size_t size) { return ((void *(*)(size_t, size_t))next("aligned_alloc"))(align, size); }
__attribute__((destructor)) static void tell(void) {
    long told = count;
    FILE *file = getenv("COUNT") ? fopen(getenv("COUNT"), "w") : NULL;
    if (!file) return;
    fprintf(file, "%ld\n", told);
    fclose(file);
}
SHIM
cc -O2 -shared -fPIC -o "$work/count.so" "$work/count.c" -ldl

# How many allocations a run takes.
allocations() {
    COUNT=$work/count LD_PRELOAD=$work/count.so "$crate/out/thread_bench" "$@" >/dev/null
    cat "$work/count"
}
for how in singly runs idle; do
    few=$(allocations "$how" "$messages")
    many=$(allocations "$how" $((2 * messages)))
    echo "$how: $few allocations for $messages, $((many - few)) more for twice as many"
done
