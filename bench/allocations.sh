#!/usr/bin/env bash
# Makes each allocation of the example's run fail in turn, from the first on until a run needs no more of them. Each run
# is to end with status 0 or 5, and with status 5 to write nothing. Wants a C compiler.
set -eu
top=$(cd "$(dirname "$0")/.." && pwd)
work=$(mktemp -d)
trap 'rm -rf "$work"' EXIT
"$top/bin/lightrun" run <"$top/examples/first.json" >"$work/report"

# In place of the C library's calls: the one whose number is in FAIL_AT finds no memory, and makes the file FAILED.
cat >"$work/fail.c" <<'SHIM'
#define _GNU_SOURCE
#include <dlfcn.h>
#include <errno.h>
#include <fcntl.h>
#include <stdlib.h>
#include <unistd.h>

static int fails(void) {
    static long count;
    const char *at = getenv("FAIL_AT"), *mark = getenv("FAILED");
    if (!at || ++count != atol(at)) return 0;
    if (mark) close(open(mark, O_CREAT | O_WRONLY, 0600));
    errno = ENOMEM;
    return 1;
}
void *malloc(size_t size) {
    static void *(*next)(size_t);
    if (!next) next = dlsym(RTLD_NEXT, "malloc");
    return fails() ? NULL : next(size);
}
void *realloc(void *old, size_t size) {
    static void *(*next)(void *, size_t);
    if (!next) next = dlsym(RTLD_NEXT, "realloc");
    return fails() ? NULL : next(old, size);
}
int posix_memalign(void **out, size_t align, size_t size) {
    static int (*next)(void **, size_t, size_t);
    if (!next) next = dlsym(RTLD_NEXT, "posix_memalign");
    return fails() ? ENOMEM : next(out, align, size);
}
void *aligned_alloc(size_t align, size_t size) {
    static void *(*next)(size_t, size_t);
    if (!next) next = dlsym(RTLD_NEXT, "aligned_alloc");
    return fails() ? NULL : next(align, size);
}
SHIM
cc -shared -fPIC -o "$work/fail.so" "$work/fail.c" -ldl

bad=0
for ((n = 1; ; n++)); do
    rm -f "$work/failed"
    status=0
    FAIL_AT=$n FAILED=$work/failed LD_PRELOAD=$work/fail.so \
        "$top/crates/lightrun/out/lightrun" run <"$top/examples/first.json" >"$work/out" 2>/dev/null || status=$?
    [ -e "$work/failed" ] || break
    case $status in
        0) cmp -s "$work/out" "$work/report" || { echo "allocation $n: another report"; bad=1; } ;;
        5) [ ! -s "$work/out" ] || { echo "allocation $n: status 5, and something was written"; bad=1; } ;;
        *) echo "allocation $n: status $status"; bad=1 ;;
    esac
done
echo "$((n - 1)) allocations, each made to fail"
exit "$bad"
