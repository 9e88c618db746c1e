#!/bin/sh
# Runs the built program with each of its first 200 allocations failing, one at a time, on a text with macros and on a model:
# each such run is to end with status 13, nothing on standard output and the line of NoMemory, until no allocation is left.
# Usage: bench/no_memory.sh        (after `./modpath expand examples/two_countries.mod`, which builds the program; wants cc)
top=$(dirname -- "$(readlink -f -- "$0")")/..
program=$top/crates/modpath/out/modpath
[ -x "$program" ] || { echo "no program at $program: run ./modpath expand examples/two_countries.mod first" >&2; exit 1; }
work=$(mktemp -d) || exit 1
trap 'rm -rf "$work"' EXIT
cat > "$work/failing.c" <<'C'
#define _GNU_SOURCE
#include <dlfcn.h>
#include <errno.h>
#include <stdlib.h>
static long count;
static int fails(void) {
  static long at = -1;
  if (at < 0) { const char *s = getenv("FAILING"); at = s ? atol(s) : 0; }
  return ++count == at;
}
#define NEXT(name) static __typeof__(name) *next; if (!next) next = dlsym(RTLD_NEXT, #name)
void *malloc(size_t n) { NEXT(malloc); if (fails()) { errno = ENOMEM; return 0; } return next(n); }
void *realloc(void *p, size_t n) { NEXT(realloc); if (fails()) { errno = ENOMEM; return 0; } return next(p, n); }
void *aligned_alloc(size_t a, size_t n) { NEXT(aligned_alloc); if (fails()) { errno = ENOMEM; return 0; } return next(a, n); }
int posix_memalign(void **p, size_t a, size_t n) { NEXT(posix_memalign); if (fails()) return ENOMEM; return next(p, a, n); }
C
cc -shared -fPIC -O1 -o "$work/failing.so" "$work/failing.c" -ldl || exit 1
cat > "$work/m" <<'M'
@#define A = ["x", "y"] + ["z"]
@#for i in A
@#define B = A[1] + i
@#if i in A && A == A
var @{B}@{[1, i]};
@#endif
@#endfor
M

# the job and its file
tried() {
  "$program" "$@" > "$work/whole"
  failed=0 wrong=0 n=1
  while [ "$n" -le 200 ]; do
    FAILING=$n LD_PRELOAD=$work/failing.so "$program" "$@" > "$work/out" 2> "$work/err"
    status=$?
    if [ "$status" = 0 ] && cmp -s "$work/out" "$work/whole"; then break; fi
    failed=$((failed + 1))
    if [ "$status" != 13 ] || [ -s "$work/out" ] || [ "$(cat "$work/err")" != "modpath: 13 NoMemory" ]; then
      wrong=$((wrong + 1))
      echo "$1: allocation $n: status $status, $(wc -c < "$work/out") bytes, $(cat "$work/err")"
    fi
    n=$((n + 1))
  done
  echo "$1: $failed runs with a failing allocation, $wrong of them wrong"
}

tried expand "$work/m"
tried transform "$top/examples/one.mod"
tried derive "$top/examples/growth.mod"
