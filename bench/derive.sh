#!/bin/sh
# Times `derive`: all derivatives of 100 and of 200 equations with 1,000 operations each, by 24 places each, and texts whose
# derivatives are too many, which are refused before one is built. Seconds and MB of memory of the built program, best of
# three.
# Usage: bench/derive.sh        (after `./modpath transform examples/one.mod`, which builds the program)
top=$(dirname -- "$(readlink -f -- "$0")")/..
program=$top/crates/modpath/out/modpath
[ -x "$program" ] || { echo "no program at $program: run ./modpath transform examples/one.mod first" >&2; exit 1; }
work=$(mktemp -d) || exit 1
trap 'rm -rf "$work"' EXIT

# so many equations, each the sum of 249 terms of four operations over eight variables, now, before and later
equations() {
  awk -v equations="$1" 'BEGIN {
    shift[0] = "(-1)"; shift[1] = ""; shift[2] = "(+1)"
    printf "var"; for (i = 1; i <= equations; i++) printf " x%d", i; print ";"
    print "model;"
    for (i = 1; i <= equations; i++) {
      printf "x%d = 1", i
      for (k = 1; k <= 249; k++) {
        a = 1 + (i + k) % 8; b = 1 + (i + 3 * k) % 8
        printf "+0.5*x%d%s*x%d%s/%d", a, shift[k % 3], b, shift[int(k / 3) % 3], k
      }
      print "+1+1+1;"
    }
    print "end;" }'
}

# so many locals, each the square of the one before
squares() {
  awk -v squares="$1" 'BEGIN {
    printf "var x; model; # b1 = x*x;"
    for (n = 2; n <= squares; n++) printf " # b%d = b%d*b%d;", n, n - 1, n - 1
    printf " b%d = 0; end;\n", squares }'
}

measure() {
  python3 - "$program" "$1" "$2" <<'END'
import os, subprocess, sys
program, text, name = sys.argv[1:]
times, memory = [], 0
for turn in range(3):
    child = subprocess.Popen([program, "derive", text], stdout=open(text + ".out", "w"), stderr=subprocess.PIPE)
    told = child.stderr.read().decode()
    _, status, use = os.wait4(child.pid, 0)
    times.append(use.ru_utime + use.ru_stime)
    memory = max(memory, use.ru_maxrss / 1024)
print("%-40s %8.2f MB written %8.2f s %6.0f MB  %s" % (name, os.path.getsize(text + ".out") / 1e6, min(times), memory, told.strip()))
END
}

equations 100 > "$work/half"
equations 200 > "$work/whole"
squares 16 > "$work/squares"
squares 17 > "$work/many"
measure "$work/half" "100 equations of 1,000 operations"
measure "$work/whole" "200 equations of 1,000 operations"
measure "$work/squares" "16 squares in one another"
measure "$work/many" "17 squares in one another, refused"
