#!/bin/sh
# Times the evaluation of some 2,000 nodes, as points and as intervals, and a chain of squares. The times are those of
# 10,000 evaluations more, so that what comes before them does not count. Best of five, by the processor's clock.
# Usage: bench/evaluate.sh        (after `rt run -- squares` in crates/mp_bench, which builds the program)
top=$(dirname -- "$(readlink -f -- "$0")")/..
program=$top/crates/mp_bench/out/mp_bench
[ -x "$program" ] || { echo "no program at $program: run rt run -- squares in crates/mp_bench first" >&2; exit 1; }
python3 - "$program" <<'END'
import os, subprocess, sys
MORE = 10000

def best(*words):
    """The least time of five runs with these words, and what they write."""
    times = []
    for turn in range(5):
        child = subprocess.Popen([sys.argv[1], *words], stdout=subprocess.PIPE, text=True)
        told = child.stdout.read()
        _, status, use = os.wait4(child.pid, 0)
        if status != 0:
            sys.exit("status %d" % status)
        times.append(use.ru_utime + use.ru_stime)
    return min(times), told

for kind, wanted in ("points", 25), ("intervals", 60):
    once, told = best(kind, "0")
    more, _ = best(kind, str(MORE))
    print("%-10s %7.1f ns a node (wanted: %d)" % (kind, (more - once) * 1e9 / (MORE * int(told.split()[0])), wanted))
print("31 squares %7.3f s" % best("squares")[0])
END
