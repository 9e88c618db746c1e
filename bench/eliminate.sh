#!/bin/sh
# Times elimination of large bands by the built program.
# Usage: bench/eliminate.sh        (after `rt run -- squares` in crates/mp_bench, which builds the program)
top=$(dirname -- "$(readlink -f -- "$0")")/..
program=$top/crates/mp_bench/out/mp_bench
[ -x "$program" ] || { echo "no program at $program: run rt run -- squares in crates/mp_bench first" >&2; exit 1; }

# the best of five runs, in seconds of the clock and of the processor, and the greatest memory in MB
measure() {
  what=$1
  shift
  python3 - "$what" "$program" "$@" <<'END'
import os, subprocess, sys, time
runs = []
for turn in range(5):
    begun = time.perf_counter()
    child = subprocess.Popen(sys.argv[2:], stdout=subprocess.DEVNULL)
    _, status, use = os.wait4(child.pid, 0)
    if status != 0:
        sys.exit("%s: status %d" % (sys.argv[1], status))
    runs.append((time.perf_counter() - begun, use.ru_utime + use.ru_stime, use.ru_maxrss / 1024))
clock, processor, memory = (min(run[k] for run in runs) for k in range(3))
print("%-54s %7.3f s %7.3f s %7.1f MB" % (sys.argv[1], clock, processor, memory))
END
}

echo "                                                           clock processor    memory"
measure "full band, 500 periods of 22 rows" full 500 22
measure "full band, 1,000 periods of 22 rows" full 1000 22
measure "four to six entries a row, 500 periods of 22 rows" near 500 22
measure "four to six entries a row, 1,000 periods of 22 rows" near 1000 22
