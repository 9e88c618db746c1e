#!/bin/bash
# Runs the whole gate from nothing, and prints the processor minutes that it took: by user and system time, and how they
# were shared among the proofs of crates, the proofs of tests and the must-fail edits. The shares come from a look at the
# prover's processes every five seconds, so the last seconds of each are missed, and their sum is less than the whole.
# Usage: bench/gate.sh
cd -- "$(dirname -- "$(readlink -f -- "$0")")/.." || exit 1
work=$(mktemp -d) || exit 1
trap 'rm -rf "$work"' EXIT

# the prover's processes below this one: number, seconds so far, what they do
look() {
  ps -e -o pid=,ppid=,cputimes=,args= | awk -v gate="$1" '
    { parent[$1] = $2; if ($4 ~ /\/rattle$/) { seconds[$1] = $3; kind[$1] = / --test( |$)/ ? "tests" : "proofs" } }
    END {
      for (one in kind) {
        up = one; while (up in parent && up != gate) up = parent[up]
        if (up == gate) print one, seconds[one], kind[one]
      }
    }' | while read -r one seconds kind; do
    case $(readlink "/proc/$one/cwd" 2> /dev/null) in */rt-edit*) kind=edits ;; esac
    echo "$one $seconds $kind"
  done
}

begun=$(date +%s)
{ TIMEFORMAT='%U %S'; time rt ci --anew 2>&4; } 4>&2 2> "$work/time" &
gate=$!
while kill -0 "$gate" 2> /dev/null; do
  look "$gate" >> "$work/looks"
  sleep 5
done
wait "$gate"
status=$?
ended=$(date +%s)

awk -v clock=$((ended - begun)) '{
  printf "minutes: %.1f of the processor (user %.1f, system %.1f), %.1f of the clock\n", ($1 + $2) / 60, $1 / 60, $2 / 60, clock / 60 }' "$work/time"
awk '{ if ($2 > most[$1 " " $3]) most[$1 " " $3] = $2 }
  END {
    for (one in most) { split(one, part, " "); sum[part[2]] += most[one] }
    printf "processor minutes seen: proofs %.1f, tests %.1f, edits %.1f\n", sum["proofs"] / 60, sum["tests"] / 60, sum["edits"] / 60
  }' "$work/looks"
exit "$status"
