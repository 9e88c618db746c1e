#!/bin/sh
# Times the least matching and the blocks of 200 equations, full of variables, in a chain, a ring and a triangle: at most
# half a second and 100 MB for both together. Exit status 1 where one takes more. Best of five, in seconds of the processor.
# Usage: bench/blocks.sh        (after `rt run -- time dense 5` in crates/mp_block_bench, which builds the program)
top=$(dirname -- "$(readlink -f -- "$0")")/..
program=$top/crates/mp_block_bench/out/mp_block_bench
[ -x "$program" ] || { echo "no program at $program: run rt run -- time dense 5 in crates/mp_block_bench first" >&2; exit 1; }
work=$(mktemp -d) || exit 1
trap 'rm -rf "$work"' EXIT
status=0

# the least time of a run of 200 equations of this shape, and its memory
measure() {
  best=
  for turn in 1 2 3 4 5; do
    /usr/bin/time -o "$work/time" -f '%U %S %M' "$program" time "$1" 200 > "$work/out" || { echo "refused" >&2; exit 1; }
    best=$(awk -v best="$best" '{ t = $1 + $2; print (best == "" || t < best) ? t : best; kilobytes = $3 } END { print kilobytes > "'"$work/memory"'" }' "$work/time")
  done
}

for shape in dense chain ring triangle; do
  measure "$shape"
  awk -v shape="$shape" -v t="$best" -v told="$(cat "$work/out")" '{
    megabytes = $1 * 1.024 / 1000
    missed = t > 0.5 || megabytes > 100
    printf "200 equations, %-8s  %5.2f s %7.1f MB  %s%s\n", shape, t, megabytes, told, missed ? "  MISSED" : ""
    exit missed }' "$work/memory" || status=1
done
exit $status
