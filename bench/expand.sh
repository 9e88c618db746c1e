#!/bin/sh
# Times `expand` on texts near the limits: seconds, MB of memory, and MB of text written, or the refusal.
# Usage: bench/expand.sh        (after `./modpath expand examples/two_countries.mod`, which builds the program)
top=$(dirname -- "$(readlink -f -- "$0")")/..
program=$top/crates/modpath/out/modpath
[ -x "$program" ] || { echo "no program at $program: run ./modpath expand examples/two_countries.mod first" >&2; exit 1; }
work=$(mktemp -d) || exit 1
trap 'rm -rf "$work"' EXIT
cd "$work" || exit 1

# the best of three turns over the file m, under this title
measure() {
  best=
  for turn in 1 2 3; do
    /usr/bin/time -f '%e %M' -o spent "$program" expand m > out 2> err
    best=$(tail -1 spent | awk -v best="$best" '{ split(best, b); print (best == "" || $1 < b[1]) ? $0 : best }')
  done
  echo "$best" | awk -v title="$1" -v told="$(cat err)" -v bytes="$(wc -c < out)" '{
    printf "%-52s %7.2f s %7.0f MB   %s\n", title, $1, $2 / 1e3, (told == "") ? sprintf("%.2f MB", bytes / 1e6) : told }'
}

# a title, the lines before the loops, and a line of 1,000,000 turns
turns() {
  printf '%s\n@#for i in 1:10\n@#for j in 1:99999\n%s\n@#endfor\n@#endfor\n' "$2" "$3" > m
  measure "$1"
}

awk 'BEGIN { for (i = 0; i < 70; i++) line = line "x"; printf "@#for i in 1:100000\n%s@{i}\n@#endfor\n", line }' > m
measure "a line of 70 bytes and a value, 100,000 turns"

awk 'BEGIN { for (i = 0; i < 8300000; i++) printf "\n" }' > m
measure "8.3 MB of newlines"

awk 'BEGIN { for (i = 0; i < 440000; i++) printf "@#ifdef a\n\n@#endif\n" }' > m
measure "8.4 MB of groups, 440,000"

awk 'BEGIN { printf "@#define A = 1"; for (i = 0; i < 2790000; i++) printf "+-1"; print "" }' > m
measure "a sum of 8.4 MB, 2,790,000 terms"

awk 'BEGIN { printf "@#include \"m\"\n"; for (i = 0; i < 8300000; i++) printf "\n" }' > m
measure "itself included, and 8.3 MB of newlines"

printf '@#define A = 1:100000\n@#for i in 1:20000\n@{A[i]}\n@#endfor\n' > m
measure "an element of 100,000, 20,000 turns"
turns "an element of 100,000, 1,000,000 turns" '@#define A = 1:100000' '@{A[j]}'

printf '@#define A = []\n@#for i in 1:20000\n@#define A = A + [i]\n@#endfor\n' > m
measure "an array that grows by one, 20,000 turns"

turns "i in A, 1,000 elements, 1,000,000 turns" '@#define A = 1:1000' '@#define B = i in A'
turns "A == A, 1,000 elements, 1,000,000 turns" '@#define A = 1:1000' '@#define B = A == A'
turns "@#if A[1], 1,000 elements, 1,000,000 turns" '@#define A = 1:1000' '@#define B = 0
@#if A[1]
@#endif'

printf '@#define A = "x"\n@#for i in 1:23\n@#define A = A + A\n@#endfor\n' > m
measure "a text of 8,388,608 bytes"
printf '@#define A = "x"\n@#for i in 1:24\n@#define A = A + A\n@#endfor\n' > m
measure "a text that passes the limit"
awk 'BEGIN { printf "@#define A = \"x\"\n@#for i in 1:22\n@#define A = A + A\n@#endfor\n@#define B = [A + A"; for (i = 1; i < 500; i++) printf ", A + A"; print "]" }' > m
measure "500 texts of 8,388,608 bytes in an array"
