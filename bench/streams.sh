#!/bin/sh
# Tries the built program's streams: the result goes to standard output and the fault line to standard error; a full
# device and a closed pipe end with status 12. Prints each try and ends with status 1 where one fails.
# Usage: bench/streams.sh        (after `./modpath expand examples/two_countries.mod`, which builds the program)
top=$(dirname -- "$(readlink -f -- "$0")")/..
program=$top/crates/modpath/out/modpath
model=$top/examples/two_countries.mod
[ -x "$program" ] || { echo "no program at $program: run ./modpath expand examples/two_countries.mod first" >&2; exit 1; }
work=$(mktemp -d) || exit 1
trap 'rm -rf "$work"' EXIT
failed=0

# a name, what is wanted, what came
try() {
  if [ "$2" = "$3" ]; then echo "ok      $1"; else echo "FAILED  $1: wanted '$2', got '$3'"; failed=1; fi
}

"$program" expand "$model" > "$work/out" 2> "$work/err"
try "a result: status" 0 $?
try "a result: standard output has it" "$(cat "$model")" "$(cat "$work/out")"
try "a result: standard error is empty" "" "$(cat "$work/err")"

"$program" expand "$work/none" > "$work/out" 2> "$work/err"
try "an absent file: status" 3 $?
try "an absent file: standard output is empty" "" "$(cat "$work/out")"
try "an absent file: standard error has the line" "modpath: 3 Absent name=$work/none" "$(cat "$work/err")"

"$program" expand "$model" > /dev/full 2> "$work/err"
try "a full device: status" 12 $?
try "a full device: the line" "modpath: 12 WriteFault count=1" "$(cat "$work/err")"

# The pipe's reader is gone before the program writes; SIGPIPE is ignored, so that the write fails.
mkfifo "$work/pipe"
(trap '' PIPE; exec 3<> "$work/pipe" 4> "$work/pipe" 3<&-; exec "$program" expand "$model" >&4 2> "$work/err")
try "a closed pipe: status" 12 $?
try "a closed pipe: the line" "modpath: 12 WriteFault count=1" "$(cat "$work/err")"

"$program" expand "$work/none" > "$work/out" 2> /dev/full
try "no room for the line: status" 3 $?
try "no room for the line: standard output is empty" "" "$(cat "$work/out")"

"$program" expand "$work" > "$work/out" 2> "$work/err"
try "a folder: status" 11 $?
try "a folder: the line" "modpath: 11 ReadFault count=1" "$(cat "$work/err")"

if [ "$(id -u)" -ne 0 ]; then
  : > "$work/closed" && chmod 0 "$work/closed"
  "$program" expand "$work/closed" > "$work/out" 2> "$work/err"
  try "a forbidden file: status" 11 $?
fi

wrong=$(printf 'A=\377')
"$program" expand "$model" "$wrong" > "$work/out" 2> "$work/err"
try "a word that is not text: status" 2 $?
try "a word that is not text: its number" "modpath: 2 Words word=3" "$(cat "$work/err")"

exit $failed
