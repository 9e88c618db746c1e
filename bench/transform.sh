#!/bin/sh
# Times `transform` on texts near the limits: seconds by the processor's clock, the best of three, and MB/s of the built
# program.
# Usage: bench/transform.sh        (after `./modpath transform examples/one.mod`, which builds the program)
top=$(dirname -- "$(readlink -f -- "$0")")/..
program=$top/crates/modpath/out/modpath
[ -x "$program" ] || { echo "no program at $program: run ./modpath transform examples/one.mod first" >&2; exit 1; }
work=$(mktemp -d) || exit 1
trap 'rm -rf "$work"' EXIT

# equations, terms in each, bytes of each name
products() {
  awk -v equations="$1" -v terms="$2" -v size="$3" 'BEGIN {
    for (i = 1; i <= equations; i++) { name[i] = "x" i; while (length(name[i]) < size) name[i] = name[i] "_" }
    printf "var"; for (i = 1; i <= equations; i++) printf " %s", name[i]; print ";"
    print "model;"
    for (i = 1; i <= equations; i++) {
      printf "%s = 1", name[i]
      for (k = 1; k <= terms; k++) printf "+2*%s(-1)", name[1 + (i + k) % equations]
      print ";"
    }
    print "end;" }'
}

# so many lines of comments, of both forms, before a small model
comments() {
  awk -v lines="$1" 'BEGIN {
    for (i = 1; i <= lines; i++) print (i % 2) ? "// a comment to the end of its line, as written by hand" : "/* a comment that has an end of its own, * and / in it */"
    print "var x; model; x = 2*x(-1); end;" }'
}

# so many quoted texts, which are tokens; none may stand here
texts() {
  awk -v texts="$1" 'BEGIN { printf "var x; model; x = 2*x(-1); end; "; for (i = 1; i <= texts; i++) print "\047a text in quotes, as for a name\047" }'
}

# so many equations of so many terms, each term with 500 parentheses open
parentheses() {
  awk -v equations="$1" -v terms="$2" 'BEGIN {
    for (k = 1; k <= 500; k++) { open = open "("; close_ = close_ ")" }
    printf "var"; for (i = 1; i <= equations; i++) printf " x%d", i; print ";"
    print "model;"
    for (i = 1; i <= equations; i++) {
      printf "x%d=1", i; for (k = 1; k <= terms; k++) printf "+%s1%s", open, close_; print ";"
    }
    print "end;" }'
}

# one expression with 500 parentheses open in so many places
places() {
  awk -v places="$1" 'BEGIN {
    printf "var x; model; x = "; for (k = 1; k <= 499; k++) printf "("
    printf "1"; for (i = 1; i <= places; i++) printf "+(x)"
    for (k = 1; k <= 499; k++) printf ")"; print "; end;" }'
}

# a sum of so many terms
sum() {
  awk -v terms="$1" 'BEGIN { printf "var x; model; x = 1"; for (i = 1; i < terms; i++) printf "+x"; print "; end;" }'
}

# so many locals, each reading the one before, of which an equation reads this one
locals() {
  awk -v locals="$1" -v read="$2" 'BEGIN {
    print "var x; model; # a0 = x;"
    for (i = 1; i <= locals; i++) printf "# a%d = a%d+1;\n", i, i - 1
    printf "x = a%d; end;\n", read }'
}

# so many locals, each the difference of one sum of so many terms
differences() {
  awk -v locals="$1" -v terms="$2" 'BEGIN {
    printf "var x; varexo e; model; # a = e"; for (i = 1; i < terms; i++) printf "+%d*e", i; print ";"
    for (i = 1; i <= locals; i++) printf "# b%d = diff(a);\n", i
    print "x = 1; end;" }'
}

# so many locals, each 500 differences inside one another
nested() {
  awk -v locals="$1" 'BEGIN {
    for (k = 1; k <= 500; k++) { open = open "diff("; close_ = close_ ")" }
    print "var x; parameters p; p = 1; model;"
    for (i = 1; i <= locals; i++) printf "# b%d = %sp%s;\n", i, open, close_
    print "x = 1; end;" }'
}

# so many equations, each with so many tags
tags() {
  awk -v equations="$1" -v tags="$2" 'BEGIN {
    printf "var"; for (i = 1; i <= equations; i++) printf " x%d", i; print ";"
    print "model;"
    for (i = 1; i <= equations; i++) {
      printf "[name=\047equation %d\047", i; for (k = 1; k <= tags; k++) printf ",note%d=\047a tag that is dropped\047", k
      printf "] x%d = 1;\n", i
    }
    print "end;" }'
}

# so many noted commands
notes() {
  awk -v notes="$1" 'BEGIN { print "var x; model; x = 1; end;"; for (i = 1; i <= notes; i++) print "rplot x, x;" }'
}

# name, wanted status
measure() {
  python3 - "$program" "$work/text.mod" "$1" "$2" <<'END'
import os, subprocess, sys
program, text, name, wanted = sys.argv[1:]
times = []
for turn in range(3):
    child = subprocess.Popen([program, "transform", text], stdout=subprocess.DEVNULL, stderr=subprocess.PIPE)
    told = child.stderr.read().decode()
    _, status, use = os.wait4(child.pid, 0)
    if os.waitstatus_to_exitcode(status) != int(wanted):
        sys.exit("%s: status %d: %s" % (name, os.waitstatus_to_exitcode(status), told))
    times.append(use.ru_utime + use.ru_stime)
size = os.path.getsize(text) / 1e6
print("%-44s status %s %8.2f MB %7.3f s %8.1f MB/s" % (name, wanted, size, min(times), size / max(min(times), 1e-3)))
open(os.path.join(os.path.dirname(text), "seconds"), "w").write(str(min(times)))
END
}

# what the last text took, against the seconds before
compare() {
  python3 - "$1" "$(cat "$work/seconds")" <<'END'
import sys
half, whole = max(float(sys.argv[1]), 1e-3), float(sys.argv[2])
print("  twice the products take %.2f times as long (at most 2.2), and %.3f s (at most 0.25)" % (whole / half, whole))
sys.exit(whole > 2.2 * half or whole > 0.25)
END
}

products 100 480 1 > "$work/text.mod"
measure "100 equations of 480 products" 0
half=$(cat "$work/seconds")
# a model has at most 200,000 operations, so that no text has twice these
products 200 480 1 > "$work/text.mod"
measure "200 equations of 480 products" 0
compare "$half" || late=1
products 200 480 36 > "$work/text.mod"
measure "the same, names of 36 bytes" 0
products 200 480 75 > "$work/text.mod"
measure "the same, names of 75 bytes" 0
comments 140000 > "$work/text.mod"
measure "comments" 0
texts 240000 > "$work/text.mod"
measure "quoted texts, no token of the grammar" 5
parentheses 200 40 > "$work/text.mod"
measure "500 ( open in 8,000 terms" 0
places 10000 > "$work/text.mod"
measure "500 ( open in 10,000 places, too high" 7
sum 1000000 > "$work/text.mod"
measure "a sum of 1,000,000 terms, too high" 7
locals 100000 0 > "$work/text.mod"
measure "100,000 locals, each reading the one before" 0
locals 100000 100000 > "$work/text.mod"
measure "the same, the last one read, too high" 7
differences 300000 100000 > "$work/text.mod"
measure "300,000 differences of 100,000 terms" 0
nested 2700 > "$work/text.mod"
measure "2,700 times 500 differences" 0
tags 200 1100 > "$work/text.mod"
measure "200 equations with 1,100 tags each" 0
tags 1 220000 > "$work/text.mod"
measure "an equation with 220,000 tags" 0
notes 690000 > "$work/text.mod"
measure "690,000 noted commands" 0
exit ${late:-0}
