#!/bin/bash
# Measures runs of the copy rule:
#     bench/copies.sh [ROUNDS]
# Prints for each program the steps that it made, the least user time and the steps a second. FORSYTHE names another
# built program than bin/forsythe.
set -eu
. "$(dirname "$0")/measured.sh"

# The user time of `copy` of the text on the input, in seconds.
user_time() {
    { time "$program" copy "$work/text.fy" --steps=100000 >"$work/output" 2>"$work/notes" <"$work/input"; } 2>&1 || true
}

# Measures the text at standard input under a name.
measure() {
    cat >"$work/text.fy"
    : >"$work/times"
    for _ in $(seq "$rounds"); do
        user_time >>"$work/times"
    done
    least=$(sort -n <"$work/times" | head -n 1)
    steps=$(sed -n 's/^steps \([0-9]*\) peak .*/\1/p' "$work/notes")
    printf '%-44s %7s steps  %s s  %s a second\n' "$1" "$steps" "$least" "$(awk -v n="$steps" -v t="$least" 'BEGIN { if (t > 0) printf "%d", n / t; else printf "-" }')"
}

: >"$work/input"
printf 'new i:int := 0 in while i < 1000000 do i := i + 1' | measure 'a loop with a small body'
cat "$here/../examples/sum.fy" | sed 's/sum i 10/sum i 1000/' | measure 'sums by name'
cat "$here/../examples/recursion.fy" | sed 's/product 5/product 20/; s/even 10/even 1000/' | measure 'recursion'
repeated 'a line of text' 4000 >"$work/input"
printf 'new c:int := 0 in (read c; while c >= 0 do (putchar (chr c); read c))' | measure 'a text that is read and written'
: >"$work/input"
for size in 10 100 1000 10000; do
    { printf 'new i:int := 0 in let p == \\c:comm. (c'; repeated '; skip' "$size"; printf ') in while true do (i := i + 1; p (i := i + 1))'; } | measure "calls of a body of $size commands"
done
for size in 10 100 1000; do
    { printf 'new i:int := 1000000 in letrec f : comm where f == if i = 0 then (skip'; repeated '; skip' "$size"; printf ') else (i := i - 1; f) in f'; } | measure "a recursion with $size commands not run"
done
