#!/bin/bash
# Measures runs of push-enter code beside runs of the copy rule:
#     bench/traces.sh [ROUNDS]
# Prints for each program the least user time of 100,000 steps by `trace`, with the lines that it writes, and by `copy`. FORSYTHE
# names another built program than bin/forsythe.
set -eu
. "$(dirname "$0")/measured.sh"

# The user time of a command on the text, in seconds.
user_time() {
    { time "$program" "$1" "$work/text.fy" --steps=100000 >"$work/output" 2>"$work/notes" </dev/null; } 2>&1 || true
}

# The least of so many.
least_time() {
    : >"$work/times"
    for _ in $(seq "$rounds"); do
        user_time "$1" >>"$work/times"
    done
    sort -n <"$work/times" | head -n 1
}

# Measures the text at standard input under a name.
measure() {
    cat >"$work/text.fy"
    printf '%-44s trace %s s  copy %s s\n' "$1" "$(least_time trace)" "$(least_time copy)"
}

printf 'new i:int := 0 in while i < 1000000 do i := i + 1' | measure 'a loop with a small body'
for size in 10 100 1000 10000; do
    { printf 'new i:int := 0 in let p == \\c:comm. (c'; repeated '; skip' "$size"; printf ') in while true do (i := i + 1; p (i := i + 1))'; } | measure "calls of a body of $size commands"
done
for size in 10 100 1000; do
    { printf 'new i:int := 1000000 in letrec f : comm where f == if i = 0 then (skip'; repeated '; skip' "$size"; printf ') else (i := i - 1; f) in f'; } | measure "a recursion with $size commands not run"
done
