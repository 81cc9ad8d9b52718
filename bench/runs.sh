#!/bin/bash
# Measures runs of images beside runs of the copy rule and of push-enter code:
#     bench/runs.sh
# Prints for each example the steps of `copy`, those of `trace`, the instructions of `run`, and how many of these come to each step; then the user
# time of `run` and of `copy` on longer programs, and of `build` on the largest; and what cells of sequences take. FORSYTHE names another built program than bin/forsythe.
set -eu
. "$(dirname "$0")/measured.sh"

examples=$here/../examples

# The last number of its kind in the notes.
noted() {
    sed -n "s/.*$1 \([0-9][0-9]*\).*/\1/p" "$work/notes" | tail -n 1
}

all_copied=0 all_entered=0 all_executed=0
row() {
    printf '%-20s %8s %8s %10s %8s %8s\n' "$@"
}
quotient() {
    awk -v n="$1" -v k="$2" 'BEGIN { printf "%.1f", n / k }'
}

row example copy trace run 'a copy' 'a trace'
for text in "$examples"/*.fy; do
    "$program" copy "$text" --steps=1000000 >"$work/output" 2>"$work/notes" </dev/null || true
    copied=$(noted steps)
    "$program" trace "$text" --steps=1000000 >"$work/output" 2>"$work/notes" </dev/null || true
    entered=$(grep -c -E '^([0-9]+|-) ' "$work/notes")
    "$program" run "$text" --image="$work/image" >"$work/output" 2>"$work/notes" </dev/null || true
    executed=$(noted instructions)
    row "$(basename "$text" .fy)" "$copied" "$entered" "$executed" "$(quotient "$executed" "$copied")" "$(quotient "$executed" "$entered")"
    all_copied=$((all_copied + copied)) all_entered=$((all_entered + entered)) all_executed=$((all_executed + executed))
done
row all "$all_copied" "$all_entered" "$all_executed" "$(quotient "$all_executed" "$all_copied")" "$(quotient "$all_executed" "$all_entered")"

# The user time of the program on words, in seconds.
user_time() {
    { time "$program" "$@" >"$work/output" 2>"$work/notes" </dev/null; } 2>&1 || true
}

measure() {
    cat >"$work/text.fy"
    printf '%-44s run %s s  copy %s s\n' "$1" "$(user_time run "$work/text.fy" --image="$work/image" --steps=1000000000000)" "$(user_time copy "$work/text.fy" --steps=1000000000)"
}

echo
printf 'new i:int := 0 in while i < 100000 do i := i + 1' | measure 'a loop of 100,000 turns'
printf 'new i:int := 100000 in letrec f : comm where f == if i = 0 then skip else (i := i - 1; f) in f' | measure 'a recursion of 100,000 calls'
printf 'let sum == \\i:intvar. \\n:int. \\e:int. \\r:intacc. new s:int := 0 in (i := 1; while i <= n do (s := s + e; i := i + 1); r := s) in new i:int := 0 in new r:int := 0 in (sum i 10000 (i*i) r; putint r)' | measure 'sums by name'

for size in 4000 8000 16300; do
    { printf 'skip'; repeated '; putint 7' "$size"; } >"$work/text.fy"
    printf '%-44s build %s s\n' "$size outputs in sequence" "$(user_time build "$work/text.fy" --image="$work/image")"
done

# What cells of sequences take, by the instructions of two programs: one makes a thousand cells more, or names a cell a hundred times where the other
# names a variable.
executed() {
    cat >"$work/text.fy"
    "$program" run "$work/text.fy" --image="$work/image" --steps=1000000000000 >"$work/output" 2>"$work/notes" </dev/null || true
    noted instructions
}
made() {
    printf 'newintseq %s (\\a: intvarseq. skip)' "$1" | executed
}
named() {
    { printf 'newintseq 9 (\\a: intvarseq. new v: int := 0 in (skip'; repeated "; $1" 100; printf '))'; } | executed
}
echo
printf '%-44s %s instructions\n' 'a cell that is made' "$(quotient $(($(made 2000) - $(made 1000))) 1000)" \
    'a cell that is read, more than a variable' "$(quotient $(($(named 'v := a 8') - $(named 'v := v'))) 100)" \
    'a cell that is written, more than a variable' "$(quotient $(($(named 'a 8 := 7') - $(named 'v := 7'))) 100)"
printf 'newintseq 1000000 (\\a: intvarseq. (a 999999 := 7; putint (a 999999)))' | measure 'a sequence of 1,000,000 cells'
