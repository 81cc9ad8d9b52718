#!/bin/bash
# Measures units beside whole texts:
#     bench/units.sh
# Prints the user time of `unit` on 64 units, of `join` and of `link` of them, and of `build` on the joined text; then the same of one unit whose
# source has 1,048,576 bytes; then the user time of `unit` on units that use an import of many fields or paths. FORSYTHE names another built program than bin/forsythe.
set -eu
. "$(dirname "$0")/measured.sh"

# The user time of the program on words, in seconds.
user_time() {
    { time "$program" "$@" >"$work/output" 2>"$work/notes" </dev/null; } 2>&1 || { cat "$work/notes" >&2; exit 1; }
}

# The user time of `unit` on all texts of the list, in seconds.
all_units() {
    while read -r name; do
        "$program" unit "$name.fy" "$name" >"$work/output" 2>"$work/notes" || { cat "$work/notes" >&2; exit 1; }
    done <list
}

measure() {
    units=$({ time all_units; } 2>&1)
    printf '%-34s unit %s s  join %s s  link %s s  build %s s\n' "$1" "$units" "$(user_time join list joined)" "$(user_time link list linked)" "$(user_time build joined --image=built)"
}

cd "$work"

# Each of the units but the last calls the one before it in a sum of so many terms.
terms=120
for i in $(seq 0 62); do
    before=$((i - 1))
    {
        if [ "$i" -gt 0 ]; then
            printf 'f%s : int -> int, f%s : int -> int == \\x: int. f%s x' "$before" "$i" "$before"
        else
            printf 'f0 : int -> int == \\x: int. x'
        fi
        repeated ' + x * 3 rem 7' "$terms"
    } >"f$i.fy"
    echo "f$i"
done >list
printf 'f62 : int -> int, main : comm == putint (f62 5)' >main.fy
echo main >>list
measure '64 units'

# One unit with as many bytes as a source may have: what its phrase doesn't fill is a comment.
{
    printf 'main : comm == skip'
    repeated '; putint 7' 16300
} >body
{
    cat body
    printf '{'
    repeated ' ' $((1048576 - $(wc -c <body) - 2))
    printf '}'
} >main.fy
echo main >list
# The joined text has three bytes more than what stands behind the `==` of the header.
measure 'a unit of 1,048,576 bytes'

# Pieces with the numbers from a first to a last one.
each() {
    for i in $(seq "$2" "$3" "$4"); do [ "$i" = "$2" ] || printf ' & '; printf "$1" "$i"; done
}

# Units that use an import in each command.
{ printf 'x : '; each '(a%s: int)' 1 1 2000; printf ', m : comm == putint (x.a1)'; repeated '; putint (x.a2000)' 899; } >fields.fy
printf '%-34s unit %s s\n' '900 uses of 2,000 fields' "$(user_time unit fields.fy fields)"
{
    printf 'x : '
    each '(a%s: int)' 1 1 2000
    printf ', f : ('
    each '(a%s: int)' 2000 -1 1
    printf ') -> comm, m : comm == skip'
    for i in $(seq 200); do printf '; f (x, c%s == 1)' "$i"; done
} >calls.fy
printf '%-34s unit %s s\n' '200 calls on 2,000 fields' "$(user_time unit calls.fy calls)"
