#!/bin/bash
# Measures `check` on texts at the limits and past them:
#     bench/texts.sh [ROUNDS]
# Prints for each text the least user time, its bytes and what `check` says. FORSYTHE names another built program
# than bin/forsythe.
set -eu
. "$(dirname "$0")/measured.sh"

# The user time of `check` of a file, in seconds.
user_time() {
    { time "$program" check "$1" >"$work/output" 2>"$work/notes" </dev/null; } 2>&1 || true
}

# Measures the text at standard input under a name.
measure() {
    cat >"$work/text.fy"
    : >"$work/times"
    for _ in $(seq "$rounds"); do
        user_time "$work/text.fy" >>"$work/times"
    done
    printf '%-42s %8s bytes  %s s  %s\n' "$1" "$(wc -c <"$work/text.fy")" "$(sort -n <"$work/times" | head -n 1)" "$(cat "$work/output" "$work/notes")"
}

# Parentheses to the greatest nesting round `skip`.
nested=$(repeated '(' 255)skip$(repeated ')' 255)

{ repeated ' ' 1048572; printf skip; } | measure '1,048,576 bytes'
{ repeated ' ' 1048573; printf skip; } | measure '1,048,577 bytes'
{ repeated "$nested;" 511; printf '%s' "$nested"; } | measure '262,143 tokens, nested to the limit'
{ repeated 'skip;' 131072; printf skip; } | measure '262,145 tokens'
{ repeated 'skip;' 100000; printf skip; } | measure 'a sequence of 100,001 commands'
{ printf 'putint('; repeated '1+' 130000; printf '1)'; } | measure 'a sum of 130,001 numbers'
{ printf 'putint '; repeated 'f ' 200000; } | measure '200,001 names applied'
{ repeated 'skip;' 32748; printf skip; } | measure '32,749 commands'
{ repeated 'skip;' 32749; printf skip; } | measure '32,750 commands'
{ printf 'putbool('; repeated 'not ' 502; printf 'true)'; } | measure '502 prefix operators'
{ printf 'putbool('; repeated 'not ' 520; printf 'true)'; } | measure '520 prefix operators'
{ repeated '\\x: int | bool. ' 14; printf skip; } | measure '14 abstractions of two alternatives'
{ repeated '\\x: int | bool. ' 17; printf skip; } | measure '17 abstractions of two alternatives'
{ printf '\\x: int'; repeated ' & int' 4094; printf '. skip'; } | measure 'a type of 4,096 nodes'
{ printf 'lettype t0 == int in '; for i in $(seq 60); do printf 'lettype t%s == t%s & t%s in ' "$i" $((i - 1)) $((i - 1)); done; printf skip; } | measure 'a type doubled 60 times'
{ repeated '(\\x: int | bool. ' 13; printf '(skip; skip)'; repeated ') 1' 13; } | measure '13 calls, 49,000 visits'
# A piece for each of the numbers from a first to a last one, by a format that takes the number.
each() {
    for i in $(seq "$2" "$3" "$4"); do [ "$i" = "$2" ] || printf ' & '; printf "$1" "$i"; done
}
# Types of so many fields, each with a name of its own.
fields() {
    each '(a%s: int)' 1 1 "$1"
}
for size in 10 100 1000 2000; do
    calls=$((4000000 / (4 * size + 200)))
    [ "$calls" -le 4000 ] || calls=4000
    { printf 'lettype t == '; fields "$size"; printf ' in let p == \\f: t -> comm. \\x: t. (f x'; repeated '; f x' $((calls - 1)); printf ') in skip'; } | measure "$calls calls on $size fields"
done
{ printf 'lettype t == '; fields 2000; printf ' in let p == \\x: t. (x.a2000'; repeated ', b == x.a1' 500; printf ') in skip'; } | measure '501 fields of 2,000 are taken'
{ printf 'lettype t == '; fields 2000; printf ' in lettype s == '; each '(a%s: int)' 2000 -1 1; printf ' in let p == \\f: s -> comm. \\x: t. (f x'; repeated '; f x' 486; printf ') in skip'; } | measure '487 calls on 2000 fields turned round'
{ printf 'lettype t == '; fields 2000; printf ' in let p == \\x: t. (x.a2000'; repeated ', b == (if true then x else x).a1' 260; printf ') in skip'; } | measure '260 conditionals of 2,000 fields'
{ printf 'lettype t == '; fields 1000; printf ' in let p == \\f: '; each '((a%s: int) -> comm)' 1 1 1000; printf '. \\x: t. (f x'; repeated '; f x' 640; printf ') in skip'; } | measure '641 calls of 1,000 alternatives'

# Types whose paths have one key and differ in the domains of their calls alone. Calls of a procedure of the second type with an argument of the first, 487 or so many as the third word says; the fourth goes before all:
calls() {
    printf '%slettype t == %s in lettype s == %s in let p == \\f: s -> comm. \\x: t. (f x' "${4:-}" "$1" "$2"
    repeated '; f x' $((${3:-487} - 1))
    printf ') in skip'
}
calls "$(each '((a%s: int) -> int)' 1 1 1000)" "$(each '((a%s: int) -> int)' 1000 -1 1)" | measure '487 calls on 1,000 paths of one key'
calls "$(each '((a%s: int) -> int)' 1 1 999) & (ns -> int)" "$(each '((b%s: int) -> int)' 1 1 1000)" | measure '487 calls, one path below all of 1,000'
calls "$(each '((c: int) & (a%s: int) -> int)' 1 1 580)" "$(each '((c: int) & (a%s: int) -> int)' 580 -1 1)" | measure '487 calls on 580 paths of two fields'
calls "$(for i in $(seq 300); do [ "$i" = 1 ] || printf ' & '; printf '(((((a%s: int) -> int) & ((b%s: int) -> int)) -> int) -> int)' "$i" "$i"; done)" "$(for i in $(seq 300 -1 1); do [ "$i" = 300 ] || printf ' & '; printf '(((((b%s: int) -> int) & ((a%s: int) -> int)) -> int) -> int)' "$i" "$i"; done)" | measure '487 calls on 300 paths of four levels'
# 240 paths `D -> int` whose domains are orders of the fields a1 to a6, with one more field, if it is named, at changing places; or orders of five of them, another left out each time.
orders() {
    awk -v more="$1" -v out="$2" '
        function order(o, k, s, used, i) {
            if (k == (o ? 5 : 6)) { list[o, count[o]++] = s; return }
            for (i = 1; i <= 6; i++) if (i != o && !index(used, i)) order(o, k + 1, s " " i, used i)
        }
        BEGIN {
            for (o = 0; o <= 6; o++) order(o, 0, "", "")
            for (j = 0; j < 240; j++) {
                m = split(out == "" ? list[0, j] : list[j % 6 + 1, int(j / 6)], parts, " ")
                d = ""
                for (k = 1; k <= m; k++) {
                    if (more != "" && k == j % 6 + 1) d = d (d == "" ? "" : " & ") "(" more ": int)"
                    d = d (d == "" ? "" : " & ") "(a" parts[k] ": int)"
                }
                printf "%s((%s) -> int)", (j ? " & " : ""), d
            }
        }'
}
# Conditionals between values of the two types, 330 or so many as the third word says.
conditionals() {
    printf 'lettype t == %s in lettype s == %s in let p == \\x: t. \\y: s. (' "$1" "$2"
    repeated '(let q == if true then x else y in skip); ' $((${3:-330} - 1))
    printf '(let q == if true then x else y in skip)) in skip'
}
conditionals "$(orders '' '')" "$(orders '' '')" | measure '330 conditionals of 240 orders of fields'
conditionals "$(orders '' '')" "$(orders z '')" | measure 'the same, one type with a field more'
conditionals "$(orders '' out)" "$(orders '' '')" | measure 'the same, one type with a field less'

# Types whose domains have most of their fields in common.
common() {
    calls "$(each '(d & (s%s: int) -> int)' 1 1 "$1")" "$(each '(d & (s%s: int) -> int)' "$1" -1 1)" 1300 "lettype d == $(each '(a%s: int)' 1 1 "$2") in "
}
common 15 60 | measure '1,300 calls on 15 paths of 61 fields'
common 60 15 | measure '1,300 calls on 60 paths of 16 fields'
calls "$(each '(d & ((s%s: int) -> int) -> int)' 1 1 80)" "$(each '(d & ((s%s: int) -> int) -> int)' 80 -1 1)" 1500 "lettype d == $(each '((a%s: int) -> int)' 1 1 10) in " | measure '1,500 calls on 80 paths of 11 procedures'
# Paths `D -> int`, at most so many, where each `D` has so many of the fields a1, a2 up to another number; the last first, if the fourth word is -1.
subsets() {
    awk -v size="$1" -v of="$2" -v most="$3" -v step="$4" '
        function take(k, from, s, i) {
            if (k == 0) { list[count++] = s; return }
            for (i = from; i <= of - k + 1 && count < most; i++) take(k - 1, i + 1, s (s == "" ? "" : " & ") "(a" i ": int)")
        }
        BEGIN {
            take(size, 1, "")
            for (j = 0; j < count; j++) printf "%s((%s) -> int)", (j ? " & " : ""), (step < 0 ? list[count - 1 - j] : list[j])
        }'
}
calls "$(subsets 16 18 80 1)" "$(subsets 16 18 80 -1)" 1500 | measure '1,500 calls on 80 paths of 16 of 18 fields'
conditionals "$(subsets 8 10 45 1)" "$(subsets 8 10 45 -1)" 1500 | measure '1,500 conditionals of 45 paths of 8 of 10 fields'
# An argument of 343 paths with a field of each of three sorts, which none of 78 alternatives takes but the last: the others have fields of two sorts alone.
sorts() {
    for i in $(seq 7); do for j in $(seq 7); do for k in $(seq 7); do printf '((a%s: int) & (b%s: int) & (c%s: int) -> int) & ' "$i" "$j" "$k"; done; done; done
    printf '(ns -> int)'
}
{ printf 'lettype t == '; sorts; printf ' in lettype d == '; each '(a%s: int)' 1 1 7; printf ' & '; each '(b%s: int)' 1 1 7; printf ' in let p == \\f: '; each '(((d & (z%s: int)) -> int) -> comm)' 1 1 77; printf ' & (ns -> comm). \\x: t. (f x'; repeated '; f x' 1499; printf ') in skip'; } | measure '1,500 calls of 78 alternatives on 344 paths'
# Abstractions over one large type, in a body that is visited once for each choice of alternatives. Their bodies have only types as good as `ns`, so that their least types have no paths.
{ printf 'lettype t == '; fields 2000; printf ' in '; repeated '(\\x: int | bool. ' 8; printf '(\\y: t. 1 2)'; repeated '; (\\y: t. 1 2)' 13; repeated ')' 8; } | measure '3,584 visits of abstractions, 2,000 fields'
# The same within one another, in more such visits.
{ printf 'lettype t == '; fields 2000; printf ' in '; repeated '\\x: int | bool. ' 11; repeated '\\y: t. ' 15; printf skip.a; } | measure '30,720 visits of abstractions, 2,000 fields'
# Calls whose arguments all differ, by a field more, so that no call is made before. The types are those of rows above, or others.
merges() {
    printf '%slettype t == %s in lettype s == %s in let p == \\f: s -> comm. \\x: t. (f (x, c1 == 1)' "${4:-}" "$1" "$2"
    for i in $(seq 2 "$3"); do printf '; f (x, c%s == 1)' "$i"; done
    printf ') in skip'
}
merges "$(each '((a%s: int) -> int)' 1 1 1000)" "$(each '((a%s: int) -> int)' 1000 -1 1)" 320 | measure '320 calls on 1,000 paths, each another way'
merges "$(each '(d & ((s%s: int) -> int) -> int)' 1 1 80)" "$(each '(d & ((s%s: int) -> int) -> int)' 80 -1 1)" 1000 "lettype d == $(each '((a%s: int) -> int)' 1 1 10) in " | measure '1,000 calls on 11 procedures, each another way'
merges "$(subsets 16 18 80 1)" "$(subsets 16 18 80 -1)" 1000 | measure '1,000 calls on 16 of 18 fields, each another way'
merges "$(each '(d & ((s%s: int) -> int) -> int)' 1 1 300)" "$(each '(d & ((s%s: int) -> int) -> int)' 300 -1 1)" 400 'lettype d == ((a: int) -> int) in ' | measure '400 calls on 300 paths of two procedures, so'
# The same 240 orders of six fields as the domains of procedures: all of these have one type.
procedures=$(orders '' '' | sed 's/^((/(((/; s/ & ((/ \& (((/g; s/-> int)/-> int) -> int)/g')
merges "$procedures" "$procedures" 400 | measure '400 calls on 240 orders in procedures, so'
deep="$(repeated '(' 12)(a%s: int)$(repeated ' -> int)' 12)"
merges "$(each "$deep" 1 1 153)" "$(each "$deep" 153 -1 1)" 400 | measure '400 calls on 153 paths twelve deep, so'
{ printf 'lettype t == '; sorts; printf ' in lettype d == '; each '(a%s: int)' 1 1 7; printf ' & '; each '(b%s: int)' 1 1 7; printf ' in let p == \\f: '; each '(((d & (z%s: int)) -> int) -> comm)' 1 1 77; printf ' & (ns -> comm). \\x: t. (f (x, c1 == 1)'; for i in $(seq 2 1000); do printf '; f (x, c%s == 1)' "$i"; done; printf ') in skip'; } | measure '1,000 calls of 78 alternatives, so'
# So many paths `(P & Q) -> int`, where P and Q are procedures that take procedures, drawn by numbers that follow from a first one; the last first, if the third word is -1, or in steps of that word round them. Further
# words say of how deep procedures, of how many fields and of how many members a domain is drawn, if not of two that take procedures, and twelve fields.
drawn() {
    awk -v count="$1" -v state="$2" -v step="$3" -v depth="${4:-2}" -v fields="${5:-12}" -v members="${6:-2}" '
        function draw(n) { state = (state * 16807) % 2147483647; return state % n }
        function member(level, k, i, s) {
            if (level == 0) return "(a" draw(fields) ": int)"
            k = draw(3) + 1
            for (i = 0; i < k; i++) s = s (i ? " & " : "") member(level - 1)
            return "((" s ") -> int)"
        }
        function path(i, s) {
            for (i = 0; i < members; i++) s = s (i ? " & " : "") member(depth)
            return "((" s ") -> int)"
        }
        BEGIN {
            for (j = 0; j < count; j++) list[j] = path()
            for (j = 0; j < count; j++) printf "%s%s", (j ? " & " : ""), list[step < 0 ? count - 1 - j : j * step % count]
        }'
}
merges "$(drawn 80 7 1)" "$(drawn 80 7 -1)" 1000 | measure '1,000 calls on procedures of procedures, so'
# The same where the argument is a field of the record.
{
    printf 'lettype t == %s in lettype s == %s in let p == \\f: (g: s) -> comm. \\x: t. (skip' "$(drawn 80 7 1)" "$(drawn 80 7 -1)"
    for i in $(seq 700); do printf '; f (g == (x, c%s == 1))' "$i"; done
    printf ') in skip'
} | measure '700 calls on a field of such procedures, so'
# Calls whose arguments have no path in common, since each path stands behind a call of its own: with fields of ten, which the domain's calls all have.
{
    printf 'lettype t == %s in lettype d == ' "$(drawn 60 7 1)"
    each '(c%s: int)' 1 1 10
    printf ' in lettype s == %s in let p == \\f: (d -> s) -> comm. \\x: t. (skip' "$(drawn 60 7 -1)"
    for i in $(seq 10); do for j in $(seq $((i + 1)) 10); do for k in $(seq $((j + 1)) 10); do for l in $(seq "$k" 10); do
        printf '; f (\\z: (c%s: int) & (c%s: int) & (c%s: int) & (c%s: int). x)' "$i" "$j" "$k" "$l"
    done; done; done; done
    printf ') in skip'
} | measure '330 calls on 60 such behind calls, none before'
# The same with six paths, each of whose domains has 34 such procedures.
{
    printf 'lettype t == %s in lettype d == ' "$(drawn 6 7 1 2 1000 34)"
    each '(c%s: int)' 1 1 10
    printf ' in lettype s == %s in let p == \\f: (d -> s) -> comm. \\x: t. (skip' "$(drawn 6 7 -1 2 1000 34)"
    for i in $(seq 10); do for j in $(seq $((i + 1)) 10); do for k in $(seq $((j + 1)) 10); do for l in $(seq "$k" 10); do
        printf '; f (\\z: (c%s: int) & (c%s: int) & (c%s: int) & (c%s: int). x)' "$i" "$j" "$k" "$l"
    done; done; done; done
    printf ') in skip'
} | measure '330 calls on six paths of 34 procedures behind calls'
# Calls whose arguments all differ: the record has 600 fields besides, and each call gives another one of these anew.
anew() {
    printf 'lettype c == %s in lettype t == (%s) & c in lettype s == %s in let p == \\f: s -> comm. \\x: t. (skip' "$(each '(c%s: int)' 1 1 600)" "$1" "$2"
    for i in $(seq "$3"); do printf '; f (x, c%s == 1)' "$(((i - 1) % 600 + 1))"; done
    printf ') in skip'
}
anew "$(drawn 250 7 1 1 300 1)" "$(drawn 250 7 -1 1 300 1)" 1200 | measure '1,200 calls on 250 paths, each with another of 600 fields anew'
anew "$(drawn 195 7 1 0 5000 1)" "($(drawn 195 7 -1 0 5000 1)) & c" 1200 | measure '1,200 calls on 195 paths, the domain with the 600 fields too'
# Calls on three records in turn, which have the same 59 paths in three orders, each with an argument of its own by one more field. The domains of the paths are orders of the same 32
# fields, of which those of the procedure's domain lack one, so that it takes none of the records.
permuted() {
    awk -v step="$1" -v more="$2" -v count=59 -v size=31 -v state=7 '
        function draw(n) { state = (state * 16807) % 2147483647; return state % n }
        function path(i, k, kept, s) {
            for (i = 1; i <= size; i++) names[i] = i
            for (i = size; i > 0; i--) {
                k = draw(i) + 1
                kept = names[k]; names[k] = names[i]; names[i] = kept
                s = s (s == "" ? "" : " & ") "(a" kept ": int)"
            }
            return "((" s (more == "" ? "" : " & (" more ": int)") ") -> int)"
        }
        BEGIN {
            for (j = 0; j < count; j++) list[j] = path()
            for (j = 0; j < count; j++) printf "%s%s", (j ? " & " : ""), list[j * step % count]
        }'
}
# Calls on records in turn. Its words are what the procedure takes, where the type s may stand; a call, as a format of a record's number and the call's; how many calls; s; and the records' types.
turns() {
    taken=$1 call=$2 calls=$3 domain=$4
    shift 4
    for i in $(seq $#); do printf 'lettype t%s == %s in ' "$i" "${!i}"; done
    printf 'lettype s == %s in let p == \\f: %s -> comm. ' "$domain" "$taken"
    for i in $(seq $#); do printf '\\x%s: t%s. ' "$i" "$i"; done
    printf '(skip'
    for i in $(seq "$calls"); do printf "; $call" $(((i - 1) % $# + 1)) "$i"; done
    printf ') in skip'
}
turns s 'f (x%s, c%s == 1)' 400 "$(permuted 1 '')" "$(permuted 1 b)" "$(permuted 7 b)" "$(permuted 11 b)" | measure '400 calls on three orders of 59 paths in turn'
# The same with 263 procedures that take procedures, all of which the procedure takes, in three orders and in nine.
two_deep() {
    drawn 263 7 "$1" 1 300 1
}
turns s 'f (x%s, c%s == 1)' 600 "$(two_deep -1)" "$(two_deep 1)" "$(two_deep 7)" "$(two_deep 11)" | measure '600 calls on three orders of 263 paths in turn'
turns s 'f (x%s, c%s == 1)' 1200 "$(two_deep -1)" "$(two_deep 1)" "$(two_deep 7)" "$(two_deep 11)" "$(two_deep 13)" "$(two_deep 17)" "$(two_deep 19)" "$(two_deep 23)" "$(two_deep 29)" "$(two_deep 31)" | measure '1,200 calls on nine orders of 263 paths in turn'
# Records of procedures a level deeper, in three orders, behind a field.
three_deep() {
    drawn "$1" 7 "$2" 2 1000 1
}
turns '(g: s)' 'f (g == (x%s, c%s == 1))' 1200 "$(three_deep 120 -1)" "$(three_deep 120 1)" "$(three_deep 120 7)" "$(three_deep 120 11)" | measure '1,200 calls on a field of three orders of 120 paths'
# The argument has the same four fields each time, of 55 such procedures each, in an order that is drawn; the domain has the procedures of each the last first.
{
    for i in 1 2 3 4; do printf 'lettype t%s == %s in lettype s%s == %s in ' "$i" "$(drawn 55 "$i" 1 2 300 1)" "$i" "$(drawn 55 "$i" -1 2 300 1)"; done
    printf 'let p == \\f: (c: s3) & (a: s1) & (d: s4) & (b: s2) -> comm. \\x1: t1. \\x2: t2. \\x3: t3. \\x4: t4. (skip'
    awk -v calls=400 -v state=7 '
        function draw(n) { state = (state * 16807) % 2147483647; return state % n }
        BEGIN {
            split("a b c d", names, " ")
            for (j = 1; j <= calls; j++) {
                for (i = 1; i <= 4; i++) order[i] = i
                for (i = 4; i > 0; i--) {
                    k = draw(i) + 1
                    kept = order[k]; order[k] = order[i]; order[i] = kept
                    s = names[kept] " == x" kept (i < 4 ? ", " s : "")
                }
                printf "; f (%s)", s
            }
        }'
    printf ') in skip'
} | measure '400 calls on four fields in other orders'
# Conditionals whose branches all differ, by a field more.
joins() {
    printf 'lettype t == %s in lettype s == %s in let p == \\x: t. \\y: s. (' "$1" "$2"
    for i in $(seq "$3"); do
        [ "$i" = 1 ] || printf '; '
        printf '(let q == if true then (x, c%s == 1) else (y, c%s == 1) in skip)' "$i" "$i"
    done
    printf ') in skip'
}
joins "$(each '(a%s: int)' 1 1 2000)" "$(each '(a%s: int)' 2000 -1 1)" 400 | measure '400 conditionals of 2,000 fields, so'
joins "$(orders '' out)" "$(orders '' '')" 400 | measure '400 conditionals with a field less, so'
# Of records of 1,366 paths: plain steps of the generator that keys are made of have few remainders by 1,367.
joins "$(each '(a%s: int)' 1 1 1365)" "$(each '(a%s: int)' 1365 -1 1)" 600 | measure '600 conditionals of 1,365 fields, so'
