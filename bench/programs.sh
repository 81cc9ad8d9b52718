#!/bin/bash
# Measures the programs of bench/programs, all in turns in one run on one machine:
#     bench/programs.sh [ROUNDS]
# For each: the proved machine on its image (`exec`), the plain interpreter on the same image, `run`, `copy`, and the same written
# in Python and in Algol 68 (Debian's algol68g; left out where it is missing). The least user time of each counts. The copied
# file has a million bytes. Images have the stack that `run` gives by default. FORSYTHE names another built program than bin/forsythe, and RUSTC another rustc.
set -eu
here=$(cd "$(dirname "$0")" && pwd -P)
rounds=${1:-5}
program=${FORSYTHE:-$here/../bin/forsythe}
rustc=${RUSTC:-$(command -v rustc || echo "$HOME/.cargo/bin/rustc")}
work=$(mktemp -d)
trap 'rm -rf "$work"' EXIT
steps=1000000000000

"$rustc" --edition 2021 -O "$here/plain.rs" -o "$work/plain"
yes 'one byte after another' | head -c 1000000 >"$work/input" || true

# The user time of a command, in seconds, and whether it wrote what was written before.
TIMEFORMAT=%U
timed() {
    name=$1 kind=$2
    shift 2
    { time "$@" >"$work/output" 2>/dev/null <"$work/input"; } 2>>"$work/$name.$kind" || true
    [ -e "$work/$name.due" ] || cp "$work/output" "$work/$name.due"
    cmp -s "$work/output" "$work/$name.due" || echo "$name: $kind writes something else" >&2
}

least() {
    if [ -s "$1" ]; then sort -n "$1" | head -n 1; else echo -; fi
}

for source in "$here"/programs/*.fy; do
    name=$(basename "$source" .fy)
    "$program" build "$source" --image="$work/$name.img"
    for _ in $(seq "$rounds"); do
        timed "$name" plain "$work/plain" "$work/$name.img" --steps="$steps"
        timed "$name" proved "$program" exec "$work/$name.img" --steps="$steps"
        timed "$name" run "$program" run "$source" --steps="$steps" --image="$work/run.img"
        timed "$name" copy "$program" copy "$source" --steps=1000000000
        timed "$name" python python3 "$here/programs/$name.py"
        if command -v a68g >/dev/null; then
            timed "$name" algol env -C "$work" a68g "$here/programs/$name.a68"
        fi
    done
done

echo '| Program | Plain interpreter | `exec` | `run` | `copy` | Python | Algol 68 | `exec`, times as fast as plain | `run`, times as fast as `copy` |'
echo '|---|---|---|---|---|---|---|---|---|'
for source in "$here"/programs/*.fy; do
    name=$(basename "$source" .fy)
    row="| \`$name\`"
    for kind in plain proved run copy python algol; do
        row="$row | $(least "$work/$name.$kind")"
    done
    awk -v row="$row" -v plain="$(least "$work/$name.plain")" -v proved="$(least "$work/$name.proved")" \
        -v run="$(least "$work/$name.run")" -v copy="$(least "$work/$name.copy")" \
        'BEGIN { printf "%s | %.1f | %.1f |\n", row, plain / proved, copy / run }'
done
