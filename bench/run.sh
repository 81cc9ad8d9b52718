#!/bin/bash
# Measures the proved machine against the plain interpreter in the same run, on the same machine:
#     bench/run.sh [ROUNDS]
# The two take turns, and the least user time of each counts; then it says whether the loop is in line, and measures the programs of bench/programs.
# FORSYTHE names another built program than bin/forsythe, and RUSTC another rustc.
set -eu
here=$(cd "$(dirname "$0")" && pwd -P)
rounds=${1:-7}
program=${FORSYTHE:-$here/../bin/forsythe}
rustc=${RUSTC:-$(command -v rustc || echo "$HOME/.cargo/bin/rustc")}
work=$(mktemp -d)
trap 'rm -rf "$work"' EXIT
steps=100000000

"$rustc" --edition 2021 -O "$here/plain.rs" -o "$work/plain"
"$rustc" --edition 2021 -O "$here/image.rs" -o "$work/image"
"$work/image" mixed "$work/mixed.img"
"$work/image" large "$work/large.img"

# The user time of a command, in seconds. The last argument is a file of what it writes.
TIMEFORMAT=%U
user_time() {
    { time "$@" >"$work/output" 2>"$work/notes" </dev/null; } 2>&1 || true
}

least() {
    sort -n | head -n 1
}

rate() {
    awk -v n="$steps" -v t="$1" 'BEGIN { printf "%.3f s, %.0f million instructions a second\n", t, n / t / 1000000 }'
}

for _ in $(seq "$rounds"); do
    user_time "$program" exec "$work/mixed.img" --steps="$steps" >>"$work/proved.times"
    cp "$work/notes" "$work/proved.notes"
    user_time "$work/plain" "$work/mixed.img" --steps="$steps" >>"$work/plain.times"
    user_time "$program" exec "$work/large.img" >>"$work/proved.large"
    user_time "$work/plain" "$work/large.img" >>"$work/plain.large"
done

echo "proved: $(rate "$(least <"$work/proved.times")") ($(tail -n 1 "$work/proved.notes"))"
echo "plain:  $(rate "$(least <"$work/plain.times")")"
echo "load of 4,194,304 words of code and the largest stack: proved $(least <"$work/proved.large") s, plain $(least <"$work/plain.large") s"
echo "what the loop does for a word or a pattern: $("$here/inline.sh" 2>&1 || true)"
"$here/programs.sh" "$rounds"
