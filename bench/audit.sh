#!/bin/bash
# Measures the audit of images of 4,194,304 words: a guarded one of typical pieces, and hostile ones, whose windows
# would pile up if a check didn't end the older ones:
#     bench/audit.sh [ROUNDS]
# The least user time of each counts. FORSYTHE names another built program than bin/forsythe, and RUSTC another rustc.
set -eu
. "$(dirname "$0")/measured.sh"
rustc=${RUSTC:-$(command -v rustc || echo "$HOME/.cargo/bin/rustc")}
"$rustc" --edition 2021 -O "$here/image.rs" -o "$work/image"

for kind in guarded stack-checks table-checks jumps; do
    "$work/image" "$kind" "$work/$kind.img"
    for _ in $(seq "$rounds"); do
        { time "$program" audit "$work/$kind.img" >"$work/output" 2>"$work/notes"; } 2>>"$work/$kind.times" || true
    done
    echo "audit of $kind: $(sort -n "$work/$kind.times" | head -n 1) s ($(cat "$work/output" "$work/notes"))"
done
