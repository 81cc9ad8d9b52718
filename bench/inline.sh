#!/bin/bash
# Tests that the loop of the machine has in line what it does for a decoded word and for a pattern of known words:
#     bench/inline.sh
# Where the compiler leaves such a function out of line, since two loops call it or it has grown, programs take up to five
# times as long, and no proof tells. FORSYTHE names another built program than that of crates/forsythe.
set -eu
here=$(cd "$(dirname "$0")" && pwd -P)
program=${FORSYTHE:-$here/../crates/forsythe/out/forsythe}

names=$(nm "$program" | cut -d' ' -f3-)
if ! grep -q '^forsythe::main' <<<"$names"; then
    echo "$program tells no names of functions" >&2
    exit 1
fi
if grep -E '^rv_machine::(patterns::|step::(perform|advance|fetch))' <<<"$names" >&2; then
    echo "is out of line" >&2
    exit 1
fi
echo "in line"
