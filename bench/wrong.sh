#!/bin/sh
# Tries the wrong bodies of bench/wrong/, which the gate leaves out since each crate of theirs would be proved a second time:
#     bench/wrong.sh [CRATE ..]
# In a clone of what is committed, it puts those of each crate that is named (all, where none is) in must-fail/, and has the kit try them.
set -eu
here=$(CDPATH='' cd -- "$(dirname -- "$0")" && pwd -P)
work=$(mktemp -d)
trap 'rm -rf "$work"' EXIT
git clone -q "$here/.." "$work/clone"
cd "$work/clone"
[ $# -gt 0 ] || set -- $(ls bench/wrong)
for crate; do
    mkdir -p "crates/$crate/must-fail"
    cp "bench/wrong/$crate/"*.edit "crates/$crate/must-fail/"
done
rt must-fail "$@"
