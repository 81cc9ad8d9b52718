# What the scripts that measure the program share: the rounds, the program, and a folder that is removed at the end.
here=$(cd "$(dirname "$0")" && pwd -P)
rounds=${1:-5}
program=${FORSYTHE:-$here/../bin/forsythe}
work=$(mktemp -d)
trap 'rm -rf "$work"' EXIT
# `time` prints user seconds alone.
TIMEFORMAT=%U

# A piece so many times.
repeated() {
    awk -v piece="$1" -v times="$2" 'BEGIN { for (i = 0; i < times; i++) printf "%s", piece }'
}
