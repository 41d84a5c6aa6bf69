#!/bin/sh
# Runs the program on each sheet NAME.sheet here and compares what it writes with NAME.out. It has to end
# with status 0 each time, since a refusal is an answer. Prints a line for each case, 'ok ..' or 'not ok ..'.
set -u
here=$(cd "$(dirname "$0")" && pwd -P)
program=${1:-$here/../../crates/outfit/out/outfit}
work=$(mktemp -d) || exit 2
trap 'rm -rf "$work"' EXIT
bad=0
for sheet in "$here"/*.sheet; do
    name=$(basename "$sheet" .sheet)
    if "$program" <"$sheet" >"$work/out" 2>"$work/err" && cmp -s "$work/out" "$here/$name.out" && [ ! -s "$work/err" ]; then
        echo "ok outfit $name"
    else
        echo "not ok outfit $name"
        diff "$here/$name.out" "$work/out" | head -n 10
        bad=1
    fi
done
exit "$bad"
