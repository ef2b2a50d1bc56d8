#!/bin/sh
# run_examples.sh PROGRAM: each sheet of examples/ before and after, and whether the result is the stored one.
# The text comes through a pipe in small pieces, so that the program has to read many times.
set -eu
program=$1
folder=$(dirname "$0")/../examples
out=$(mktemp)
trap 'rm -f "$out"' EXIT
differing=0
for text in "$folder"/*.txt; do
    name=$(basename "$text" .txt)
    dd if="$text" bs=97 2>/dev/null | "$program" >"$out"
    printf '== %s, before\n' "$name"
    cat "$text"
    printf '== %s, after\n' "$name"
    cat "$out"
    if cmp -s "$out" "$folder/$name.out"; then
        printf '== %s: as stored\n\n' "$name"
    else
        printf '== %s: DIFFERS from examples/%s.out\n\n' "$name" "$name"
        differing=$((differing + 1))
    fi
done
[ "$differing" -eq 0 ]
