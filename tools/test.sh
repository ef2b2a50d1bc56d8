#!/bin/sh
# The tests: the toolchain is the one that the file toolchain names; every crate proved, every program run, every edit refused; then the
# C example, on the library that is built for it. The tally comes last.
set -eu
cd "$(dirname "$0")/.."
named=$(cat toolchain)
present=$(rt version) || {
    echo "the command rt does not tell its version; this tree is proved with '$named' (file toolchain)" >&2
    exit 1
}
if [ "$present" != "$named" ]; then
    echo "rt version prints '$present', but the file toolchain names '$named': install that one, or name this one there and run the whole gate" >&2
    exit 1
fi
log=$(mktemp)
trap 'rm -f "$log"' EXIT
# a pipe's status is that of its last part, so a failure becomes the last line
{ rt ci || echo 'rt ci failed'; } | tee "$log"
tally=$(tail -n 1 "$log")
case $tally in
*' passed, 0 failed') ;;
*) exit 1 ;;
esac
# an edit whose text no longer fits its file fails no crate: the line 'rt: ok' counts it
if grep -Eq '^rt: ok.*, [0-9]+ bad' "$log"; then
    echo 'some must-fail edits are bad: they say nothing of a contract' >&2
    exit 1
fi
if command -v "${CC:-cc}" >/dev/null; then
    make -s example
else
    echo 'no C compiler: examples/c is left out'
fi
echo "$tally"
