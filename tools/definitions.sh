#!/bin/sh
# definitions.sh ROWS SEED: has the checker compute ROWS random calls by the definitions of rules, and compare them with the Python model, in a folder of its own under target/,
# over copies of the crates that rules stands on.
set -eu
cd "$(dirname "$0")/.."
home=target/definitions
mkdir -p "$home/crates"
for crate in base roots channel color rules; do
    mkdir -p "$home/crates/$crate"
    for part in src specs proofs; do
        rm -rf "$home/crates/$crate/$part"
        if [ -d "crates/$crate/$part" ]; then cp -r "crates/$crate/$part" "$home/crates/$crate/$part"; fi
    done
done
python3 tools/check_definitions.py "$home/crates/definitions" "$1" "$2"
{
    grep -E '^(base|roots|channel|color|rules):' crates.txt
    echo 'definitions: base roots channel color rules'
} >"$home/crates.txt"
cd "$home/crates/definitions"
rt check
