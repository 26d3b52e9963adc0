#!/usr/bin/env bash
# Runs the program `attempts` on each input of tests/attempts, and holds what it prints to the text beside the input. It stops at the first that
# differs. The inputs named recorded_NN are runs over the Rust's folds; the others are short, broken, too long, or of the longest attempts.
set -euo pipefail
cd "$(dirname "$0")/.."
# What the tests of every crate have built already is not built anew.
[ -x crates/attempts/out/attempts ] || (cd crates/attempts && rt run </dev/null >/dev/null)
said=$(mktemp)
trap 'rm -f "$said"' EXIT
count=0
for input in tests/attempts/*.bin; do
    name=$(basename "$input" .bin)
    crates/attempts/out/attempts <"$input" >"$said"
    if ! cmp "$said" "tests/attempts/$name.txt"; then
        echo "attempts on $name: differs"
        exit 1
    fi
    echo "attempts on $name: as expected"
    count=$((count + 1))
done
# A folder without inputs is no test.
[ "$count" -gt 0 ]
