#!/usr/bin/env bash
# All tests: every proof, every must-fail edit and every program, then recorded runs of the printed program, hosts in C and Rust, the tool,
# and a short comparison with the Rust. The last line is 'N passed, 0 failed', and it is printed only when everything passed.
set -euo pipefail
cd "$(dirname "$0")"
said=$(mktemp)
trap 'rm -f "$said"' EXIT
# The last line is held back until everything else has passed.
rt ci 2>&1 | tee "$said" | sed '$d'
tail -n 1 "$said" | grep -qE '^[0-9]+ passed, 0 failed$'
# A verdict that rests on the work of a check outside the gate is none.
if grep -qE '(cache|incremental)=trusted' "$said"; then
    echo "a verdict rests on another check's work"
    exit 1
fi
# An edit that no longer fits the text tests nothing.
if ! grep -q '^rt: ok' "$said" || grep -qE '^rt: ok.*, [0-9]+ bad' "$said"; then
    echo "a must-fail edit is bad"
    exit 1
fi
tests/attempts.sh
# The library that hosts link, once for all that follow.
tools/library.sh
export JAMFELL_LIB="$PWD/target/staticlib"
tests/hosts.sh
tests/tool.sh
tests/compare.sh
tail -n 1 "$said"
