#!/usr/bin/env bash
# The tests of tools/jamfell.py: recorded inputs, round trips, broken texts, the numbers of docs/RULES.md, and what docs/WALKTHROUGH.md
# shows. The last line counts what ran. The library for hosts is built first, unless JAMFELL_LIB says that target/staticlib has it.
set -euo pipefail
cd "$(dirname "$0")/.."
# tests/tool/ runs the program on what the tool writes.
[ -x crates/attempts/out/attempts ] || (cd crates/attempts && rt run </dev/null >/dev/null)
if [ -z "${JAMFELL_LIB:-}" ]; then
    tools/library.sh >/dev/null
fi
exec python3 -B tests/tool/run.py
