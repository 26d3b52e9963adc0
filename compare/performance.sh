#!/usr/bin/env bash
# Measures again, and puts the machine and the tables into docs/PERFORMANCE.md, between its two marks. build.sh has to have been run.
set -euo pipefail
cd "$(dirname "$0")"
page=../docs/PERFORMANCE.md
tables=$(mktemp)
trap 'rm -f "$tables" "$tables.page"' EXIT
cpu=$(sed -n 's/^model name[^:]*: //p' /proc/cpuinfo | head -n 1)
{
    echo "Machine: $cpu, $(nproc) processors, $(uname -s) $(uname -m); $(rustc --version). Load when it began: $(cut -d ' ' -f 1 /proc/loadavg). Library made with $(rt version)."
    echo
    target/release/bench "$@"
} >"$tables"
awk -v tables="$tables" '
    /^<!-- measured -->$/ { print; print ""; while ((getline line < tables) > 0) print line; skip = 1; next }
    /^<!-- end -->$/ { skip = 0 }
    !skip { print }
' "$page" >"$tables.page"
cp "$tables.page" "$page"
