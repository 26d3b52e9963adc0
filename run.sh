#!/usr/bin/env bash
# The main job: prints what a ledger answers to a list of attempts. Without a word it takes the sample of this repository, with a file's
# name that file, and with - standard input.
set -euo pipefail
here="$(cd "$(dirname "$0")" && pwd)"
# Proves and builds the program where that has to be done, and runs it on no attempts, of which nothing is shown.
if ! said=$(cd "$here/crates/attempts" && rt run </dev/null 2>&1); then
    echo "$said" >&2
    exit 1
fi
input="${1:-$here/crates/attempts/stdin}"
if [ "$input" = - ]; then
    exec "$here/crates/attempts/out/attempts"
fi
exec "$here/crates/attempts/out/attempts" <"$input"
