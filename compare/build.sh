#!/usr/bin/env bash
# Builds the comparison. The folder of the given source, the one that has crates/keri, is the first word or JAMFELL_RUST. The folder of
# libhost.a is JAMFELL_LIB, or target/staticlib of this repository. Nothing is fetched, and of the given source nothing is kept but
# under target/.
set -euo pipefail
source=${1:-${JAMFELL_RUST:-}}
if [ -z "$source" ]; then
    echo "usage: compare/build.sh FOLDER, where FOLDER has crates/keri/src/registry.rs of the given source" >&2
    exit 2
fi
JAMFELL_RUST=$(cd "$source" && pwd)
export JAMFELL_RUST
cd "$(dirname "$0")"
# NOTICE gives the digest of each file that the rules follow, in the line behind its name.
digests=$(awk '/^ +crates\// { file = $1; next } file != "" { print $1 "  " file; file = "" }' ../NOTICE)
[ -n "$digests" ]
if ! (cd "$JAMFELL_RUST" && echo "$digests" | sha256sum --check --quiet); then
    echo "these are not the files that NOTICE names" >&2
    exit 1
fi
if [ -z "${JAMFELL_LIB:-}" ] && [ ! -f ../target/staticlib/libhost.a ]; then
    ../tools/library.sh
fi
cargo build --release --offline
echo "built: compare/target/release has compare, orders and bench"
