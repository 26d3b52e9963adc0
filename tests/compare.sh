#!/usr/bin/env bash
# A short run of the comparison with the Rust and of two orders (compare/README.md), where cargo, libsodium and the given source are at
# hand. JAMFELL_RUST names the folder of the source.
set -euo pipefail
cd "$(dirname "$0")/.."
skip() {
    echo "comparison with the Rust: skipped, $1"
    exit 0
}
[ -n "${JAMFELL_RUST:-}" ] || skip "JAMFELL_RUST names no source"
command -v cargo >/dev/null || skip "there is no cargo"
echo 'int main(void) { return 0; }' | cc -x c - -lsodium -o /dev/null 2>/dev/null || skip "there is no libsodium to link"
compare/build.sh
compare/target/release/compare --seconds 20
# It has to find what it is there to find.
compare/target/release/compare --cases 20000 --self-test | tail -n 1
compare/target/release/orders --lists 500
