#!/usr/bin/env bash
# What hosts in C and Rust use: builds the library, runs the test in C, the tests of the crate and of its comments, and the examples, and stops
# at the first that fails. A part whose tools are not on the machine is skipped with a word. The last line counts what ran. Where JAMFELL_LIB
# names a folder with the archive, that one is taken and none is built.
set -euo pipefail
[ -z "${JAMFELL_LIB:-}" ] || JAMFELL_LIB=$(cd "$JAMFELL_LIB" && pwd)
cd "$(dirname "$0")/.."
skipped=0
skip() {
    echo "hosts: $1 is skipped: $2"
    skipped=$((skipped + 1))
}
has() {
    command -v "$1" >/dev/null 2>&1
}

checks=0 tests=0 examples=0
finish() {
    echo "hosts: $checks checks in C, $tests tests in Rust and $examples examples passed, $skipped parts skipped"
    exit 0
}
if [ "$(uname -sm)" != "Linux x86_64" ]; then
    skip "all of it" "the library is for x86-64 Linux"
    finish
fi
if [ -z "${JAMFELL_LIB:-}" ]; then
    tools/library.sh
    JAMFELL_LIB=$PWD/target/staticlib
fi
export JAMFELL_LIB
work=$(mktemp -d)
trap 'rm -rf "$work"' EXIT
# The warnings are errors, so that the header suits hosts that have them so.
strict=(-Wall -Wextra -Werror -pedantic)

# The first attempt of a run: two bytes of a count and two of its length stand before it.
cut_attempt() {
    local size
    size=$((0x$(od -An -tx1 -j2 -N2 "$1" | tr -d ' ')))
    tail -c +5 "$1" | head -c "$size"
}

if has gcc; then
    gcc -std=c99 "${strict[@]}" -O2 c/test.c "$JAMFELL_LIB/libhost.a" -o "$work/test"
    "$work/test" | tee "$work/said"
    checks=$(sed -n 's/^\([0-9]*\) checks, 0 failed$/\1/p' "$work/said")
    [ "$checks" -gt 0 ]
    gcc -std=c99 "${strict[@]}" -O2 c/example.c "$JAMFELL_LIB/libhost.a" -o "$work/example"
    cut_attempt tests/attempts/sent_twice.bin >"$work/vcp"
    "$work/example" "$work/vcp" "$work/vcp" | tee "$work/said"
    printf '0 A Accepted\n3 C DuplicateInception\nregistries 1 credentials 0\n' | cmp - "$work/said"
    examples=$((examples + 1))
else
    skip "the header" "there is no gcc"
fi

if has g++; then
    g++ -std=c++11 "${strict[@]}" -fsyntax-only -x c++ c/test.c
else
    skip "the header in C++" "there is no g++"
fi

if has cargo && has cc; then
    export CARGO_TARGET_DIR=$PWD/target/hosts
    (cd rust && cargo test --offline --locked) 2>&1 | tee "$work/said"
    tests=$(awk '/^test result: ok/ { n += $4 } END { print n + 0 }' "$work/said")
    # No test is no test that passed.
    [ "$tests" -gt 0 ]
    if echo 'int sodium_init(void); int main(void) { return sodium_init() < 0; }' | cc -x c - -lsodium -o "$work/sodium" 2>/dev/null; then
        (cd rust && cargo run --offline --locked --quiet --example van --features sodium) | tee "$work/said"
        [ "$(tail -n 1 "$work/said")" = "as expected" ]
        examples=$((examples + 1))
    else
        skip "the example with signatures" "there is no libsodium to link"
    fi
else
    skip "the crate" "there is no cargo, or no cc to link with"
fi
finish
