#!/usr/bin/env bash
# Builds the library that hosts link, libhost.a, of the crate `host`, once it is proved, and puts it into target/staticlib.
set -euo pipefail
cd "$(dirname "$0")/.."
(cd crates/host && rt lib)
mkdir -p target/staticlib
cp crates/host/out/libhost.a target/staticlib/libhost.a
