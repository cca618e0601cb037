#!/usr/bin/env bash
# Proves the crate gelmusko_c and all below it, and writes the static library to target/staticlib/libgelmusko.a.
set -euo pipefail
cd "$(dirname "$0")/.."
(cd crates/gelmusko_c && rt lib)
mkdir -p target/staticlib
cp crates/gelmusko_c/out/libgelmusko_c.a target/staticlib/libgelmusko.a
