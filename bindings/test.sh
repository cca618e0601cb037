#!/usr/bin/env bash
# Proves and builds the static library, and tests it from Rust and from C.
set -euo pipefail
cd "$(dirname "$0")/.."
bash bindings/library.sh
export CARGO_TARGET_DIR="$PWD/target/cargo"
(cd bindings/rust && cargo test --offline)
(cd bindings/rust && cargo run --offline --quiet --example type_rows) < crates/type_rows/stdin | diff - bindings/rust/examples/type_rows.stdout
mkdir -p target/c
for program in calls example; do
    cc -std=c99 -Wall -Wextra -Werror -Iinclude "bindings/c/$program.c" target/staticlib/libgelmusko.a -o "target/c/$program"
done
cc -std=c99 -Wall -Wextra -Werror -Iinclude bindings/c/stack.c target/staticlib/libgelmusko.a -lpthread -o target/c/stack
target/c/calls
target/c/stack crates/type_rows/stdin crates/explain/stdin
target/c/example < crates/type_rows/stdin | diff - crates/type_rows/stdout
echo "bindings: ok"
