#!/usr/bin/env bash
# oracle/build.sh SRC OUT: builds OUT/oracle. SRC is the folder of naga 30.0.1's sources that holds lib.rs.
# The seven files of the source are linked as they are into OUT/naga, beside the stand-ins.
set -euo pipefail
if [ $# -ne 2 ]; then
    echo "use: oracle/build.sh SRC OUT" >&2
    exit 2
fi
here=$(cd "$(dirname "$0")" && pwd)
src=$(cd "$1" && pwd)
mkdir -p "$2"
out=$(cd "$2" && pwd)

rm -rf "$out/naga"
mkdir -p "$out/naga"
cp -R "$here/standins/naga/." "$out/naga/"
for file in lib.rs arena/handle.rs ir/mod.rs proc/mod.rs proc/type_methods.rs proc/typifier.rs valid/compose.rs; do
    ln -s "$src/$file" "$out/naga/$file"
done
for name in back compact error keywords racy_lock; do
    : > "$out/naga/$name.rs"
done
mkdir "$out/naga/front"
for file in mod ask file marks module; do
    ln -s "$here/src/$file.rs" "$out/naga/front/$file.rs"
done

cd "$out"
lib() {
    rustc --edition 2021 --cap-lints allow -O --out-dir "$out" -L "$out" --crate-name "$@"
}
crates=$here/standins/crates
lib thiserror --crate-type proc-macro "$crates/thiserror.rs"
for name in bitflags log num_traits naga_types; do
    lib "$name" --crate-type rlib "$crates/$name.rs"
done
lib half --crate-type rlib --extern num_traits "$crates/half.rs"
lib naga --crate-type rlib --cfg std --extern thiserror --extern bitflags --extern log --extern num_traits \
    --extern half --extern naga_types "$out/naga/lib.rs"
lib oracle --crate-type bin --extern naga "$here/src/main.rs"
