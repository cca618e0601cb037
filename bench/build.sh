#!/bin/sh
# Builds the comparison of speeds: build.sh FOLDER. Links the proved library with the plain loops into FOLDER/compare,
# holds the plain loops to the stored answers, and writes the files to measure on into FOLDER/files. The library is that
# of the folder that GELMUSKO_LIB_DIR names; else it is proved and compiled here.
set -e
root=$(cd "$(dirname "$0")/.." && pwd)
mkdir -p "$1"
out=$(cd "$1" && pwd)
if [ -z "$GELMUSKO_LIB_DIR" ]; then
    bash "$root/bindings/library.sh"
    GELMUSKO_LIB_DIR=$root/target/staticlib
fi
rustc -O --edition 2024 "$root/bench/stored.rs" -o "$out/stored"
"$out/stored" "$root"
rustc -O --edition 2024 "$root/bench/compare.rs" -C link-arg="$GELMUSKO_LIB_DIR/libgelmusko.a" -o "$out/compare"
python3 "$root/bench/files.py" "$out/files"
