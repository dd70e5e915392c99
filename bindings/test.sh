#!/bin/sh
# Builds the archive, unless SHUPKELEN_LIB names the folder that has one, and builds and tests the bindings for C and Rust on it.
cd "$(dirname "$0")/.." || exit 1
missing() { echo "bindings/test.sh: $*, so nothing was built and nothing tested"; exit 1; }
[ "$(uname -sm)" = "Linux x86_64" ] || missing "this is $(uname -sm), and the archive links only into x86-64 Linux programs"
for tool in cc cargo; do command -v $tool >/dev/null || missing "there is no $tool here"; done
set -e
python3 tools/header.py
mkdir -p target/bindings
if [ -z "$SHUPKELEN_LIB" ]; then
    command -v rt >/dev/null || missing "there is no rt here, and SHUPKELEN_LIB names no folder with an archive"
    (cd crates/shupkelen && rt lib) > target/bindings/library.log || { tail -n 20 target/bindings/library.log; exit 1; }
    tail -n 1 target/bindings/library.log
    SHUPKELEN_LIB=$PWD/crates/shupkelen/out
fi
export SHUPKELEN_LIB
for program in k2 sheet empty; do
    cc -std=c99 -Wall -Wextra -Werror -pedantic -O2 -Iinclude bindings/c/$program.c "$SHUPKELEN_LIB/libshupkelen.a" -o target/bindings/$program
done
target/bindings/k2 | cmp - bindings/c/k2.out
target/bindings/sheet < examples/01-kilometres.sheet | cmp - bindings/c/sheet.out
echo "C: K2 as in the rules, and a sheet"
target/bindings/empty || { echo "bindings/c/empty.c: NULL with 0 elements isn't an empty slice, or another version"; exit 1; }
cd bindings
cargo fmt --check
CARGO_TARGET_DIR=../target/bindings RUSTDOCFLAGS="-D warnings" cargo doc --offline --no-deps --quiet
CARGO_TARGET_DIR=../target/bindings cargo clippy --offline --quiet --all-targets -- -D warnings
CARGO_TARGET_DIR=../target/bindings cargo test --offline --quiet
echo "bindings: all tests pass"
