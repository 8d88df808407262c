#!/usr/bin/env bash
# Builds the engine as a static library and the plain Rust program, compares their results, and measures both.
#   bash bench/run.sh [CASES]
set -eu
cd "$(dirname "$0")/.."
(cd crates/engine && rt lib)
kit=$(dirname "$(rt doc)")
mkdir -p target/bench
rustc --edition 2024 -C opt-level=3 -C panic=abort bench/src/main.rs -o target/bench/bench \
    -L crates/engine/out -l static=engine -C link-arg="$kit/c/liblibc_c.a"
target/bench/bench "$@"
