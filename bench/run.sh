#!/usr/bin/env bash
# Measures the library, linked as C code, against plain Rust that does the same: one program to a benchmark. No part of the gate.
set -eu
cd "$(dirname "$0")/.."
(cd crates/exports && rt lib)
mkdir -p target/bench
for name in numbers editing; do
    rustc --edition 2021 -C opt-level=3 -L crates/exports/out -l static=exports \
        -o "target/bench/$name" "bench/$name.rs"
    "target/bench/$name"
done
