#!/bin/sh
# walks.sh [WORD..]     Measures the walks whose names hold a WORD, or all, beside Rust's `str`. `make walks` builds the library first.
set -eu
cd "$(dirname "$0")/.."
out=${TMPDIR:-/tmp}/hip_bench_driver
mkdir -p "$out"
rustc --edition 2021 -C opt-level=3 -C codegen-units=1 --out-dir "$out" bench/walks.rs \
    -C link-arg="$PWD/crates/hip_match_bench/out/libhip_match_bench.a" -C link-arg="$(dirname "$(rt doc)")/c/liblibc_c.a"
exec "$out/walks" "$@"
