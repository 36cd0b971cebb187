#!/bin/sh
# run.sh [WORD..]     Measures the workloads whose names hold a WORD, or all. `make bench` builds the library first.
# HIPSTR_RS=FOLDER    names a checkout of hipstr 0.8.0, which is then measured too.
set -eu
cd "$(dirname "$0")/.."
out=${TMPDIR:-/tmp}/hip_bench_driver
mkdir -p "$out"
flags="--edition 2021 -C opt-level=3 -C codegen-units=1 --out-dir $out"
with=
if [ -n "${HIPSTR_RS:-}" ]; then
    rustc $flags --cap-lints allow --crate-type rlib --crate-name hipstr --cfg 'feature="std"' "$HIPSTR_RS/src/lib.rs"
    with="--cfg hipstr --extern hipstr=$out/libhipstr.rlib"
fi
rustc $flags --crate-name driver $with bench/main.rs \
    -C link-arg="$PWD/crates/hip_bench/out/libhip_bench.a" -C link-arg="$(dirname "$(rt doc)")/c/liblibc_c.a"
exec "$out/driver" "$@"
