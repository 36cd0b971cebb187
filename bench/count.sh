#!/bin/sh
# count.sh          Measures hip_tools count, which is built already, on a text of 64 MiB: the best processor time of seven runs.
# HIPSTR_RS=FOLDER  names a checkout of hipstr 0.8.0, over which the same program (count.rs) is then measured in turn, and compared with.
set -eu
cd "$(dirname "$0")/.."
out=${TMPDIR:-/tmp}/hip_tools_count
mkdir -p "$out"
[ -s "$out/words.txt" ] || awk -v bytes=67108864 -f bench/words.awk > "$out/words.txt"
flags="--edition 2021 -C opt-level=3 -C codegen-units=1 --out-dir $out"
programs="$PWD/crates/hip_tools/out/hip_tools"
if [ -n "${HIPSTR_RS:-}" ]; then
    rustc $flags --cap-lints allow --crate-type rlib --crate-name hipstr --cfg 'feature="std"' "$HIPSTR_RS/src/lib.rs"
    rustc $flags --extern "hipstr=$out/libhipstr.rlib" bench/count.rs
    programs="$programs $out/count"
fi
for run in 1 2 3 4 5 6 7; do
    for program in $programs; do
        made=$out/$(basename "$program").out
        bash -c 'TIMEFORMAT="%U %S"; time "$0" count < "$1" > "$2"' "$program" "$out/words.txt" "$made" 2>> "$made.times"
    done
done
for program in $programs; do
    made=$out/$(basename "$program").out
    awk -v name="$(basename "$program")" '{ s = $1 + $2; if (NR == 1 || s < best) best = s } END { printf "%s: %.2f s\n", name, best }' "$made.times"
    rm "$made.times"
done
[ -z "${HIPSTR_RS:-}" ] || cmp "$out/hip_tools.out" "$out/count.out"
