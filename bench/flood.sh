#!/bin/sh
# flood.sh   Measures hip_tools count, which is built already, on 50,000 words that share one hash under a fixed seed (flood.rs), and on as
#            many random words of the same length: the best processor time of five runs of each, and their ratio.
set -eu
cd "$(dirname "$0")/.."
out=${TMPDIR:-/tmp}/hip_tools_flood
mkdir -p "$out"
rustc --edition 2021 -O --out-dir "$out" bench/flood.rs
for length in 14 15 16; do
    timeout 60 "$out/flood" 50000 "$length" "$out"
    for run in 1 2 3 4 5; do
        for words in flood control; do
            bash -c 'TIMEFORMAT="%U %S"; time "$0" count < "$1" > /dev/null' crates/hip_tools/out/hip_tools "$out/$words.txt" 2>> "$out/$words.times"
        done
    done
    for words in flood control; do
        awk '{ s = $1 + $2; if (NR == 1 || s < best) best = s } END { print best }' "$out/$words.times"
        rm "$out/$words.times"
    done | awk -v length_of="$length" '{ t[NR] = $1 } END { printf "%d letters: %.3f s, random words %.3f s, %.2f\n", length_of, t[1], t[2], t[1] / t[2] }'
done
