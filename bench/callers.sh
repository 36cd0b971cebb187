#!/usr/bin/env bash
# callers.sh [ROW..]   Proves the functions of bench/callers, or those of the rows named, each as a user's own crate over this checkout's
#                      libraries and a library of the calls that it makes (head.txt), one after another and with nothing kept. It prints
#                      the processor seconds of each beyond those of a function with one such call (one.txt): over HipStr<Rc>, over any
#                      backend, over String, and the first two as ratios to the third. LIBRARIES names another checkout whose libraries
#                      are built, LIMIT the seconds after which a proof is given up, 300 if left out. `make callers` builds the libraries.
set -euo pipefail
cd "$(dirname "$0")/.."
from=${LIBRARIES:-$PWD} limit=${LIMIT:-300}
rows=$PWD/bench/callers
scratch=$(mktemp -d)
trap 'rm -rf "$scratch"' EXIT
git init -q "$scratch"
for crate in $(sed -n 's/^\(hip_raw\|hip_match\|hip_bytes\|hip_text\|hip_names\|hip_cuts\|hipstr\):.*/\1/p' "$from/crates.txt"); do
    [ -d "$from/crates/$crate/out/rlib" ] || { echo "callers: crates/$crate isn't built in $from" >&2; exit 1; }
    mkdir -p "$scratch/crates/$crate/out"
    for part in src specs proofs; do
        [ ! -d "$from/crates/$crate/$part" ] || cp -R "$from/crates/$crate/$part" "$scratch/crates/$crate/"
    done
    cp -R "$from/crates/$crate/out/rlib" "$scratch/crates/$crate/out/"
    grep "^$crate:" "$from/crates.txt" >> "$scratch/crates.txt"
done
for side in rc any string; do
    printf '%s\n' "calls_$side: hipstr" "$side: calls_$side hipstr" >> "$scratch/crates.txt"
    mkdir -p "$scratch/crates/calls_$side/src" "$scratch/crates/$side/src"
done

# part SIDE NAME  The file of that name, of handles, or of strings where there is one.
part() {
    if [ "$1" = string ] && [ -e "$rows/strings/$2.txt" ]; then
        echo "$rows/strings/$2.txt"
    else
        echo "$rows/handles/$2.txt"
    fi
}

# over SIDE  Turns a text over any backend into one of that side.
over() {
    case $1 in
    rc) sed "s/hipstr::Backend;/hipstr::Rc;/; s/<'b, B: Backend>/<'b>/g; s/\(HipStr\|HipPath\)<'b, B>/\1<'b, Rc>/g; s/<'b, B>/<'b>/g; s/::<B>/::<Rc>/g" ;;
    any) cat ;;
    string) sed "s/<'b, B: Backend>//g; s/HipStr<'b, B>/String/g; s/<'b, B>//g" ;;
    esac
}

# imports SIDE ROW  The imports of a row: each name that it uses, of those that the calls import, and of the calls.
imports() {
    local text=$scratch/row.rt line names name
    over "$1" < "$(part "$1" "$2")" > "$text"
    { over "$1" < "$(part "$1" head)" | grep '^use '; } | while read -r line; do
        names=$(grep -o '[A-Za-z]*' <<< "${line##*::}" | while read -r name; do [ "$name" != TextCuts ] || echo "$name"; grep -qw "$name" "$text" && echo "$name"; done | paste -sd, || true)
        [ -z "$names" ] || echo "${line%::*}::{$names};"
    done
    names=$(sed -n 's/^pub fn \([a-z_]*\).*/\1/p' "$(part "$1" head)" | while read -r name; do grep -qw "$name" "$text" && echo "$name"; done | paste -sd, || true)
    [ -z "$names" ] || echo "use calls_$1::{$names};"
}

# seconds SIDE ROW  The processor seconds of a check of that row from nothing, with one job.
seconds() {
    local folder=$scratch/crates/$1 TIMEFORMAT='%U %S'
    rm -rf "$folder"
    mkdir -p "$folder/src"
    {
        printf '%s\n' '//! A function, as a user writes it.' '#![tactic(auto)]'
        imports "$1" "$2"
        cat "$scratch/row.rt"
    } > "$folder/src/lib.rt"
    (cd "$folder" && { time timeout "$limit" rt check --jobs 1 > "$scratch/log" 2>&1 < /dev/null; } 2>&1) > "$scratch/spent" ||
        { [ $? -eq 124 ] || { tail -n 5 "$scratch/log" >&2; return 1; }; echo none; return; }
    awk '{ printf "%.1f", $1 + $2 }' "$scratch/spent"
}

for side in rc any string; do
    over "$side" < "$(part "$side" head)" > "$scratch/crates/calls_$side/src/lib.rt"
    (cd "$scratch/crates/calls_$side" && rt lib --jobs 1 > "$scratch/log" 2>&1) || { tail -n 5 "$scratch/log" >&2; exit 1; }
done
[ $# -gt 0 ] || set -- cuts fields arms walk map path pair
one_rc=$(seconds rc one)
one_any=$(seconds any one)
one_string=$(seconds string one)
printf '%-8s %6s %6s %6s\n' 'one call' "$one_rc" "$one_any" "$one_string"
for row in "$@"; do
    over_rc=$(seconds rc "$row")
    over_any=$(seconds any "$row")
    over_string=$(seconds string "$row")
    echo "$row $over_rc $over_any $over_string" | awk -v rc="$one_rc" -v any="$one_any" -v string="$one_string" '
    function beyond(spent, calls) { return spent == "none" ? spent : sprintf("%.1f", spent - calls) }
    function times(spent, base) { return spent == "none" ? spent : sprintf("%.2f", spent / base) }
    {
        r = beyond($2, rc); a = beyond($3, any); s = beyond($4, string)
        printf "%-8s %6s %6s %6s   %5s %5s\n", $1, r, a, s, times(r, s), times(a, s); fflush()
    }'
done
