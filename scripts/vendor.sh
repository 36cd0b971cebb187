#!/usr/bin/env bash
# vendor.sh INTO [USES]   Copies hipstr and hip_fields, and hip_uses where a second word is given, with the crates below them, into the
#                         repository INTO: their sources, specs, proofs and licences into INTO/crates, and their lines into INTO/crates.txt.
#                         What stands there already stays as it is: a crate that an earlier run copied is copied anew, and any other under
#                         such a name, or another line for it, ends the run before it begins. Where INTO has no crate of its own yet, it gets
#                         the folder crates/app and its line. Its .gitignore gets out/, where proofs and libraries are kept.
set -eu
into=${1:-}
[ -n "$into" ] && [ -d "$into" ] || { echo "vendor: tell the folder of a repository, as in make vendor INTO=../mine" >&2; exit 2; }
into=$(cd "$into" && pwd)
cd "$(dirname "$0")/.."

# the crates of this repository that the named ones stand on, and themselves, lowest first
below() {
    local crate
    for crate in "$@"; do
        case " $crates " in *" $crate "*) continue ;; esac
        below $(sed -n "s/^$crate://p" crates.txt | tr ' ' '\n' | while read -r name; do [ -d "crates/$name" ] && echo "$name"; done)
        crates="$crates $crate"
    done
}
crates=
below hipstr hip_fields ${2:+hip_uses}

for crate in $crates; do
    line=$(grep "^$crate:" crates.txt)
    if [ -e "$into/crates/$crate" ] && [ ! -e "$into/crates/$crate/VENDORED" ]; then
        echo "vendor: crates/$crate stands there, and no earlier run copied it: nothing was changed" >&2
        exit 1
    fi
    if [ -e "$into/crates.txt" ] && grep -q "^$crate[: ]" "$into/crates.txt" && ! grep -qxF "$line" "$into/crates.txt"; then
        echo "vendor: crates.txt has another line for $crate: nothing was changed" >&2
        exit 1
    fi
done

mkdir -p "$into/crates"
version=$(git rev-parse --short HEAD 2> /dev/null || echo unknown)
for crate in $crates; do
    target=$into/crates/$crate
    rm -rf "$target/src" "$target/specs" "$target/proofs"
    mkdir -p "$target"
    for part in src specs proofs; do
        [ ! -d "crates/$crate/$part" ] || cp -R "crates/$crate/$part" "$target/"
    done
    cp LICENSE-APACHE LICENSE-MIT "$target/"
    echo "hipstr in Rattle, $version; scripts/vendor.sh replaces this folder's src, specs and proofs" > "$target/VENDORED"
    line=$(grep "^$crate:" crates.txt)
    if [ ! -e "$into/crates.txt" ] || ! grep -qxF "$line" "$into/crates.txt"; then
        echo "$line" >> "$into/crates.txt"
        echo "crates/$crate copied, and its line added to crates.txt"
    else
        echo "crates/$crate copied"
    fi
done
if [ "$(sed '/^#/d; /^$/d; s/[: ].*//' "$into/crates.txt" | grep -cvxF "$(tr ' ' '\n' <<< "$crates")" || true)" = 0 ]; then
    mkdir -p "$into/crates/app/src"
    echo "app: hipstr${2:+ hip_uses}" >> "$into/crates.txt"
    echo "crates/app made, and its line added to crates.txt"
fi
grep -qsx 'out/' "$into/.gitignore" || echo 'out/' >> "$into/.gitignore"
echo "The first rt run, or rt check, proves these crates: some 30 minutes of four processors, 4 GB a check, 4 GB of disk. rt try needs no proof."
