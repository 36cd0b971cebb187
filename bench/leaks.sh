#!/bin/sh
# leaks.sh [LINES] [SEED]   Runs hip_play over a random script under valgrind, on `Rc` and on `Unique`, and each test of the crates whose
# tests `rt test` has built, two of those of hip_refused_tests once more with each request for memory refused in turn. It fails at an invalid
# access or a leak. `make leaks` runs it. The programs are built in a copy of the crates with what was proved of the libraries; that on
# `Unique` differs in one word of main.rt.
set -eu
cd "$(dirname "$0")/.."
lines=${1:-20000} seed=${2:-1}
room=$(mktemp -d)
trap 'rm -rf "$room"' EXIT
watched="valgrind --quiet --leak-check=full --show-leak-kinds=all --error-exitcode=1"
awk -v lines="$lines" -v seed="$seed" -f bench/script.awk > "$room/script"
cp crates.txt HANDLES "$room"
git -C "$room" init -q
for crate in crates/*; do
    mkdir -p "$room/$crate/out"
    for part in src specs proofs out/rlib; do
        [ ! -d "$crate/$part" ] || cp -a "$crate/$part" "$room/$crate/$part"
    done
done
for backend in Rc Unique; do
    sed "s/\bRc\b/$backend/g" crates/hip_play/src/main.rt > "$room/crates/hip_play/src/main.rt"
    (cd "$room/crates/hip_play" && rt run < /dev/null > "$room/built" 2>&1) || { cat "$room/built"; exit 1; }
    $watched "$room/crates/hip_play/out/hip_play" < "$room/script" > "$room/answers"
    echo "$backend: $(wc -l < "$room/answers") answers to $(wc -l < "$room/script") lines, no invalid access, no leak"
done
for program in crates/*/out/*_tests; do
    [ -x "$program" ] || continue
    tests=$("$program" --list | sed -n 's/: test$//p')
    for test in $tests; do
        $watched "$program" "$test" > /dev/null || { echo "$program $test"; exit 1; }
    done
    echo "$program: $(echo "$tests" | wc -l) tests, no invalid access, no leak"
done
program=crates/hip_refused_tests/out/hip_refused_tests_tests
[ -x "$program" ] || exit 0
${CC:-cc} -O2 -shared -fPIC -ftls-model=initial-exec -o "$room/refuse.so" bench/refuse.c
for test in tests::lists::list_of_each_command tests::types::calls_of_byte_strings; do
    LD_PRELOAD="$room/refuse.so" $watched --soname-synonyms=somalloc=nouserintercepts "$program" "$test" > /dev/null 2> "$room/told" || { cat "$room/told"; exit 1; }
    echo "$test: $(tail -n 1 "$room/told") on either backend, no invalid access, no leak"
done
