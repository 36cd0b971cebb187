#!/bin/sh
# refuse.sh   Runs each test of hip_refused_tests, as `rt test` built it, with refuse.c loaded before the C library: its scenario with the first
# request for memory refused, then with the second, and so on. It prints the scenarios and how many requests were refused in each, and fails
# at a test that fails, at one that met no refusal, and at one that met some though its name ends in take_none or takes_none. `make refuse`
# builds the tests and runs it.
set -eu
cd "$(dirname "$0")/.."
room=$(mktemp -d)
trap 'rm -rf "$room"' EXIT
${CC:-cc} -O2 -shared -fPIC -ftls-model=initial-exec -o "$room/refuse.so" bench/refuse.c
program=crates/hip_refused_tests/out/hip_refused_tests_tests
total=0 scenarios=0 failures=0
printf '%8s  %s\n' refused scenario
for test in $("$program" --list | sed -n 's/: test$//p'); do
    status=0
    LD_PRELOAD="$room/refuse.so" "$program" "$test" > "$room/out" 2> "$room/told" || status=$?
    refused=$(sed -n 's/ requests refused$//p' "$room/told")
    case $test in
        *take_none | *takes_none) wanted=none ;;
        *) wanted=some ;;
    esac
    fault=
    [ "$status" = 0 ] || fault="failed"
    [ "$wanted" = none ] || [ "${refused:-0}" != 0 ] || fault="${fault:+$fault, }met no refusal"
    [ "$wanted" = some ] || [ "${refused:-0}" = 0 ] || fault="${fault:+$fault, }met a refusal"
    printf '%8s  %s%s\n' "${refused:--}" "$test" "${fault:+: $fault}"
    [ -z "$fault" ] || { failures=$((failures + 1)); cat "$room/out" "$room/told"; }
    scenarios=$((scenarios + 1)) total=$((total + ${refused:-0}))
done
echo "$total requests refused in $scenarios scenarios, $failures failures"
[ "$failures" = 0 ]
