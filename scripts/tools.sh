#!/usr/bin/env bash
# tools.sh   Runs hip_tools, which is built already, on each example of examples/tools: NAME.args (a word a line) and NAME.in are what it
#            gets, NAME.out and NAME.err what it has to write, nothing where there is no such file, and NAME.status its exit status, else 0.
#            Then each tool with a standard output that is closed, and with one that is full, and the tools that draw a seed where there are
#            no random numbers.
set -u
cd "$(dirname "$0")/.."
tool=$PWD/crates/hip_tools/out/hip_tools
made=$(mktemp -d)
trap 'rm -rf "$made"' EXIT
failed=0
ran=0
# the file, or an empty one where it isn't there
told() { if [ -e "$1" ]; then echo "$1"; else echo /dev/null; fi; }
for args in examples/tools/*.args; do
    name=${args%.args}
    mapfile -t words < "$args"
    "$tool" ${words[@]+"${words[@]}"} < "$(told "$name.in")" > "$made/out" 2> "$made/err"
    status=$?
    ran=$((ran + 1))
    if ! cmp -s "$made/out" "$(told "$name.out")" || ! cmp -s "$made/err" "$(told "$name.err")" || [ $status != "$(cat "$name.status" 2> /dev/null || echo 0)" ]; then
        echo "tools: $name fails with status $status"
        failed=$((failed + 1))
    fi
done
for name in tokens table fill count; do
    mapfile -t words < "examples/tools/$name.args"
    for out in '&-' /dev/full; do
        eval '"$tool" "${words[@]}" < "examples/tools/$name.in" 2> "$made/err" >'"$out"
        status=$?
        ran=$((ran + 1))
        if [ $status != 1 ] || [ "$(cat "$made/err")" != "write failed" ]; then
            echo "tools: $name with its output to $out fails with status $status"
            failed=$((failed + 1))
        fi
    done
done
cc -shared -fPIC -o "$made/no_randomness.so" scripts/no_randomness.c
for name in fill count; do
    mapfile -t words < "examples/tools/$name.args"
    LD_PRELOAD="$made/no_randomness.so" "$tool" "${words[@]}" < "examples/tools/$name.in" > "$made/out" 2> "$made/err"
    status=$?
    ran=$((ran + 1))
    if [ $status != 1 ] || [ -s "$made/out" ] || [ "$(cat "$made/err")" != "no randomness" ]; then
        echo "tools: $name without random numbers fails with status $status"
        failed=$((failed + 1))
    fi
done
echo "tools: $((ran - failed)) of $ran runs as they should be"
[ $failed = 0 ]
