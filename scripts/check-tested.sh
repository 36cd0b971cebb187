#!/usr/bin/env bash
# check-tested.sh   Finds each function or table that the last section of docs/PLANTS.md names, in the file of tests that stands before it with a
#                   colon: it has to be a test, or to be used by one. Then it counts the cases, of which none may go.
set -euf
cd "$(dirname "$0")/.."
missing=0 file='' cases=''
entries=$(sed -n '/^## Where each case/,$ p' docs/PLANTS.md | sed -n '/^```text/,/^```$/ { /^```/ !p }')
# An entry is `CASE,..=FUNCTION,..`, where names that differ in a part have that part in braces, as the shell writes them.
for entry in $entries; do
    case $entry in
        *:) word=${entry%:}
            file=crates/${word%%/*}/src/tests/${word#*/}.rt
            continue ;;
    esac
    cases+=$(eval "printf '%s\n' {${entry%%=*},}")$'\n'
    for name in $(tr , ' ' <<< "${entry#*=}"); do
        if ! grep -qsE "\b(fn|const) $name\b" "$file"; then
            echo "check-tested: no $name in $file"
            missing=$((missing + 1))
        elif ! grep -B 1 "fn $name\b" "$file" | grep -q '#\[test\]' && [ "$(grep -rwoh "$name" "${file%/tests/*}" | wc -l)" -lt 2 ]; then
            echo "check-tested: nothing uses $name of $file"
            missing=$((missing + 1))
        fi
    done
done
worked=$(grep -E '^[a-z0-9-]+$' <<< "$cases" | sort -u | wc -l)
carried=$(grep -E '::' <<< "$cases" | sort -u | wc -l)
echo "check-tested: $worked worked cases, $carried tests of hipstr, $missing names missing"
[ "$worked $carried $missing" = "28 103 0" ]
