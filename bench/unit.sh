#!/usr/bin/env bash
# unit.sh   The unit that machines are compared by, in processor seconds: one `rt verdict`, with one job, of a copy of the kit's
#           examples/worked/bikes. Measure it in the same hour as what is told in units.
set -eu
kit=$(dirname "$(rt doc)")
copy=$(mktemp -d)
trap 'rm -rf "$copy"' EXIT
cp -r "$kit/rattle/examples/worked/bikes" "$copy"
chmod -R u+w "$copy"
cd "$copy/bikes"
TIMEFORMAT='%U %S'
spent=$( { time rt verdict --jobs 1 > verdict.log 2>&1 < /dev/null; } 2>&1) || { tail -n 3 verdict.log >&2; exit 1; }
awk -v spent="$spent" 'BEGIN { split(spent, part, " "); printf "one unit is %.0f processor seconds here\n", part[1] + part[2] }'
