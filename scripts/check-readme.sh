#!/usr/bin/env bash
# check-readme.sh   Does what README.md tells a new user, by its own lines: in a copy of this repository it makes another beside it, copies the
#                   crates into that one, puts the README's program there and runs it, before anything is proved. It fails where the answer
#                   isn't the one that the README tells.
set -eu
cd "$(dirname "$0")/.."
scratch=$(mktemp -d)
trap 'rm -rf "$scratch"' EXIT
mkdir "$scratch/here"
git ls-files -z | xargs -0 cp --parents -t "$scratch/here"
# the lines of the first block under the heading, each without what it is said to do
lines=$(awk '/^## A program of your own$/ { under = 1 } under && /^    / { inside = 1; sub(/^    /, ""); sub(/   +.*/, ""); print; next } inside && NF { exit }' README.md)
# the program is the block that begins with its own first line, four spaces deep
awk '/^    \/\/! Prints the length of the longest field of a line\.$/ { inside = 1 }
     inside && !/^    / && !/^$/ { exit }
     inside { sub(/^    /, ""); print }' README.md > "$scratch/main.rt"
told=$(sed -n 's/^It prints \([0-9]*\).*/\1/p' README.md)
[ -s "$scratch/main.rt" ] && [ -n "$told" ] && [ "${lines##*$'\n'}" = "rt try" ] || { echo "check-readme: README.md has no lines that end with rt try, no program, or doesn't tell its answer" >&2; exit 1; }
cd "$scratch/here"
while read -r line; do
    [ "$line" != "rt try" ] || cp "$scratch/main.rt" src/main.rt
    eval "$line" < /dev/null > "$scratch/answer" 2> "$scratch/log" || { echo "check-readme: $line" >&2; cat "$scratch/log" >&2; exit 1; }
done <<< "$lines"
answer=$(cat "$scratch/answer")
[ "$answer" = "$told" ] || { echo "check-readme: the program prints '$answer', and README.md tells '$told'" >&2; exit 1; }
echo "The README's program, in a repository of its own, prints $answer."
