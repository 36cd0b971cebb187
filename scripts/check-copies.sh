#!/usr/bin/env bash
# check-copies.sh   Lists each line of src of the libraries that copies bytes by a call of its own, and compares the list with copies.txt, which
#                   says why each may stand. All other bytes go through the counting copy.
set -euo pipefail
cd "$(dirname "$0")/.."
libraries=$(sed -n 's/^\(hip[a-z_]*\): .*/\1/p' crates.txt | grep -vE '_(tests|bench)$|^hip_(play|tools|jobs)$')
found() {
    for library in $libraries; do
        grep -rE '\b(copy_from_slice|push_str|extend_from_slice|copy_to_slice|to_vec|clone_from_slice)\b' "crates/$library/src" --include='*.rt'
    done | grep -vE '^[^:]*: *//' | sed -E 's/^crates\///; s/: +/ | /' | sort
}
allowed() { grep -v '^#' scripts/copies.txt | sed 's/ | [^|]*$//' | sort; }
if ! diff <(allowed) <(found); then
    echo "check-copies: scripts/copies.txt (<) doesn't list what src has (>)"
    exit 1
fi
echo "check-copies: $(found | wc -l) calls that copy, each allowed"
