#!/bin/bash
# The cost of a Toeplitz hash over 12 bytes beside a plain C loop: ten million hashes each, the processor time of three runs, the best of each.
# The target is a ratio of at most 4. It needs `cc` or clang, and the program vmx_bench built by `rt run`.
set -eu
here=$(cd "$(dirname "$0")" && pwd)
program=${1:-$here/../crates/vmx_bench/out/vmx_bench}
count=${2:-10000000}
folder=$(mktemp -d)
trap 'rm -r "$folder"' EXIT
"${CC:-cc}" -O2 -o "$folder/hash" "$here/hash.c"

milliseconds() {
    TIMEFORMAT=%U
    best=
    for run in 1 2 3; do
        took=$({ time "$@" > "$folder/out"; } 2>&1 | tr -d .)
        took=$((10#$took))
        if [ -z "$best" ] || [ "$took" -lt "$best" ]; then best=$took; fi
    done
    echo "$best"
}

ours=$(milliseconds "$program" hash "$count")
ours_says=$(cat "$folder/out")
plain=$(milliseconds "$folder/hash" "$count")
plain_says=$(cat "$folder/out")
if [ "$ours_says" != "$plain_says" ]; then
    echo "the hashes differ: $ours_says and $plain_says" >&2
    exit 1
fi
awk -v ours="$ours" -v plain="$plain" -v count="$count" \
    'BEGIN { printf "%.1f ns a hash, C %.1f ns, ratio %.2f\n", ours * 1e6 / count, plain * 1e6 / count, ours / plain }'
