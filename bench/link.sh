#!/usr/bin/env bash
# Nanoseconds a packet through a link, beside the plain C ring of link.c: the best of 25 runs. bench/link.sh [COUNT]
set -eu
cd "$(dirname "$0")/.."
count=${1:-200000}
work=$(mktemp -d)
trap 'rm -rf "$work"' EXIT
cc -O2 -pthread -o "$work/ring" bench/link.c
(cd crates/vmx_bench && rt run -- link 1 >"$work/build" 2>&1) || { cat "$work/build"; exit 1; }
program=crates/vmx_bench/out/vmx_bench
for run in $(seq 25); do
    "$work/ring" "$count" | sed 's/^/ring /'
    "$program" link "$count" | sed 's/^/link /'
done | awk '{ t = $NF / $3; key = $1 " " $2; if (!(key in best) || t < best[key]) best[key] = t }
    END {
        n = split("one-thread two-threads", kinds, " ")
        for (i = 1; i <= n; i++)
            printf "%s: link %.1f ns, ring %.1f ns, %.2f times\n", kinds[i], best["link " kinds[i]], best["ring " kinds[i]], best["link " kinds[i]] / best["ring " kinds[i]]
    }'
