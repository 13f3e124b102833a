#!/usr/bin/env bash
# Nanoseconds a frame through the two queues of words, beside the plain C rings of queue.c with the same words and copies: the best of
# some runs. bench/queue.sh [COUNT [RUNS]]
set -eu
cd "$(dirname "$0")/.."
count=${1:-1000000}
runs=${2:-5}
work=$(mktemp -d)
trap 'rm -rf "$work"' EXIT
cc -O2 -pthread -o "$work/queue" bench/queue.c
(cd crates/vmx_bench && rt run -- tx 1 >"$work/build" 2>&1) || { cat "$work/build"; exit 1; }
program=crates/vmx_bench/out/vmx_bench
for run in $(seq "$runs"); do
    for side in tx rx; do
        "$work/queue" "$side" "$count" | sed "s/^/ring $side /"
        "$program" "$side" "$count" | sed "s/^/queue $side /"
    done
done | awk '{ t = $NF / $4; key = $1 " " $2 " " $3; if (!(key in best) || t < best[key]) best[key] = t }
    END {
        sides = split("tx rx", side, " ")
        n = split("one-thread two-threads", kinds, " ")
        for (s = 1; s <= sides; s++)
            for (i = 1; i <= n; i++) {
                key = side[s] " " kinds[i]
                printf "%s: queue %.0f ns, ring %.0f ns, %.2f times\n", key, best["queue " key], best["ring " key], best["queue " key] / best["ring " key]
            }
    }'
