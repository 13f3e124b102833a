#!/usr/bin/env bash
# Writes the samples of vmx_bench, and the words and buffers of its queues, and checks them with bit fields: of the C compiler, and of
# Python's ctypes.
set -eu
cd "$(dirname "$0")/.."
work=$(mktemp -d)
trap 'rm -rf "$work"' EXIT
(cd crates/vmx_bench && rt run -- samples "$work/samples.txt" && rt run -- rings "$work/rings")
cc -std=c11 -O1 -Wall -Wextra -o "$work/samples" bench/samples.c
"$work/samples" "$work/samples.txt"
python3 bench/rings.py "$work/rings"
