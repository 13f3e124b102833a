#!/usr/bin/env bash
# Refuses each growth of memory of a run of `vmxreplay pair` in turn, and checks how the run ends.
#
# Use: bench/refuse_growth.sh [PROGRAM [IN]]
#
# PROGRAM is a built vmxreplay (as a rule crates/vmxreplay/out/vmxreplay), IN a capture (examples/lan.pcap). A small
# library, made by cc in a temporary folder and loaded before the C library, lets the Nth call of malloc, calloc,
# realloc or posix_memalign fail, for N from 1 until two runs in a row have fewer such calls. Each run must end
#   - with status 8 and the line `no memory`, or with status 8 and no line (no memory for the words), or
#   - with status 0 and the two lines of the summary, where the refused growth was not needed;
# and with status 8 no file OUT may be there unless it is the whole one. It is no part of the gate.
set -euo pipefail
top=$(dirname "$(dirname "$(readlink -f "$0")")")
program=$(readlink -f "${1:-$top/crates/vmxreplay/out/vmxreplay}")
source=$(readlink -f "${2:-$top/examples/lan.pcap}")
folder=$(mktemp -d)
trap 'rm -rf "$folder"' EXIT
cd "$folder"

cc -O1 -shared -fPIC -o refuse.so "$top/bench/refuse.c" -ldl

status=0
"$program" pair "$source" whole >summary || status=$?
[ "$status" -eq 0 ] || { echo "without a refusal: status $status"; exit 1; }

number=0 unreached=0 starved=0 silent=0 fine=0 bad=0 saved=0
while [ "$unreached" -lt 2 ]; do
    number=$((number + 1))
    rm -f out
    status=0
    REFUSE=$number LD_PRELOAD=$folder/refuse.so "$program" pair "$source" out >text 2>fault || status=$?
    if grep -q 'not reached' fault; then unreached=$((unreached + 1)); else unreached=0; fi
    if [ "$status" -eq 0 ] && cmp -s text summary && cmp -s out whole; then
        fine=$((fine + 1))
    elif [ "$status" -eq 8 ] && { [ ! -e out ] || cmp -s out whole; } && [ "$(cat text)" = "no memory" ]; then
        starved=$((starved + 1))
        if [ -e out ]; then saved=$((saved + 1)); fi
    elif [ "$status" -eq 8 ] && [ ! -e out ] && [ ! -s text ]; then
        silent=$((silent + 1))
    else
        bad=$((bad + 1))
        echo "growth $number refused: status $status, $(tr '\n' '|' <text)"
    fi
done
echo "$number runs: $starved ended with 8 and 'no memory' ($saved of them with OUT whole), $silent with 8 before any line, $fine with 0 and the summary (two past the last growth), $bad otherwise"
[ "$bad" -eq 0 ]
