#!/usr/bin/env bash
# Refuses each growth of memory of a small guest's run in turn: a driver and its device, from the first activation to the end.
#
# Use: bench/refuse_steps.sh [PROGRAM]
#
# PROGRAM is a built vmx_small_guest (as a rule crates/vmx_small_guest/out/vmx_small_guest). A call of an actor that found no memory
# left all as before, and is made again. So each run must end
#   - as the run without a refusal does, or
#   - with one line that says which of its parts found no memory before the guest ran, or
#   - with no line, where there was no memory to print one.
# It is no part of the gate.
set -euo pipefail
top=$(dirname "$(dirname "$(readlink -f "$0")")")
program=$(readlink -f "${1:-$top/crates/vmx_small_guest/out/vmx_small_guest}")
folder=$(mktemp -d)
trap 'rm -rf "$folder"' EXIT
cd "$folder"
cc -O1 -shared -fPIC -o refuse.so "$top/bench/refuse.c" -ldl

"$program" >whole
tail -n 1 whole | grep -qx ended || { echo "without a refusal it does not end"; exit 1; }

number=0 unreached=0 same=0 before=0 silent=0 bad=0
while [ "$unreached" -lt 2 ]; do
    number=$((number + 1))
    REFUSE=$number LD_PRELOAD=$folder/refuse.so "$program" >text 2>fault || true
    if grep -q 'not reached' fault; then unreached=$((unreached + 1)); else unreached=0; fi
    if cmp -s text whole; then
        same=$((same + 1))
    elif grep -qxE 'no memory for the (plan|guest)' text && [ "$(wc -l <text)" -eq 1 ]; then
        before=$((before + 1))
    elif [ ! -s text ]; then
        silent=$((silent + 1))
    else
        bad=$((bad + 1))
        echo "growth $number refused: $(tr '\n' '|' <text)"
    fi
done
echo "$number runs: $same ended as without a refusal (two past the last growth), $before before the guest ran, $silent without a line, $bad otherwise"
[ "$bad" -eq 0 ]
