#!/usr/bin/env bash
# Times `vmxoffload fill IN OUT` over 100,000 TCP frames and about 60 MB beside the plain C program of offload.c, and beside
# tcprewrite --fixcsum where it is installed (Debian: tcpreplay); and over a half of the frames, to see that time grows with the bytes.
# Each writes a fresh file; that ours and the C program's are the same, and all checksums right, is checked once before.
#
# Use: bench/offload.sh [ROUNDS]      (7 rounds where none are given)
#
# It builds the program where it is not there, and works in a temporary folder.
set -euo pipefail
here=$(cd "$(dirname "$(readlink -f "$0")")" && pwd)
top=$(dirname "$here")
folder=$(mktemp -d)
trap 'rm -rf "$folder"' EXIT
program=$top/crates/vmxoffload/out/vmxoffload
[ -x "$program" ] || (cd "$top/crates/vmxoffload" && rt run -- fill data/in "$folder/first" >"$folder/build" 2>&1) || { cat "$folder/build"; exit 1; }
cc -O2 -pthread -o "$folder/ring" "$here/offload.c"
python3 "$here/make_capture.py" "$folder/in" --tcp
head -c 30000000 "$folder/in" >"$folder/half"
"$program" fill "$folder/in" "$folder/ours"
"$folder/ring" "$folder/in" "$folder/rings" >/dev/null
cmp "$folder/ours" "$folder/rings"
python3 "$here/check_offload.py" fill "$folder/in" "$folder/ours"
python3 - "${1:-7}" "$folder" "$program" <<'END'
import os
import resource
import shutil
import subprocess
import sys
import time

rounds, folder, program = sys.argv[1:]
out = os.path.join(folder, "out")
words = {
    "vmxoffload": [program, "fill", os.path.join(folder, "in"), out],
    "ring in C": [os.path.join(folder, "ring"), os.path.join(folder, "in"), out],
    "vmxoffload, half": [program, "fill", os.path.join(folder, "half"), out],
}
if shutil.which("tcprewrite"):
    words["tcprewrite"] = ["tcprewrite", "--fixcsum", "-i", os.path.join(folder, "in"), "-o", out]
took = {name: [] for name in words}
worked = {name: [] for name in words}
for _ in range(int(rounds)):
    for name in words:
        if os.path.exists(out):
            os.unlink(out)
        before, begun = resource.getrusage(resource.RUSAGE_CHILDREN), time.perf_counter()
        subprocess.run(words[name], stdout=subprocess.DEVNULL, check=True)
        after = resource.getrusage(resource.RUSAGE_CHILDREN)
        took[name].append(time.perf_counter() - begun)
        worked[name].append(after.ru_utime + after.ru_stime - before.ru_utime - before.ru_stime)
for name in words:
    print(f"{name}: {min(took[name]):.3f} s, {min(worked[name]):.3f} s of the processor")
for name in words:
    if name != "vmxoffload":
        print(f"vmxoffload takes {min(worked['vmxoffload']) / min(worked[name]):.2f} times {name}")
END
