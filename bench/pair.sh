#!/usr/bin/env bash
# Times `vmxreplay pair IN OUT` over 100,000 frames and about 60 MB beside cp, tcpdump -r IN -w OUT and editcap IN OUT,
# and a yardstick in C (pair.c: two rings, four copies of each frame), interleaved, and prints best times, how many times longer ours
# takes, and peak memory.
#
# Use: bench/pair.sh [ROUNDS]      (7 rounds where none are given)
#
# It builds the program through ./vmxreplay where that is needed, and works in a temporary folder. tcpdump and editcap
# are left out where they are not installed (Debian: tcpdump, wireshark-common).
set -euo pipefail
here=$(cd "$(dirname "$(readlink -f "$0")")" && pwd)
top=$(dirname "$here")
folder=$(mktemp -d)
trap 'rm -rf "$folder"' EXIT
python3 "$here/make_capture.py" "$folder/in.pcap"
"$top/vmxreplay" pair "$folder/in.pcap" "$folder/first.pcap"
rm "$folder/first.pcap"
gcc -std=c11 -O2 -Wall -Wextra -o "$folder/yardstick" "$here/pair.c"
python3 "$here/measure.py" "${1:-7}" "$folder/in.pcap" "$top/crates/vmxreplay/out/vmxreplay" "$folder/yardstick"
