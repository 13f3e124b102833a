#!/usr/bin/env python3
"""Runs `fill in out` of a built vmxoffload over mutations of captures, and checks how each run ends.

    python3 bench/hostile_offload.py [COUNT [PROGRAM]]

COUNT is 10,000 where none is given, PROGRAM crates/vmxoffload/out/vmxoffload. The inputs are the same ones each time: captures of TCP frames
over IPv4 and IPv6, tagged and padded, and of others, first cut at every byte from 14 on and with every total length, payload length
and header length near a frame's own, then with bytes flipped, cut, put in and doubled, and fields at the ends of their ranges. What
each run answers and saves is held against check_offload.py's reading of the RFCs and a reading of captures of its own.
It prints a line for each run that ends otherwise, and how many ended with which status.
"""
import os
import random
import struct
import subprocess
import sys
import tempfile
from collections import Counter
from pathlib import Path

sys.dont_write_bytecode = True

from check_offload import BARE, LONGEST, OVER_V4, OVER_V6, answer, changed, filled

ARP = bytes.fromhex("ffffffffffff 005056000001 0806 0001 0800 06 04 0001 005056000001 0a000001 000000000000 0a000002")
TAG = bytes.fromhex("8100a005")
FRAMES = [BARE, OVER_V4, OVER_V6, BARE[:12] + TAG + BARE[12:], OVER_V6[:12] + TAG + OVER_V6[12:], ARP, b"\xab" * 13, b"\x55" * 9_023]
ENCODINGS = {0xA1B2C3D4: (">", 1), 0xD4C3B2A1: ("<", 1), 0xA1B23C4D: (">", 1_000), 0x4D3CB2A1: ("<", 1_000)}
HEADER = struct.pack("<IHHiIII", 0xA1B2C3D4, 2, 4, 0, 0, 65535, 1)
MOST = 262_144
SECONDS = 10


def capture(frames, order="<", magic=0xA1B2C3D4):
    out = struct.pack(order + "IHHiIII", magic, 2, 4, 0, 0, 65535, 1)
    for number, frame in enumerate(frames):
        out += struct.pack(order + "IIII", 100 + number, 7, len(frame), len(frame)) + frame
    return out


def expected(data):
    """Status, text and what is saved, of a run over a file with these bytes."""
    refused = lambda line: (4, f"capture in: {line}\n", None)
    if len(data) < 24:
        return refused(f"header {len(data)}")
    magic = int.from_bytes(data[:4], "big")
    if magic not in ENCODINGS:
        return refused(f"magic 0x{magic:08x}")
    order, unit = ENCODINGS[magic]
    major, minor = struct.unpack(order + "HH", data[4:8])
    if (major, minor) != (2, 4):
        return refused(f"version {major} {minor}")
    (link,) = struct.unpack(order + "I", data[20:24])
    if link != 1:
        return refused(f"link {link}")
    at, index, out, counts = 24, 0, HEADER, Counter()
    while at + 16 <= len(data):
        seconds, fraction, size = struct.unpack(order + "III", data[at : at + 12])
        if size > MOST:
            return refused(f"record {index} length {size}")
        if at + 16 + size > len(data):
            break
        frame = data[at + 16 : at + 16 + size]
        at, index = at + 16 + size, index + 1
        if len(frame) > LONGEST:
            counts["long"] += 1
            continue
        counts["filled" if len(frame) >= 14 and answer(frame) else "left"] += 1
        out += struct.pack("<IIII", seconds, fraction // unit, size, size) + filled(frame)
    text = f"filled {counts['filled']} left {counts['left']} long {counts['long']} tail {len(data) - at}\n"
    return 0, text, out


def near_misses():
    """Frames whose lengths are cut, or told otherwise than they are."""
    for frame in FRAMES[:5]:
        for size in range(14, len(frame)):
            yield frame[:size]
    packet = 14
    for frame, at in ((BARE, packet + 2), (OVER_V4, packet + 2), (OVER_V6, packet + 4)):
        for value in list(range(len(frame) + 8)) + [0x100, 0x130, 0x7FFF, 0x8000, 0xFFFF]:
            yield changed(frame, len(frame), at, value)
    for first in range(256):
        for frame in (BARE, OVER_V4, OVER_V6):
            yield changed(frame, len(frame), packet, first << 8 | frame[packet + 1])
    for value in (0, 1, 0xFFFE, 0xFFFF):
        for at in range(34, 54, 2):
            yield changed(BARE, len(BARE), at, value)


def mutated(numbers):
    """A capture with a few changes."""
    frames = [numbers.choice(FRAMES[:7]) for _ in range(numbers.randint(0, 5))]
    if numbers.random() < 0.05:
        frames.append(FRAMES[7])
    order = numbers.choice("<>")
    data = bytearray(capture(frames, order, numbers.choice((0xA1B2C3D4, 0xA1B23C4D))))
    for _ in range(numbers.choice((0, 1, 1, 2, 3, 5))):
        if not data:
            break
        at, kind = numbers.randrange(len(data)), numbers.randrange(7)
        if numbers.random() < 0.8 and len(data) > 60:
            at = numbers.randrange(40, len(data))
        if kind == 0:
            data[at] ^= 1 << numbers.randrange(8)
        elif kind == 1:
            data[at] = numbers.choice((0, 1, 0x45, 0x4F, 0x60, 0x7F, 0x80, 0xFF))
        elif kind == 2:
            data[at : at + 2] = struct.pack(">H", numbers.choice((0, 1, 20, 40, 60, 0x0800, 0x86DD, 0x8100, 0xFFFF)))
        elif kind == 3:
            data[at : at + 4] = struct.pack(order + "I", numbers.choice((0, 13, 14, 60, 9_022, 9_023, MOST, MOST + 1, 0xFFFFFFFF)))
        elif kind == 4:
            del data[at:]
        elif kind == 5:
            data[at:at] = numbers.randbytes(numbers.randint(1, 40))
        else:
            data[at:at] = data[at : at + numbers.randint(1, 80)]
    return bytes(data)


def inputs(count):
    numbers = random.Random(20)
    made = 0
    for frame in near_misses():
        if made == count:
            return
        yield capture([frame])
        made += 1
    while made < count:
        yield mutated(numbers)
        made += 1


def main(count=10_000, program=None):
    program = program or Path(__file__).resolve().parent.parent / "crates/vmxoffload/out/vmxoffload"
    ended, wrong = Counter(), 0
    with tempfile.TemporaryDirectory() as folder:
        into, out = os.path.join(folder, "in"), os.path.join(folder, "out")
        for number, data in enumerate(inputs(int(count))):
            with open(into, "wb") as file:
                file.write(data)
            if os.path.exists(out):
                os.remove(out)
            run = subprocess.run([os.path.abspath(program), "fill", "in", "out"], cwd=folder, capture_output=True, timeout=SECONDS)
            status, text, saved = expected(data)
            have = open(out, "rb").read() if os.path.exists(out) else None
            ended[run.returncode] += 1
            if (run.returncode, run.stdout.decode(), have) != (status, text, saved) or run.stderr:
                wrong += 1
                print(f"input {number}: status {run.returncode}, {run.stdout!r}, wanted {status}, {text!r}; OUT {'as' if have == saved else 'not as'} wanted")
    print(f"{sum(ended.values())} runs: " + ", ".join(f"{ended[s]} with status {s}" for s in sorted(ended)) + f"; {wrong} wrong")
    return 1 if wrong else 0


if __name__ == "__main__":
    sys.exit(main(*sys.argv[1:]))
