#!/usr/bin/env python3
"""Makes a capture for the benchmarks: 100,000 frames of 60 to 1,140 bytes, about 60 MB. The same bytes each time.

Use: make_capture.py FILE [--tcp]

With --tcp the frames are of the same sizes, and TCP over IPv4 with checksums that are not right.
"""
import random
import struct
import sys

FRAMES = 100_000


def tcp(number, size):
    """The headers of a TCP frame over IPv4 of this size."""
    packet = struct.pack(">BBHHHBBHII", 0x45, 0, size - 14, number & 0xFFFF, 0x4000, 64, 6, 0, 0x0A000001, 0x0A000002)
    return b"\x08\x00" + packet + struct.pack(">HHIIBBHHH", 1024 + number % 64, 80, number, 0, 0x50, 0x10, 0x2000, 0xFFFF, 0)


def main(path, kind=None):
    numbers = random.Random(7)
    filling = numbers.randbytes(4096)
    with open(path, "wb") as file:
        file.write(struct.pack("<IHHiIII", 0xA1B2C3D4, 2, 4, 0, 0, 65535, 1))
        for i in range(FRAMES):
            size = numbers.randint(60, 1140)
            start = numbers.randint(0, 2048)
            head = bytes.fromhex("005056000002005056000001") + (tcp(i, size) if kind == "--tcp" else b"\x88\xb5")
            frame = head + filling[start : start + size - len(head)]
            file.write(struct.pack("<IIII", 1700000000 + i // 10_000, i % 10_000 * 100, size, size) + frame)


if __name__ == "__main__":
    main(*sys.argv[1:])
