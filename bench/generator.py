#!/usr/bin/env python3
"""The frames of the generator, made a second time from docs/FORMATS.md, 'The generator': the numbers that tests expect.

    python3 bench/generator.py draw NUMBER              the first draw
    python3 bench/generator.py row NUMBER GUEST FRAME   a frame: its length, and the sum of its bytes, each times its place from 1 on
    python3 bench/generator.py head NUMBER GUEST FRAME  its three headers
    python3 bench/generator.py sums NUMBER              the bytes of all frames of a number, and the sum of their values
"""
import sys

GUESTS, FRAMES = 8, 2_000


def draws(number):
    """Draw after draw."""
    while True:
        number = (number * 6364136223846793005 + 1442695040888963407) % 2**64
        yield number // 2**33


def address(guest):
    return bytes.fromhex("005056000100")[:5] + bytes([guest])


def destination(draw):
    if draw % 10 == 0:
        return bytes([0xFF] * 6)
    return bytes.fromhex("005056000200") if draw % 10 == 1 else address(draw // 10 % 8)


def frame(guest, n, d1, d2, d3):
    length = 60 + d2 % 1455
    ethernet = destination(d1) + address(guest) + bytes.fromhex("0800")
    ip = bytes.fromhex("4500") + (length - 14).to_bytes(2, "big") + n.to_bytes(2, "big") + bytes.fromhex("400040060000")
    ip += bytes([10, 0, 0, guest, 10, 0, 1, d3 % 16])
    tcp = (1024 + d3 % 64).to_bytes(2, "big") + (80).to_bytes(2, "big") + n.to_bytes(4, "big") + bytes.fromhex("000000005010000000000000")
    return ethernet + ip + tcp + bytes((n + j) % 256 for j in range(length - 54))


def frames(number):
    """Guest, frame's number and bytes of all frames, in the order of their draws."""
    drawn = draws(number)
    for n in range(FRAMES):
        for guest in range(GUESTS):
            yield guest, n, frame(guest, n, next(drawn), next(drawn), next(drawn))


def one(number, guest, n):
    return next(octets for g, m, octets in frames(number) if (g, m) == (guest, n))


def weight(octets):
    return sum(place * octet for place, octet in enumerate(octets, 1))


def main(words):
    numbers = [int(word) for word in words[1:]]
    if words[:1] == ["draw"] and len(numbers) == 1:
        print(next(draws(*numbers)))
    elif words[:1] == ["row"] and len(numbers) == 3:
        print(len(one(*numbers)), weight(one(*numbers)))
    elif words[:1] == ["head"] and len(numbers) == 3:
        print(", ".join(f"0x{octet:02x}" for octet in one(*numbers)[:54]))
    elif words[:1] == ["sums"] and len(numbers) == 1:
        every = [octets for _, _, octets in frames(*numbers)]
        print(sum(map(len, every)), sum(map(sum, every)))
    else:
        sys.exit(__doc__)


if __name__ == "__main__":
    main(sys.argv[1:])
