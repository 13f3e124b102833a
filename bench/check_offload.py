#!/usr/bin/env python3
"""TCP checksums by a reading of the RFCs of its own, beside which the project's are held.

    python3 bench/check_offload.py rows           prints the rows that the tests of vmx_checksum have
    python3 bench/check_offload.py fill IN OUT    says how many frames of the capture OUT are not those of IN with right checksums
    python3 bench/check_offload.py segment IN OUT MSS
                                                  says how many frames of OUT are not the segments of those of IN, or have a wrong sum

Sums are taken as RFC 1071, section 1, says: word by word, each carry added back at once.
"""
import struct
import sys

# The first frame of Wireshark's sample capture http.cap, a SYN, with two bytes of padding behind it.
OVER_V4 = bytes.fromhex(
    "feff20000100 000001000000 0800"
    "4500 0030 0f41 4000 8006 91eb 91fea0ed 41d0e4df"
    "0d2c0050 38affe13 00000000 70022238 c30c0000 020405b4 01010402"
    "eeee"
)

# A segment with three bytes of data from 2001:db8::1 to 2001:db8::2, with three bytes of padding behind it.
OVER_V6 = bytes.fromhex(
    "005056000002 005056000001 86dd"
    "60000000 0017 06 40" + "20010db8" + "00" * 11 + "01" + "20010db8" + "00" * 11 + "02"
    "12340050 00000001 00000000 50182000 abcd0000 616263"
    "eeeeee"
)

# A bare header from 10.0.0.1 to 10.0.0.2 whose field holds all ones, with six bytes of padding.
BARE = bytes.fromhex(
    "005056000002 005056000001 0800"
    "4500 0028 0000 0000 4006 0000 0a000001 0a000002"
    "12340050 00000000 00000000 50100000 ffff0000"
    "ffffffffffff"
)

LONGEST = 9_022


def word(data, at):
    return data[at] << 8 | data[at + 1]


def segment(frame):
    """Begin and end of the TCP segment, or None."""
    at = 18 if len(frame) >= 18 and word(frame, 12) == 0x8100 else 14
    kind, packet = word(frame, at - 2), frame[at:]
    if kind == 0x0800:
        if len(packet) < 20 or packet[0] >> 4 != 4:
            return None
        header = (packet[0] & 15) << 2
        if header < 20 or header > len(packet):
            return None
        if packet[9] != 6 or word(packet, 6) & 0x3FFF or len(packet) < header + 20:
            return None
        end = word(packet, 2)
    elif kind == 0x86DD:
        if len(packet) < 60 or packet[0] >> 4 != 6 or packet[6] != 6:
            return None
        header = 40
        end = 40 + word(packet, 4)
    else:
        return None
    if end > len(packet) or end < header + 20:
        return None
    return at + header, at + end


def added(total, data):
    """The ones' complement sum of a total and the words of data."""
    for i in range(0, len(data), 2):
        total += int.from_bytes(data[i : i + 2].ljust(2, b"\0"), "big")
        total = (total & 0xFFFF) + (total >> 16)
    return total


def pseudo(frame, begin, end):
    if word(frame, 12) == 0x0800 or word(frame, 12) == 0x8100 and word(frame, 16) == 0x0800:
        at = 18 if word(frame, 12) == 0x8100 else 14
        addresses = frame[at + 12 : at + 20]
    else:
        addresses = frame[begin - 32 : begin]
    return added(0, addresses + bytes([0, 6]) + struct.pack(">I", end - begin))


def answer(frame):
    """Begin, end, seed and checksum of the segment, or None."""
    found = segment(frame)
    if found is None:
        return None
    begin, end = found
    seed = pseudo(frame, begin, end)
    cleared = frame[begin : begin + 16] + b"\0\0" + frame[begin + 18 : end]
    return begin, end, seed, 0xFFFF ^ added(seed, cleared)


def changed(frame, length, at, value):
    return (frame[:at] + struct.pack(">H", value) + frame[at + 2 :])[:length]


def row(frame, length, at, value):
    found = answer(changed(frame, length, at, value))
    want = "None" if found is None else "Some((%d, %d, 0x%04x, 0x%04x))" % found
    print(f"        ({length}, {at}, 0x{value:04x}, {want}),")


def special(frame, at, wanted):
    """The word at a place with which the frame has the wanted answer."""
    return next(value for value in range(0x10000) if wanted(answer(changed(frame, len(frame), at, value))))


def rows():
    print("OVER_V4")
    for length in (64, 62, 61, 54, 53, 34, 33, 18, 14):
        row(OVER_V4, length, 14, 0x4500)
    for total in (0, 20, 39, 40, 41, 47, 49, 50, 51, 0x130, 0xFFFF):
        row(OVER_V4, 64, 16, total)
    for words in range(16):
        row(OVER_V4, 64, 14, 0x4000 + words * 256)
    for first in (0x5500, 0x6500):
        row(OVER_V4, 64, 14, first)
    for fragment in (0x0000, 0x8000, 0x2000, 0x6000, 0x4001, 0x1000):
        row(OVER_V4, 64, 20, fragment)
    for protocol in (0x8011, 0x8000, 0xFF06):
        row(OVER_V4, 64, 22, protocol)
    for kind in (0x86DD, 0x8100, 0x0806):
        row(OVER_V4, 64, 12, kind)
    row(OVER_V4, 64, 50, 0xFFFF)
    print("OVER_V6")
    for length in (80, 77, 76, 74, 73, 54, 53):
        row(OVER_V6, length, 14, 0x6000)
    for payload in (0, 19, 20, 21, 22, 24, 25, 26, 27, 0x117, 0xFFFF):
        row(OVER_V6, 80, 18, payload)
    for following in (0x0040, 0x1140, 0x06FF):
        row(OVER_V6, 80, 20, following)
    for first in (0x4500, 0x7000, 0x6FFF):
        row(OVER_V6, 80, 14, first)
    print("BARE")
    row(BARE, 60, 50, 0xFFFF)
    row(BARE, 60, 50, 0x0000)
    row(BARE, 60, 28, special(BARE, 28, lambda found: found[2] == 0xFFFF))
    row(BARE, 60, 52, special(BARE, 52, lambda found: found[3] == 0))
    row(BARE, 60, 52, special(BARE, 52, lambda found: found[3] == 1))
    row(BARE, 60, 52, special(BARE, 52, lambda found: found[3] == 0xFFFE))
    print("tagged")
    tagged = BARE[:12] + bytes.fromhex("8100a005") + BARE[12:]
    row(tagged, 64, 14, 0xA005)
    row(tagged, 58, 14, 0xA005)
    row(tagged, 57, 14, 0xA005)
    twice = tagged[:12] + bytes.fromhex("8100a005") + tagged[12:]
    row(twice, 68, 14, 0xA005)
    print("sums")
    for data in ("0001f203f4f5f6f7", "0001f203f4f5f6", "", "ff", "ffff", "00", "450000730000400040110000c0a80001c0a800c7"):
        data = bytes.fromhex(data)
        print(data.hex() or "-", "0x%04x" % added(0, data))


def records(path):
    """The records of a capture: seconds and microseconds, and the frame."""
    with open(path, "rb") as file:
        data = file.read()
    order = "<" if data[:4] in (b"\xd4\xc3\xb2\xa1", b"\x4d\x3c\xb2\xa1") else ">"
    unit = 1_000 if data[:4] in (b"\x4d\x3c\xb2\xa1", b"\xa1\xb2\x3c\x4d") else 1
    at, found = 24, []
    while at + 16 <= len(data):
        seconds, fraction, size = struct.unpack(order + "III", data[at : at + 12])
        if at + 16 + size > len(data):
            break
        found.append(((seconds, fraction // unit), data[at + 16 : at + 16 + size]))
        at += 16 + size
    return found


def filled(frame):
    found = answer(frame) if len(frame) >= 14 else None
    if found is None:
        return frame
    begin, _, _, checksum = found
    return frame[: begin + 16] + struct.pack(">H", checksum) + frame[begin + 18 :]


def fill(path, other):
    want = [(stamp, filled(frame)) for stamp, frame in records(path) if len(frame) <= LONGEST]
    have = records(other)
    wrong = sum(a != b for a, b in zip(want, have)) + abs(len(want) - len(have))
    segments = sum(len(frame) >= 14 and answer(frame) is not None for _, frame in have)
    print(f"{len(have)} frames, {segments} with a segment, {wrong} wrong")
    return 1 if wrong else 0


def header_end(frame):
    """Begin and end of the TCP segment and the end of its header, or None."""
    found = segment(frame) if len(frame) >= 14 else None
    if found is None:
        return None
    begin, end = found
    behind = begin + (frame[begin + 12] >> 4) * 4
    return (begin, behind, end) if begin + 20 <= behind <= end else None


def is_v4(frame):
    return frame[12:14] == b"\x08\x00" or frame[12:14] == b"\x81\x00" and frame[16:18] == b"\x08\x00"


def cuts(frame, mss):
    """The segments of a frame, or None where it is not cut."""
    found = header_end(frame)
    if found is None or found[2] - found[1] <= mss:
        return None
    begin, behind, end = found
    packet = 18 if frame[12:14] == b"\x81\x00" else 14
    parts = [frame[at : min(at + mss, end)] for at in range(behind, end, mss)]
    segments = []
    for number, part in enumerate(parts):
        out = bytearray(frame[:behind] + part)
        if is_v4(frame):
            out[packet + 2 : packet + 4] = struct.pack(">H", len(out) - packet)
            out[packet + 4 : packet + 6] = struct.pack(">H", word(frame, packet + 4) + number & 0xFFFF)
            out[packet + 10 : packet + 12] = b"\0\0"
            out[packet + 10 : packet + 12] = struct.pack(">H", 0xFFFF ^ added(0, bytes(out[packet:begin])))
        else:
            out[packet + 4 : packet + 6] = struct.pack(">H", len(out) - packet - 40)
        sequence = int.from_bytes(frame[begin + 4 : begin + 8], "big")
        out[begin + 4 : begin + 8] = struct.pack(">I", sequence + number * mss & 0xFFFFFFFF)
        if number + 1 < len(parts):
            out[begin + 13] &= 0xFF ^ 0x09
        if number > 0:
            out[begin + 13] &= 0xFF ^ 0x80
        segments.append(filled(bytes(out)))
    return segments


def is_right(frame):
    """Whether the sums of a frame's headers are right, as far as it has a TCP segment."""
    found = segment(frame) if len(frame) >= 14 else None
    if found is None:
        return True
    begin, end = found
    packet = 18 if frame[12:14] == b"\x81\x00" else 14
    if is_v4(frame) and added(0, frame[packet:begin]) != 0xFFFF:
        return False
    return added(pseudo(frame, begin, end), frame[begin:end]) == 0xFFFF


def segment_capture(path, other, mss):
    have = records(other)
    at = wrong = cut = made = 0
    for stamp, frame in records(path):
        if len(frame) > LONGEST:
            continue
        pieces = cuts(frame, mss)
        want = [filled(frame)] if pieces is None else pieces
        got = have[at : at + len(want)]
        at += len(want)
        wrong += sum((stamp, a) != b for a, b in zip(want, got)) + len(want) - len(got)
        if pieces is None:
            continue
        cut += 1
        made += len(pieces)
        begin, behind, end = header_end(frame)
        wrong += sum(not is_right(piece) for _, piece in got)
        wrong += b"".join(piece[behind:] for _, piece in got) != frame[behind:end]
    wrong += len(have) - min(at, len(have))
    print(f"{cut} frames cut into {made} segments, {len(have)} frames in all, {wrong} wrong")
    return 1 if wrong else 0


if __name__ == "__main__":
    if sys.argv[1:] == ["rows"]:
        sys.exit(rows())
    if len(sys.argv) == 4 and sys.argv[1] == "fill":
        sys.exit(fill(*sys.argv[2:]))
    if len(sys.argv) == 5 and sys.argv[1] == "segment":
        sys.exit(segment_capture(sys.argv[2], sys.argv[3], int(sys.argv[4])))
    sys.exit(__doc__)
