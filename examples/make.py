#!/usr/bin/env python3
"""Makes the captures that are kept in this repository.

    examples/lan.pcap        a few seconds on a small network: ARP, a TCP connection with a request and an answer
                             over IPv4, ICMPv6 and UDP over IPv6, a frame with a VLAN tag, a runt of 13 bytes and a
                             frame of 1,519 bytes; the last record is cut, as by a capture that was stopped
    crates/vmxreplay/data/in three frames of 60, 1,514 and 60 bytes, the first and the third equal: the capture of the
                             program's stored run

Each is a classic pcap file: little-endian, microseconds, version 2.4, Ethernet. The script takes no words; it finds
the repository by its own place, and writes the same bytes each time.
"""
import os
import struct

TOP = os.path.dirname(os.path.dirname(os.path.abspath(__file__)))

A = bytes.fromhex("005056000001")
B = bytes.fromhex("005056000002")
ALL = b"\xff" * 6
A4, B4 = bytes([192, 0, 2, 1]), bytes([192, 0, 2, 2])
A6 = bytes.fromhex("20010db8000000000000000000000001")
B6 = bytes.fromhex("20010db8000000000000000000000002")


def ones_sum(data):
    """The Internet checksum."""
    if len(data) % 2:
        data += b"\0"
    total = sum(struct.unpack(f">{len(data) // 2}H", data))
    while total >> 16:
        total = (total & 0xFFFF) + (total >> 16)
    return 0xFFFF ^ total


def ethernet(target, source, kind, payload, tag=None):
    head = target + source
    if tag is not None:
        head += struct.pack(">HH", 0x8100, tag)
    return (head + struct.pack(">H", kind) + payload).ljust(60, b"\0")


def arp(operation, source, source4, target, target4):
    return struct.pack(">HHBBH", 1, 0x0800, 6, 4, operation) + source + source4 + target + target4


def ipv4(source, target, protocol, payload, number):
    head = struct.pack(">BBHHHBBH", 0x45, 0, 20 + len(payload), number, 0x4000, 64, protocol, 0) + source + target
    return head[:10] + struct.pack(">H", ones_sum(head)) + head[12:] + payload


def ipv6(source, target, following, payload):
    return struct.pack(">IHBB", 0x60000000, len(payload), following, 64) + source + target + payload


def tcp(source, target, ports, numbers, flags, payload=b""):
    segment = struct.pack(">HHIIBBHHH", *ports, *numbers, 0x50, flags, 64240, 0, 0) + payload
    pseudo = source + target + struct.pack(">BBH", 0, 6, len(segment))
    return segment[:16] + struct.pack(">H", ones_sum(pseudo + segment)) + segment[18:]


def udp6(source, target, ports, payload):
    datagram = struct.pack(">HHHH", *ports, 8 + len(payload), 0) + payload
    pseudo = source + target + struct.pack(">II", len(datagram), 17)
    return datagram[:6] + struct.pack(">H", ones_sum(pseudo + datagram)) + datagram[8:]


def icmp6(source, target, body):
    pseudo = source + target + struct.pack(">II", len(body), 58)
    return body[:2] + struct.pack(">H", ones_sum(pseudo + body)) + body[4:]


def capture(frames, cut=0):
    """The capture of (second, microsecond, frame), without its last bytes."""
    out = struct.pack("<IHHiIII", 0xA1B2C3D4, 2, 4, 0, 0, 65535, 1)
    for second, micros, frame in frames:
        out += struct.pack("<IIII", second, micros, len(frame), len(frame)) + frame
    return out[: len(out) - cut]


def lan():
    ask, serve = (49152, 80), (80, 49152)
    request = b"GET / HTTP/1.1\r\nHost: example.net\r\n\r\n"
    page = b"<!doctype html>" + b"<p>Frames go round and come out here.</p>" * 34
    answer = b"HTTP/1.1 200 OK\r\nContent-Length: %d\r\n\r\n" % len(page) + page
    answer = answer[:1460]
    there, back = (A4, B4), (B4, A4)

    def on4(way, ports, numbers, flags, number, payload=b""):
        target, source = (B, A) if way is there else (A, B)
        return ethernet(target, source, 0x0800, ipv4(*way, 6, tcp(*way, ports, numbers, flags, payload), number))

    solicited = bytes.fromhex("ff0200000000000000000001ff000002")
    solicit = struct.pack(">BBHI", 135, 0, 0, 0) + B6 + b"\x01\x01" + A
    frames = [
        ethernet(ALL, A, 0x0806, arp(1, A, A4, b"\0" * 6, B4)),
        ethernet(A, B, 0x0806, arp(2, B, B4, A, A4)),
        on4(there, ask, (1000, 0), 0x02, 1),
        on4(back, serve, (7000, 1001), 0x12, 1),
        on4(there, ask, (1001, 7001), 0x10, 2),
        on4(there, ask, (1001, 7001), 0x18, 3, request),
        on4(back, serve, (7001, 1001 + len(request)), 0x18, 2, answer),
        on4(there, ask, (1001 + len(request), 7001 + len(answer)), 0x11, 4),
        ethernet(bytes.fromhex("3333ff000002"), A, 0x86DD, ipv6(A6, solicited, 58, icmp6(A6, solicited, solicit))),
        ethernet(B, A, 0x86DD, ipv6(A6, B6, 17, udp6(A6, B6, (40000, 40001), b"vmxnet3 over IPv6"))),
        ethernet(B, A, 0x0800, ipv4(A4, B4, 6, tcp(A4, B4, (49153, 80), (1, 0), 0x02), 5), tag=5),
        b"\x55" * 13,
        ethernet(B, A, 0x88B5, b"\x66" * 1505),
        ethernet(B, A, 0x88B5, b"\x77" * 100),
    ]
    return capture([(1700000000 + i // 4, 125000 * (i % 4) + i, frame) for i, frame in enumerate(frames)], cut=50)


def three():
    one, two = b"\x01" * 60, b"\x02" * 1514
    return capture([(1700000000, 1, one), (1700000001, 2, two), (1700000002, 3, one)])


def put(name, data):
    path = os.path.join(TOP, name)
    os.makedirs(os.path.dirname(path), exist_ok=True)
    with open(path, "wb") as file:
        file.write(data)
    print(f"{name}: {len(data)} bytes")


if __name__ == "__main__":
    put("examples/lan.pcap", lan())
    put("crates/vmxreplay/data/in", three())
