#!/usr/bin/env python3
"""Checks the file of `vmx_bench rings FILE`: words and buffers of both queues after a fixed list of calls.

The layouts below restate those of Linux's vmxnet3_defs.h as bit fields, in this project's own words, for a little-endian
machine. What stands in the rings is worked out here from the list of calls, as docs/FORMATS.md tells it, and from nothing of
the crates. Ends with status 0 where all agrees.
"""
import ctypes
import struct
import sys

FRAMES = 48
LENGTHS = (60, 9014, 1514, 128, 4224)
# tag, om, hlen, msscof
MARKS = ((None, 0, 0, 0), (0x2064, 0, 0, 0), (None, 2, 34, 50), (0xE00A, 3, 54, 1448))
# hash, kind, tag
METAS = ((0, 0, None), (0x51CCC178, 2, 0x2064), (0xC626B0EA, 1, None), (0x40207D3D, 4, 0xE00A))
DATA_ENTRY = 128
HEAD, BODY = 2048, 4096


def layout(name, *parts):
    """Two words as bit fields: a number stands for that many bits without a name."""
    fields = []
    for part in parts:
        for field, width in part:
            fields.append((field or f"unnamed{len(fields)}", ctypes.c_uint32, width))
    return type(name, (ctypes.LittleEndianStructure,), {"_fields_": fields})


TxDesc = layout(
    "TxDesc",
    (("low", 32),),
    (("high", 32),),
    (("len", 14), ("gen", 1), (None, 1), ("dtype", 1), ("ext1", 1), ("msscof", 14)),
    (("hlen", 10), ("om", 2), ("eop", 1), ("cq", 1), ("ext2", 1), ("ti", 1), ("tci", 16)),
)
TxComp = layout("TxComp", (("txd_idx", 12), (None, 20)), ((None, 32),), ((None, 32),), ((None, 24), ("type", 7), ("gen", 1)))
RxDesc = layout("RxDesc", (("low", 32),), (("high", 32),), (("len", 14), ("btype", 1), ("dtype", 1), (None, 15), ("gen", 1)), ((None, 32),))
RxComp = layout(
    "RxComp",
    (("rxd_idx", 12), (None, 2), ("eop", 1), ("sop", 1), ("rq_id", 10), ("rss_type", 4), ("cnc", 1), (None, 1)),
    (("rss_hash", 32),),
    (("len", 14), ("err", 1), ("ts", 1), ("tci", 16)),
    (
        ("csum", 16), ("tuc", 1), ("udp", 1), ("tcp", 1), ("ipc", 1), ("v6", 1), ("v4", 1), ("frg", 1), ("fcs", 1),
        ("type", 7), ("gen", 1),
    ),
)

faults = 0
checks = 0


def same(what, wanted, found):
    global faults, checks
    checks += 1
    if wanted != found:
        faults += 1
        if faults <= 20:
            print(f"{what}: wanted {wanted}, found {found}")


def fields_of(kind, first, second):
    seen = kind.from_buffer_copy(struct.pack("<QQ", first, second))
    return {name: getattr(seen, name) for name, _, _ in kind._fields_}


def words_of(what, kind, found, **wanted):
    """The words have these fields, and 0 in all others."""
    seen = fields_of(kind, *found)
    for name in seen:
        same(f"{what} {name}", wanted.get(name, 0), seen[name])


def frame(number):
    return bytes((k + 7 * number) % 251 for k in range(LENGTHS[number % 5]))


def generation(size, position):
    return 1 - position // size % 2


class Section:
    """A queue's numbers, words and slots."""

    def __init__(self, data, at):
        head = struct.unpack_from("<8I2Q", data, at)
        self.kind, self.queue, self.queues, self.size1, self.size2, self.bodies, self.piece, self.data, words, size = head
        at += 48
        self.words = struct.unpack_from(f"<{words}Q", data, at)
        at += 8 * words
        self.buffers = data[at : at + size]
        self.end = at + size
        self.count = self.size1 + self.size2
        same("words", 4 * self.count, words)
        self.slots = []
        at = 0
        for index in range(self.count):
            room = self.room(index)
            self.slots.append((self.buffers[at : at + room], self.buffers[at + room : at + room + DATA_ENTRY]))
            at += room + DATA_ENTRY
        same("bytes", at, size)

    def room(self, index):
        if self.kind == 1:
            return 4096
        return HEAD if index < self.size1 and index % (self.bodies + 1) == 0 else BODY

    def descriptor(self, index):
        return self.words[self.count + index], self.words[index]

    def completion(self, index):
        return self.words[3 * self.count + index], self.words[2 * self.count + index]

    def piece_at(self, what, index, in_data, piece):
        found = self.slots[index][1 if in_data else 0]
        unlike = [place for place, byte in enumerate(piece) if found[place] != byte]
        same(f"{what} places of other bytes", [], unlike[:4])


def transmit(section):
    """Each descriptor has the last frame's piece that came to its index, each completion the last frame's."""
    queue, size = section.queue, section.size1
    position = 0
    ring = {}
    completions = {}
    for number in range(FRAMES):
        bytes_ = frame(number)
        pieces = []
        if section.data:
            pieces.append(bytes_[:DATA_ENTRY])
            bytes_ = bytes_[DATA_ENTRY:]
        while bytes_:
            pieces.append(bytes_[: section.piece])
            bytes_ = bytes_[section.piece :]
        for place, piece in enumerate(pieces):
            ring[position % size] = (position, number, place, len(pieces), piece)
            position += 1
        if number < FRAMES - 2:
            completions[number % size] = (number, (position - 1) % size)
    for index in range(size):
        at, number, place, count, piece = ring[index]
        in_data = section.data and place == 0
        address = 0x10020000 + queue * 0x100000 + index * 128 if in_data else 0x100000000 + queue * 0x2000000 + index * 4096
        tag, om, hlen, msscof = MARKS[number % 4] if place == 0 else MARKS[0]
        last = int(place + 1 == count)
        words_of(
            f"transmit descriptor {index}", TxDesc, section.descriptor(index), low=address % 2**32, high=address // 2**32,
            len=len(piece), gen=generation(size, at), msscof=msscof, hlen=hlen, om=om, eop=last, cq=last,
            ti=int(tag is not None), tci=tag or 0,
        )
        section.piece_at(f"transmit descriptor {index}", index, in_data, piece)
        number, last_index = completions[index]
        words_of(f"transmit completion {index}", TxComp, section.completion(index), txd_idx=last_index, gen=generation(size, number))


def receive(section):
    """Each descriptor is posted as often as it came back, each completion is the last one that came to its index."""
    queue, sizes, count = section.queue, (section.size1, section.size2), section.count
    gone = [0, 0]
    back = [0, 0]
    log = []
    for number in range(FRAMES):
        bytes_ = frame(number)
        while gone[0] % sizes[0] % (section.bodies + 1):
            gone[0] += 1
        chain = [(0, gone[0])]
        gone[0] += 1
        pieces = [bytes_[:HEAD]]
        bytes_ = bytes_[HEAD:]
        while bytes_:
            ring = 0 if gone[0] % sizes[0] % (section.bodies + 1) else 1
            chain.append((ring, gone[ring]))
            gone[ring] += 1
            pieces.append(bytes_[:BODY])
            bytes_ = bytes_[BODY:]
        in_data = section.data and len(pieces) == 1 and len(pieces[0]) <= DATA_ENTRY
        for place, ((ring, position), piece) in enumerate(zip(chain, pieces)):
            log.append((number, place, len(pieces), ring, position, piece, in_data))
        if number == FRAMES - 4:
            back = list(gone)
    for ring in (0, 1):
        for index in range(sizes[ring]):
            slot = index + (sizes[0] if ring else 0)
            laps = (back[ring] + sizes[ring] - 1 - index) // sizes[ring]
            body = int(section.room(slot) == BODY)
            address = 0x200000000 + queue * 0x4000000 + ring * 0x2000000 + index * 4096
            words_of(
                f"receive descriptor {ring + 1} {index}", RxDesc, section.descriptor(slot), low=address % 2**32,
                high=address // 2**32, len=section.room(slot), btype=body, gen=1 - laps % 2,
            )
    newest = {}
    slots = {}
    for at, entry in enumerate(log):
        newest[at % count] = (at, entry)
        slots[entry[3] * sizes[0] + entry[4] % sizes[entry[3]], entry[6]] = entry[5]
    for index, (at, (number, place, pieces, ring, position, piece, in_data)) in newest.items():
        hash_, kind, _ = METAS[number % 4] if place == 0 else METAS[0]
        last = place + 1 == pieces
        tag = METAS[number % 4][2] if last else None
        words_of(
            f"receive completion {index}", RxComp, section.completion(index), rxd_idx=position % sizes[ring], eop=int(last),
            sop=int(place == 0), rq_id=queue + section.queues * (2 if in_data else ring), rss_type=kind, rss_hash=hash_,
            len=len(piece), ts=int(tag is not None), tci=tag or 0, type=3, gen=generation(count, at),
        )
    for (slot, in_data), piece in slots.items():
        section.piece_at(f"receive slot {slot}", slot, in_data, piece)
    same("completions that stand", count, len(newest))


def by_hand(sections):
    """Words that were worked out on paper from the layouts."""
    with_data, without, receive_with, receive_without = sections
    # frame 44 has 4,224 bytes and no mark; with a data ring it is at the positions 88 and 89, with 128 bytes in the entry of index 24
    same("first word by hand", 0x10320C00, with_data.words[32 + 24])
    same("second word by hand", 0x4080, with_data.words[24])
    same("last word by hand", 0x300000005000, with_data.words[25])
    # frame 45 is the last completed one, in the second lap
    same("completion by hand", 0, with_data.words[64 + 45 % 32])
    # frame 47 has 1,514 bytes, a tag and TSO; without a data ring it is at position 76
    same("marked word by hand", 0xE00ABC3616A045EA, without.words[12])
    # ring 1 of receive queue 2 begins at its first buffer
    same("address by hand", 0x208000000, receive_with.words[64])
    same("address of ring 2 by hand", 0x20A000000, receive_without.words[64 + 32])


def main():
    data = open(sys.argv[1], "rb").read()
    sections = []
    at = 0
    while at < len(data):
        sections.append(Section(data, at))
        at = sections[-1].end
    same("sections", [(1, 1), (1, 0), (2, 1), (2, 0)], [(s.kind, s.data) for s in sections])
    for section in sections:
        (transmit if section.kind == 1 else receive)(section)
    by_hand(sections)
    print(f"{len(sections)} sections, {checks} values, {faults} differences")
    return 1 if faults else 0


if __name__ == "__main__":
    sys.exit(main())
