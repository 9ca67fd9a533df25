#!/usr/bin/env python3
"""Makes the stored sheets that `replay sheets` answers to. For each sheet crates/replay/data/sheets.in has its length in four bytes,
highest first, and its bytes; and sheets.out has a line with the number of its refusal among 1 to 7, or 0. The answers come from the judge in
this file, which was written from document 01's section 2 and table alone, in another language and another shape than the program. It is run
once, and the files are kept.

    python3 tools/make_sheets.py

Each of these sheets is there once: those of samples/ of up to 1,000 bytes; small solids that are cut at every byte, that have bytes after them
and that have each filling bit set; every limit, broken by one and just kept, and for entries also where the sheet is then cut or has a bad sub;
lists that are empty, that do not rise, that repeat a sub or that have a sub equal to its count; coordinates that are NaN of every kind,
infinite, at the limit and just above it; solids that are loose, mitred or both at once, at every rank up to R = 5, and with too little
workspace; both edges of the workspace, that of the words and that of the floats; and 400 random damages of samples (Python's random, seed
20261115).
"""
import itertools
import os
import random
import struct
import sys

TOP = os.path.dirname(os.path.dirname(os.path.abspath(__file__)))
sys.path.insert(0, os.path.dirname(os.path.abspath(__file__)))
from pack_sheet import pack

WORDS, FLOATS = 65536, 16448


class Refused(Exception):
    pass


def judge(data, words=WORDS, floats=FLOATS):
    """Returns the refusal's number, or 0. The fields are judged as they come, then the end, 7, 5 and 6."""
    bits = "".join(f"{b:08b}" for b in data)
    at = 0

    def read(width):
        nonlocal at
        if len(bits) < at + width:
            raise Refused(1)
        n = int(bits[at:at + width], 2)
        at += width
        return n

    try:
        rank = read(3)
        if rank > 5:
            raise Refused(2)
        dimension = read(3)
        if dimension > 4:
            raise Refused(2)
        counts = []
        for _ in range(rank - 1):
            c = read(12)
            if not 1 <= c <= 2048:
                raise Refused(2)
            counts.append(c)
        for _ in range((counts[0] if counts else rank) * dimension):
            x = struct.unpack(">d", struct.pack(">Q", read(64)))[0]
            if not abs(x) <= 1048576.0:
                raise Refused(3)
        lists = []
        for below, count in zip(counts, counts[1:]):
            used, ranked = 0, []
            for _ in range(count):
                n = read(12)
                used += n
                if used > 8192:
                    raise Refused(2)
                if n == 0:
                    raise Refused(4)
                subs = []
                for _ in range(n):
                    s = read(11)
                    if s >= below or (subs and s <= subs[-1]):
                        raise Refused(4)
                    subs.append(s)
                ranked.append(subs)
            lists.append(ranked)
        if len(bits) - at >= 8 or "1" in bits[at:]:
            raise Refused(1)
        elements, entries = sum(counts), sum(len(l) for r in lists for l in r)
        if words < 16 * (elements + entries + 4) or floats < 8 * (elements + 8):
            raise Refused(7)
        solid = [[[]]]
        if rank > 1:
            solid += [[[0]] * counts[0]] + lists
        if rank > 0:
            solid.append([list(range(len(solid[-1])))])
        for r in range(1, rank - 1):
            held = {s for l in solid[r + 1] for s in l}
            if len(held) < len(solid[r]):
                raise Refused(5)
        for r in range(1, rank):
            for g in solid[r + 1]:
                seen = {}
                for f in g:
                    for h in solid[r][f]:
                        seen[h] = seen.get(h, 0) + 1
                if any(n != 2 for n in seen.values()):
                    raise Refused(6)
    except Refused as e:
        return e.args[0]
    return 0


def packed(bits):
    bits += "0" * (-len(bits) % 8)
    return bytes(int(bits[i:i + 8], 2) for i in range(0, len(bits), 8))


def head(rank, dimension, counts):
    return f"{rank:03b}{dimension:03b}" + "".join(f"{c:012b}" for c in counts)


def made():
    square = pack(3, 2, [(1, 1), (-1, 1), (-1, -1), (1, -1)], [[[0, 1], [1, 2], [2, 3], [0, 3]]])
    tetra = pack(4, 0, [()] * 4, [[[0, 1], [0, 2], [0, 3], [1, 2], [1, 3], [2, 3]], [[0, 1, 3], [0, 2, 4], [1, 2, 5], [3, 4, 5]]])
    pair = pack(2, 1, [(-1.0,), (1.0,)], [])
    # This is the only one here that fills its last byte.
    pentagon = pack(3, 0, [()] * 5, [[[0, 1], [1, 2], [2, 3], [3, 4], [0, 4]]])
    for whole in (square, tetra, pair, pentagon, bytes([0]), bytes([0x20]), b""):
        yield from (whole[:n] for n in range(len(whole) + 1))
        yield from (whole + tail for tail in (b"\x00", b"\x01", b"\xff", b"\x00\x00"))
        if whole:
            yield from (whole[:-1] + bytes([whole[-1] | 1 << k]) for k in range(8))
    for rank in range(8):
        for dimension in range(8):
            yield packed(head(rank, dimension, []))
    for c in (0, 1, 2, 2047, 2048, 2049, 4095):
        yield packed(head(2, 0, [c]))
        yield packed(head(3, 0, [2, c]))
    for x in (float("nan"), float("inf"), float("-inf"), 1048576.0, -1048576.0, 1048576.0000000002, -1048576.0000000002, 5e-324, -0.0):
        yield pack(2, 1, [(x,), (1.0,)], [])
        yield pack(1, 2, [(0.0, x)], [])
        yield pack(2, 1, [(x,), (1.0,)], [])[:10]
    for pattern in (0x7ff8 << 48, 0xfff8 << 48, (0x7ff0 << 48) + 1, (0xfff0 << 48) + 1, 0x7ff4 << 48, 0xfff4 << 48, (1 << 63) - 1, (1 << 64) - 1):
        yield packed(head(2, 1, [2]) + f"{pattern:064b}{0:064b}")
    for edges in ([[]], [[0]], [[0, 0]], [[1, 0]], [[0, 2]], [[0, 1], []], [[0, 1], [1, 1]], [[0, 1], [0, 1]], [[0, 1]], [[0, 1], [0, 1], [0, 1]]):
        yield pack(3, 0, [()] * 2, [edges])
    yield pack(3, 0, [()] * 3, [[[0, 1], [0, 1]]])
    yield pack(3, 0, [()] * 3, [[[0, 1]]])
    yield pack(4, 0, [()] * 3, [[[0, 1], [1, 2], [0, 2]], [[0, 1, 2], [0, 1, 2]]])
    yield pack(4, 0, [()] * 3, [[[0, 1], [1, 2], [0, 2]], [[0, 1, 2]]])
    yield pack(4, 0, [()] * 3, [[[0, 1], [1, 2], [0, 2], [0, 1]], [[0, 1, 2], [0, 1, 2]]])
    yield from cells()
    full = list(range(2048))
    for last in ([0, 1], [0]):
        yield pack(3, 0, [()] * 2048, [[full, full, full, full[:2046], last]])
    yield pack(3, 0, [()] * 2048, [[full, full, full, full[:2047], []]])
    yield pack(3, 0, [()] * 2048, [[full, full, full, full, []]])
    yield pack(3, 0, [()] * 2048, [[full, full, full, full, [0]]])
    # Entry 8,193 is there, and then the sheet is cut, or a sub repeats.
    over = head(3, 0, [2048, 4]) + "".join(f"{2048:012b}" + "".join(f"{x:011b}" for x in full) for _ in range(3)) + f"{2049:012b}"
    yield packed(over)
    yield packed(over + f"{0:011b}" * 2049)
    # One rank has as many entries as it may have, and the next rank has some too.
    yield pack(4, 0, [()] * 2048, [[full] * 4, [[0, 1, 2, 3]]])
    # Polygons of 1,023 sides just fit the words. 2,048 elements just fit the floats, and there the solid is loose.
    for n in (200, 1023, 1024, 1025):
        yield pack(3, 0, [()] * n, [[[i, i + 1] for i in range(n - 1)] + [[0, n - 1]]])
    for n in (2046, 2047):
        yield pack(3, 0, [()] * n, [[[0, 1], [0, 1]]])


def cells():
    """Makes the boundary of the 4-simplex, R = 5, and its variants with an element in no list and with one sub more or less, at each rank."""
    of = [list(itertools.combinations(range(5), k)) for k in range(1, 5)]
    lists = [[[at.index(s) for s in itertools.combinations(e, len(e) - 1)] for e in up] for at, up in zip(of, of[1:])]
    lists = [[sorted(l) for l in ls] for ls in lists]
    yield pack(5, 0, [()] * 5, lists)
    yield pack(5, 0, [()] * 6, lists)
    for r in range(3):
        spare = lists[:r] + [lists[r] + [lists[r][0]]] + lists[r + 1:]
        less = lists[:r] + [[lists[r][0][1:]] + lists[r][1:]] + lists[r + 1:]
        more = lists[:r] + [[sorted({*lists[r][0], lists[r][-1][-1]})] + lists[r][1:]] + lists[r + 1:]
        yield from (pack(5, 0, [()] * 5, ls) for ls in (spare, less, more))
    yield pack(5, 0, [()] * 5, lists[:2] + [lists[2][:-1]])
    # There are two triangles on the same edges, both of which are in each of n facets.
    for n in (1, 2, 3):
        yield pack(5, 0, [()] * 3, [[[0, 1], [1, 2], [0, 2]], [[0, 1, 2]] * 2, [[0, 1]] * n])


def damaged(samples):
    rng = random.Random(20261115)
    for _ in range(400):
        data = bytearray(rng.choice(samples))
        for _ in range(rng.randrange(1, 4)):
            if data and rng.random() < 0.8:
                data[rng.randrange(len(data))] ^= 1 << rng.randrange(8)
            elif data and rng.random() < 0.5:
                del data[rng.randrange(len(data))]
            else:
                data.insert(rng.randrange(len(data) + 1), rng.randrange(256))
        yield bytes(data)


def main():
    folder = f"{TOP}/samples"
    samples = [open(f"{folder}/{f}", "rb").read() for f in sorted(os.listdir(folder)) if f.endswith(".sheet")]
    samples = [s for s in samples if len(s) <= 1000]
    sheets = list(dict.fromkeys(samples + list(made()) + list(damaged(samples))))
    stored = f"{TOP}/crates/replay/data/sheets"
    numbers = [judge(s) for s in sheets]
    with open(f"{stored}.in", "wb") as given, open(f"{stored}.out", "w") as answers:
        for sheet, number in zip(sheets, numbers):
            given.write(struct.pack(">I", len(sheet)) + sheet)
            answers.write(f"{number}\n")
    print(len(sheets), "sheets;", ", ".join(f"{numbers.count(k)} of {k}" for k in range(8)))


if __name__ == "__main__":
    main()
