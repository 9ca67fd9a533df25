#!/usr/bin/env python3
"""Packs a solid into a sheet (document 01, section 2) and writes its bytes to standard output.

    python3 tools/pack_sheet.py R D 'x y .. ; x y .. ; ..' ['0 1 ; 1 2 ; .. | ..']

The first text has the coordinates of each vertex between semicolons. The second has, for ranks 2 to R−1 and parted by |, the subs of each
element between semicolons.
"""
import struct
import sys


def pack(rank, dimension, points, lists):
    counts = [len(points)] + [len(l) for l in lists] if rank > 1 else []
    bits = f"{rank:03b}{dimension:03b}" + "".join(f"{c:012b}" for c in counts)
    for p in points:
        for x in p:
            bits += f"{struct.unpack('>Q', struct.pack('>d', x))[0]:064b}"
    for ls in lists:
        for l in ls:
            bits += f"{len(l):012b}" + "".join(f"{s:011b}" for s in l)
    bits += "0" * (-len(bits) % 8)
    return bytes(int(bits[i:i + 8], 2) for i in range(0, len(bits), 8))


def main():
    rank, dimension = int(sys.argv[1]), int(sys.argv[2])
    points = [[float(x) for x in p.split()] for p in sys.argv[3].split(";")] if len(sys.argv) > 3 and sys.argv[3] else []
    lists = [[[int(s) for s in e.split()] for e in r.split(";")] for r in sys.argv[4].split("|")] if len(sys.argv) > 4 else []
    sys.stdout.buffer.write(pack(rank, dimension, points, lists))


if __name__ == "__main__":
    main()
