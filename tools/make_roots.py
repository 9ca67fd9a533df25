#!/usr/bin/env python3
"""Makes the stored roots that `replay floats` answers to, at the start of crates/replay/data/floats.in and floats.out. For each argument
floats.in has a 0 and its bit pattern, and floats.out has the root's pattern, as numbers of eight bytes with the highest byte first. The answers
are the machine's own square roots. tools/make_floats.sh runs it.

The arguments are zeros, infinities, NaN and negatives; the smallest and largest subnormals and normals; every power of two; squares of whole
numbers and of random 26-bit and 53-bit values with their two neighbours; and 1,000 random patterns with the sign clear and 100 random
subnormals (Python's random, seed 20261115).
"""
import math
import os
import random
import struct

TOP = os.path.dirname(os.path.dirname(os.path.abspath(__file__)))
NAN = 0x7FF8000000000000


def value(n):
    return struct.unpack(">d", struct.pack(">Q", n))[0]


def pattern(x):
    return NAN if x != x else struct.unpack(">Q", struct.pack(">d", x))[0]


def root(n):
    x = value(n)
    if x != x or x < 0:
        return NAN
    return pattern(math.sqrt(x))


def arguments():
    rng = random.Random(20261115)
    yield from (0, 1 << 63, 0x7FF0000000000000, 0xFFF0000000000000, NAN, 0xBFF0000000000000, 0x8000000000000001)
    yield from (1, 2, 3, 4, 5, 0x000FFFFFFFFFFFFF, 0x0010000000000000, 0x0010000000000001, 0x7FEFFFFFFFFFFFFF, 0x7FEFFFFFFFFFFFFE)
    for e in range(-1074, 1024):
        yield pattern(math.ldexp(1.0, e))
    for k in range(2, 40):
        for d in (-1, 0, 1):
            yield pattern(float(k * k)) + d
    for bits in (26, 53):
        for _ in range(60):
            v = float(rng.getrandbits(bits) | 1 << (bits - 1))
            for d in (-1, 0, 1):
                yield pattern(v * v) + d
    for _ in range(1000):
        n = rng.getrandbits(63)
        yield n if value(n) == value(n) else NAN
    for _ in range(100):
        yield rng.getrandbits(52) >> rng.randrange(52)


def main():
    stored = f"{TOP}/crates/replay/data/floats"
    with open(f"{stored}.in", "wb") as given, open(f"{stored}.out", "wb") as answers:
        for n in arguments():
            given.write(struct.pack(">QQ", 0, n))
            answers.write(struct.pack(">Q", root(n)))


if __name__ == "__main__":
    main()
