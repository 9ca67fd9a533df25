#!/usr/bin/env python3
"""Makes the stored copyings that `replay copies` answers to: crates/replay/data/copies.in and copies.out, in the form that the program's source says.
It is run once, and the files are kept.

    python3 tools/make_copies.py ORACLE         ORACLE is the built oracle's program (oracle/bin/oracle)

Where the input is clean (document 01, section 6) and passes, copies and rows are the oracle's, which is the Rust itself. The refusals, what
each leaves in the two outputs, and the copyings that are not clean are answered by the model in this file, written from 01's section 7
and table alone, in another language and another shape than the program. On clean input the two are held to agree.

The copyings are the 48 on seeds of every kind of place and on several at once; cyclic and dihedral groups in two dimensions; one dimension;
four dimensions with the 120 unit icosians, the 192 rotations of a tesseract and double turns; points at, just within and just past EPS of
another; every refusal at its boundary and each before the next; both outputs one short, exactly full, empty and with cells to spare; 2,048
copies and more; and random seeds (Python's random, seed 20261115). Three kinds are there for the guesses of crate `points`: points of which
some have a twin a little further off than EPS, under a matrix whose images are near both; numbers of copies about the one at which it goes
from comparing one by one to guessing; and many seeds under the identity.

After them the program hands out its table of 48. Here it is made by the rule, with the orders by dictionary rank and the signs by bits.
"""
import itertools
import math
import os
import random
import struct
import subprocess
import sys

from search_model import check_clean, clean_copying

TOP = os.path.dirname(os.path.dirname(os.path.abspath(__file__)))
EPS = 1e-7
LIMIT = 1048576.0
MOST = 2048
OPEN = 65535


# ---- the model

def image(matrix, point):
    """Returns the image of a point, by dots that start with the first product and add the others by rising index."""
    result = []
    for row in matrix:
        total = row[0] * point[0]
        for a, b in zip(row[1:], point[1:]):
            total += a * b
        result.append(total)
    return result


def find(points, q):
    """Returns the lowest number of a point within EPS on every axis, or None."""
    for k, p in enumerate(points):
        if all(abs(a - b) <= EPS for a, b in zip(p, q)):
            return k
    return None


def parted(numbers, size):
    return [numbers[i:i + size] for i in range(0, len(numbers), size)]


def copying(points, matrices):
    """Returns all copies, and a row for each matrix with None for an image that is not among them."""
    copies = []
    for p in points:
        if find(copies, p) is None:
            for m in matrices:
                q = image(m, p)
                if find(copies, q) is None:
                    copies.append(q)
    return copies, [[find(copies, image(m, c)) for c in copies] for m in matrices]


def refused_early(d, points, turns):
    """Returns the first of the refusals 2, 1, 3 and 12, which are tested in that order, or 0."""
    if not 1 <= d <= 4:
        return 2
    if len(points) % d or len(turns) % (d * d):
        return 1
    if not all(abs(x) <= LIMIT for x in points + turns):
        return 3
    if not points or not turns:
        return 12
    return 0


def answer(d, points, turns, copies_out, table_out, rust):
    """Returns the refusal's number or 0, the count, and the two outputs afterwards, where copies_out and table_out are what they held before."""
    early = refused_early(d, points, turns)
    if early:
        return early, 0, copies_out, table_out
    ps, ms = parted(points, d), [parted(m, d) for m in parted(turns, d * d)]
    copies, rows = copying(ps, ms)
    if clean_copying(d, ps, ms):
        assert rust(d, points, turns) == ([[pattern(x) for x in c] for c in copies], rows if all(None not in r for r in rows) else None)
    room = min(MOST, len(copies_out) // d)
    kept = [x for c in copies[:room] for x in c]
    copies_after = kept + copies_out[len(kept):]
    cells = len(ms) * len(copies)
    if len(copies) > room or cells > len(table_out):
        return 13, min(len(copies), room), copies_after, table_out
    if any(None in r for r in rows):
        return 14, len(copies), copies_after, [OPEN] * cells + table_out[cells:]
    return 0, len(copies), copies_after, [k for r in rows for k in r] + table_out[cells:]


def oracle(program):
    def run(d, points, turns):
        text = "".join(" ".join(f"{pattern(x):016x}" for x in l) + "\n" for l in (points, turns))
        got = subprocess.run([program, "copy", str(d)], input=text, capture_output=True, text=True, check=True).stdout.splitlines()
        copies = [[int(h, 16) for h in l.split()[1:]] for l in got if l.startswith("copy ")]
        rows = [[int(k) for k in l.split()[1:]] for l in got if l.startswith("row")]
        run.asked += 1
        return copies, None if got[-1].startswith("panic") else rows
    run.asked = 0
    return run


# ---- the copyings

def signed_orders(n):
    """Lists the signed orders of n axes, by dictionary order and then signs, first axis highest. There are 48 where n is 3."""
    for order in itertools.permutations(range(n)):
        for signs in itertools.product((1.0, -1.0), repeat=n):
            yield [signs[i] if j == order[i] else 0.0 for i in range(n) for j in range(n)]


def determinant(m, n):
    order = [next(j for j in range(n) if m[n * i + j]) for i in range(n)]
    swaps = sum(a > b for a, b in itertools.combinations(order, 2))
    return (-1) ** swaps * math.prod(m[n * i + order[i]] for i in range(n))


def turn(k, n):
    c, s = math.cos(2 * math.pi * k / n), math.sin(2 * math.pi * k / n)
    return [c, -s, s, c]


def cyclic(n):
    return [turn(k, n) for k in range(n)]


def dihedral(n):
    return cyclic(n) + [[a, -b, c, -d] for a, b, c, d in cyclic(n)]


def double_turn(j, k, n):
    a, b, c, d = turn(j, n)
    e, f, g, h = turn(k, n)
    return [a, b, 0.0, 0.0, c, d, 0.0, 0.0, 0.0, 0.0, e, f, 0.0, 0.0, g, h]


def icosians():
    """Lists the 120 unit icosians, each as the matrix that multiplies by it from the left."""
    golden = (1 + math.sqrt(5)) / 2
    units = [[s if i == k else 0.0 for i in range(4)] for k in range(4) for s in (1.0, -1.0)]
    units += [list(s) for s in itertools.product((0.5, -0.5), repeat=4)]
    for order in itertools.permutations(range(4)):
        if sum(a > b for a, b in itertools.combinations(order, 2)) % 2 == 0:
            for s in itertools.product((1.0, -1.0), repeat=3):
                values = [s[0] * golden / 2, s[1] * 0.5, s[2] * 0.5 / golden, 0.0]
                units.append([values[order[i]] for i in range(4)])
    for a, b, c, d in units:
        yield [a, -b, -c, -d, b, a, -d, c, c, d, a, -b, d, -c, b, a]


def identity(d):
    return [float(i == j) for i in range(d) for j in range(d)]


def twins(rng, d, n, pairs, axis, other):
    """Returns n points, of which some are twins that are 1.5e-7 apart on an axis, and a matrix that moves all points along it by 9e-8: forwards where
    the other axis is at 1, and back where it is at -1. So the image of a lower twin, or of an upper one, is near both. Which of two twins has the
    lower number is left to chance."""
    points = []
    for k in range(n - pairs):
        p = [rng.uniform(-9, 9) for _ in range(d)]
        p[axis], p[other] = 20 + 100 * k / n + rng.random() / n, rng.choice((1.0, -1.0))
        points.append(p)
    points += [[x + 1.5e-7 * (i == axis) for i, x in enumerate(p)] for p in points[:pairs]]
    rng.shuffle(points)
    moved = identity(d)
    moved[d * axis + other] = 9e-8
    return flat(points), moved


def diagonal_twins(rng, n, pairs):
    """Returns the same for points of equal coordinates in two dimensions, so that a mistake of one axis for the other is seen."""
    points = [[t, t] for t in (70 + 50 * (k + rng.random() / 2) / n for k in range(n - pairs))]
    points += [[x, y + 1.5e-7] for x, y in points[:pairs]]
    rng.shuffle(points)
    return flat(points), [1.0, 0.0, 8e-10, 1.0]


def flat(lists):
    return [x for l in lists for x in l]


def cases():
    """Holds the dimension, the points, the turns, and how long the outputs are. None stands for what the answer takes, with 3 and 5 cells to
    spare."""
    rng = random.Random(20261115)
    all48 = flat(signed_orders(3))
    ample = (None, None)
    above = math.nextafter(EPS, 1.0)

    def one_of(limit):
        return round(rng.uniform(-limit, limit), rng.randrange(7))

    # These are under the 48 of the constant table.
    for seed in ((1, 0, 0), (1, 1, 1), (1, 2, 3), (0, 0, 0), (1, 1, 0), (2, 1, 0), (1, 1, 2), (-0.0, 0.0, -5.0), (0.1, 0.2, 0.3), (1048576.0, 0.5, -3.0)):
        yield 3, [float(x) for x in seed], all48, *ample
    yield 3, [1.0, 0.0, 0.0, 1.0, 1.0, 1.0], all48, *ample
    yield 3, [1.0, 0.0, 0.0, 0.0, -1.0, 0.0, 3.0, 0.0, 0.0, 1.0, 0.0, 0.0], all48, *ample
    yield 3, [1.0, 2.0, 3.0, 4.0, 5.0, 6.0, 1.0, 1.0, 7.0], all48, *ample
    for n in (1, 2, 3):
        yield 3, [one_of(10) for _ in range(3 * n)], all48, *ample
    yield 3, [one_of(10) for _ in range(9)], flat([m for m in signed_orders(3) if determinant(m, 3) > 0]), *ample
    # These have two dimensions.
    for n in range(1, 13):
        yield 2, [1.0, 0.0], flat(cyclic(n)), *ample
    for n in (3, 5, 8):
        yield 2, [one_of(5) for _ in range(4)], flat(cyclic(n)), *ample
        yield 2, [one_of(5), one_of(5), 1.0, 0.0], flat(dihedral(n)), *ample
    # These have one dimension, and try the signs of zero.
    yield 1, [3.0], [1.0, -1.0], *ample
    yield 1, [0.0], [-1.0], *ample
    yield 1, [-0.0, 5.0, 0.0], [-1.0, 1.0], *ample
    yield 1, [5e-324, 2.0], [1.0, -1.0], *ample
    yield 1, [2.0], [0.0, 1.0], *ample
    # These have four dimensions.
    yield 4, [1.0, 0.0, 0.0, 0.0], flat(icosians()), *ample
    yield 4, [0.5, 0.25, 0.0, -1.0], flat(icosians()), *ample
    rotations = flat([m for m in signed_orders(4) if determinant(m, 4) > 0])
    for seed in ((1, 0, 0, 0), (1, 1, 0, 0), (1, 1, 1, 1)):
        yield 4, [float(x) for x in seed], rotations, *ample
    for j, k, n in ((1, 1, 5), (1, 2, 5), (1, 3, 8)):
        yield 4, [one_of(3) for _ in range(8)], flat(double_turn(i * j, i * k, n) for i in range(n)), *ample
    # These points are near each other.
    for gap in (0.5e-7, EPS, above):
        yield 1, [0.0, gap], [1.0], *ample
        yield 2, [0.0, 1.0, gap, 1.0, 0.0, 1.0 + gap], [1.0, 0.0, 0.0, 1.0], *ample
        yield 1, [gap / 2], [1.0, -1.0], *ample
    yield 1, [1e-7], [1.0, -1.0, 0.0], *ample
    yield 2, [0.0, 5.0, 8e-8, 0.0], [1.0, 0.0, 0.0, 1.0, 1.0, -1e-8, 0.0, 1.0], *ample
    yield 1, [0.0, 2e-7, 1e-7], [1.0], *ample
    # These are twins that are further apart than EPS and yet too close to count as lone, with images that are near both.
    for d, n, pairs, axis, other in ((2, 40, 8, 1, 0), (2, 40, 16, 0, 1), (3, 40, 12, 2, 0), (4, 33, 10, 1, 3), (2, 300, 60, 1, 0)):
        points, moved = twins(rng, d, n, pairs, axis, other)
        yield d, points, identity(d), *ample
        yield d, points, identity(d) + moved, *ample
    points, moved = diagonal_twins(rng, 40, 16)
    yield 2, points, identity(2), *ample
    yield 2, points, identity(2) + moved, *ample
    # Fewer than 32 copies are compared one by one, so these are the counts just below that limit, at it and just above it.
    for n in (31, 32, 33):
        yield 2, [1.0, 0.0], flat(cyclic(n)), *ample
        yield 3, [rng.uniform(-9, 9) for _ in range(3 * n)], identity(3), *ample
    # There are 256 and 2,048 copies, and one more, which is the origin.
    for seeds in (32, MOST // 8):
        points = [rng.uniform(-9, 9) for _ in range(2 * seeds)]
        yield 2, points, flat(cyclic(8)), 16 * seeds, 64 * seeds
        yield 2, points + [0.0, 0.0], flat(cyclic(8)), 16 * seeds + 2, 64 * seeds + 8
    # There are many seeds under the identity, some of them twice.
    for d, n in ((1, 700), (2, 1000), (3, 257), (4, 256), (4, 800)):
        points = [rng.uniform(-1000, 1000) for _ in range(d * n)]
        yield d, points + points[:4 * d], identity(d), *ample
    # Refusal 2 comes, also where 1 would come next.
    for d in (0, 5, 6, 8, 1 << 32, (1 << 64) - 1):
        yield d, [1.0] * 8, [1.0] * 64, 9, 9
        yield d, [1.0] * 7, [math.nan] * 3, 9, 9
    # Refusal 1 comes, also where 3 or 12 would come next.
    for d, p, t in ((2, 3, 4), (2, 2, 5), (2, 2, 3), (3, 3, 8), (3, 4, 9), (4, 4, 15), (4, 5, 16), (2, 0, 1), (2, 1, 0)):
        yield d, [1.0] * p, [1.0] * t, 9, 9
    yield 2, [math.nan, 1.0, 1.0], [1.0] * 4, 9, 9
    # Refusal 3 comes, also where 12 would come next. At the limit itself it does not come.
    for x in (math.nan, math.inf, -math.inf, math.nextafter(LIMIT, 2e6), -math.nextafter(LIMIT, 2e6)):
        yield 2, [0.0, x], [1.0, 0.0, 0.0, 1.0], 9, 9
        yield 2, [0.0, 1.0], [1.0, 0.0, 0.0, x], 9, 9
        yield 1, [x], [], 9, 9
        yield 1, [], [x], 9, 9
    yield 2, [LIMIT, -LIMIT], [1.0, 0.0, 0.0, 1.0, -1.0, 0.0, 0.0, -1.0], *ample
    yield 1, [LIMIT], [LIMIT], 9, 9
    # Refusal 12 comes.
    for p, t in (([], []), ([1.0] * 3, []), ([], [1.0] * 9)):
        yield 3, p, t, 9, 9
    # Refusal 13 comes, and does not where outputs are just long enough.
    for floats in (0, 1, 2, 3, 17, 18, 19, 20, 21):
        yield 3, [1.0, 0.0, 0.0], all48, floats, 288
    for cells in (0, 1, 287, 288, 289):
        yield 3, [1.0, 0.0, 0.0], all48, 18, cells
    yield 3, [1.0, 0.0, 0.0], all48, 17, 287
    yield 3, [1.0, 2.0, 3.0, 4.0, 5.0, 6.0], all48, 144, 2304
    yield 3, [1.0, 2.0, 3.0, 4.0, 5.0, 6.0], all48, 287, 4608
    for n in (MOST - 1, MOST, MOST + 1):
        yield 1, [float(k) for k in range(n)], [1.0], n + 2, n + 2
    yield 1, [k + 0.5 for k in range(MOST // 2)], [1.0, -1.0], MOST, 2 * MOST
    yield 1, [k + 0.5 for k in range(MOST // 2 + 1)], [1.0, -1.0], MOST + 2, 2 * MOST + 4
    yield 1, [k + 0.5 for k in range(MOST // 2)], [1.0, -1.0], MOST - 1, 2 * MOST
    yield 1, [k + 0.5 for k in range(MOST // 2)], [1.0, -1.0], MOST, 2 * MOST - 1
    # Refusal 14 comes, and 13 where both would come.
    quarter = [0.0, -1.0, 1.0, 0.0]
    for floats, cells in ((9, 9), (2, 1), (2, 0), (1, 1)):
        yield 2, [1.0, 0.0], quarter, floats, cells
    for floats, cells in ((9, 9), (4, 4), (4, 3), (3, 4)):
        yield 2, [1.0, 0.0], [1.0, 0.0, 0.0, 1.0] + quarter, floats, cells
    yield 1, [1.0], [2.0], 2, 2
    yield 1, [1.0, 3.0], [1.0, 1.0 + 2e-7], 9, 9
    yield 3, [1.0, 2.0, 3.0], all48[:9 * 47], 150, 2300
    yield 4, [1.0, 0.0, 0.0, 0.0], flat(icosians())[16:16 * 60], 500, 16000


def pattern(x):
    return 0x7FF8000000000000 if x != x else struct.unpack(">Q", struct.pack(">d", x))[0]


def main():
    check_clean()
    rust = oracle(sys.argv[1])
    stored = f"{TOP}/crates/replay/data/copies"
    numbers = []
    with open(f"{stored}.in", "wb") as given, open(f"{stored}.out", "wb") as answers:
        for d, points, turns, floats, cells in cases():
            if floats is None:
                copies, rows = copying(parted(points, d), [parted(m, d) for m in parted(turns, d * d)])
                floats, cells = d * len(copies) + 3, len(rows) * len(copies) + 5
            assert len(points) <= 4096 and len(turns) <= 4096 and floats <= 8192 and cells <= 32768
            before = [struct.unpack(">d", struct.pack(">Q", 0x7000000000000000 + i))[0] for i in range(floats)]
            table = [60000 + i % 4096 for i in range(cells)]
            given.write(struct.pack(">5Q", d, len(points), len(turns), floats, cells))
            given.write(b"".join(struct.pack(">Q", pattern(x)) for x in points + turns))
            number, count, copies, table = answer(d, points, turns, before, table, rust)
            numbers.append(number)
            answers.write(struct.pack(">2Q", number, count))
            answers.write(b"".join(struct.pack(">Q", pattern(x)) for x in copies) + b"".join(struct.pack(">H", k) for k in table))
        answers.write(b"".join(struct.pack(">Q", pattern(x)) for x in flat(signed_orders(3))))
    print(len(numbers), "copyings;", ", ".join(f"{numbers.count(k)} of {k}" for k in sorted(set(numbers))) + ";", rust.asked, "asked of the oracle")


if __name__ == "__main__":
    main()
