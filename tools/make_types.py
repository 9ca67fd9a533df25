#!/usr/bin/env python3
"""Makes the stored sheets that `replay types` answers to: crates/replay/data/types.in and types.out, in the form that the program's source says.
It is run once, and the files are kept.

    python3 tools/make_types.py ORACLE         ORACLE is the built oracle's program (oracle/bin/oracle)

Where the solid is clean (document 01, section 6: no distance is nearer than EPS to two listed values), the types of the elements and the
table are the oracle's, which is the Rust itself. The refusals, the solids of rank 0 and 1 and those that are not clean are answered by
the model in this file, written from 01's sections 3 and 4 and its table alone, in another language and another shape than the program. On
clean solids the two are held to agree.

The lists are made in four ways, and each element's subs are sorted. Polygons have their vertices in turn. A product has an element of rank
i + j - 1 for each pair of elements of ranks i and j (prisms, duoprisms, the cube, the tesseract). A pyramid has the base's elements and the
cone over each, and a bipyramid has two cones and no base (the octahedron, the 16-cell, the 4-simplex). All else is the convex hull of its
vertices (antiprisms, the Platonic solids, the 24-cell): its facets are found by trying planes, and the elements below them are the sets that
facets have in common. The parts of a compound stand side by side. Then some solids are scaled, turned, shaken by 1e-10 or by 0.01 and
relabelled, by Python's random (seed 20261116).

Every solid has outputs of just its size or with cells to spare. Some are asked again with each output one cell short (13), and with each
half of the workspace one cell short (7). No sheet is refused 15: crate `laws` proves that none is.
"""
import itertools
import math
import os
import random
import struct
import subprocess
import sys

TOP = os.path.dirname(os.path.dirname(os.path.abspath(__file__)))
sys.path.insert(0, os.path.dirname(os.path.abspath(__file__)))
from pack_sheet import pack

EPS = 1e-7


class Solid:
    """Holds a solid by its vertices' coordinates and, for each rank from 2 on, each element's subs."""

    def __init__(self, points, lists, rank=None):
        self.points = [[float(x) for x in p] for p in points]
        self.lists = [[sorted(l) for l in ls] for ls in lists]
        self.rank = len(lists) + 2 if rank is None else rank

    def count(self, r):
        return 1 if r in (0, self.rank) else len(self.points) if r == 1 else len(self.lists[r - 2])

    def subs(self, r, i):
        return [0] if r == 1 else list(range(self.count(r - 1))) if r == self.rank else self.lists[r - 2][i]

    def proper(self):
        return range(1, self.rank)

    def size(self):
        """Counts the proper elements and the stored entries."""
        return sum(self.count(r) for r in self.proper()), sum(len(l) for ls in self.lists for l in ls)

    def pack(self):
        return pack(self.rank, len(self.points[0]) if self.points else 0, self.points, self.lists)


# ---- the model

def dot(a, b):
    """Returns the dot product, which starts with the first product and adds the others by rising index."""
    total = a[0] * b[0] if a else 0.0
    for x, y in zip(a[1:], b[1:]):
        total += x * y
    return total


def minus(a, b):
    return [x - y for x, y in zip(a, b)]


def distance(points):
    """Returns the distance from the origin to the hull of these points."""
    offset, basis = points[0], []

    def project(p):
        d, q = minus(p, offset), offset
        for b in basis:
            along = dot(d, b)
            q = [x + y * along for x, y in zip(q, b)]
        return q

    for p in points[1:]:
        if len(basis) == len(offset):
            break
        v = minus(p, project(p))
        length = math.sqrt(dot(v, v))
        if length > EPS:
            basis.append([x / length for x in v])
    origin = [0.0] * len(offset)
    v = minus(origin, project(origin))
    return math.sqrt(dot(v, v))


def classes(s):
    """Returns the distance class of each proper element by rank, and whether the solid is clean."""
    listed, distances, all_classes, below = [], [], {}, {}
    for r in s.proper():
        below[r] = [{i} if r == 1 else set().union(*(below[r - 1][e] for e in s.subs(r, i))) for i in range(s.count(r))]
        all_classes[r] = []
        for vertices in below[r]:
            d = distance([s.points[v] for v in sorted(vertices)])
            near = [x for x in listed if abs(x - d) < EPS]
            if not near:
                listed.append(d)
            distances.append(d)
            all_classes[r].append(min(near) if near else d)
    return all_classes, all(sum(abs(x - d) < EPS for x in listed) < 2 for d in distances)


def numbered(keys):
    """Numbers things from 0 by first appearance."""
    met = {}
    return [met.setdefault(k, len(met)) for k in keys]


def types(s, by_rank):
    """Returns the types of each rank when the sweeps end."""
    state = {0: [0], s.rank: [0]}
    state.update({r: numbered(by_rank[r]) for r in s.proper()})
    sups = {r: [[] for _ in range(s.count(r))] for r in range(s.rank)}
    for r in range(1, s.rank + 1):
        for i in range(s.count(r)):
            for e in s.subs(r, i):
                sups[r - 1][e].append(i)

    def step(r, neighbours, other):
        state[r] = numbered((t, tuple(sorted(state[other][e] for e in neighbours(i)))) for i, t in enumerate(state[r]))

    def many():
        return sum(len(set(state[r])) for r in s.proper())

    first, before = True, many()
    while True:
        for r in s.proper():
            step(r, lambda i: s.subs(r, i), r - 1)
        for r in reversed(s.proper()):
            step(r, lambda i: sups[r][i], r + 1)
        now = many()
        if now == before and not first:
            return state
        first, before = False, now


def given(s, rust):
    """Returns the types of the elements and the table's cells."""
    by_rank, clean = classes(s)
    state = types(s, by_rank)
    of = [t for r in s.proper() for t in state[r]]
    table = [x for r in s.proper() for t in range(len(set(state[r]))) for x in (r, t, state[r].index(t), state[r].count(t))]
    if clean and s.rank > 1:
        assert rust(s) == (of, table)
    return of, table, clean


def oracle(program):
    def run(s):
        got = subprocess.run([program, "types"], input=s.pack(), capture_output=True, check=True).stdout.decode().splitlines()
        n = int(got[0].split()[1])
        run.asked += 1
        return [int(t) for l in got[n + 1:] for t in l.split(":")[1].split()], [int(x) for l in got[1:n + 1] for x in l.split()]
    run.asked = 0
    return run


# ---- the solids

def dyad(a, b):
    return Solid([[a], [b]], [])


def polygon(n, radii=None, step=1):
    """Makes the polygon whose vertices lie at these distances, each `step` of the n parts of a full turn further than the one before."""
    radii = radii or [1.0] * n
    angles = [2 * math.pi * k * step / n for k in range(n)]
    return Solid([[r * math.cos(a), r * math.sin(a)] for r, a in zip(radii, angles)], [[[k, (k + 1) % n] for k in range(n)]])


def product(p, q):
    def place(i, e, j, f):
        before = sum(p.count(k) * q.count(i + j - k) for k in range(max(1, i + j - q.rank), i))
        return before + e * q.count(j) + f

    lists = []
    for r in range(2, p.rank + q.rank - 1):
        lists.append([])
        for i in range(max(1, r + 1 - q.rank), min(p.rank, r) + 1):
            j = r + 1 - i
            for e, f in itertools.product(range(p.count(i)), range(q.count(j))):
                down = [place(i - 1, x, j, f) for x in p.subs(i, e)] if i > 1 else []
                lists[-1].append(down + ([place(i, e, j - 1, x) for x in q.subs(j, f)] if j > 1 else []))
    return Solid([a + b for a in p.points for b in q.points], lists)


def cones(p, below, base, apexes):
    """Takes the elements below rank `below`, and the cone from each apex over every element."""
    def kept(r):
        return p.count(r) if r < below else 0

    lists = []
    for r in range(2, p.rank + 1):
        lists.append([p.subs(r, i) for i in range(kept(r))])
        for a in range(len(apexes)):
            for i in range(p.count(r - 1)):
                lists[-1].append([i] + [kept(r - 1) + a * p.count(r - 2) + x for x in p.subs(r - 1, i)])
    return Solid([a + [base] for a in p.points] + [[0.0] * len(p.points[0]) + [h] for h in apexes], lists)


def pyramid(p, base, apex):
    return cones(p, p.rank + 1, base, [apex])


def bipyramid(p, up, down):
    return cones(p, p.rank, 0.0, [up, down])


def independent(vectors):
    """Counts by elimination how many of the vectors are linearly independent."""
    rows, found = [list(v) for v in vectors], 0
    for c in range(len(rows[0]) if rows else 0):
        best = max(range(found, len(rows)), key=lambda k: abs(rows[k][c]), default=None)
        if best is None or abs(rows[best][c]) < 1e-6:
            continue
        rows[found], rows[best] = rows[best], rows[found]
        for k in range(found + 1, len(rows)):
            f = rows[k][c] / rows[found][c]
            rows[k] = [x - f * y for x, y in zip(rows[k], rows[found])]
        found += 1
    return found


def normal(vectors):
    """Returns a vector that is normal to d - 1 vectors of d coordinates, which is made of their minors with signs."""
    def minor(rows):
        return sum((-1) ** k * rows[0][k] * minor([r[:k] + r[k + 1:] for r in rows[1:]]) for k in range(len(rows))) if rows else 1.0

    d = len(vectors) + 1
    return [(-1) ** k * minor([v[:k] + v[k + 1:] for v in vectors]) for k in range(d)]


def hull(points):
    """Makes the convex hull of points that are all its vertices."""
    points = [[float(x) for x in p] for p in points]
    d = len(points[0])
    facets = []
    for some in itertools.combinations(range(len(points)), d):
        if any(set(some) <= f for f in facets):
            continue
        n = normal([minus(points[k], points[some[0]]) for k in some[1:]])
        heights = [dot(n, minus(p, points[some[0]])) for p in points]
        if max(map(abs, n)) > 1e-6 and (max(heights) < 1e-6 or min(heights) > -1e-6):
            facets.append(frozenset(k for k, h in enumerate(heights) if abs(h) < 1e-6))
    ranks = [facets]
    while len(ranks) < d - 1:
        meets = {a & b for a, b in itertools.combinations(ranks[0], 2)}
        flat = d - len(ranks) - 1
        ranks.insert(0, [m for m in meets if m and independent([minus(points[k], points[min(m)]) for k in m]) == flat])
    ranks = [[frozenset([k]) for k in range(len(points))]] + [sorted(r, key=sorted) for r in ranks]
    return Solid(points, [[[k for k, e in enumerate(low) if e < f] for f in high] for low, high in itertools.pairwise(ranks)])


def antiprism(n, h, r=1.0):
    turned = [[r * math.cos((2 * k + 1) * math.pi / n), r * math.sin((2 * k + 1) * math.pi / n), h] for k in range(n)]
    return hull([p + [-h] for p in polygon(n).points] + turned)


def signed(*values):
    return [list(p) for p in itertools.product(*((x, -x) if x else (0.0,) for x in values))]


def cyclic(points):
    return [p[k:] + p[:k] for k in range(3) for p in points]


def compound(*solids):
    points, lists = [], [[] for _ in solids[0].lists]
    for s in solids:
        shifts = [len(points)] + [len(l) for l in lists]
        points += s.points
        for held, ls, shift in zip(lists, s.lists, shifts):
            held += [[x + shift for x in l] for l in ls]
    return Solid(points, lists)


def moved(s, f):
    return Solid([f(p) for p in s.points], s.lists)


def scaled(s, by):
    return moved(s, lambda p: [x * by for x in p])


def turned(s, rng):
    """Returns the solid turned by a random orthogonal matrix."""
    d, rows = len(s.points[0]), []
    while len(rows) < d:
        v = [rng.gauss(0, 1) for _ in range(d)]
        for b in rows:
            along = dot(v, b)
            v = [x - along * y for x, y in zip(v, b)]
        rows.append([x / math.sqrt(dot(v, v)) for x in v])
    return moved(s, lambda p: [dot(row, p) for row in rows])


def shaken(s, rng, by):
    return moved(s, lambda p: [x + rng.uniform(-by, by) for x in p])


def relabelled(s, rng):
    """Returns the solid with the elements of each rank in another order."""
    places = [list(range(s.count(r))) for r in s.proper()]
    for p in places:
        rng.shuffle(p)

    def put(values, order):
        return [values[k] for k in sorted(range(len(values)), key=lambda k: order[k])]

    lists = [put([[low[x] for x in l] for l in ls], high) for ls, low, high in zip(s.lists, places, places[1:])]
    return Solid(put(s.points, places[0]), lists)


def plain():
    """Makes solids in the position and order that they are made in."""
    golden = (1 + math.sqrt(5)) / 2
    for a, b in ((-1, 1), (0, 1), (-EPS, EPS), (0, EPS), (0.25, 2)):
        yield dyad(a, b)
    for n in range(3, 31):
        yield polygon(n)
    for n, step in ((5, 2), (7, 2), (7, 3), (8, 3)):
        yield polygon(n, step=step)
    for n in (4, 6, 10):
        yield polygon(n, [1.0, 1.5] * (n // 2))
    yield polygon(6, [1.0, 1.2, 1.4] * 2)
    for n in range(3, 13):
        yield product(polygon(n), dyad(-0.5, 0.5))
        yield antiprism(n, 0.5)
        yield pyramid(polygon(n), -0.25, 1.0)
        yield bipyramid(polygon(n), 0.75, -0.75)
    for n in (3, 4, 5, 6):
        yield product(polygon(n), dyad(0, 1))
        yield antiprism(n, 0.4, 0.8)
        yield pyramid(polygon(n), 0.0, 1.0)
        yield bipyramid(polygon(n), 0.75, -1.25)
    side = dyad(-1, 1)
    cube = product(product(side, side), side)
    octahedron = bipyramid(bipyramid(side, 1, -1), 1, -1)
    tetrahedron = hull([(1, 1, 1), (1, -1, -1), (-1, 1, -1), (-1, -1, 1)])
    dodecahedron = hull(signed(1, 1, 1) + cyclic(signed(0, 1 / golden, golden)))
    icosahedron = hull(cyclic(signed(0, 1, golden)))
    cuboctahedron = hull(cyclic(signed(0, 1, 1)))
    yield from (tetrahedron, cube, octahedron, dodecahedron, icosahedron, cuboctahedron)
    yield hull([(1, 1, 1), (1, -1, -1), (-1, 1, -1), (-1, -1, 1.5)])
    yield product(product(side, dyad(-2, 2)), dyad(-3, 3))
    square = polygon(4)
    yield product(cube, side)
    yield product(product(product(side, side), dyad(-2, 2)), side)
    yield bipyramid(octahedron, 1, -1)
    yield hull(signed(0.5, 0.5, 0.5, 0.5) + [x for k in range(4) for x in signed(*(1.0 if i == k else 0.0 for i in range(4)))])
    yield pyramid(tetrahedron, -1 / math.sqrt(5), 4 / math.sqrt(5))
    for m, n in ((3, 3), (3, 4), (3, 5), (4, 5), (5, 5), (5, 6), (6, 6), (3, 12)):
        yield product(polygon(m), polygon(n))
    for p in (tetrahedron, octahedron, cuboctahedron, antiprism(5, 0.5)):
        yield product(p, side)
    for p in (tetrahedron, cube, octahedron, icosahedron):
        yield pyramid(p, -0.25, 1.0)
        yield bipyramid(p, 1.0, -1.0)
    yield compound(tetrahedron, scaled(tetrahedron, -1))
    yield compound(cube, scaled(octahedron, 2))
    yield compound(cube, scaled(cube, 2))
    yield compound(square, scaled(square, 1 + 2e-7))
    yield compound(polygon(5), polygon(5, [1.5] * 5), polygon(5))
    yield compound(product(square, square), bipyramid(octahedron, 1, -1))


def unclean():
    """Makes solids that are not clean, because a distance lies between two listed values that are both near to it."""
    for points in ((0, 1.2e-7, 0.6e-7), (0, 0.6e-7, 1.2e-7)):
        yield Solid([[x] for x in points], polygon(3).lists)
    for s in (polygon(30), product(polygon(12), dyad(-1, 1)), antiprism(10, 0.5)):
        yield shaken(s, random.Random(1), 2e-7)


def improper():
    """Makes solids of rank 0 and of rank 1."""
    yield Solid([], [], 0)
    yield Solid([[]], [], 1)
    yield Solid([[1, 2]], [], 1)


def wandering(rng, solids):
    for s in solids:
        if rng.random() < 0.6:
            s = turned(s, rng)
        if rng.random() < 0.4:
            s = scaled(s, 10.0 ** rng.randrange(-2, 5))
        by = rng.choice((0, 0, 1e-10, 1e-10, 0.01))
        if by:
            s = shaken(s, rng, by)
        yield relabelled(s, rng)


def main():
    rust = oracle(sys.argv[1])
    rng = random.Random(20261116)
    stored = f"{TOP}/crates/replay/data/types"
    made = list(plain())
    small = [s for s in made if 2 < s.rank and s.size()[0] < 90]
    solids = made + list(wandering(rng, rng.sample(small, 90))) + list(unclean()) + list(improper())
    numbers, clean = [], 0
    with open(f"{stored}.in", "wb") as asked, open(f"{stored}.out", "w") as answers:
        for k, s in enumerate(solids):
            of, table, fair = given(s, rust)
            clean += fair
            elements, entries = s.size()
            words, floats = 16 * (elements + entries + 4), 8 * (elements + 8)
            spare = 3 * (k % 2)
            lent = [(words + spare, floats + spare, len(of) + spare, len(table) + spare)]
            if k % 8 == 0:
                lent += [tuple(n - (j == i) for j, n in enumerate((words, floats, len(of), len(table)))) for i in range(4)]
            sheet = s.pack()
            for w, f, e, t in lent:
                if min(e, t) < 0:
                    continue
                assert len(sheet) <= 8192 and w <= 65536 and f <= 8256 and e <= 1024 and t <= 4096
                number = 7 if w < words or f < floats else 13 if e < len(of) or t < len(table) else 0
                kept = (of, table) if number == 0 else ([], [])
                cells = [part + [60000 + i % 4096 for i in range(len(part), n)] for part, n in zip(kept, (e, t))]
                asked.write(struct.pack(">5I", len(sheet), w, f, e, t) + sheet)
                answers.write(f"{number} {len(table) // 4 if number == 0 else 0}\n" + "".join("".join(f" {x}" for x in part) + "\n" for part in cells))
                numbers.append(number)
    print(len(solids), "solids,", clean, "clean,", rust.asked, "asked of the oracle;", len(numbers), "records:", ", ".join(f"{numbers.count(k)} of {k}" for k in sorted(set(numbers))))


if __name__ == "__main__":
    main()
