#!/usr/bin/env python3
"""Makes the stored searches that `replay searches` answers to: crates/replay/data/searches.in and searches.out, in the form that the program's source says.
Run once; the files are kept.

    python3 tools/make_searches.py ORACLE         ORACLE is the built oracle's program (oracle/bin/oracle)

Every sheet is answered by the model in tools/search_model.py. Where the solid is clean (document 01, section 6; `clean` of the model, which is
first held to the examples of crates/spec) and its search is refused neither 9 nor for an inverse that is not finite, the oracle, which is the
Rust itself, is asked too: matrices and rows, to the bit, have to be the same, and so has the way in which there are none. The Rust has no
marks and no refusals: these are the model's alone. Where a solid has few members (FEW) its search and rotations are
stored whole too, with every matrix, row and mark, but for those of `changed`, `spoilt` and `slivers`; it asserts that these are at least 150
clean solids, and prints how many. All other outputs are stored as digests, a few bytes for each: their cells would be some megabytes.

Each call is also answered by the model's slips (a clause left out or changed), and for each slip at least one stored call has to have another
answer; it prints how many have.

The solids: dyads; polygons, stars, isogons, boxes; the regular, some uniform and the Kepler-Poinsot solids; prisms, pyramids, bipyramids,
duoprisms, also over stars; compounds; solids with facet 0 through the origin, of rank 3, 4 and 5; disphenoids; dihedra and pleated
solids, where two elements have one vertex set; all regular polychora of up to 24 vertices; many of these turned, scaled, moved and
relabelled (Python's random, seed 20261115). A few are made for one clause of the search or of the mark alone. Then each refusal: those
before 8 by a few sheets, 8 to 12 by several each and at their boundaries, 13 with each output one short, empty and just enough; and corners
and distances about EPS apart. Each sheet goes through both calls.
"""
import functools
import itertools
import math
import os
import random
import struct
import subprocess
import sys

TOP = os.path.dirname(os.path.dirname(os.path.abspath(__file__)))
from pack_sheet import pack
from make_sheets import judge
from search_model import EPS, SLIPS, Searched, answer, check_clean, clean, determinant, exchanged, first_inverse, unpack

# The program has room for LIMITS, and fills each output with BEFORE.
LIMITS = 8192, 16384, 2048, 20480, 32768, 2048
BEFORE = lambda i: 0x7000000000000000 + i % 65536, lambda i: 60000 + i % 4096, lambda i: 2 + i % 250
GOLDEN = (1 + math.sqrt(5)) / 2
# These are the numbers of a digest.
BASE, PRIME = 1_000_003, (1 << 44) - 17
# Searches, and rotations, are stored whole up to this many members.
FEW = 48, 12


# ---- building

class Shape:
    """Holds points, and the subs of the elements of ranks 2 to R - 1."""

    def __init__(self, points, lists):
        self.points = [[float(x) for x in p] for p in points]
        self.lists = [[sorted(l) for l in ls] for ls in lists]
        self.rank, self.dimension = len(lists) + 2, len(points[0])

    def count(self, r):
        return 1 if r in (0, self.rank) else len(self.points) if r == 1 else len(self.lists[r - 2])

    def subs(self, r, i):
        return [0] if r == 1 else list(range(self.count(r - 1))) if r == self.rank else self.lists[r - 2][i]

    def vertices(self, r, i):
        return [i] if r == 1 else sorted({v for s in self.subs(r, i) for v in self.vertices(r - 1, s)})

    def sheet(self):
        return pack(self.rank, self.dimension, self.points, self.lists)

    def moved(self, f):
        return Shape([f(p) for p in self.points], self.lists)

    def turned(self, rows):
        return self.moved(lambda p: [sum(a * b for a, b in zip(r, p)) for r in rows])

    def scaled(self, *by):
        return self.moved(lambda p: [x * b for x, b in zip(p, by * self.dimension)])

    def shifted(self, by):
        return self.moved(lambda p: [x + b for x, b in zip(p, by)])

    def sunk(self, facet):
        """Returns the solid moved so that the middle of this facet is the origin."""
        on = [self.points[v] for v in self.vertices(self.rank - 1, facet)]
        return self.shifted([-sum(axis) / len(on) for axis in zip(*on)])

    def renumbered(self, r, order):
        """Renumbers the elements of rank r, so that element i becomes element order[i]."""
        def put(old):
            new = [None] * len(old)
            for i, to in enumerate(order):
                new[to] = old[i]
            return new
        lists = list(self.lists)
        if r > 1:
            lists[r - 2] = put(lists[r - 2])
        if r + 1 < self.rank:
            lists[r - 1] = [[order[s] for s in l] for l in lists[r - 1]]
        return Shape(put(self.points) if r == 1 else self.points, lists)

    def relabelled(self, rng):
        shape = self
        for r in range(1, self.rank):
            shape = shape.renumbered(r, rng.sample(range(self.count(r)), self.count(r)))
        return shape

    def facet_first(self, facet):
        order = list(range(self.count(self.rank - 1)))
        order[0], order[facet] = facet, 0
        return self.renumbered(self.rank - 1, order)


def dyad(a, b):
    return Shape([[a], [b]], [])


def ring(points):
    n = len(points)
    return Shape(points, [[[k, (k + 1) % n] for k in range(n)]])


def polygon(n, step=1, radii=(1.0,), phase=0.0):
    angle = [2 * math.pi * (k * step + phase) / n for k in range(n)]
    return ring([[radii[k % len(radii)] * math.cos(a), radii[k % len(radii)] * math.sin(a)] for k, a in enumerate(angle)])


def product(p, q):
    """Makes a product, in which an element of rank i and one of rank j give one of rank i + j - 1."""
    place, lists = {}, []
    for r in range(1, p.rank + q.rank - 1):
        pairs = [(i, e, r + 1 - i, f) for i in range(1, p.rank + 1) if 1 <= r + 1 - i <= q.rank
                 for e in range(p.count(i)) for f in range(q.count(r + 1 - i))]
        place.update({pair: k for k, pair in enumerate(pairs)})
        lists.append([[place[i - 1, s, j, f] for s in p.subs(i, e) if i > 1] + [place[i, e, j - 1, s] for s in q.subs(j, f) if j > 1]
                      for i, e, j, f in pairs])
    return Shape([a + b for a in p.points for b in q.points], lists[1:])


def prism(p, height=1.0):
    return product(p, dyad(-height, height))


def cones(p, below, base, apexes):
    """Takes the elements below rank `below`, and over every element the cone to each apex."""
    def kept(r):
        return p.count(r) if r < below else 0

    lists = []
    for r in range(2, p.rank + 1):
        over = [[i] + [kept(r - 1) + a * p.count(r - 2) + s for s in p.subs(r - 1, i)] for a in range(len(apexes)) for i in range(p.count(r - 1))]
        lists.append([p.subs(r, i) for i in range(kept(r))] + over)
    return Shape([a + [base] for a in p.points] + [[0.0] * p.dimension + [h] for h in apexes], lists)


def pyramid(p, base, apex):
    return cones(p, p.rank + 1, base, [apex])


def bipyramid(p, up, down):
    return cones(p, p.rank, 0.0, [up, down])


def dihedron(p, height):
    """Makes a solid of a facet and its back."""
    return Shape([a + [height] for a in p.points], p.lists + [[p.subs(p.rank, 0)] * 2])


def compound(*shapes):
    points, lists = [], [[] for _ in shapes[0].lists]
    for s in shapes:
        shifts = [len(points)] + [len(l) for l in lists]
        points = points + s.points
        for k, l in enumerate(s.lists):
            lists[k] = lists[k] + [[x + shifts[k] for x in e] for e in l]
    return Shape(points, lists)


def pleated(p, facet):
    """Makes a polyhedron with this face's edges doubled, and a digon between each and its double."""
    edges, faces = [list(l) for l in p.lists[0]], [list(l) for l in p.lists[1]]
    old = faces[facet]
    faces[facet] = [len(edges) + k for k in range(len(old))]
    faces += [[e, len(edges) + k] for k, e in enumerate(old)]
    return Shape(p.points, [edges + [edges[e] for e in old], faces])


def normal(points):
    """Returns the normal of the hyperplane through D points, by cofactors, or None where they have no one hyperplane."""
    edges = [[a - b for a, b in zip(p, points[0])] for p in points[1:]]
    n = [(-1) ** k * determinant([e[:k] + e[k + 1:] for e in edges]) for k in range(len(points))]
    return n if max(map(abs, n)) > 1e-9 else None


def hull(points):
    """Makes the convex solid on these points, all of them vertices."""
    points = [[float(x) for x in p] for p in points]
    facets = set()
    for corners in itertools.combinations(range(len(points)), len(points[0])):
        n = normal([points[v] for v in corners])
        if n is None or any(set(corners) <= f for f in facets):
            continue
        heights = [sum(a * b for a, b in zip(n, p)) - sum(a * b for a, b in zip(n, points[corners[0]])) for p in points]
        if all(h < 1e-9 for h in heights) or all(h > -1e-9 for h in heights):
            facets.add(frozenset(v for v, h in enumerate(heights) if abs(h) < 1e-9))
    ranks = [sorted(facets, key=sorted)]
    for r in range(len(points[0]) - 1, 1, -1):
        meets = {a & b for a, b in itertools.combinations(ranks[0], 2)}
        ranks.insert(0, sorted((m for m in meets if len(m) >= r and (r > 2 or len(m) == 2)), key=sorted))
    lists = [[sorted(e) for e in ranks[0]]]
    for below, here in zip(ranks, ranks[1:]):
        lists.append([[k for k, s in enumerate(below) if s < e] for e in here])
    return Shape(points, lists)


def signs(*xs):
    """Lists all changes of sign."""
    return sorted({tuple(x * s for x, s in zip(xs, ss)) for ss in itertools.product((1, -1), repeat=len(xs))}, reverse=True)


def orders(points):
    return sorted({q for p in points for q in itertools.permutations(p)}, reverse=True)


def even_orders(points):
    return sorted({(p[i % 3], p[(i + 1) % 3], p[(i + 2) % 3]) for p in points for i in range(3)}, reverse=True)


def conjugate(points):
    """Changes the golden ratio's powers to those of its conjugate, by which the regular solids become stars on the same lists."""
    change = {0.0: 0.0, 1.0: 1.0, GOLDEN: 1 - GOLDEN, GOLDEN - 1: -GOLDEN}
    return [[math.copysign(1.0, x) * change[abs(x)] for x in p] for p in points]


def star(p):
    return Shape(conjugate(p.points), p.lists)


def great_dodecahedron(icosahedron):
    """Makes a solid with a pentagon round each vertex."""
    edges = icosahedron.lists[0]
    near = [{w for e in edges if v in e for w in e if w != v} for v in range(12)]
    return Shape(icosahedron.points, [edges, [[k for k, e in enumerate(edges) if set(e) <= n] for n in near]])


def tetrahemihexahedron():
    """Makes a solid of three squares through the centre and four triangles, on the vertices of an octahedron."""
    points = [[s if i == k else 0 for i in range(3)] for k in range(3) for s in (1, -1)]
    edges = [[a, b] for a in range(6) for b in range(a + 1, 6) if a // 2 != b // 2]
    squares = [[k for k, e in enumerate(edges) if axis not in (e[0] // 2, e[1] // 2)] for axis in range(3)]
    triangles = [[k for k, e in enumerate(edges) if set(e) <= set(t)] for t in ((0, 2, 4), (0, 3, 5), (1, 2, 5), (1, 3, 4))]
    return Shape(points, [edges, squares + triangles])


def squares(height):
    """Makes three squares at one height, with on the first the square and the two bows of its corners. Each bow is one face with one of the
    others, which are faces alone too. The quarter turn takes each face's corners to a face's corners, but one bow to the other, which only the
    subs tell."""
    flat = polygon(4), polygon(4).scaled(2), polygon(4, 1, (2.0,), 0.5)
    sides = [[[4 * k + i, 4 * k + (i + 1) % 4] for i in range(4)] for k in range(3)]
    one, other = [6, 7, 8, 9], [10, 11, 12, 13]
    return Shape([p + [height] for s in flat for p in s.points],
                 [sides[0] + [[0, 2], [1, 3]] + sides[1] + sides[2], [[0, 1, 2, 3], [0, 2, 4, 5] + one, [1, 3, 4, 5] + other, one, other]])


def bow(size, one, other):
    """Makes a crossed quadrilateral, whose edges 0 and 2 are as far as this from the origin."""
    a, b = one / math.sqrt(2), other / math.sqrt(2)
    return ring([(size + a, size - a), (a - size, -size - a), (size + b, b - size), (b - size, size + b)])


def tangle():
    """Makes the eight lines of an octagram, each with two outer and two inner corners, joined in pairs: on the last line each outer one with the
    inner one near it, else with the other. Neither distances nor types tell: turns take the first edge to an edge, and not every one of its type."""
    inner = polygon(8, 1, (math.sqrt(2) * math.cos(3 * math.pi / 8),))
    pairs = [[[(k + 1) % 8, 8 + (k + side) % 8], [(k - 2) % 8, 8 + (k - side) % 8]] for k in range(8) for side in ([-1] if k < 7 else [1])]
    return Shape(polygon(8, 1, (1.0,), 0.5).points + inner.points, [sum(pairs, [])])


def thin():
    """Makes a quadrilateral with corners 1.5 EPS apart, a triangle on three of its corners, and the triangle's mirror image, each with its back.
    The mirror takes the quadrilateral onto a triangle, with one corner twice."""
    return Shape([(-1, 1, 0.3), (-1, -1, 0.2), (-1, 0.75 * EPS, 0.5), (-1, -0.75 * EPS, 0.5), (1, 1, 0.3), (1, -1, 0.2), (1, 0, 0.5)],
                 [[[0, 2], [1, 2], [1, 3], [0, 3], [0, 2], [1, 2], [0, 1], [4, 6], [5, 6], [4, 5]],
                  [[0, 1, 2, 3]] * 2 + [[4, 5, 6]] * 2 + [[7, 8, 9]] * 2])


def two_bows(first):
    """Makes a solid whose edges 0, 1 and 3 pass the origin at 0.5, 0.02 (or these two the other way round) and 1.04 EPS. The last two share a class
    exactly when the one at 0.5 is listed before the one at 0.02, and the exchange, of edges 0 and 2, turns that order round."""
    shape = compound(bow(2.0, 0.5 * EPS, 0.5 * EPS), bow(1.0, 0.02 * EPS, 1.04 * EPS), polygon(4).scaled(4))
    order = [4 * first, 4 - 4 * first, 8, 6]
    order += [e for e in range(12) if e not in order]
    return shape.renumbered(2, [order.index(e) for e in range(12)])


def turn(rng, d):
    """Returns an orthogonal matrix."""
    rows = []
    while len(rows) < d:
        v = [rng.uniform(-1, 1) for _ in range(d)]
        for r in rows:
            along = sum(a * b for a, b in zip(v, r))
            v = [a - along * b for a, b in zip(v, r)]
        length = math.sqrt(sum(a * a for a in v))
        if length > 0.1:
            rows.append([a / length for a in v])
    return rows


# ---- the solids

def plane_solids(rng):
    """Makes the solids of rank 2 and 3."""
    for ends in ((-1, 1), (1, -1), (-2, 3), (1, 2), (-1, 1 + 2e-7), (5, -5.00000001), (-1048576, 1048576), (1e-6, -1e-6), (0.1, -0.3)):
        yield dyad(*ends)
    yield from (polygon(n) for n in range(3, 13))
    yield from (polygon(n, k) for n, k in ((5, 2), (7, 2), (7, 3), (8, 3), (9, 4), (10, 3), (12, 5)))
    yield from (polygon(n, 1, (1.0, 1.5)) for n in (4, 6, 8, 10))
    yield polygon(9, 1, (1.0, 2.0, 3.0))
    yield from (polygon(n, 1, [1 + rng.random() for _ in range(n)]) for n in (3, 5, 6))
    yield from (polygon(n).scaled(2, 1) for n in (4, 6, 8))
    yield ring([(1, 1), (-1, 1), (-1, -1), (1, -1)]).scaled(2, 1)
    yield ring([(2, 1), (-2, 1), (-1, -1), (1, -1)])
    yield ring([(2, 1), (-1, 1), (-2, -1), (1, -1)])
    yield ring([(0, 3), (-1, 0), (0, -1), (1, 0)])
    yield ring([(1, 1), (-1, -1), (1, -1), (-1, 1)])
    yield from (compound(polygon(n), polygon(n, 1, (1.0,), 0.5)) for n in (3, 4, 5))
    yield compound(polygon(3), polygon(3).scaled(2))
    yield compound(polygon(3), polygon(4).scaled(3))
    yield compound(*(polygon(3, 1, (1.0,), k / 3) for k in range(3)))
    yield from (polygon(n).sunk(0) for n in (3, 4, 5, 7))
    yield compound(polygon(4).sunk(0), polygon(3).scaled(5))
    yield compound(polygon(4).scaled(3), ring([(1, 1), (-1, 1), (1, -1), (-1, -1)]))
    yield compound(polygon(8), polygon(8, 3).scaled(0.5), ring([(3, 0), (-3, 0), (0, 3), (0, -3)]))
    yield compound(polygon(4).scaled(3), tangle())


def round_solids():
    """Makes the convex solids of rank 4 by name, for others to be built on."""
    half = math.sqrt(2) - 1
    icosahedron = hull(even_orders(signs(0.0, 1.0, GOLDEN)))
    return {
        "tetrahedron": hull([(1, 1, 1), (1, -1, -1), (-1, 1, -1), (-1, -1, 1)]),
        "cube": hull(signs(1, 1, 1)),
        "octahedron": hull(orders(signs(1, 0, 0))),
        "icosahedron": icosahedron,
        "dodecahedron": hull(even_orders(signs(0.0, GOLDEN - 1, GOLDEN)) + signs(1.0, 1.0, 1.0)),
        "cuboctahedron": hull(orders(signs(1, 1, 0))),
        "rhombic dodecahedron": hull(signs(1, 1, 1) + orders(signs(2, 0, 0))),
        "truncated tetrahedron": hull(orders([p for p in signs(1, 1, 3) if p[0] * p[1] * p[2] > 0])),
        "truncated cube": hull(orders(signs(1, 1, half))),
        "truncated octahedron": hull(orders(signs(0, 1, 2))),
        "rhombicuboctahedron": hull(orders(signs(1, 1, 1 + math.sqrt(2)))),
        "pyritohedral icosahedron": hull(even_orders(signs(0, 1, 2))),
    }


def antiprism(n, height):
    return hull([p + [height] for p in polygon(n).points] + [p + [-height] for p in polygon(n, 1, (1.0,), 0.5).points])


def disphenoid(a, b, c):
    return hull([(a, b, c), (a, -b, -c), (-a, b, -c), (-a, -b, c)])


def space_solids(rng, named):
    """Makes the solids of rank 4."""
    yield from named.values()
    cube, tetrahedron, octahedron, icosahedron = (named[k] for k in ("cube", "tetrahedron", "octahedron", "icosahedron"))
    great = great_dodecahedron(icosahedron)
    yield from (great, star(great), star(icosahedron), star(named["dodecahedron"]))
    yield from (prism(polygon(n), 0.7) for n in (3, 5, 6, 7))
    yield from (prism(polygon(n, k)) for n, k in ((5, 2), (7, 3)))
    yield prism(polygon(6, 1, (1.0, 1.5)))
    yield from (antiprism(n, h) for n, h in ((3, 0.5), (4, 0.5), (5, 1.0), (6, 0.8)))
    yield from (pyramid(polygon(n), -0.5, 1.0) for n in (3, 4, 5, 6))
    yield pyramid(polygon(5, 2), -0.5, 1.0)
    yield pyramid(ring([(2, 1), (-1, 1), (-2, -1), (1, -1)]), -0.5, 1.0)
    yield from (bipyramid(polygon(n), 1.0, -1.0) for n in (3, 5, 6))
    yield bipyramid(polygon(4), 1.0, -2.0)
    yield bipyramid(polygon(7, 2), 1.5, -1.5)
    # Boxes and disphenoids have types that are coarser than the shape.
    yield cube.scaled(1, 1, 2)
    yield cube.scaled(1, 2, 3)
    yield octahedron.scaled(1, 1, 2)
    yield octahedron.scaled(1, 2, 3)
    yield from (disphenoid(*abc) for abc in ((1, 1, 1.4), (1, 1, 0.5), (1, 2, 3), (1, 1.5, 2), (3, 1, 1), (1, 2, 2)))
    yield disphenoid(1, 1, 1.4).relabelled(rng)
    yield disphenoid(1, 2, 3).turned(turn(rng, 3))
    yield disphenoid(1, 2, 3).scaled(100)
    # These are compounds.
    yield compound(tetrahedron, tetrahedron.scaled(-1))
    yield compound(cube, octahedron.scaled(2))
    yield compound(cube, cube.scaled(2))
    yield compound(cube, cube.turned([[math.sqrt(0.5), -math.sqrt(0.5), 0], [math.sqrt(0.5), math.sqrt(0.5), 0], [0, 0, 1]]))
    yield compound(disphenoid(1, 1, 1.4), disphenoid(1, 1, 1.4).scaled(-1))
    yield compound(tetrahedron, tetrahedron.turned(turn(rng, 3)), tetrahedron.turned(turn(rng, 3)))
    # The corners have more symmetry than the edges or the faces on them, beside a cube.
    hemi, crossed = tetrahemihexahedron(), ring([(1, 1), (-1, 1), (1, -1), (-1, -1)])
    yield compound(cube.scaled(3), hemi)
    yield compound(cube.scaled(3), prism(crossed))
    yield compound(cube.scaled(3), dihedron(crossed, 0.5))
    yield compound(cube.scaled(3), pleated(cube, 0))
    yield compound(octahedron.scaled(5), cube, tetrahedron.scaled(0.5))
    # These have facets through the origin.
    yield from (hemi, hemi.facet_first(3), hemi.renumbered(3, [6, 5, 4, 3, 2, 1, 0]), hemi.relabelled(rng), hemi.relabelled(rng), hemi.scaled(1, 2, 3))
    yield from (p.sunk(0) for p in (cube, tetrahedron, octahedron, named["cuboctahedron"], named["dodecahedron"], antiprism(4, 0.5)))
    yield prism(polygon(5)).sunk(0)
    yield cube.sunk(0).turned(turn(rng, 3)).relabelled(rng)
    yield from (pyramid(polygon(n), 0.0, 1.0) for n in (3, 4, 5))
    yield from (pyramid(polygon(n), 0.0, 1.0).facet_first(n) for n in (3, 4, 6))
    yield compound(hemi, hemi.scaled(-2))
    yield compound(cube.sunk(0), octahedron.scaled(4))
    # These have elements on the same vertices.
    yield from (pleated(cube, f) for f in (0, 3, 5))
    yield from (pleated(tetrahedron, f) for f in (0, 3))
    yield pleated(prism(polygon(5)), 0)
    yield pleated(antiprism(4, 0.5), 9)
    yield pleated(pleated(cube, 0), 5)
    yield pleated(cube, 0).facet_first(8)
    yield pleated(cube, 0).relabelled(rng)
    yield from (dihedron(polygon(n), 0.5) for n in (3, 4, 6))
    yield dihedron(polygon(5, 2), -1.0)
    # These have faces that the corners, and the edges among them, do not tell.
    yield from (squares(1.0), squares(-3.0).relabelled(rng))


def four_solids(rng, named):
    """Makes the solids of rank 5."""
    cube, tetrahedron, octahedron, icosahedron = (named[k] for k in ("cube", "tetrahedron", "octahedron", "icosahedron"))
    square, hemi = ring([(1, 1), (-1, 1), (-1, -1), (1, -1)]), tetrahemihexahedron()
    simplex = pyramid(tetrahedron, -1 / math.sqrt(5), 4 / math.sqrt(5))
    sixteen = bipyramid(octahedron, 1.0, -1.0)
    tesseract = product(square, square)
    yield from (simplex, sixteen, tesseract, hull(orders(signs(1, 1, 0, 0))))
    yield from (product(polygon(n), polygon(m)) for n, m in ((3, 3), (3, 4), (3, 5), (4, 5)))
    yield product(polygon(3), polygon(3).scaled(2))
    yield product(polygon(5, 2), polygon(3))
    yield from (prism(p, 0.8) for p in (tetrahedron, octahedron, disphenoid(1, 2, 3), pyramid(polygon(4), -0.5, 1.0), antiprism(3, 0.5)))
    yield from (pyramid(p, -0.25, 1.0) for p in (cube, octahedron, disphenoid(1, 1, 1.4)))
    yield from (bipyramid(p, 1.0, -1.0) for p in (tetrahedron, cube, prism(polygon(3))))
    yield bipyramid(octahedron, 1.0, -2.0)
    yield tesseract.scaled(1, 1, 2, 2)
    yield tesseract.scaled(1, 2, 3, 4)
    yield sixteen.scaled(1, 1, 1, 2)
    yield compound(simplex, simplex.scaled(-1))
    yield compound(sixteen, tesseract)
    yield prism(pleated(cube, 0), 1.0)
    yield dihedron(tetrahedron, 0.5)
    # Facet 0 goes through the origin.
    yield from (p.sunk(0) for p in (simplex, sixteen, tesseract, prism(tetrahedron), product(polygon(3), polygon(4))))
    yield tesseract.sunk(3).facet_first(3).turned(turn(rng, 4))
    yield simplex.sunk(2).facet_first(2).relabelled(rng).facet_first(1)
    yield from (pyramid(p, 0.0, 1.0) for p in (tetrahedron, cube, octahedron))
    yield pyramid(cube, 0.0, 1.0).facet_first(6)
    yield prism(hemi, 1.0)
    yield prism(hemi, 1.0).facet_first(3)
    yield bipyramid(hemi, 1.0, -1.0)
    yield prism(pyramid(polygon(3), 0.0, 1.0), 0.5)


def changed(rng, shapes):
    """Makes the same solids in other places, sizes and numberings."""
    for p in shapes:
        way = rng.randrange(5)
        if way < 3:
            p = p.turned(turn(rng, p.dimension))
        if way != 1:
            p = p.scaled(10.0 ** rng.randrange(-2, 4))
        if way == 4:
            p = p.moved(lambda x: [a + rng.uniform(-1e-10, 1e-10) for a in x])
        yield p.relabelled(rng)


# ---- the refusals

def spoilt(named):
    """Makes sheets that are refused, or just not, up to 11."""
    cube, tetrahedron = named["cube"], named["tetrahedron"]
    square, above = polygon(4), math.nextafter(EPS, 1.0)
    # Refusals before 8 come, and 8, also where 9 or 10 would come.
    whole = cube.sheet()
    yield from (b"", whole[:-1], whole + b"\0", bytes([0xE0]), pack(2, 1, [[2e6], [1.0]], []))
    yield pack(3, 2, square.points, [[[0, 1], [1, 2], [2, 3], [3, 0]]])
    yield pack(3, 2, square.points, [[[0, 1], [1, 2], [2, 3], [0, 2]]])
    yield pack(3, 2, square.points + [[5.0, 5.0]], square.lists)
    yield from (bytes([0]), bytes([0x20]), pack(1, 3, [[1.0, 2.0, 3.0]], []), bytes([0x0C]))
    yield pack(2, 0, [[], []], [])
    yield pack(2, 2, [[1.0, 0.0], [0.0, 1.0]], [])
    yield pack(3, 1, [p[:1] for p in square.points], square.lists)
    yield pack(3, 3, [p + [1.0] for p in square.points], square.lists)
    yield pack(3, 4, [[0.0] * 4] * 4, square.lists)
    yield pack(4, 2, [p[:2] for p in cube.points], cube.lists)
    yield pack(4, 4, [p + [0.5] for p in cube.points], cube.lists)
    yield pack(4, 0, [[]] * 8, cube.lists)
    yield pack(5, 3, [p[:3] for p in prism(tetrahedron).points], prism(tetrahedron).lists)
    # Refusal 9 comes, also before 10 and 11.
    yield from (compound(p, p).sheet() for p in (square, cube, prism(tetrahedron)))
    yield from (dyad(*ends).sheet() for ends in ((1, 1), (0, EPS), (0, above), (1, 1 + 5e-8), (0, 0)))
    for gap in (EPS, above):
        yield ring([(0, 1), (gap, 1), (1, -1), (-1, -1)]).sheet()
        yield ring([(0, 1), (1, -1), (gap, 1 + gap / 2), (-1, -1)]).sheet()
        yield compound(square, square.shifted((0.0, gap))).sheet()
        yield compound(tetrahedron, tetrahedron.shifted((gap / 2, 0.0, -gap))).sheet()
    # Refusal 10 comes, also before 11, and just does not.
    yield from (dyad(*ends).sheet() for ends in ((-EPS, EPS), (-above, EPS), (-0.6e-7, 0.6e-7)))
    yield ring([(1, 0), (-1, 0)]).sheet()
    yield ring([(1, 2), (-1, -2), (2, 4), (-2, -4)]).sheet()
    yield dihedron(polygon(5), 0.0).sheet()
    yield dihedron(polygon(5), EPS / 2).sheet()
    yield dihedron(polygon(5), 2 * EPS).sheet()
    yield dihedron(tetrahedron, 0.0).sheet()
    yield from (prism(polygon(4)).scaled(1, 1, flat).sheet() for flat in (4e-8, 0.6e-7))
    # Refusal 11 comes for a corner at the origin, collinear corners, a digon first, and an inverse past all floats.
    yield from (dyad(*ends).sheet() for ends in ((0, 1), (-0.0, 2), (1e-310, 1), (-3e-309, 1), (5e-324, -1), (6e-309, 1)))
    for x in (0.0, 1e-310, -1e-309, 6e-309, 1e-300):
        yield dihedron(ring([(0, 0), (1, 0), (2, x), (1, 3)]), 1.0).sheet()
    yield pyramid(ring([(0, 0), (1, 0), (2, 0), (1, 3)]), 1.0, 2.0).sheet()
    yield pleated(cube, 0).facet_first(7).sheet()
    yield dihedron(pyramid(ring([(0, 0), (1, 0), (2, 0), (1, 3)]), 1.0, 2.0), 1.0).sheet()
    yield dihedron(prism(ring([(0, 0), (1, 0), (1, 1), (0, 1)])), 1.0).sheet()


def unclean(named):
    """Makes solids with near corners and near distances, where the model alone answers."""
    yield compound(named["cube"].scaled(3), thin()).sheet()
    yield ring([(-9e-8, 1), (9e-8, 0), (1, 0)]).sheet()
    yield ring([(0, 1), (1, 0), (8e-8, -1), (-1, 0)]).sheet()
    yield dyad(1.1e-7, -0.5e-7).sheet()
    yield dyad(1 + 0.9e-7, -1).sheet()
    yield ring([(1048576, 0), (1048576, 1e-308), (0, 1)]).sheet()
    yield polygon(21).sheet()
    # Distances differ by just EPS, and one is near two listed ones, which the marks tell.
    yield compound(polygon(4), ring([(5, 0), (0, EPS), (-5, 0), (0, -2 * EPS)])).sheet()
    yield compound(polygon(4), ring([(0, 2 * EPS), (3.6 * EPS, 0), (0, -2.8 * EPS), (-3.6 * EPS, 0)])).sheet()
    # A corner is just EPS off the line of the others, and edges nearer than EPS have a listed distance that is further.
    yield dihedron(ring([(2 * EPS, 0), (2 * EPS, 1), (EPS, 0.5)]), 0.0).sheet()
    yield polygon(3).scaled(1.5 * EPS).sheet()
    # The mirror takes both triangles to the first: all elements go well, but the row repeats vertices.
    folding = compound(polygon(4).scaled(3), polygon(3).shifted((0, -0.3 * EPS)), polygon(3).shifted((0, 0.8 * EPS)))
    yield from (p.sheet() for p in (folding, folding.scaled(1, -1)))
    yield compound(polygon(4).scaled(3), polygon(4).shifted((0, -0.3 * EPS)), polygon(4).shifted((0, 0.8 * EPS))).sheet()
    # The order in which facets' distances are listed decides.
    yield from (two_bows(first).sheet() for first in (0, 1))
    # Members shrink what parts the two, and their rows repeat vertices.
    for abc, apart in (((1, 1, 1.4), (0, 0, 1.2e-7)), ((1, 1, 0.5), (0, 1.2e-7, 0))):
        yield compound(disphenoid(*abc), disphenoid(*abc).shifted(apart)).sheet()


def slivers(rng):
    """Makes polygons so far from the origin that the first columns are nearly parallel and images are off by about EPS: of each kind some that
    no flag passes, not even the first, some with the identity alone, and some with the mirror alone, thus with no rotation."""
    # This says how many there are by rank, members and rotations.
    wanted = {(3, 0, 0): 8, (3, 1, 1): 5, (3, 1, 0): 6, (4, 0, 0): 5, (4, 2, 2): 2}
    while any(wanted.values()):
        far = 10.0 ** rng.uniform(2, 5)
        size = far * far / 1e9 * 10.0 ** rng.uniform(-1, 1)
        shape = polygon(rng.randrange(3, 7)).scaled(size).shifted([far, 0.0])
        if rng.random() < 0.3:
            shape = dihedron(shape, 1.0)
        shape = shape.turned(turn(rng, shape.dimension))
        found = Searched(unpack(shape.sheet())[2])
        key = shape.rank, len(found.members), sum(determinant(m) > 0 for m, _ in found.members)
        if found.refusal == 0 and wanted.get(key, 0) > 0 and clean(found.solid):
            wanted[key] -= 1
            yield shape.sheet()


def short_lengths(need):
    """Lists outputs that are one short, empty, just enough, or one member's worth, all beside enough in the others."""
    m, r, k, n = *need, max(need[2], 1)
    yield from ((m, r, k), (m - 1, r, k), (m, r - 1, k), (m, r, k - 1), (0, r, k), (m, 0, k), (m, r, 0), (0, 0, 0))
    yield from ((m // n, r + 9, k + 9), (m // n - 1, r, k), (m + 9, r // n - 1, k + 9), (m, r // n, k), (m // 2, r, k), (m, r // 2 + 1, k))


# ---- answers

def pattern(x):
    return struct.unpack(">Q", struct.pack(">d", x))[0]


def digest(pieces):
    state = 1
    for p in pieces:
        state = (state * BASE + p) % PRIME
    return state


class Oracle:
    def __init__(self, program):
        self.program, self.asked = program, 0

    def members(self, sheet, call):
        """Returns pairs of patterns and row, or the line that says why there are none."""
        out = subprocess.run([self.program, call], input=sheet, capture_output=True, check=True).stdout.decode().splitlines()
        self.asked += 1
        found = [l.removeprefix("member ").split(" | row ") for l in out if l.startswith("member ")]
        return [([int(h, 16) for h in m.split()], [int(v) for v in row.split()]) for m, row in found] or out[0]

    @functools.cache
    def searched(self, sheet, solid):
        """Returns the model's answer, held against the Rust's where the solid is clean and document 01 does not refuse what the Rust takes, which
        it does with two vertices in one place (9), and columns whose inverse is not finite (11)."""
        found = Searched(solid)
        if not clean(solid) or found.refusal == 9 or found.refusal == 11 and first_inverse(exchanged(solid)) is not None:
            return found
        for call in ("search", "rotations"):
            ours = [([pattern(x) for r in m for x in r], row) for m, row in found.members if call == "search" or determinant(m) > 0]
            none = {10: "none", 11: "panic singular"}.get(found.refusal, "members 0 rotations 0")
            theirs = self.members(sheet, call)
            assert theirs == (ours or none), (call, sheet.hex(), found.refusal, theirs)
        return found


def sheets(rng):
    """Lists each sheet with how it is to be lent outputs: as much as the answer takes and a few cells ("ample"); also just as much, and
    answered whole where members are few ("whole"); or also in all the short ways ("short")."""
    named = round_solids()
    plain = list(plane_solids(rng)) + list(space_solids(rng, named)) + list(four_solids(rng, named))
    small = [p for p in plain if p.rank < 5 or len(p.points) < 20]
    for p in plain + [ring([(1, 1), (-1, 1), (-1, -1), (1, -1)])]:
        yield p.sheet(), "whole"
    for p in changed(rng, rng.sample(small, 60)):
        yield p.sheet(), "ample"
    for p in (dyad(-1, 1), polygon(4), polygon(5, 2), disphenoid(1, 1, 1.4), tetrahemihexahedron(), pleated(named["cube"], 0), named["cube"].sunk(0),
              prism(polygon(3)), product(polygon(3), polygon(3)), pyramid(named["tetrahedron"], 0.0, 1.0)):
        yield p.sheet(), "short"
    for sheet in spoilt(named):
        yield sheet, "ample"
    for sheet in unclean(named):
        yield sheet, "whole"
    for k, sheet in enumerate(slivers(rng)):
        yield sheet, "short" if k % 5 == 0 else "ample"


def bench(sheet):
    """Returns the least workspace of a sheet that can be read, or else some workspace."""
    words, floats = 64, 64
    if judge(sheet) == 0 or judge(sheet) in (5, 6):
        solid = unpack(sheet)[2]
        if solid:
            elements = sum(len(solid.subs[r]) for r in solid.proper())
            entries = sum(len(l) for lists in solid.subs[2:-1] for l in lists)
            words, floats = 16 * (elements + entries + 4), 8 * (elements + 8)
    return words, floats


def records(rust, rng):
    """Lists the calls, each as its number, with 2 more where it is to be answered whole, the sheet, and the lengths of what is lent."""
    ample = [1 << 30] * 3

    def needed(sheet, rotations):
        return [len(out) for out in answer(sheet, 1 << 30, 1 << 30, ample, rotations, rust.searched)[2:]]

    for k, (sheet, lent) in enumerate(sheets(rng)):
        words, floats = bench(sheet)
        for rotations in (0, 1):
            need = needed(sheet, rotations)
            spare = k % 3 * 20
            yield rotations, sheet, words + spare, floats + spare, [n + more for n, more in zip(need, (3, 5, 7))]
            if lent == "whole" and 0 < need[2] <= FEW[rotations]:
                yield 2 + rotations, sheet, words, floats, need
            if lent == "short":
                for lengths in short_lengths(need):
                    yield rotations, sheet, words, floats, [max(n, 0) for n in lengths]
                yield rotations, sheet, words - 1, floats, need
                yield rotations, sheet, words, floats - 1, need


def lines(number, count, outputs):
    """Gives the lines of an answer that is stored whole, where the outputs are just filled."""
    yield f"{number:05} {count:05}"
    for out, form, of in zip(outputs, ("016x", "05", "05"), (count, count, 1)):
        to_a_line = len(out) // of
        yield from (" ".join(format(n, form) for n in out[i:i + to_a_line]) for i in range(0, len(out), to_a_line))


def line(number, count, outputs):
    matrices, rows, marks = outputs
    pieces = [n >> shift & 65535 for n in matrices for shift in (48, 32, 16, 0)]
    return f"{number:05} {count:05} {digest(pieces):016x} {digest(rows):016x} {digest(marks):016x}"


def main():
    check_clean()
    rust = Oracle(sys.argv[1])
    slipping = {slip: functools.cache(lambda sheet, solid, slip=slip: Searched(solid, slip)) for slip in SLIPS}
    stored = f"{TOP}/crates/replay/data/searches"
    numbers, solids, whole, told = [], set(), set(), dict.fromkeys(SLIPS, 0)
    with open(f"{stored}.in", "wb") as given, open(f"{stored}.out", "w") as answers:
        for call, sheet, words, floats, lengths in records(rust, random.Random(20261115)):
            assert all(n <= limit for n, limit in zip((len(sheet), words, floats, *lengths), LIMITS)), (len(sheet), words, floats, lengths)
            given.write(struct.pack(">7Q", call, len(sheet), words, floats, *lengths) + sheet)
            number, count, *outputs = right = answer(sheet, words, floats, lengths, call % 2, rust.searched)
            outputs[0] = [pattern(x) for x in outputs[0]]
            outputs = [now + [before(i) for i in range(len(now), n)] for now, before, n in zip(outputs, BEFORE, lengths)]
            answers.writelines(l + "\n" for l in (lines(number, count, outputs) if call > 1 else [line(number, count, outputs)]))
            for slip, searched in slipping.items():
                told[slip] += answer(sheet, words, floats, lengths, call % 2, searched) != right
            numbers.append(number)
            solids.add(sheet)
            if call == 2 and clean(unpack(sheet)[2]):
                whole.add(sheet)
    assert all(told.values()), told
    assert len(whole) >= 150, len(whole)
    print(len(numbers), "calls on", len(solids), "sheets;", len(whole), "clean solids whole;",
          ", ".join(f"{numbers.count(k)} of {k}" for k in sorted(set(numbers))) + ";",
          rust.asked, "asked of the oracle; calls that tell a slip:", ", ".join(f"{slip} {n}" for slip, n in told.items()))


if __name__ == "__main__":
    main()
