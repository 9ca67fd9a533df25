"""This models search and rotations as document 01 says them, in sections 1 to 6 and the table. It is written from its sentences alone, in another
language and another shape than the program. tools/make_searches.py answers by it. It also has section 6's "Clean", for solids and for copyings.

A slip is a clause left out or changed, and makes another search: make_searches.py asks whether its stored calls tell each from the right one."""
import functools
import itertools
import math
import operator
import struct

from make_sheets import judge

EPS = 1e-7
SLIPS = {
    "examples": "a flag passes without the clause of the types' examples",
    "classes": "the mark does not ask for the distance class",
    "subs": "the mark does not ask where the subs go",
    "repeats": "the mark does not ask that the row repeats no vertex",
    "twins": "the mark lets two elements of a rank have one vertex set, and takes the first",
    "exchanged": "the mark is of the solid with its facets exchanged",
}


class Solid:
    """Holds lists of subs for ranks 0 to R, the least and the top among them."""

    def __init__(self, points, subs):
        self.points, self.subs = points, subs
        self.rank, self.dimension = len(subs) - 1, len(points[0])
        self.sups = [[[e for e, l in enumerate(above) if s in l] for s in range(len(here))] for here, above in zip(subs, subs[1:])] + [[[]]]
        self.vertices = [[[]], [[v] for v in range(len(points))]]
        for lists in subs[2:]:
            below = self.vertices[-1]
            self.vertices.append([sorted({v for s in l for v in below[s]}) for l in lists])

    def proper(self):
        return range(1, self.rank)

    def exchanged(self, facet):
        """Lets that facet change places with facet 0. For R = 2 coordinates don't move, and vertices' lists are alike."""
        subs = [list(l) for l in self.subs]
        facets = subs[self.rank - 1]
        facets[0], facets[facet] = facets[facet], facets[0]
        return Solid(self.points, subs)


@functools.cache
def unpack(sheet):
    """Returns rank, dimension and the solid (None where R < 2) of a sheet that passed preflight."""
    bits, at = "".join(f"{b:08b}" for b in sheet), 0

    def read(width):
        nonlocal at
        at += width
        return int(bits[at - width:at], 2)

    rank, dimension = read(3), read(3)
    counts = [read(12) for _ in range(rank - 1)]
    if rank < 2:
        return rank, dimension, None
    points = [[struct.unpack(">d", struct.pack(">Q", read(64)))[0] for _ in range(dimension)] for _ in range(counts[0])]
    lists = [[[read(11) for _ in range(read(12))] for _ in range(n)] for n in counts[1:]]
    subs = [[[]], [[0]] * counts[0]] + lists
    return rank, dimension, Solid(points, subs + [[list(range(len(subs[-1])))]])


# ---- section 1

def dot(a, b):
    """Adds one by one, and not by Python's sum, which does not round each sum."""
    products = [x * y for x, y in zip(a, b)]
    return functools.reduce(operator.add, products) if products else 0.0


def norm(a):
    return math.sqrt(dot(a, a))


def minus(a, b):
    return [x - y for x, y in zip(a, b)]


def image(matrix, p):
    return [dot(row, p) for row in matrix]


def multiplied_by(a, b):
    """Returns the product of two matrices."""
    return [[dot(row, c) for c in zip(*b)] for row in a]


def eliminated(matrix):
    """Returns the pivots, whether swaps were odd, and the inverse. The last is None where a pivot is 0."""
    d = len(matrix)
    rows = [list(r) + [float(i == j) for j in range(d)] for i, r in enumerate(matrix)]
    pivots, odd = [], False
    for c in range(d):
        best = c
        for i in range(c + 1, d):
            if abs(rows[i][c]) > abs(rows[best][c]):
                best = i
        pivot = rows[best][c]
        if pivot == 0:
            return pivots, odd, None
        if best != c:
            rows[c], rows[best] = rows[best], rows[c]
            odd = not odd
        pivots.append(pivot)
        rows[c] = [x / pivot for x in rows[c]]
        for i in range(d):
            if i != c:
                factor = rows[i][c]
                rows[i] = [x - factor * y for x, y in zip(rows[i], rows[c])]
    return pivots, odd, [r[d:] for r in rows]


def determinant(matrix):
    pivots, odd, inverse = eliminated(matrix)
    if inverse is None:
        return 0.0
    product = functools.reduce(operator.mul, pivots)
    return -product if odd else product


# ---- sections 3 and 4

def distance(points, dimension):
    """Returns the distance from the origin to the hull of the points."""
    offset, basis = points[0], []

    def project(p):
        d, q = minus(p, offset), list(offset)
        for b in basis:
            along = dot(d, b)
            q = [x + y * along for x, y in zip(q, b)]
        return q

    for p in points[1:]:
        if len(basis) == dimension:
            break
        v = minus(p, project(p))
        length = norm(v)
        if length > EPS:
            basis.append([x / length for x in v])
    origin = [0.0] * dimension
    return norm(minus(origin, project(origin)))


@functools.cache
def distances(solid):
    return [[distance([solid.points[v] for v in vs], solid.dimension) for vs in solid.vertices[r]] for r in solid.proper()]


@functools.cache
def classes(solid):
    """Returns each proper element's listed distance, by rank from 1, and the list."""
    listed, all_classes = [], []
    for of_rank in distances(solid):
        all_classes.append([])
        for d in of_rank:
            near = [l for l in listed if abs(l - d) < EPS]
            if not near:
                listed.append(d)
            all_classes[-1].append(min(near, default=d))
    return all_classes, listed


def numbered(keys):
    """Numbers things from 0 by first appearance."""
    seen = {}
    return [seen.setdefault(k, len(seen)) for k in keys]


def types(solid):
    state = [[0]] + [numbered(c) for c in classes(solid)[0]] + [[0]]

    def step(r, neighbours, beside):
        state[r] = numbered([(t, tuple(sorted(state[beside][n] for n in ns))) for t, ns in zip(state[r], neighbours[r])])

    def sweep():
        for r in solid.proper():
            step(r, solid.subs, r - 1)
        for r in reversed(solid.proper()):
            step(r, solid.sups, r + 1)
        return sum(len(set(state[r])) for r in solid.proper())

    before, now = None, sweep()
    while before != now:
        before, now = now, sweep()
    return state


# ---- sections 5 and 6

def flags(solid):
    """Lists the flags as elements of ranks 0 to R, the vertex moving fastest."""
    def down(r, above):
        if r == 0:
            yield [0] + above
        else:
            for s in solid.subs[r + 1][above[0]]:
                yield from down(r - 1, [s] + above)
    return down(solid.rank - 1, [0])


def changed(solid, flag, r):
    (other,) = [e for e in solid.subs[r + 1][flag[r + 1]] if flag[r - 1] in solid.subs[r][e] and e != flag[r]]
    return flag[:r] + [other] + flag[r + 1:]


def columns(solid, flag):
    corners = [flag[1]]
    for _ in range(solid.dimension - 1):
        for r in solid.proper():
            flag = changed(solid, flag, r)
        corners.append(flag[1])
    return [list(axis) for axis in zip(*(solid.points[v] for v in corners))]


def find(points, q):
    return next((k for k, p in enumerate(points) if all(abs(a - b) <= EPS for a, b in zip(p, q))), None)


class Setting:
    """Holds what stands when a search begins: the solid with its facets exchanged, its types, its first flag, and the inverse of that flag's
    columns."""

    def __init__(self, searched, inverse):
        self.searched, self.types, self.first, self.inverse = searched, types(searched), next(flags(searched)), inverse

    def same_types(self, flag):
        return all(self.types[r][flag[r]] == self.types[r][self.first[r]] for r in self.searched.proper())

    @functools.cached_property
    def candidates(self):
        """Lists the matrices of the flags whose elements have the first flag's types, in flag order, members or not."""
        return [multiplied_by(columns(self.searched, flag), self.inverse) for flag in flags(self.searched) if self.same_types(flag)]


def exchanged(solid):
    """Returns the solid with its first facet further than EPS from the origin in the place of facet 0, or None where no facet is."""
    far = [f for f, d in enumerate(distances(solid)[-1]) if d > EPS]
    return solid.exchanged(far[0]) if far else None


def first_inverse(solid):
    """Returns the inverse of the first flag's columns, or None where they are singular."""
    return eliminated(columns(solid, next(flags(solid))))[2]


@functools.cache
def setting(solid):
    """Returns the number of the refusal (8 to 11), or the Setting."""
    if solid.dimension != solid.rank - 1:
        return 8
    if any(find(solid.points[:k], p) is not None for k, p in enumerate(solid.points)):
        return 9
    searched = exchanged(solid)
    if searched is None:
        return 10
    inverse = first_inverse(searched)
    if inverse is None or not all_finite(inverse):
        return 11
    return Setting(searched, inverse)


class Searched:
    """Holds the refusal's number, or 0; the members' matrices and rows; and the solid of the marks."""

    def __init__(self, solid, slip=None):
        self.solid, self.slip, self.marked = solid, slip, solid
        found = setting(solid)
        self.refusal = 0 if isinstance(found, Setting) else found
        self.members = []
        if self.refusal == 0:
            self.list_members(found)
            if slip == "exchanged":
                self.marked = found.searched

    def list_members(self, found):
        solid, state = found.searched, found.types
        examples = [(r, solid.vertices[r][state[r].index(t)]) for r in range(2, solid.rank) for t in sorted(set(state[r]))]
        for matrix in found.candidates:
            row = [find(solid.points, image(matrix, p)) for p in solid.points]
            if None not in row and (self.slip == "examples" or all(sorted(row[v] for v in vs) in solid.vertices[r] for r, vs in examples)):
                self.members.append((matrix, row))


# ---- section 6, "Clean": the definitions of crates/spec/specs/Clean.antt, under the same names

def within_eps(x, y):
    """Tells whether two values "differ by at most EPS", by the rounded difference, EPS included."""
    return abs(x - y) <= EPS


def transitive(values):
    """Tells whether that "is transitive among" the values. Rounding keeps the order of differences, so that values in rising order fall into runs,
    each value within EPS of the one before it, and the test is transitive exactly when the first and the last value of each run differ by at most
    EPS. The values have to be finite."""
    start = before = None
    for x in sorted(values):
        if before is None or not within_eps(x, before):
            start = x
        elif not within_eps(x, start):
            return False
        before = x
    return True


def on_axis(points, k):
    return [p[k] for p in points]


def all_finite(points):
    return all(math.isfinite(x) for p in points for x in p)


def clean_points(dimension, points, images):
    """Tells whether it is so "among coordinates and images on each axis, images are finite"."""
    return all_finite(images) and all(transitive(on_axis(points + images, k)) for k in range(dimension))


def images(matrices, points):
    return [image(m, p) for m in matrices for p in points]


def listed_by(taken):
    """Returns what is listed when each distance has been taken or has joined."""
    listed = []
    for d in taken:
        if not any(abs(l - d) < EPS for l in listed):
            listed.append(d)
    return listed


def clean_distances(taken):
    """Tells whether "no distance is ever nearer than EPS to two listed values", strictly nearer, and to two of the whole list."""
    listed = listed_by(taken)
    return all(sum(abs(l - d) < EPS for l in listed) < 2 for d in taken)


def all_distances(solid):
    """Lists the distances of all proper elements, "by rising rank, then index"."""
    return [d for of_rank in distances(solid) for d in of_rank]


@functools.cache
def clean(solid):
    """Tells whether a solid of rank 2 or more is clean. The distances are asked as it was read and, in a search, once more with its facets exchanged;
    the images are those of every vertex under every candidate. A search that is refused before it makes a candidate has neither images nor a
    second list."""
    if not clean_distances(all_distances(solid)):
        return False
    found = setting(solid)
    if not isinstance(found, Setting):
        return clean_points(solid.dimension, solid.points, [])
    return (clean_distances(all_distances(found.searched))
            and clean_points(solid.dimension, solid.points, images(found.candidates, solid.points)))


def copying(matrices, points):
    """Returns the copies, and the points that copying multiplies: those "not found among the copies"."""
    copies, multiplied = [], []
    for p in points:
        if find(copies, p) is None:
            multiplied.append(p)
            for q in images(matrices, [p]):
                if find(copies, q) is None:
                    copies.append(q)
    return copies, multiplied


def clean_copying(dimension, points, matrices):
    """Tells whether a copying is clean: "In copying, the first two are meant of points, copies and images". The images are those of the points that
    are multiplied, and those of the copies."""
    copies, multiplied = copying(matrices, points)
    return clean_points(dimension, points + copies, images(matrices, multiplied + copies))


def polygon(edges, points):
    return Solid([list(map(float, p)) for p in points], [[[]], [[0]] * len(points), edges, [list(range(len(edges)))]])


def ring(*points):
    """Makes the polygon through these points in turn."""
    n = len(points)
    return polygon([sorted((k, (k + 1) % n)) for k in range(n)], points)


def dyad(a, b):
    return Solid([[float(a)], [float(b)]], [[[]], [[0], [0]], [[0, 1]]])


def check_clean():
    """Tests `clean` and `clean_copying` on the examples that are evaluated in crates/spec/specs/CallExamples.antt and
    crates/trials/specs/Differences.antt."""
    by_triples = lambda xs: all(not (within_eps(x, y) and within_eps(y, z)) or within_eps(x, z) for x in xs for y in xs for z in xs)
    steps = (0.0, 0.5e-7, 0.6e-7, 1e-7, 1.2e-7, 2e-7, -0.5e-7, 1.0, 1.00000006, 1.0000001, 1.0000002)
    for xs in itertools.product(steps, repeat=4):
        assert transitive(xs) == by_triples(xs), xs
    for solid in (
        ring((1, 1), (-1, 1), (-1, -1), (1, -1)), ring((-1, 0), (1, 0), (0, 1)), dyad(-1, 1), dyad(-1, 1.00000009), dyad(5e-8, -1.2e-7),
        # They are refused 9 to 11: document 01 refuses what the Rust takes, and that alone is the difference.
        dyad(0, 1e-7), dyad(-1e-7, 1e-7), dyad(1e-310, 1), dyad(1, 1),
    ):
        assert clean(solid), solid.points
    for solid in (
        # Distances are near two listed values. The second and the last are so only when the list is whole.
        ring((0,), (1.2e-7,), (0.6e-7,)), ring((0,), (0.6e-7,), (1.2e-7,)), ring((0,), (1e-7,), (0.5e-7,)),
        ring((1, 0), (-0.50000003, 0.86602546), (-0.50000006, -0.86602551)),
        # Images are near two vertices, the last under a candidate that is no member.
        dyad(1.1e-7, -0.5e-7), ring((-9e-8, 1), (9e-8, 0), (1, 0)), ring((0, 1), (1, 0), (8e-8, -1), (-1, 0)),
        ring((-1, -1), (1, -1), (4.5e-8, 1), (-6e-8, 1)),
        # A distance is near two values of the exchanged solid's list.
        polygon([[0, 1], [2, 3], [4, 5], [1, 2], [3, 4], [0, 5]],
                [(1, 9e-8), (-1, 9e-8), (2e-8, 1), (2e-8, -1), (2.00000013, 1.99999987), (-1.99999987, -2.00000013)]),
    ):
        assert not clean(solid), solid.points
    quarters = [[[c, -s], [s, c]] for c, s in ((1.0, 0.0), (0.0, 1.0), (-1.0, 0.0), (0.0, -1.0))]
    one, shear = [[1.0, 0.0], [0.0, 1.0]], [[1.0, -1e-8], [0.0, 1.0]]
    assert clean_copying(2, [[1.0, 0.0]], quarters)
    assert clean_copying(1, [[0.0], [0.9e-7]], [[[1.0]], [[2.0]]])
    assert not clean_copying(1, [[1e-7]], [[[1.0]], [[-1.0]], [[0.0]]])
    assert not clean_copying(2, [[0.0, 5.0], [8e-8, 0.0]], [one, shear])
    assert not clean_copying(2, [[0.0, 5.0], [8e-8, 0.0], [-5e-8, 5.0]], [one])


def mark(solid, row, slip=None):
    """Returns the mark of a row in the solid as read."""
    of_class = classes(solid)[0]
    for r in solid.proper():
        if slip != "twins" and len({tuple(vs) for vs in solid.vertices[r]}) < len(solid.vertices[r]):
            return 0
    if slip != "repeats" and len(set(row)) < len(row):
        return 0
    goes = [[0]]
    for r in solid.proper():
        goes.append([])
        for e, vs in enumerate(solid.vertices[r]):
            image = sorted(row[v] for v in vs)
            if image not in solid.vertices[r]:
                return 0
            to = solid.vertices[r].index(image)
            if slip != "classes" and of_class[r - 1][to] != of_class[r - 1][e]:
                return 0
            if slip != "subs" and sorted(goes[r - 1][s] for s in solid.subs[r][e]) != solid.subs[r][to]:
                return 0
            goes[r].append(to)
    return 1


def answer(sheet, words, floats, lengths, rotations, searched):
    """Returns the refusal's number or 0, the count, and what the three outputs hold from the start on; `searched` gives the Searched of a sheet."""
    number = judge(sheet, words, floats)
    if number:
        return number, 0, [], [], []
    rank, dimension, solid = unpack(sheet)
    if rank < 2 or dimension != rank - 1:
        return 8, 0, [], [], []
    found = searched(sheet, solid)
    if found.refusal:
        return found.refusal, 0, [], [], []
    members = [(m, row) for m, row in found.members if not rotations or determinant(m) > 0]
    if not members:
        return 12, 0, [], [], []
    fit = min(len(members), lengths[0] // dimension ** 2, lengths[1] // len(solid.points), lengths[2])
    kept = members[:fit]
    outputs = [x for m, _ in kept for r in m for x in r], [v for _, row in kept for v in row], [mark(found.marked, row, found.slip) for _, row in kept]
    return 13 if fit < len(members) else 0, fit, *outputs
