#!/usr/bin/env python3
"""Makes the sheets that `bench s` is timed on: large ones with R = 5 and D = 4.

    python3 tools/make_largest.py            writes crates/bench/stdin (the sheet `full`)
    python3 tools/make_largest.py FOLDER     writes all of them there, as NAME.sheet

These are accepted. A face (rank 3) lies in exactly two facets, so that there are at most 4,096 list entries at rank 2, 8,192 at rank 3 and
4,096 at rank 4.
- full: 512 times four squares on the same four edges, where each two neighbours make a facet. It has 2,048 elements at each proper rank, and
  every entry.
- cubes: 11 by 2 by 31 cubes that close up in all three directions. They have 682 vertices and facets, and 2,046 edges and faces.
- cells: 21 times the boundary of the 24-cell, with 504 vertices and facets, and 2,016 edges and faces.
- wide: four polygons of 2,048 sides on the same edges, which have the longest lists.
- split: three polygons of 682 sides, six faces of two of them each, and four facets of three faces. Here the most entries are looked through
  in vain.
- squares, pentagons: a cycle of 4 or 5 edges with each edge twice, and a face for each choice of one edge of each pair, as often as there is
  room. They have the most faces on an edge.
These are refused.
- ridges (6): two polygons of 2,048 sides on the same edges, both of which are in each of 2,048 facets.
- longest (6): 2,048 elements and 8,192 entries at every rank, which make the longest sheet there is.
"""
import itertools
import os
import sys

TOP = os.path.dirname(os.path.dirname(os.path.abspath(__file__)))
sys.path.insert(0, os.path.dirname(os.path.abspath(__file__)))
from pack_sheet import pack


def together(parts):
    """Makes one solid of several that stand side by side."""
    points, lists = [], [[], [], []]
    for p, ls in parts:
        below = len(points)
        points += p
        for whole, part in zip(lists, ls):
            at = len(whole)
            whole += [[s + below for s in l] for l in part]
            below = at
    return points, lists


def fan(n, m, at):
    """Makes a solid of m polygons of n sides on the same edges."""
    corner = ((1.0, 1.0), (-1.0, 1.0), (-1.0, -1.0), (1.0, -1.0))
    points = [(corner[k % 4][0] * (1 + k // 4), corner[k % 4][1], float(at % 32), float(at // 32)) for k in range(n)]
    edges = [sorted((k, (k + 1) % n)) for k in range(n)]
    return points, [edges, [list(range(n))] * m, [sorted((k, (k + 1) % m)) for k in range(m)]]


def split(n):
    """Makes a solid with a face for each two of four facets. Each polygon is in the faces of all but one pairing of the facets."""
    points, lists = together(([(0.0, 0.0, float(a), float(k)) for k in range(n)], [[sorted((k, (k + 1) % n)) for k in range(n)], [], []]) for a in range(3))
    faces = list(itertools.combinations(range(4), 2))
    pairings = [{(0, 1), (2, 3)}, {(0, 2), (1, 3)}, {(0, 3), (1, 2)}]
    lists[1] = [[n * a + k for a in range(3) if face not in pairings[a] for k in range(n)] for face in faces]
    lists[2] = [[i for i, face in enumerate(faces) if cell in face] for cell in range(4)]
    return points, lists


def choices(n, m):
    """Makes a solid around a cycle of n edges, each of which is there twice. Each choice of one edge of each pair gives m equal faces, and each two
    neighbours of these make a facet."""
    points = [(float(k), float(k % 2), 0.0, 0.0) for k in range(n)]
    edges = [sorted((k, (k + 1) % n)) for k in range(n) for _ in range(2)]
    faces = [[2 * k + b for k, b in enumerate(bits)] for bits in itertools.product((0, 1), repeat=n) for _ in range(m)]
    facets = [sorted((at + k, at + (k + 1) % m)) for at in range(0, len(faces), m) for k in range(m)]
    return points, [edges, faces, facets]


def ridges(n):
    points, lists = fan(n, 2, 0)
    return points, [lists[0], lists[1], [[0, 1]] * n]


def longest(n):
    points = [(float(k), 0.0, 0.0, 0.0) for k in range(n)]
    return points, [[sorted((e + k) % n for k in range(4)) for e in range(n)]] * 3


def cubes(sizes):
    """Makes cubes that close up. An element is given by a place and the axes along which it extends."""
    places = list(itertools.product(*map(range, sizes)))
    axes = [[s for s in itertools.product((0, 1), repeat=3) if sum(s) == k] for k in range(4)]
    number = [{e: i for i, e in enumerate(itertools.product(axes[k], places))} for k in range(4)]

    def subs(along, place):
        for i in range(3):
            if along[i]:
                less = tuple(0 if j == i else a for j, a in enumerate(along))
                yield less, place
                yield less, tuple((x + 1) % sizes[j] if j == i else x for j, x in enumerate(place))

    lists = [[sorted(number[k - 1][s] for s in subs(*e)) for e in number[k]] for k in (1, 2, 3)]
    return [(*map(float, p), 0.0) for _, p in number[0]], lists


def cell24(at):
    """Makes the boundary of the 24-cell. The vertices have two coordinates of ±1, and a facet is the octahedron of those that are furthest in one of
    24 directions."""
    points = [p for p in itertools.product((-1, 0, 1), repeat=4) if sum(map(abs, p)) == 2]
    directions = [p for p in itertools.product((-1, 0, 1), repeat=4) if sum(map(abs, p)) in (1, 4)]
    octahedra = [frozenset(v for v in range(24) if sum(a * b for a, b in zip(points[v], u)) * (2 if sum(map(abs, u)) == 1 else 1) == 2) for u in directions]
    triangles = sorted({tuple(sorted(a & b)) for a, b in itertools.combinations(octahedra, 2) if len(a & b) == 3})
    edges = sorted({e for t in triangles for e in itertools.combinations(t, 2)})
    lists = [[list(e) for e in edges],
             [sorted(edges.index(e) for e in itertools.combinations(t, 2)) for t in triangles],
             [[k for k, t in enumerate(triangles) if set(t) <= o] for o in octahedra]]
    return [tuple(x * (at + 1.0) for x in p) for p in points], lists


def sheets():
    yield "full", together(fan(4, 4, k) for k in range(512))
    yield "cubes", cubes((11, 2, 31))
    yield "cells", together(cell24(k) for k in range(21))
    yield "wide", fan(2048, 4, 0)
    yield "split", split(682)
    yield "squares", choices(4, 128)
    yield "pentagons", choices(5, 51)
    yield "ridges", ridges(2048)
    yield "longest", longest(2048)


def main():
    for name, (points, lists) in sheets():
        counts = [len(points)] + [len(l) for l in lists]
        entries = [sum(map(len, l)) for l in lists]
        assert max(counts) <= 2048 and max(entries) <= 8192
        if len(sys.argv) > 1:
            with open(f"{sys.argv[1]}/{name}.sheet", "wb") as file:
                file.write(pack(5, 4, points, lists))
            print(name, "elements", *counts, "entries", *entries)
        elif name == "full":
            with open(f"{TOP}/crates/bench/stdin", "wb") as file:
                file.write(pack(5, 4, points, lists))


if __name__ == "__main__":
    main()
