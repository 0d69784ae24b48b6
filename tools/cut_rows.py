#!/usr/bin/env python3
"""The table of the hexahedron's cuts, computed from the page's rule: 64 lines of 24 places.

Row 8 (a - 1) + b0 + 2 b1 + 4 b2 belongs to the lowest place a; bit i belongs to the far face i, in the page's order of faces, and is 1 where
that face's diagonal passes the corner opposite to a. The script knows the page's faces, opposite corners, rotations (found by trying every
reordering), the fan from the lowest corner and the five tetrahedra of n = 0. It shares nothing with the Rattle sources.
"""
from itertools import permutations

FACES = [(1, 4, 3, 2), (1, 2, 6, 5), (1, 5, 8, 4), (2, 3, 7, 6), (5, 6, 7, 8), (3, 4, 8, 7)]
OPPOSITE = {1: 7, 2: 8, 3: 5, 4: 6, 5: 3, 6: 4, 7: 1, 8: 2}
FIVE = [(1, 2, 3, 6), (1, 3, 8, 6), (1, 3, 4, 8), (1, 6, 8, 5), (3, 8, 6, 7)]


def cycle(face):
    """A face as a cycle: read from its lowest place."""
    at = face.index(min(face))
    return face[at:] + face[:at]


def rotation_to_first(a):
    """A reordering of places that maps faces to faces, keeps their direction and brings place a to place 1."""
    cycles = {cycle(f) for f in FACES}
    for order in permutations(range(1, 9)):
        if order[0] == a and {cycle(tuple(order[p - 1] for p in f)) for f in FACES} == cycles:
            return order
    raise AssertionError('no rotation')


def is_even(reordering):
    """Whether a reordering of 0, 1, 2, 3 is even."""
    return sum(x > y for i, x in enumerate(reordering) for y in reordering[i + 1:]) % 2 == 0


def written(tet):
    """The even reordering with the lowest first and the lowest of the other three second."""
    found = [tuple(tet[i] for i in order) for order in permutations(range(4)) if is_even(order)]
    found = [t for t in found if t[0] == min(tet) and t[1] == min(t[1:])]
    assert len(found) == 1
    return found[0]


def triangles(face, start):
    """The two triangles of a face that is cut from the corner `start`."""
    at = face.index(start)
    p, q, r, s = face[at:] + face[:at]
    return [(p, q, r), (p, r, s)]


def row(a, bits):
    far = [f for f in FACES if a not in f]
    if not any(bits):
        order = rotation_to_first(a)
        tets = [tuple(order[p - 1] for p in t) for t in FIVE]
    else:
        tets = []
        for face, bit in zip(far, bits):
            at = face.index(OPPOSITE[a])
            start = face[at] if bit else face[(at + 1) % 4]
            tets += [(a,) + t for t in triangles(face, start)]
    tets = sorted(written(t) for t in tets)
    tets += [(0, 0, 0, 0)] * (6 - len(tets))
    return [p for t in tets for p in t]


for a in range(1, 9):
    for choice in range(8):
        print(*row(a, [(choice >> i) & 1 for i in range(3)]))
