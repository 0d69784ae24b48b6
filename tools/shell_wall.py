#!/usr/bin/env python3
"""Prints examples/shell-wall.mesh: a piece of a ceramic shell wall on the alloy block that it holds.

Across the wall (x) stand five planes of 3 x 3 vertices. From the alloy to the outside:
a layer of hexahedra, a layer of pyramids and tetrahedra round the middle vertex of the
alloy's skin, and two layers of prisms, the shell's coats, over the skin's eight triangles.
"""

PLANES = ["0", "2.500", "5.000", "6.250", "8.750"]  # x in millimetres; the skin is the third
STEPS = ["0", "1.250", "2.500"]  # y and z
SKIN = 2
MIDDLE = (SKIN, 1, 1)


def vertex(i, j, k):
    return 1 + k + 3 * (j + 3 * i)


def square(i, j, k):
    """The four corners at x plane i of the cell j k, counterclockwise seen from greater x."""
    return [(i, j, k), (i, j + 1, k), (i, j + 1, k + 1), (i, j, k + 1)]


def numbered(corners):
    return " ".join(str(vertex(*corner)) for corner in corners)


def alloy_cells():
    for j in range(2):
        for k in range(2):
            print("HX", numbered(square(0, j, k) + square(1, j, k)))


def outer_faces(j, k):
    """The two faces of a cell of the second layer that are outer, seen from outside, y first."""
    low, high = square(1, j, k), square(2, j, k)
    sides = [[low[n], low[(n + 1) % 4], high[(n + 1) % 4], high[n]] for n in range(4)]
    across_y = sides[3] if j == 0 else sides[1]
    across_z = sides[0] if k == 0 else sides[2]
    return across_y, across_z


def skin_cells():
    """In each cell: pyramids on the inner face and on one outer face, two tetrahedra on the other."""
    for j in range(2):
        for k in range(2):
            across_y, across_z = outer_faces(j, k)
            print("PY", numbered(square(1, j, k) + [MIDDLE]))
            print("PZ", numbered([MIDDLE] + across_y[::-1]))
            p, q, r, s = across_z
            print("TE", numbered([p, r, q, MIDDLE]))
            print("TE", numbered([p, s, r, MIDDLE]))


def coats():
    ring = [(0, 0), (1, 0), (2, 0), (2, 1), (2, 2), (1, 2), (0, 2), (0, 1)]
    for i in range(SKIN, len(PLANES) - 1):
        for n in range(8):
            triangle = [(1, 1), ring[n], ring[(n + 1) % 8]]
            print("PR", numbered([(i, *c) for c in triangle] + [(i + 1, *c) for c in triangle]))


def main():
    for x in PLANES:
        for y in STEPS:
            for z in STEPS:
                print("VX", x, y, z)
    alloy_cells()
    skin_cells()
    coats()
    print("EN", len(PLANES) * 9, 4 + 16 + 16)


main()
