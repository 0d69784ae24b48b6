#!/usr/bin/env python3
"""Cuts a mesh file by vtkDataSetTriangleFilter and prints how much processor time the filter takes: tools/vtk_speed.py MESH.

VTK chooses its own diagonals, so its tetrahedra are others; the time is for comparison only.
"""

import sys
import time

import vtk

# the page's corner orders are VTK's, but for the prism, whose triangles VTK wants the other way round
KINDS = {
    "TE": (vtk.VTK_TETRA, (0, 1, 2, 3)),
    "PY": (vtk.VTK_PYRAMID, (0, 1, 2, 3, 4)),
    "PZ": (vtk.VTK_PYRAMID, (1, 2, 3, 4, 0)),
    "PR": (vtk.VTK_WEDGE, (0, 2, 1, 3, 5, 4)),
    "HX": (vtk.VTK_HEXAHEDRON, (0, 1, 2, 3, 4, 5, 6, 7)),
}
ROUNDS = 30


def grid_of(path):
    points, grid = vtk.vtkPoints(), vtk.vtkUnstructuredGrid()
    with open(path, encoding="ascii") as lines:
        for line in lines:
            mark, *fields = line.split()
            if mark == "VX":
                points.InsertNextPoint([float(field) for field in fields])
            elif mark in KINDS:
                kind, order = KINDS[mark]
                corners = vtk.vtkIdList()
                for place in order:
                    corners.InsertNextId(int(fields[place]) - 1)
                grid.InsertNextCell(kind, corners)
    grid.SetPoints(points)
    return grid


def main():
    grid = grid_of(sys.argv[1])
    best = None
    for _ in range(ROUNDS):
        cutter = vtk.vtkDataSetTriangleFilter()
        cutter.SetInputData(grid)
        start = time.process_time()
        cutter.Update()
        taken = time.process_time() - start
        best = taken if best is None else min(best, taken)
    count = cutter.GetOutput().GetNumberOfCells()
    print(
        f"VTK {vtk.vtkVersion().GetVTKVersion()}: vtkDataSetTriangleFilter cuts {grid.GetNumberOfCells()} elements"
        f" into {count} tetrahedra in {best * 1e6:.1f} µs"
    )


main()
