#!/usr/bin/env python3
"""Welded meshes in the packages that clients use: how many triangle sides each finds open, before the weld and after it.

    python3 compare/weld_packages.py

A ball off the block's outer faces, without and with finer sides, and a dome that meets the low faces, where vertices are doubled, without
and with finer sides. VTK gets a mesh as it stands, vertices and indices, so that two vertices at one place are two; after the weld it must
find open just the sides that are open by position, as `--summary` tells them, and more where the mesh crosses a finer face: there the
vertices of transition cells stay. admesh gets the STL file of `./sirveshan stl --weld`, which has no indices, and must find no edge to fix
and one part. Of a ball both must find no side open, and its volume that of the ball, but for the grid. It installs nothing and says which
package is missing (Debian: admesh, python3-vtk9). Where both are missing, it ends with the status that tools/check-all counts as skipped.
"""

import math
import re
import subprocess
import sys
import tempfile
from pathlib import Path

from calling import missing
import records
import reference
from stl_packages import COMMAND, Admesh, Vtk, ball, said

# A ball of radius 3.2 in a block of side 8, and what triangles as wide as the diagonal of a cell may leave out of it: the ball's area times
# the height of an arc over such a chord.
N, RADIUS = 16, 3.2
BALL = 4 / 3 * math.pi * RADIUS ** 3
GRID = 4 * math.pi * RADIUS ** 2 * 3 * (8 / N) ** 2 / (8 * RADIUS)

# What is read of admesh's statistics; of two columns the first, before its repairs.
FIGURES = ["Edges fixed", "Number of parts", "Total disconnected facets", "Volume"]

# The sides of a mesh that belong to one triangle alone or to more than two, by index, and its volume.
LOOK = """
import sys
from vtkmodules.vtkCommonCore import vtkPoints
from vtkmodules.vtkCommonDataModel import vtkCellArray, vtkPolyData
from vtkmodules.vtkFiltersCore import vtkFeatureEdges, vtkMassProperties
points, cells, mesh = vtkPoints(), vtkCellArray(), vtkPolyData()
for line in sys.stdin:
    kind, *numbers = line.split()
    if kind == "v":
        points.InsertNextPoint(*map(float, numbers))
    elif kind == "t":
        cells.InsertNextCell(3, list(map(int, numbers)))
mesh.SetPoints(points)
mesh.SetPolys(cells)
edges, mass = vtkFeatureEdges(), vtkMassProperties()
edges.SetInputData(mesh)
edges.FeatureEdgesOff()
edges.Update()
mass.SetInputData(mesh)
print(edges.GetOutput().GetNumberOfCells(), mass.GetVolume())
"""


def dome(x, y, z):
    return 5.1 - math.dist((x, y, z), (0.0, 0.0, 0.0))


def meshes():
    """The last crosses a finer face."""
    return {"ball": (ball, 0), "ball among six finer": (ball, 63), "dome": (dome, 0), "dome among six finer": (dome, 63)}


def is_ball(name):
    return name.startswith("ball")


def crosses_finer(name):
    return name == "dome among six finer"


def listing(record, *words):
    """The mesh as `./sirveshan mesh` prints it, each position as a number."""
    lines = subprocess.run([COMMAND, "mesh", "-", *words], input=record, check=True, capture_output=True).stdout.decode().splitlines()
    positions = lambda line: "v " + " ".join(repr(reference.value(int(word, 16))) for word in line.split()[1:4])
    return [positions(line) if line.startswith("v") else line for line in lines]


def by_vtk(record, *words):
    """Vertices, sides open by index, volume."""
    lines = listing(record, *words)
    found = subprocess.run([Vtk().python(), "-c", LOOK], input="\n".join(lines), check=True, capture_output=True, text=True).stdout
    sides, volume = found.split()
    return int(lines[0].split()[1]), int(sides), float(volume)


def by_admesh(record, folder):
    """Edges fixed, parts, facets with a side open, volume."""
    path = Path(folder) / "welded.stl"
    subprocess.run([COMMAND, "stl", "-", "-o", path, "--weld", "--force"], input=record, check=True)
    told = said(["admesh", path])
    return [float(re.search(name + r" *: *([-\d.]+)", told)[1]) for name in FIGURES]


def open_by_position(record):
    told = subprocess.run([COMMAND, "mesh", "-", "--summary"], input=record, check=True, capture_output=True).stdout.decode()
    found = re.search(r"(\d+) sides? (?:is|are) open", told)
    return int(found[1]) if found else 0


def volume_of(name, volume):
    """What is said of a ball's volume, which must be the ball's."""
    if not is_ball(name):
        return ""
    if abs(volume - BALL) >= GRID:
        sys.exit("%s: the volume %.3f is not the ball's, %.3f" % (name, volume, BALL))
    return ", volume %.3f" % volume


def try_vtk(name, record):
    held, before, _ = by_vtk(record)
    left, after, volume = by_vtk(record, "--weld")
    by_position = open_by_position(record)
    told = name, held, before, left, after, by_position, volume_of(name, volume)
    print("VTK: %s: %d vertices and %d sides open; welded %d vertices and %d sides open, %d by position%s" % told)
    if after <= by_position if crosses_finer(name) else after != by_position:
        sys.exit("%s: the sides open by index do not fit those by position" % name)
    if is_ball(name) and after:
        sys.exit("%s: it is not closed" % name)


def try_admesh(name, record, folder):
    fixed, parts, disconnected, volume = by_admesh(record, folder)
    told = name, fixed, parts, disconnected, volume_of(name, volume)
    print("admesh: %s: %d edges fixed, %d part, %d facets with a side open%s" % told)
    if fixed or parts != 1:
        sys.exit("%s: it is not one part with no edge to fix" % name)
    if is_ball(name) and disconnected:
        sys.exit("%s: it is not closed" % name)


def main():
    vtk, admesh = Vtk().version(), Admesh().version()
    if not vtk and not admesh:
        missing("missing: admesh, VTK")
    with tempfile.TemporaryDirectory() as folder:
        for name, (field, mask) in meshes().items():
            record = reference.record_of(records.sampled_block(field, N, mask))
            if vtk:
                try_vtk(name, record)
            if admesh:
                try_admesh(name, record, folder)
    print("such a ball has the volume %.3f, but for %.3f by the grid; VTK %s, admesh %s" % (BALL, GRID, vtk or "not here", admesh or "not here"))


if __name__ == "__main__":
    main()
