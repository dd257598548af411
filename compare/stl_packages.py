#!/usr/bin/env python3
"""Our STL files in the packages that clients use: each that is here opens files that `./sirveshan stl` wrote, and its count of facets and
every bit of their corners are held to the file. Of admesh it also says which repairs it names.

    python3 compare/stl_packages.py

It installs nothing and says which package is missing (Debian: admesh, python3-vtk9; trimesh is no Debian package). Where all are, it ends
with the status that tools/check-all counts as skipped.
"""

import math
import re
import shutil
import subprocess
import sys
import tempfile
from pathlib import Path

from calling import HERE, missing
import records
import reference

COMMAND = HERE.parent / "sirveshan"
DEADLINE = 60


def ball(x, y, z):
    return 3.2 - math.dist((x, y, z), (4.0, 4.0, 4.0))


def files():
    """Records by name: open faces without and with finer sides, a closed ball, and a run."""
    made = {name.removesuffix(".record"): record for name, record in records.examples().items()}
    made["ball"] = reference.record_of(records.sampled_block(ball, 16, 0))
    made["run"] = made["face"] + made["face-finer"] + made["ball"]
    return made


def facets_of(file):
    """The nine bits of each facet of a file."""
    positions = [0] * (9 * (len(file) // 50))
    count = reference.read_stl(file, positions)
    return [tuple(positions[9 * t:9 * t + 9]) for t in range(count)]


def said(words):
    return subprocess.run(list(map(str, words)), check=True, capture_output=True, text=True, timeout=DEADLINE).stdout


class Admesh:
    """Writes what it read, unchecked, as another file. It opens no file of fewer than four facets, and takes one for text, where it may
    run on without end, whose first 128 bytes after the count have none above 127."""
    name = "admesh"

    def opens(self, file):
        return len(file) >= 284 and max(file[84:212]) > 127

    def version(self):
        return shutil.which("admesh") and re.search(r"[\d.]+", said(["admesh", "--version"]))[0]

    def facets(self, path):
        again = path.with_suffix(".again")
        said(["admesh", "--no-check", "--write-binary-stl=%s" % again, path])
        return facets_of(again.read_bytes())

    def remarks(self, path):
        figures = re.findall(r"^([A-Z][a-z ]+[a-z]) +: +(\d+)\b", said(["admesh", path]).split("Processing Statistics")[1], re.M)
        repairs = ["%s %s" % (what.lower(), count) for what, count in figures if count != "0" and what != "Number of parts"]
        return "; it names: " + (", ".join(repairs) or "nothing")


class InPython:
    """A package that a Python here has: not always the one that runs this script."""

    def opens(self, file):
        return True

    def python(self):
        for python in (sys.executable, "/usr/bin/python3"):
            if Path(python).exists() and subprocess.run([python, "-c", "import " + self.module], capture_output=True).returncode == 0:
                return python
        return None

    def version(self):
        python = self.python()
        return python and said([python, "-c", self.tell_version]).strip()

    def facets(self, path):
        words = said([self.python(), "-c", self.tell_facets, path]).split()
        return [tuple(int(word, 16) for word in words[9 * t:9 * t + 9]) for t in range(len(words) // 9)]

    def remarks(self, path):
        return ""


class Vtk(InPython):
    name = "VTK"
    module = "vtkmodules.vtkIOGeometry"
    tell_version = "from vtkmodules.vtkCommonCore import vtkVersion; print(vtkVersion.GetVTKVersion())"
    tell_facets = """
import sys, struct
from vtkmodules.vtkIOGeometry import vtkSTLReader
reader = vtkSTLReader()
reader.SetFileName(sys.argv[1])
reader.MergingOff()
reader.Update()
mesh = reader.GetOutput()
assert mesh.GetPoints().GetData().GetDataTypeAsString() == "float"
for t in range(mesh.GetNumberOfCells()):
    corners = mesh.GetCell(t).GetPointIds()
    for k in range(corners.GetNumberOfIds()):
        print(*(struct.pack(">f", number).hex() for number in mesh.GetPoint(corners.GetId(k))))
"""


class Trimesh(InPython):
    name = "trimesh"
    module = "trimesh"
    tell_version = "import trimesh; print(trimesh.__version__)"
    tell_facets = """
import sys, struct, trimesh
for facet in trimesh.load(sys.argv[1], file_type="stl", process=False).triangles.tolist():
    for corner in facet:
        print(*(struct.pack(">f", number).hex() for number in corner))
"""


def write_files(folder):
    """Each file by ours, held to the reference's bytes where it is of one record."""
    paths = []
    for name, record in files().items():
        path = Path(folder) / (name + ".stl")
        subprocess.run([COMMAND, "stl", "-", "-o", path], input=record, check=True)
        if name != "run" and path.read_bytes() != reference.mesh_stl(reference.accepted_mesh(record)):
            sys.exit("%s: not the reference's file" % path.name)
        paths.append(path)
    return paths


def try_package(package, version, paths):
    for path in paths:
        if not package.opens(path.read_bytes()):
            print("%s %s: %s is a file that it does not open" % (package.name, version, path.name))
            continue
        wanted, found = facets_of(path.read_bytes()), package.facets(path)
        if found != wanted:
            sys.exit("%s, %s: %d facets or their corners, not the file's %d" % (package.name, path.name, len(found), len(wanted)))
        print("%s %s: %s, %d facets, every corner bit as written%s" % (package.name, version, path.name, len(found), package.remarks(path)))


def main():
    packages = [(package, package.version()) for package in (Admesh(), Vtk(), Trimesh())]
    absent = ", ".join(package.name for package, version in packages if not version)
    if all(not version for _, version in packages):
        missing("missing: " + absent)
    with tempfile.TemporaryDirectory() as folder:
        paths = write_files(folder)
        for package, version in packages:
            if version:
                try_package(package, version, paths)
    print("not tried, not here: %s" % (absent or "none"))


if __name__ == "__main__":
    main()
