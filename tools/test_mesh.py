#!/usr/bin/env python3
"""./mesh as its users call it, held against tools/reference.py: records, pipes, wrong arguments, refusals, its own limits, output that fails.

    python3 tools/test_mesh.py
"""

import os
import shutil
import subprocess
import tempfile
import unittest
from pathlib import Path

import records
import reference

ROOT = Path(__file__).resolve().parent.parent
MESH = ROOT / "mesh"
EXAMPLES = sorted(records.EXAMPLES.glob("*.record"))
LIMIT = "a limit of ./mesh"


def mesh(*words, **more):
    return subprocess.run([MESH, *map(str, words)], capture_output=True, **more)


def flat(n):
    """A record of n subdivisions with no surface."""
    samples = [reference.bits(0.0)] * reference.block_length(n)
    numbers = (reference.bits(0.5), (0, 0, 0), reference.bits(1.0))
    return reference.record_of(reference.Block(n, 0, *numbers, samples, []))


def checkered(n):
    """A record of n subdivisions in which every grid edge is crossed."""
    block = reference.parse(flat(n))
    for x in range(n + 1):
        for y in range(n + 1):
            for z in range(n + 1):
                block.centre[reference.sample_place(n, (x, y, z))] = reference.bits(float((x + y + z) % 2))
    return reference.record_of(block)


def damaged():
    """Case A's record with version 2."""
    record = bytearray(reference.record_of(records.case_a()))
    record[4] = 2
    return bytes(record)


def setUpModule():
    """The first call proves and builds, and says so on standard error; no test reads that one."""
    mesh(EXAMPLES[0])


class Listings(unittest.TestCase):
    def listed(self, done, record):
        self.assertEqual(done.stdout.decode(), reference.listing(record))
        self.assertEqual((done.returncode, done.stderr), (0, b""))

    def test_files(self):
        self.assertGreaterEqual(len(EXAMPLES), 3)
        for path in EXAMPLES:
            self.listed(mesh(path), path.read_bytes())

    def test_standard_input(self):
        record = EXAMPLES[0].read_bytes()
        self.listed(mesh("-", input=record), record)
        with open(EXAMPLES[0], "rb") as file:
            self.listed(mesh("-", stdin=file), record)

    def test_named_pipe(self):
        with tempfile.TemporaryDirectory() as folder:
            pipe = Path(folder) / "pipe"
            os.mkfifo(pipe)
            writer = subprocess.Popen(["sh", "-c", 'cat "$1" > "$2"', "sh", EXAMPLES[0], pipe])
            self.listed(mesh(pipe), EXAMPLES[0].read_bytes())
            writer.wait()

    def test_through_links_from_elsewhere(self):
        with tempfile.TemporaryDirectory() as folder:
            first, second = Path(folder) / "first", Path(folder) / "second"
            first.symlink_to(MESH)
            second.symlink_to("first")
            shutil.copy(EXAMPLES[0], Path(folder) / "a record")
            done = subprocess.run(["./second", "a record"], cwd=folder, capture_output=True)
            self.listed(done, EXAMPLES[0].read_bytes())


class Arguments(unittest.TestCase):
    def wrong(self, done, *said):
        self.assertEqual((done.returncode, done.stdout), (2, b""))
        for words in said:
            self.assertIn(words, done.stderr.decode())

    def test_which_one_is_wrong(self):
        self.wrong(mesh(), "no record is named", "usage:")
        self.wrong(mesh(EXAMPLES[0], "second"), "'second'", "usage:")
        self.wrong(mesh("no-such-file"), "'no-such-file' is not there")
        self.wrong(mesh(ROOT), "is a folder")
        self.wrong(mesh("--nonsense"), "'--nonsense'", "usage:")

    def test_help(self):
        done = mesh("--help")
        self.assertEqual(done.returncode, 0)
        self.assertIn(b"usage:", done.stdout)

    def test_without_the_toolchain(self):
        with tempfile.TemporaryDirectory() as folder:
            for tool in "bash env readlink dirname mktemp head rm cat uname sed tee wc cmp".split():
                (Path(folder) / tool).symlink_to(shutil.which(tool))
            done = mesh(EXAMPLES[0], env={**os.environ, "PATH": folder})
        self.wrong(done, "rt is missing", "rattle-kit-")


class Refusals(unittest.TestCase):
    def refused(self, record, line, limit):
        done = mesh("-", input=record)
        self.assertEqual((done.returncode, done.stdout.decode()), (1, line))
        self.assertEqual(LIMIT in done.stderr.decode(), limit)
        self.assertEqual("./sirveshan mesh" in done.stderr.decode(), limit)

    def test_of_the_record(self):
        self.refused(damaged(), "refused 12 2 0 0\n", False)
        self.refused(b"", "refused 11 0 0 0\n", False)
        self.refused(flat(1)[:-1], "refused 11 0 0 0\n", False)

    def test_of_its_own_buffers(self):
        self.refused(flat(13), "refused 9 18928 0 0\n", True)
        mesh_of = reference.mesh_of(reference.parse(checkered(12)))
        counts = (len(mesh_of.vertices), len(mesh_of.triangles))
        self.assertGreater(counts, (2000, 4000))
        self.refused(checkered(12), "refused 10 %d %d 0\n" % counts, True)
        self.refused(flat(16) + bytes(65536), "refused 11 0 0 0\n", True)
        self.assertTrue(mesh("-", input=flat(12)).stdout.startswith(b"mesh 0 0"))


class Output(unittest.TestCase):
    def test_full_disk(self):
        with open("/dev/full", "wb") as full:
            done = subprocess.run([MESH, EXAMPLES[0]], stdout=full, stderr=subprocess.PIPE)
        self.assertEqual(done.returncode, 3)
        self.assertIn(b"cannot be written", done.stderr)

    def test_pipe_closed_early(self):
        ends = os.pipe()
        os.close(ends[0])
        done = subprocess.run([MESH, EXAMPLES[1]], stdout=ends[1], stderr=subprocess.PIPE)
        os.close(ends[1])
        self.assertNotIn(done.returncode, (0, 1, 2))


if __name__ == "__main__":
    unittest.main()
