#!/usr/bin/env python3
"""Holds tools/reference.py against the Rust mesher, block by block.

    python3 compare/against_reference.py COUNT [FIRST]

Takes the blocks of COUNT seeds from FIRST (0) on and compares counts, every vertex
bit, every triangle and every place of the index store, in order.  It stops at
the first difference, writes that record to difference.record and says where the
two part.  At the end it says which cases were met.
"""

import subprocess
import sys
from pathlib import Path

from calling import HERE, in_turn, missing, seeds
import reference

PROGRAMS = HERE / "target" / "release"


def build():
    try:
        built = subprocess.run(["cargo", "build", "--offline", "--release", "--quiet"], cwd=HERE)
    except FileNotFoundError:
        missing("cargo is missing: the Rust mesher cannot be built")
    if built.returncode:
        sys.exit(built.returncode)


def next_record(stream):
    length = stream.read(4)
    return length + stream.read(int.from_bytes(length, "big"))


class Oracle:
    """The oracle as a running program: a record in, its two texts out."""

    def __init__(self):
        self.process = subprocess.Popen([PROGRAMS / "oracle", "run"], stdin=subprocess.PIPE,
                                        stdout=subprocess.PIPE)

    def answer(self, record):
        self.process.stdin.write(record)
        self.process.stdin.flush()
        lines = []
        while not lines or lines[-1] != b"end\n":
            line = self.process.stdout.readline()
            if not line:
                sys.exit("the oracle ended")
            lines.append(line)
        return b"".join(lines).decode()


def cases_met(block):
    """The regular and the transition cases of a block's cells."""
    field = reference.Field(block)
    steps = range(block.n)
    regular = {reference.regular_case(field, (x, y, z))
               for x in steps for y in steps for z in steps}
    transition = {reference.transition_case(field, side, u, v)
                  for side in reference.sides_named(block.mask) for u in steps for v in steps}
    return regular, transition


def first_parting(ours, theirs):
    pairs = zip(ours.splitlines() + ["nothing"], theirs.splitlines() + ["nothing"])
    for number, (our_line, their_line) in enumerate(pairs, 1):
        if our_line != their_line:
            return "line %d: reference %r, Rust %r" % (number, our_line, their_line)
    return "no line differs"


def main(arguments):
    all_seeds = seeds(arguments, __doc__)
    build()
    first, count = all_seeds.start, len(all_seeds)
    maker = subprocess.Popen([PROGRAMS / "blocks", str(count), str(first)], stdout=subprocess.PIPE)
    oracle = Oracle()
    regular, transition, vertices, triangles = set(), set(), 0, 0
    for seed in in_turn(all_seeds):
        record = next_record(maker.stdout)
        ours = reference.both_texts(record)
        theirs = oracle.answer(record)
        if ours != theirs:
            Path("difference.record").write_bytes(record)
            sys.exit("seed %d: difference.record\n%s" % (seed, first_parting(ours, theirs)))
        _, made_vertices, made_triangles = ours.split("\n", 1)[0].split()
        vertices += int(made_vertices)
        triangles += int(made_triangles)
        for met, cases in zip((regular, transition), cases_met(reference.parse(record))):
            met |= cases
    print("%d blocks from seed %d: no difference; %d vertices, %d triangles; "
          "%d of 256 regular cases met, %d of 512 transition cases"
          % (count, first, vertices, triangles, len(regular), len(transition)))


if __name__ == "__main__":
    main(sys.argv[1:])
