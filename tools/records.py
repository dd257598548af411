#!/usr/bin/env python3
"""Makes the example records of examples/ and its raw volume, always the same bytes.

    python3 tools/records.py

case-a is document 01's case A.  face is a bumpy rock face in a block of 8
subdivisions.  face-finer is the same face with finer neighbours on three sides,
where a knob shows that the coarse samples miss; it has 7 subdivisions, the most
that leaves a record with three neighbours below the listing program's 65,536
bytes.  face-run is a run: the face in four blocks side by side, two along x and
two along z.  face.volume is the face as a raw volume of 30 x 15 x 22 samples, half
a metre apart: little-endian f32, x fastest.  ledge is a block that lies before the
face, with a thin ledge that only its finer neighbour's samples meet: all its own
samples are outside, and the transition cells have triangles.  ledge.damaged is that
block with a NaN among its samples and one fine sample turned inside: refused as it
is, and what `sirveshan repair` is for.
"""

import struct
from pathlib import Path

from reference import (ROTATIONS, Block, bits, block_length, face_point, fine_place, neighbours_length,
                       record_of, sample_place, shared_place, shared_points, sides_named)

NAN = 0x7FC00000

EXAMPLES = Path(__file__).resolve().parent.parent / "examples"

BASE = (120.0, 40.0, 15.0)
SIZE = 8.0

# The raw volume: its sizes, its first point in metres from the base, and the step between its samples.
VOLUME_SIZES = (30, 15, 22)
VOLUME_FIRST = (-3.5, 0.5, -1.5)
VOLUME_STEP = 0.5

# Bumps on the face: x and z of the middle, height, width, all in metres from the base.
BUMPS = [(2.0, 2.5, 1.5, 1.5), (5.5, 5.0, -1.25, 2.0), (6.5, 1.0, 1.0, 1.0), (1.0, 6.5, 0.75, 2.5)]
KNOB = (0.0, 4.0, 1.75, 0.25)


def depth_in_rock(x, y, z):
    """How far a point lies behind the face, seen along y; negative before it."""
    face = 3.5 + z / 8.0
    for middle_x, middle_z, height, width in BUMPS + [KNOB]:
        away_x, away_z = (x - middle_x) / width, (z - middle_z) / width
        away = away_x * away_x + away_z * away_z
        face += height / (1.0 + away * away)
    return face - y


def grid_points(n):
    """A block's grid points in the order of their places."""
    span = range(-1, n + 2)
    points = [(x, y, z) for x in span for y in span for z in span
              if sample_place(n, (x, y, z)) is not None]
    return sorted(points, key=lambda point: sample_place(n, point))


def sampled(field, width, corner, step):
    """A block's samples of a field, on a grid that has `width` steps across the centre.

    The block's (0,0,0) is that grid's point `corner`; its own points lie `step` apart.
    """
    return [bits(field(*(SIZE * (start + step * k) / width for start, k in zip(corner, point))))
            for point in grid_points(width // step)]


def sampled_block(field, n, mask):
    """The block of a field, with a neighbour of twice the subdivisions at each named side."""
    width = 2 * n
    neighbours = []
    for side in sides_named(mask):
        corner = tuple(-width * step for step in ROTATIONS[side].w)
        neighbours += sampled(field, width, corner, 1)
    return Block(n, mask, bits(0.0), tuple(map(bits, BASE)), bits(SIZE),
                 sampled(field, width, (0, 0, 0), 2), neighbours)


def thin_ledge(x, y, z):
    """Inside near the line z = 3 of the face x = 0, from y = 1 to 7; the coarse samples lie 2 m apart, at even numbers."""
    return min(0.75 - abs(z - 3.0), 3.25 - abs(y - 4.0), 0.5 - x)


def ledge():
    return sampled_block(thin_ledge, 4, 0b000001)


def level_block(n, mask, pattern, threshold=bits(0.0)):
    """All samples are equal."""
    return Block(n, mask, threshold, (bits(0.0),) * 3, bits(1.0), [pattern] * block_length(n),
                 [pattern] * neighbours_length(n, mask))


def agree(n, mask, samples):
    """Each fine face takes the centre's samples at the points that they share; the centre's stand first in the list."""
    for side, u, v in shared_points(n, mask):
        samples[fine_place(n, mask, side, 2 * u, 2 * v)] = samples[sample_place(n, face_point(n, side, u, v))]


def case_a():
    centre = [bits(0.0)] * block_length(1)
    centre[sample_place(1, (0, 0, 0))] = bits(1.0)
    return Block(1, 0, bits(0.5), (bits(0.0),) * 3, bits(1.0), centre, [])


def examples():
    """The records by file name."""
    return {
        "case-a.record": record_of(case_a()),
        "face.record": record_of(sampled_block(depth_in_rock, 8, 0)),
        "face-finer.record": record_of(sampled_block(depth_in_rock, 7, 0b010011)),
        "ledge.record": record_of(ledge()),
    }


def deliveries():
    """Damaged deliveries by file name."""
    block = ledge()
    block.centre[sample_place(block.n, (2, 1, 3))] = NAN
    block.neighbours[shared_place(block, 0, 1, 2)] = bits(1.0)
    return {"ledge.damaged": record_of(block)}


def face_block(x, z):
    """The block so many blocks farther along x and z."""
    block = sampled_block(lambda *point: depth_in_rock(point[0] + SIZE * x, point[1], point[2] + SIZE * z), 8, 0)
    return block._replace(base=(bits(BASE[0] + SIZE * x), bits(BASE[1]), bits(BASE[2] + SIZE * z)))


def runs():
    """The runs of records by file name."""
    blocks = [face_block(x, z) for z in (-1, 0) for x in (0, 1)]
    return {"face-run.records": b"".join(map(record_of, blocks))}


def volumes():
    """The raw volumes by file name."""
    x, y, z = ([start + VOLUME_STEP * k for k in range(size)] for start, size in zip(VOLUME_FIRST, VOLUME_SIZES))
    samples = [depth_in_rock(a, b, c) for c in z for b in y for a in x]
    return {"face.volume": struct.pack("<%df" % len(samples), *samples)}


def main():
    EXAMPLES.mkdir(exist_ok=True)
    for name, content in {**examples(), **deliveries(), **runs(), **volumes()}.items():
        (EXAMPLES / name).write_bytes(content)


if __name__ == "__main__":
    main()
