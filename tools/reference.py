#!/usr/bin/env python3
"""A second reading of document 01, and of what has landed of document 02, in plain Python.

Written from their text and the numbers in tools/tables alone, so that its
answers can stand against the proved code and against the Rust mesher.  Nothing
here is fast; everything is meant to be held beside the text.

Every f32 is carried as its bit pattern (an int) where it is stored and as a
Python float where it is worked with.  A float is a double: one operation in
double, rounded once to f32, is the f32 operation, exactly, for + - * /.

As a command, one record on standard input:

    python3 tools/reference.py listing           what the listing program prints
    python3 tools/reference.py mesh              the same with room for any mesh
    python3 tools/reference.py welded            the same, welded
    python3 tools/reference.py store             the index store, a place a line
    python3 tools/reference.py viewer [X Y Z]    subdivisions, blank, sample
    python3 tools/reference.py stl               the mesh as an STL file
    python3 tools/reference.py repair FILLER     the repaired record; its changes on standard error

and a run of records on standard input:

    python3 tools/reference.py sheet             its sheet, as `sirveshan sheet --csv` prints it
"""

import functools
import itertools
import math
import struct
import sys
from pathlib import Path
from typing import NamedTuple

LARGEST_N = 64
LARGEST_MASK = 63
LIMIT = 1048576.0
LEAST_SIZE = 1 / 1024
HEADER = 27
VERSION = 1

VOLUME_ACROSS = 1024

STL_MOST_TRIANGLES = 4294967295
STL_START = 84
STL_TRIANGLE = 50
NAN = 0x7FC00000

SHEET_BYTES = 1073741824

NO_EDGE = 4294967295

LISTING_BYTES = 65536
LISTING_STORE = 15552
LISTING_SAMPLES = 16377
LISTING_VERTICES = 2000
LISTING_TRIANGLES = 4000


# Answers

class Refusal(NamedTuple):
    """A refusal's number and its three numbers, 0 where unused."""
    number: int
    first: int = 0
    second: int = 0
    third: int = 0


class Counts(NamedTuple):
    """Extraction's answer when nothing is refused, and the weld's, which reads no samples."""
    vertices: int
    triangles: int
    reads: int = 0


class Block(NamedTuple):
    """What a record says.  All numbers but n and mask are f32 bit patterns."""
    n: int
    mask: int
    threshold: int
    base: tuple
    size: int
    centre: list
    neighbours: list


class Mesh(NamedTuple):
    """Six f32 bit patterns a vertex, three indices a triangle, the index store; the sample reads that it took; a number for each
    vertex's grid edge."""
    vertices: list
    triangles: list
    store: list
    reads: int
    edges: list = ()


# f32

_F32 = struct.Struct("<f")
_U32 = struct.Struct("<I")


def f32(number):
    """The f32 nearest to a double."""
    return _F32.unpack(_F32.pack(number))[0]


def value(bits):
    return _F32.unpack(_U32.pack(bits))[0]


def values(patterns):
    return struct.unpack("<%df" % len(patterns), struct.pack("<%dI" % len(patterns), *patterns))


def bits(number):
    return _U32.unpack(_F32.pack(number))[0]


def add(a, b):
    return f32(a + b)


def subtract(a, b):
    return f32(a - b)


def multiply(a, b):
    return f32(a * b)


def divide(a, b):
    return f32(a / b)


def within_limit(number):
    return math.isfinite(number) and abs(number) <= LIMIT


def inside(sample, threshold):
    return sample >= threshold


# The tables

def _table_rows(name):
    text = (Path(__file__).parent / "tables" / name).read_text()
    return [[int(word, 0) for word in line.split()] for line in text.splitlines()]


def _table_numbers(name):
    return [number for row in _table_rows(name) for number in row]


def _table_triangles(name):
    """For each class its triangles, three corners each."""
    classes = []
    for counts, *corners in _table_rows(name):
        assert len(corners) == 3 * (counts & 0x0F)
        classes.append([tuple(corners[k:k + 3]) for k in range(0, len(corners), 3)])
    return classes


REGULAR_CLASS = _table_numbers("regular_class.txt")
REGULAR_TRIANGLES = _table_triangles("regular_cell.txt")
REGULAR_CODES = _table_rows("regular_vertex.txt")
TRANSITION_CLASS = _table_numbers("transition_class.txt")
TRANSITION_TRIANGLES = _table_triangles("transition_cell.txt")
TRANSITION_CODES = _table_rows("transition_vertex.txt")


# The block and its samples

def block_length(n):
    m = n + 1
    return m * m * m + 6 * m * m


def sides_named(mask):
    return [side for side in range(6) if mask >> side & 1]


def neighbours_length(n, mask):
    return len(sides_named(mask)) * block_length(2 * n)


def samples_length(n, mask):
    return block_length(n) + neighbours_length(n, mask)


def axes_outside(n, point):
    return [axis for axis in range(3) if not 0 <= point[axis] <= n]


# The kind of a sample of the block itself; that of an extension face is its number, 0 to 5.
IN_BLOCK = 6


def place_kind(n, point):
    """Document 02, [4]: the store that a grid point's sample came from; None if it was never sampled."""
    outside = axes_outside(n, point)
    if not outside:
        return IN_BLOCK
    axis = outside[0]
    if len(outside) > 1 or point[axis] not in (-1, n + 1):
        return None
    return 2 * axis + (1 if point[axis] == n + 1 else 0)


def sample_place(n, point):
    """A grid point's place in a block's samples, or None if it was never sampled."""
    m = n + 1
    x, y, z = point
    kind = place_kind(n, point)
    if kind is None:
        return None
    if kind == IN_BLOCK:
        return m * m * x + m * y + z
    i, j = (point[other] for other in range(3) if other != kind // 2)
    return m * m * m + m * m * kind + m * i + j


def store_length(n):
    return 4 * n ** 3 + 60 * n ** 2


def regular_store_place(n, cell, index):
    x, y, z = cell
    return x + n * y + n ** 2 * z + n ** 3 * index


def transition_store_place(n, side, u, v, index):
    return 4 * n ** 3 + side + 6 * u + 6 * n * v + 6 * n ** 2 * index


# Sides and rotations

class Rotation(NamedTuple):
    origin: tuple
    u: tuple
    v: tuple
    w: tuple


ROTATIONS = [
    Rotation((0, 0, 1), (0, 0, -1), (0, 1, 0), (1, 0, 0)),
    Rotation((1, 0, 0), (0, 0, 1), (0, 1, 0), (-1, 0, 0)),
    Rotation((0, 0, 1), (1, 0, 0), (0, 0, -1), (0, 1, 0)),
    Rotation((0, 1, 0), (1, 0, 0), (0, 0, 1), (0, -1, 0)),
    Rotation((0, 0, 0), (1, 0, 0), (0, 1, 0), (0, 0, 1)),
    Rotation((1, 0, 1), (-1, 0, 0), (0, 1, 0), (0, 0, -1)),
]


def face_point(n, side, u, v):
    """The centre's grid point u, v steps along a side's face."""
    r = ROTATIONS[side]
    return tuple(n * r.origin[k] + u * r.u[k] + v * r.v[k] for k in range(3))


def neighbour_point(n, side, u2, v2, w=0):
    """The neighbour's grid point u2, v2 fine steps along the face and w off it."""
    r = ROTATIONS[side]
    return tuple(2 * n * (r.origin[k] + r.w[k]) + w * r.w[k] + u2 * r.u[k] + v2 * r.v[k]
                 for k in range(3))


def shared_points(n, mask):
    """The points of the named sides' faces, which the centre shares with their neighbours, by side, u, v."""
    steps = range(n + 1)
    return ((side, u, v) for side in sides_named(mask) for u in steps for v in steps)


def fine_place(n, mask, side, u2, v2, w=0):
    """The place of a point of a named side's neighbour among all samples, those of the centre first."""
    before = sides_named(mask).index(side)
    return (block_length(n) + before * block_length(2 * n)
            + sample_place(2 * n, neighbour_point(n, side, u2, v2, w)))


def fine_steps(n, side, u2, v2, w=0):
    """The fine point's half steps from the centre's base: k of the fine position."""
    r = ROTATIONS[side]
    return tuple(2 * n * r.origin[k] + u2 * r.u[k] + v2 * r.v[k] + w * r.w[k] for k in range(3))


# Refusals, by number

def refuse_subdivisions(n):
    return None if 1 <= n <= LARGEST_N else Refusal(1, n)


def refuse_mask(mask):
    return None if mask <= LARGEST_MASK else Refusal(2, mask)


def refuse_numbers(base, size, threshold):
    for place, pattern in enumerate(base):
        if not within_limit(value(pattern)):
            return Refusal(3, place)
    if not LEAST_SIZE <= value(size) <= LIMIT:
        return Refusal(3, 3)
    if not within_limit(value(threshold)):
        return Refusal(3, 4)
    return None


def refuse_centre_length(n, length):
    wanted = block_length(n)
    return None if length == wanted else Refusal(4, wanted)


def refuse_neighbours_length(n, mask, length):
    one = block_length(2 * n)
    for k, side in enumerate(sides_named(mask)):
        if length < (k + 1) * one:
            return Refusal(5, side)
    wanted = neighbours_length(n, mask)
    return None if length == wanted else Refusal(6, wanted)


def refuse_samples(samples):
    for place, number in enumerate(values(samples)):
        if not within_limit(number):
            return Refusal(7, place)
    return None


def mismatched_points(block):
    """The points that 8 is about, by side, u, v."""
    field = Field(block)
    for side, u, v in shared_points(block.n, block.mask):
        coarse = field.centre(face_point(block.n, side, u, v))
        fine = field.neighbour(side, neighbour_point(block.n, side, 2 * u, 2 * v))
        if inside(coarse, field.threshold) != inside(fine, field.threshold):
            yield side, u, v


def refuse_face_mismatch(block):
    for side, u, v in mismatched_points(block):
        return Refusal(8, side, u, v)
    return None


def refuse_store(n, length):
    wanted = store_length(n)
    return Refusal(9, wanted) if length < wanted else None


def refuse_room(mesh, vertices_length, triangles_length):
    vertices, triangles = len(mesh.vertices), len(mesh.triangles)
    if vertices > vertices_length // 6 or triangles > triangles_length // 3:
        return Refusal(10, vertices, triangles)
    return None


def refuse_buffer(length, wanted):
    return Refusal(14, wanted) if length < wanted else None


def refuse_edges(length, wanted):
    return Refusal(23, wanted) if length < wanted else None


def refuse_lent(block):
    """1 to 6: all but the samples themselves."""
    return (refuse_subdivisions(block.n)
            or refuse_mask(block.mask)
            or refuse_numbers(block.base, block.size, block.threshold)
            or refuse_centre_length(block.n, len(block.centre))
            or refuse_neighbours_length(block.n, block.mask, len(block.neighbours)))


def refuse_block(block):
    """1 to 7, as extraction and the writer judge them."""
    return refuse_lent(block) or refuse_samples(block.centre + block.neighbours)


# Point read

def read_point(n, samples, x, y, z):
    """A sample's bit pattern, or a refusal: 1, 4, 15."""
    refusal = refuse_subdivisions(n) or refuse_centre_length(n, len(samples))
    if refusal:
        return refusal
    place = sample_place(n, (x, y, z))
    return Refusal(15, len(axes_outside(n, (x, y, z)))) if place is None else samples[place]


# Grid points

class GridPoint(NamedTuple):
    """A point that an edge ends in: position and gradient (three f32 each), sample."""
    position: tuple
    gradient: tuple
    sample: float


def steps_around(point):
    """For each axis the point a step up and the point a step down."""
    for axis in range(3):
        step = tuple(1 if k == axis else 0 for k in range(3))
        yield (tuple(p + s for p, s in zip(point, step)),
               tuple(p - s for p, s in zip(point, step)))


class Field:
    """A block's numbers as floats, and its samples by grid point; each read of one is counted."""

    def __init__(self, block):
        self.n = block.n
        self.mask = block.mask
        self.base = tuple(value(pattern) for pattern in block.base)
        self.size = value(block.size)
        self.threshold = value(block.threshold)
        self.reads = 0
        self._centre = values(block.centre)
        self._neighbours = {}
        one = block_length(2 * block.n)
        for k, side in enumerate(sides_named(block.mask)):
            self._neighbours[side] = values(block.neighbours[k * one:(k + 1) * one])

    def centre(self, point):
        self.reads += 1
        return self._centre[sample_place(self.n, point)]

    def neighbour(self, side, point):
        self.reads += 1
        return self._neighbours[side][sample_place(2 * self.n, point)]

    def regular_gradient(self, point):
        return tuple(subtract(self.centre(up), self.centre(down))
                     for up, down in steps_around(point))

    def shrink_amount(self):
        return multiply(f32(0.15), multiply(self.size, divide(1.0, self.n)))

    def regular_position(self, point):
        """base + size * (index/n) for each axis, moved off the named faces it touches."""
        position = [add(self.base[k], multiply(self.size, divide(point[k], self.n)))
                    for k in range(3)]
        touched = [2 * axis + high for axis in range(3) for high in (0, 1)
                   if point[axis] == high * self.n]
        if all(self.mask >> side & 1 for side in touched):
            for side in touched:
                move = subtract if side & 1 else add
                position[side // 2] = move(position[side // 2], self.shrink_amount())
        return tuple(position)

    def regular_point(self, point):
        return GridPoint(self.regular_position(point), self.regular_gradient(point),
                         self.centre(point))

    def fine_position(self, steps):
        """((0.5 * k) * (1/n)) times size plus base, for each axis."""
        unit = divide(1.0, self.n)
        return tuple(add(multiply(multiply(multiply(0.5, steps[k]), unit), self.size),
                         self.base[k])
                     for k in range(3))

    def fine_gradient(self, side, cell_u, cell_v, u, v):
        if u % 2 == 0 and v % 2 == 0:
            return self.regular_gradient(face_point(self.n, side, cell_u + u // 2, cell_v + v // 2))
        point = neighbour_point(self.n, side, 2 * cell_u + u, 2 * cell_v + v)
        return tuple(subtract(self.neighbour(side, up), self.neighbour(side, down))
                     for up, down in steps_around(point))

    def fine_sample(self, side, cell_u, cell_v, u, v):
        return self.neighbour(
            side, neighbour_point(self.n, side, 2 * cell_u + u, 2 * cell_v + v))

    def transition_point(self, side, cell_u, cell_v, index):
        """One of a transition cell's thirteen points: 0..8 fine, 9..12 coarse."""
        if index < 9:
            u, v = index % 3, index // 3
            steps = fine_steps(self.n, side, 2 * cell_u + u, 2 * cell_v + v)
            return GridPoint(self.fine_position(steps),
                             self.fine_gradient(side, cell_u, cell_v, u, v),
                             self.fine_sample(side, cell_u, cell_v, u, v))
        u, v = (index - 9) % 2, (index - 9) // 2
        return self.regular_point(face_point(self.n, side, cell_u + u, cell_v + v))


def weight(a, b, threshold):
    """The weight toward b."""
    return divide(subtract(threshold, a), subtract(b, a))


def between(a, b, toward_b):
    return add(a, multiply(toward_b, subtract(b, a)))


def vertex_between(a, b, threshold):
    """The six bit patterns of the vertex on the edge from a to b."""
    toward_b = weight(a.sample, b.sample, threshold)
    return tuple(bits(between(p, q, toward_b))
                 for p, q in zip(a.position + a.gradient, b.position + b.gradient))


# Cells

TRANSITION_CONTRIBUTIONS = [0x01, 0x02, 0x04, 0x80, 0x100, 0x08, 0x40, 0x20, 0x10]


def corner_point(cell, corner):
    return tuple(cell[k] + (corner >> k & 1) for k in range(3))


def regular_case(field, cell):
    return sum(1 << corner for corner in range(8)
               if inside(field.centre(corner_point(cell, corner)), field.threshold))


def transition_case(field, side, u, v):
    return sum(contribution for index, contribution in enumerate(TRANSITION_CONTRIBUTIONS)
               if inside(field.fine_sample(side, u, v, index % 3, index // 3), field.threshold))


def edge_of(code):
    """The two points that a vertex code names."""
    return code >> 4 & 0x0F, code & 0x0F


def grid_edge(n, a, b):
    """The number of the grid edge between two neighbouring points of the block: document 02, [10]."""
    axis = [a[k] != b[k] for k in range(3)].index(True)
    return 3 * sample_place(n, min(a, b)) + axis


class Mesher:
    """The mesh as it grows, cell by cell."""

    def __init__(self, block):
        self.field = Field(block)
        self.vertices = []
        self.triangles = []
        self.store = [0] * store_length(block.n)
        self.edges = []

    def new_vertex(self, a, b, edge):
        self.vertices.append(vertex_between(a, b, self.field.threshold))
        self.edges.append(edge)
        return len(self.vertices) - 1

    def regular_vertex(self, cell, code):
        n = self.field.n
        high = code >> 8
        index = high & 0x0F
        a, b = edge_of(code)

        def make():
            ends = corner_point(cell, a), corner_point(cell, b)
            return self.new_vertex(*map(self.field.regular_point, ends), grid_edge(n, *ends))

        if high & 0x80:
            vertex = make()
            self.store[regular_store_place(n, cell, index)] = vertex
            return vertex
        back = tuple(cell[k] - (high >> (4 + k) & 1) for k in range(3))
        if min(back) >= 0:
            return self.store[regular_store_place(n, back, index)]
        return make()

    def transition_vertex(self, side, u, v, code):
        n = self.field.n
        high = code >> 8
        index = high & 0x0F
        a, b = edge_of(code)

        def make():
            return self.new_vertex(self.field.transition_point(side, u, v, a),
                                   self.field.transition_point(side, u, v, b), NO_EDGE)

        if high & 0x80:
            vertex = make()
            self.store[transition_store_place(n, side, u, v, index)] = vertex
            return vertex
        if high & 0x30:
            back_u, back_v = u - (high >> 4 & 1), v - (high >> 5 & 1)
            if min(back_u, back_v) >= 0:
                return self.store[transition_store_place(n, side, back_u, back_v, index)]
        return make()

    def regular_cell(self, cell):
        case = regular_case(self.field, cell)
        indices = [self.regular_vertex(cell, code) for code in REGULAR_CODES[case]]
        for first, second, third in REGULAR_TRIANGLES[REGULAR_CLASS[case]]:
            self.triangles.append((indices[first], indices[second], indices[third]))

    def transition_cell(self, side, u, v):
        case = transition_case(self.field, side, u, v)
        indices = [self.transition_vertex(side, u, v, code) for code in TRANSITION_CODES[case]]
        kind = TRANSITION_CLASS[case]
        for corners in TRANSITION_TRIANGLES[kind & 0x7F]:
            triangle = tuple(indices[corner] for corner in corners)
            self.triangles.append(triangle[::-1] if kind & 0x80 else triangle)


def mesh_of(block, mesher=Mesher, over=()):
    """The mesh of a block that passes 1 to 8, with the layers of regular cells that are passed over left out."""
    mesher = mesher(block)
    steps = range(block.n)
    for x in steps:
        if x in over:
            continue
        for y in steps:
            for z in steps:
                mesher.regular_cell((x, y, z))
    for side in sides_named(block.mask):
        for u in steps:
            for v in steps:
                mesher.transition_cell(side, u, v)
    return Mesh(mesher.vertices, mesher.triangles, mesher.store, mesher.field.reads, mesher.edges)


# Extraction

def extract(block, vertices, triangles, store, edges=None, summary=None):
    """Counts or a refusal, 1 to 10; fills the three lent lists when nothing is refused.  With the further list of document 02, [10],
    23 comes before 10, and that list is filled too.  With a summary by layer, [12], 14 and 26 come before 9, and layers are passed over.

    A refusal reports no reads: they are those made once every check has passed."""
    refusal = (refuse_block(block)
               or refuse_face_mismatch(block)
               or summary is not None and refuse_summary(block.n, block.centre, summary)
               or refuse_store(block.n, len(store)))
    if refusal:
        return refusal
    mesh = mesh_of(block, over=() if summary is None else layers_over(block, summary))
    refusal = (edges is not None and refuse_edges(len(edges), len(mesh.vertices))
               or refuse_room(mesh, len(vertices), len(triangles)))
    if refusal:
        return refusal
    lay(vertices, flat(mesh.vertices))
    lay(triangles, flat(mesh.triangles))
    lay(store, mesh.store)
    if edges is not None:
        lay(edges, mesh.edges)
    return Counts(len(mesh.vertices), len(mesh.triangles), mesh.reads)


def flat(parts):
    """The numbers of a mesh's vertices or triangles, end to end."""
    return [number for part in parts for number in part]


def lay(lent, numbers):
    """Fills the first places of a lent list; all beyond stays."""
    lent[:len(numbers)] = numbers


# Block record

def parse_delivery(record):
    """A block whatever its samples are, or a refusal: 11, 12, 1, 2, 3, 13."""
    if len(record) < HEADER or int.from_bytes(record[:4], "big") != len(record) - 4:
        return Refusal(11)
    version, n, mask, threshold, *base, size = struct.unpack(">3B5I", record[4:HEADER])
    if version != VERSION:
        return Refusal(12, version)
    refusal = refuse_subdivisions(n) or refuse_mask(mask) or refuse_numbers(base, size, threshold)
    if refusal:
        return refusal
    wanted = samples_length(n, mask)
    if len(record) - HEADER != 4 * wanted:
        return Refusal(13, wanted)
    samples = list(struct.unpack(">%dI" % wanted, record[HEADER:]))
    centre = block_length(n)
    return Block(n, mask, threshold, tuple(base), size, samples[:centre], samples[centre:])


def parse(record):
    """A block, or a refusal: 11, 12, 1, 2, 3, 13, 7."""
    block = parse_delivery(record)
    if isinstance(block, Refusal):
        return block
    return refuse_samples(block.centre + block.neighbours) or block


def read(record, samples):
    """The reader: a block or a refusal, 14 last; fills the first places of the lent list."""
    block = parse(record)
    if isinstance(block, Refusal):
        return block
    numbers = block.centre + block.neighbours
    refusal = refuse_buffer(len(samples), len(numbers))
    if refusal:
        return refusal
    lay(samples, numbers)
    return block


def record_of(block):
    """The record of a block that passes 1 to 7."""
    samples = block.centre + block.neighbours
    body = struct.pack(">3B5I%dI" % len(samples), VERSION, block.n, block.mask,
                       block.threshold, *block.base, block.size, *samples)
    return len(body).to_bytes(4, "big") + body


def write(block, buffer):
    """The writer: the bytes written or a refusal, 1 to 7, 14; fills a lent bytearray."""
    refusal = (refuse_block(block)
               or refuse_buffer(len(buffer),
                                HEADER + 4 * samples_length(block.n, block.mask)))
    if refusal:
        return refusal
    record = record_of(block)
    lay(buffer, record)
    return len(record)


# STL: document 02, [1].  Flat lists, six f32 patterns a vertex and three indices a triangle

def stl_length(count):
    return STL_START + STL_TRIANGLE * count


def stl_pattern(pattern):
    """As it is written: every NaN alike."""
    return NAN if math.isnan(value(pattern)) else pattern


def stl_positions(vertices, triangles):
    """For each whole triangle the nine patterns of its corners' positions, as they are written."""
    return [[stl_pattern(vertices[6 * triangles[3 * t + corner] + axis])
             for corner in range(3) for axis in range(3)]
            for t in range(len(triangles) // 3)]


def stl_of(vertices, triangles):
    """The file of lists that writing does not refuse."""
    positions = stl_positions(vertices, triangles)
    facets = [struct.pack("<12x9I2x", *nine) for nine in positions]
    return struct.pack("<80xI", len(positions)) + b"".join(facets)


def refuse_stray(triangles, count, held):
    """17: the first of so many triangles that does not name three of so many vertices."""
    for t in range(count):
        if max(triangles[3 * t:3 * t + 3]) >= held:
            return Refusal(17, t)
    return None


def refuse_stl_writing(vertices, triangles):
    """16, 17."""
    count, held = len(triangles) // 3, len(vertices) // 6
    if count > STL_MOST_TRIANGLES:
        return Refusal(16, 0)
    return refuse_stray(triangles, count, held)


def write_stl(vertices, triangles, buffer):
    """The bytes written or a refusal, 16, 17, 14; fills a lent bytearray."""
    refusal = (refuse_stl_writing(vertices, triangles)
               or refuse_buffer(len(buffer), stl_length(len(triangles) // 3)))
    if refusal:
        return refusal
    file = stl_of(vertices, triangles)
    lay(buffer, file)
    return len(file)


def refuse_stl_file(file):
    if len(file) < STL_START:
        return Refusal(16, STL_START)
    wanted = stl_length(int.from_bytes(file[80:84], "little"))
    return None if len(file) == wanted else Refusal(16, wanted)


def read_stl(file, positions):
    """The count of triangles or a refusal, 16, 14; fills the first places of the lent list."""
    refusal = refuse_stl_file(file)
    if refusal:
        return refusal
    facets = list(struct.iter_unpack("<12x9I2x", file[STL_START:]))
    refusal = refuse_buffer(len(positions), 9 * len(facets))
    if refusal:
        return refusal
    lay(positions, [pattern for nine in facets for pattern in nine])
    return len(facets)


def mesh_stl(mesh):
    return stl_of(flat(mesh.vertices), flat(mesh.triangles))


# The weld: document 02, [10].  Flat lists as for STL, and a number for each vertex

def refuse_weld(counts, vertices, triangles, edges):
    """14, 14, 23, 17."""
    return (refuse_buffer(len(vertices), 6 * counts.vertices)
            or refuse_buffer(len(triangles), 3 * counts.triangles)
            or refuse_edges(len(edges), counts.vertices)
            or refuse_stray(triangles, counts.triangles, counts.vertices))


def weld(counts, vertices, triangles, edges):
    """The new counts or a refusal; changes the three lent lists."""
    refusal = refuse_weld(counts, vertices, triangles, edges)
    if refusal:
        return refusal
    first, new, kept = {}, [], []
    for vertex, edge in enumerate(edges[:counts.vertices]):
        if edge == NO_EDGE or edge not in first:
            first[edge] = len(kept)
            kept.append(vertex)
        new.append(first[edge])
    lay(vertices, [number for vertex in kept for number in vertices[6 * vertex:6 * vertex + 6]])
    lay(edges, [edges[vertex] for vertex in kept])
    lay(triangles, [new[corner] for corner in triangles[:3 * counts.triangles]])
    return Counts(len(kept), counts.triangles)


def welded(mesh):
    """The mesh once its vertices are welded."""
    vertices, triangles, edges = flat(mesh.vertices), flat(mesh.triangles), list(mesh.edges)
    counts = weld(Counts(len(mesh.vertices), len(mesh.triangles)), vertices, triangles, edges)
    return mesh._replace(vertices=[tuple(vertices[6 * k:6 * k + 6]) for k in range(counts.vertices)],
                         triangles=[tuple(triangles[3 * k:3 * k + 3]) for k in range(counts.triangles)],
                         edges=edges[:counts.vertices])


# Repair: document 02, [5]

class Change(NamedTuple):
    """A sample that is changed: list 0 is the centre, 1 the neighbours; the bits before and after."""
    list: int
    place: int
    old: int
    new: int


def fillers(list_number, samples, filler):
    """The changes of a list whose bad samples become the filler, by place."""
    return [Change(list_number, place, pattern, filler) for place, pattern in enumerate(samples)
            if not within_limit(value(pattern))]


def shared_place(block, side, u, v):
    """Where the neighbour's point that coincides with u, v of a side's face stands among the neighbours."""
    return fine_place(block.n, block.mask, side, 2 * u, 2 * v) - block_length(block.n)


def mismatches(block):
    """The changes at the points that 8 is about, of a block whose samples 7 does not refuse."""
    changes = []
    for side, u, v in mismatched_points(block):
        here = block.centre[sample_place(block.n, face_point(block.n, side, u, v))]
        place = shared_place(block, side, u, v)
        changes.append(Change(1, place, block.neighbours[place], here))
    return changes


def apply_changes(block, changes):
    """Makes the changes in the block's own lists, in order."""
    for change in changes:
        (block.neighbours if change.list else block.centre)[change.place] = change.new


def undo_changes(block, changes):
    for change in reversed(changes):
        (block.neighbours if change.list else block.centre)[change.place] = change.old


def copied(block):
    """The same block with lists of its own."""
    return block._replace(centre=list(block.centre), neighbours=list(block.neighbours))


def changes_of(block, filler):
    """All changes of a block that 1 to 6 do not refuse, in order; the block stays as it is."""
    filled = copied(block)
    changes = fillers(0, block.centre, filler) + fillers(1, block.neighbours, filler)
    apply_changes(filled, changes)
    return changes + mismatches(filled)


def refuse_filler(filler):
    return None if within_limit(value(filler)) else Refusal(18)


def refuse_changes(wanted, length):
    return Refusal(19, wanted) if wanted > length // 4 else None


def repair(block, filler, lent):
    """The number of changes, made in the block's lists and listed in the lent one, or a refusal: 1 to 6, 18, 19."""
    refusal = refuse_lent(block) or refuse_filler(filler)
    if refusal:
        return refusal
    changes = changes_of(block, filler)
    refusal = refuse_changes(len(changes), len(lent))
    if refusal:
        return refusal
    apply_changes(block, changes)
    lay(lent, [word for change in changes for word in change])
    return len(changes)


# Cutting blocks from a raw volume: document 02, [8].  Little-endian f32, x fastest

@functools.lru_cache(maxsize=4)
def block_points(n):
    """The grid point of each of a block's places, in order."""
    span = range(-1, n + 2)
    placed = {sample_place(n, (x, y, z)): (x, y, z) for x in span for y in span for z in span}
    return [placed[place] for place in range(block_length(n))]


def volume_place(sizes, first, point):
    """The volume's place for a block's point: beyond the volume that of the nearest sample."""
    x, y, z = (min(max(start + step, 0), size - 1) for start, step, size in zip(first, point, sizes))
    return (z * sizes[1] + y) * sizes[0] + x


def refuse_volume(length, sizes, n, first):
    """1, 20, 21, 22."""
    refusal = refuse_subdivisions(n)
    if refusal:
        return refusal
    if not all(1 <= size <= VOLUME_ACROSS for size in sizes):
        return Refusal(20)
    if length != 4 * math.prod(sizes):
        return Refusal(21)
    if not all(start < size for start, size in zip(first, sizes)):
        return Refusal(22)
    return None


def cut(volume, sizes, n, first, samples):
    """How many samples were cut, or a refusal: 1, 20, 21, 22, 7, 14; fills the first places of the lent list."""
    refusal = refuse_volume(len(volume), sizes, n, first)
    if refusal:
        return refusal
    places = [volume_place(sizes, first, point) for point in block_points(n)]
    taken = [int.from_bytes(volume[4 * place:4 * place + 4], "little") for place in places]
    for place, pattern in zip(places, taken):
        if not within_limit(value(pattern)):
            return Refusal(7, place)
    refusal = refuse_buffer(len(samples), len(taken))
    if refusal:
        return refusal
    lay(samples, taken)
    return len(taken)


def first_points(sizes, n):
    """Where the blocks of a whole volume begin, side by side, x fastest: together they have every cell."""
    x, y, z = (range(0, max(size - 1, 1), n) for size in sizes)
    return [(a, b, c) for c in z for b in y for a in x]


# The sheet: document 02, [2]

class Figures(NamedTuple):
    inside: int
    x_edges: int
    y_edges: int
    z_edges: int
    vertices: int
    triangles: int


def figures_of(block):
    """The figures of a block that passes 1 to 8; its vertices and triangles are those of its mesh."""
    field, coordinates = Field(block), range(block.n + 1)
    is_inside = {point: inside(field.centre(point), field.threshold)
                 for point in itertools.product(coordinates, repeat=3)}

    def crossing(axis):
        ends = ((low, tuple(low[k] + (k == axis) for k in range(3))) for low in is_inside)
        return sum(is_inside[low] != is_inside[high] for low, high in ends if high in is_inside)

    mesh = mesh_of(block)
    return Figures(sum(is_inside.values()), *(crossing(axis) for axis in range(3)),
                   len(mesh.vertices), len(mesh.triangles))


def record_line(record):
    """The figures of a record or its refusal: the reader's, then 8."""
    block = parse(record)
    if isinstance(block, Refusal):
        return block
    return refuse_face_mismatch(block) or figures_of(block)


def sheet_line(run, at):
    """The line of the record that begins at a place and where the next one begins; None where the run ends; a refusal of the whole run."""
    if len(run) > SHEET_BYTES:
        return Refusal(11)
    if at >= len(run):
        return None
    end = at + 4 + int.from_bytes(run[at:at + 4], "big")
    if len(run) - at < 4 or end > len(run):
        return Refusal(11), len(run)
    return record_line(run[at:end]), end


def sheet(run):
    """The lines of a run, each figures or a refusal."""
    lines, at = [], 0
    while at < len(run):
        line, at = sheet_line(run, at)
        lines.append(line)
    return lines


def sheet_total(run):
    if len(run) > SHEET_BYTES:
        return Refusal(11)
    counted = [line for line in sheet(run) if isinstance(line, Figures)]
    return Figures(*(sum(column) for column in zip(*counted))) if counted else Figures(0, 0, 0, 0, 0, 0)


# Summaries by layer: document 02, [12].  Two f32 patterns a layer of cells along x, its least and its greatest in-block sample; a NaN in
# either is the mark that they are not worked out

def summary_length(n):
    return 2 * n


def layer_extent(n, samples, layer):
    """The least and the greatest of the samples of its two planes, of equals the first in storage order."""
    held = [samples[sample_place(n, (x, y, z))]
            for x in (layer, layer + 1) for y in range(n + 1) for z in range(n + 1)]
    return min(held, key=value), max(held, key=value)


def layers_holding(n, point):
    """The layers that a grid point is in: none for one of an extension face."""
    if place_kind(n, point) != IN_BLOCK:
        return []
    return [layer for layer in (point[0] - 1, point[0]) if 0 <= layer < n]


def make_layers(n, samples, layers, summary):
    for layer in layers:
        summary[2 * layer:2 * layer + 2] = layer_extent(n, samples, layer)


def make_summary(n, samples, summary):
    """None, or a refusal: 1, 4, 7, 14; fills the first places of the lent list."""
    refusal = (refuse_subdivisions(n)
               or refuse_centre_length(n, len(samples))
               or refuse_samples(samples)
               or refuse_buffer(len(summary), summary_length(n)))
    if refusal is None:
        make_layers(n, samples, range(n), summary)
    return refusal


def refuse_value(place, pattern):
    return None if within_limit(value(pattern)) else Refusal(7, place)


def set_sample(n, samples, point, pattern, summary):
    """None, or a refusal: 1, 4, 7, 15, 7 of the new value, 14; alters the lent lists in place."""
    refusal = refuse_subdivisions(n) or refuse_centre_length(n, len(samples)) or refuse_samples(samples)
    if refusal:
        return refusal
    place = sample_place(n, point)
    if place is None:
        return Refusal(15, len(axes_outside(n, point)))
    refusal = refuse_value(place, pattern) or refuse_buffer(len(summary), summary_length(n))
    if refusal:
        return refusal
    samples[place] = pattern
    make_layers(n, samples, layers_holding(n, point), summary)
    return None


def refuse_summary(n, samples, summary):
    """14, 26, of samples that 1, 4 and 7 let pass."""
    refusal = refuse_buffer(len(summary), summary_length(n))
    if refusal:
        return refusal
    for layer in range(n):
        told = values(summary[2 * layer:2 * layer + 2])
        if not any(map(math.isnan, told)) and told != values(layer_extent(n, samples, layer)):
            return Refusal(26, layer)
    return None


def layers_over(block, summary):
    """The layers that are passed over: not marked, and wholly inside or wholly outside."""
    threshold = value(block.threshold)
    told = [values(summary[2 * layer:2 * layer + 2]) for layer in range(block.n)]
    return [layer for layer, (least, greatest) in enumerate(told)
            if not math.isnan(least) and not math.isnan(greatest) and (least >= threshold or greatest < threshold)]


# The viewer's calls

def viewer_subdivisions(record):
    block = parse(record)
    return 100 + block.number if isinstance(block, Refusal) else block.n


def is_blank(block):
    """The in-block samples, and the fine ones in the w=0 plane of each named side, lie on one side of the threshold."""
    field, coarse, fine = Field(block), range(block.n + 1), range(2 * block.n + 1)
    samples = [field.centre((x, y, z)) for x in coarse for y in coarse for z in coarse]
    samples += [field.neighbour(side, neighbour_point(block.n, side, u2, v2))
                for side in sides_named(block.mask) for u2 in fine for v2 in fine]
    return len({inside(sample, field.threshold) for sample in samples}) == 1


def viewer_blank(record):
    block = parse(record)
    return 100 + block.number if isinstance(block, Refusal) else int(is_blank(block))


def record_point(record, x, y, z):
    """A sample's bit pattern, or a refusal: the record's, then 15."""
    block = parse(record)
    return block if isinstance(block, Refusal) else read_point(block.n, block.centre, x, y, z)


def viewer_sample(record, x, y, z):
    answer = record_point(record, x, y, z)
    return (1 << 32) + answer.number if isinstance(answer, Refusal) else answer


def sample_kind(record, x, y, z):
    """Document 02, [4]: a refusal's four numbers, the sample's bit pattern and its kind."""
    answer = record_point(record, x, y, z)
    if isinstance(answer, Refusal):
        return (*answer, 0, 0)
    return (0, 0, 0, 0, answer, place_kind(parse(record).n, (x, y, z)))


def sample_line(record, x, y, z):
    """The same as `sirveshan sample --plain` prints it, or the refusal's four numbers."""
    *refused, answer, kind = sample_kind(record, x, y, z)
    if any(refused):
        return "refused %d %d %d %d" % tuple(refused)
    return "%08x %s" % (answer, "in-block" if kind == IN_BLOCK else "face-%d" % kind)


# The listing program

def listing_text(answer, vertices, triangles):
    """The lines for an extraction's answer and its flat lists."""
    if isinstance(answer, Refusal):
        return "refused %d %d %d %d\n" % answer
    lines = ["mesh %d %d" % (answer.vertices, answer.triangles)]
    for k in range(answer.vertices):
        lines.append("v " + " ".join("%08x" % number for number in vertices[6 * k:6 * k + 6]))
    for k in range(answer.triangles):
        lines.append("t %d %d %d" % tuple(triangles[3 * k:3 * k + 3]))
    return "\n".join(lines) + "\n"


def listing(record):
    """What the listing program prints for its standard input."""
    if len(record) > LISTING_BYTES:
        return listing_text(Refusal(11), [], [])
    vertices = [0] * (6 * LISTING_VERTICES)
    triangles = [0] * (3 * LISTING_TRIANGLES)
    answer = read(record, [0] * LISTING_SAMPLES)
    if not isinstance(answer, Refusal):
        answer = extract(answer, vertices, triangles, [0] * LISTING_STORE)
    return listing_text(answer, vertices, triangles)


def accepted_mesh(record):
    """The mesh of a record whatever its size, or a refusal: the reader's, then 8."""
    block = parse(record)
    if isinstance(block, Refusal):
        return block
    return refuse_face_mismatch(block) or mesh_of(block)


def mesh_lines(mesh):
    if isinstance(mesh, Refusal):
        return listing_text(mesh, [], [])
    return listing_text(Counts(len(mesh.vertices), len(mesh.triangles), mesh.reads), flat(mesh.vertices), flat(mesh.triangles))


def store_lines(mesh):
    if isinstance(mesh, Refusal):
        return listing_text(mesh, [], [])
    return "".join("%d\n" % index for index in mesh.store)


def mesh_text(record):
    """The listing without the listing program's limits."""
    return mesh_lines(accepted_mesh(record))


def welded_text(record):
    """The listing of the welded mesh."""
    mesh = accepted_mesh(record)
    return mesh_lines(mesh if isinstance(mesh, Refusal) else welded(mesh))


def store_text(record):
    """The index store after extraction, a place a line."""
    return store_lines(accepted_mesh(record))


def both_texts(record):
    """Mesh and store in one text, as the oracle's `run` prints them."""
    mesh = accepted_mesh(record)
    return mesh_lines(mesh) + "store\n" + store_lines(mesh) + "end\n"


def viewer_text(record, point):
    lines = ["subdivisions %d" % viewer_subdivisions(record), "blank %d" % viewer_blank(record)]
    if point:
        lines.append("sample %d" % viewer_sample(record, *point))
        lines.append("kind %s" % sample_line(record, *point))
    return "\n".join(lines) + "\n"


def sheet_text(run):
    """A head line, a line a record and the total."""
    if len(run) > SHEET_BYTES:
        return listing_text(Refusal(11), [], [])
    rows = [["record", "refusal", "first", "second", "third", *Figures._fields]]
    for number, line in enumerate(sheet(run)):
        refused = isinstance(line, Refusal)
        rows.append([number, *(line if refused else (0, 0, 0, 0)), *([""] * 6 if refused else line)])
    rows.append(["total", "", "", "", "", *sheet_total(run)])
    return "".join(",".join(map(str, row)) + "\n" for row in rows)


def put_stl(record):
    mesh = accepted_mesh(record)
    if isinstance(mesh, Refusal):
        sys.exit(listing_text(mesh, [], []).strip())
    sys.stdout.buffer.write(mesh_stl(mesh))


def change_lines(changes):
    """As `sirveshan repair --plain` prints them."""
    return "".join("%d %d %08x %08x\n" % change for change in changes)


def put_repaired(record, filler):
    block = parse_delivery(record)
    refusal = block if isinstance(block, Refusal) else refuse_filler(filler)
    if refusal:
        sys.exit(listing_text(refusal, [], []).strip())
    changes = changes_of(block, filler)
    apply_changes(block, changes)
    sys.stderr.write(change_lines(changes))
    sys.stdout.buffer.write(record_of(block))


def main(arguments):
    texts = {"listing": listing, "mesh": mesh_text, "welded": welded_text, "store": store_text, "sheet": sheet_text}
    command, *point = arguments or [""]
    if arguments == ["stl"]:
        put_stl(sys.stdin.buffer.read())
        return
    if command == "repair" and len(point) == 1:
        put_repaired(sys.stdin.buffer.read(), bits(f32(float(point[0]))))
        return
    if command in texts and not point:
        text = texts[command](sys.stdin.buffer.read())
    elif command == "viewer" and len(point) in (0, 3):
        text = viewer_text(sys.stdin.buffer.read(), [int(word) for word in point])
    else:
        sys.exit(__doc__)
    sys.stdout.write(text)


if __name__ == "__main__":
    main(sys.argv[1:])
