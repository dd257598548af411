#!/usr/bin/env python3
"""Pairs of blocks, a coarse one and its finer neighbour, meshed apart by ours and laid together at their common face.

    python3 compare/finer.py COUNT [FIRST]

Each seed makes a pair at one of the six sides, in turn.  A vertex is told by the edge that it lies on, which a second walk over the cells
works out; a fine edge of the face is an edge of the neighbour's own grid.  Of every side of a triangle between two fine edges of the face,
but for those along the rim, it is counted how often it runs each way in the two meshes: once, or the run stops.  Two vertices on one edge
are compared: their positions across the face, and in the coarse block, regular and transition, positions and gradients; two positions that
are farther apart than is proved stop the run.  A unit in the last place is that of the block's largest coordinate, and for gradients that of
the largest component at the edge's two ends.
"""

import math
import random
import sys
from collections import Counter, defaultdict
from typing import NamedTuple

from calling import Ours, in_turn, seeds
import reference
from reference import ROTATIONS

# Classes of transition cells whose rows are least certain (docs/DIFFERENCES.md).
WEAKEST = (0x25, 0x28, 0x2A, 0x2B, 0x2D, 0x32)

# The smallest f32 above zero.
SMALLEST = 2.0 ** -149

SIDES = ("LowX", "HighX", "LowY", "HighY", "LowZ", "HighZ")

# Where u or v of a side runs down an axis: only there may a transition vertex differ from the regular one on its edge.
RUNS_DOWN = {(side, axis) for side, r in enumerate(ROTATIONS) for axis in range(3) if -1 in (r.u[axis], r.v[axis])}


class Label(NamedTuple):
    """The edge that a vertex lies on: its lower end, in the steps of its own grid, and its axis."""
    fine: bool
    low: tuple
    axis: int


class Told(NamedTuple):
    """A mesh by ours, with what the walk tells of it."""
    labels: list       # of each vertex
    sides: list        # of each vertex, the side whose cells made it, None for a regular one
    cells: list        # of each triangle, the class of its transition cell, None in a regular one
    cases: set         # the case numbers of the transition cells
    vertices: list     # six patterns each
    triangles: list


# Samples

def field(chance, n, threshold):
    """A value for each point of the fine grid: noise, plateaus about the threshold, or a slope with noise on it."""
    kind = chance.choice(["noise", "noise", "levels", "slope"])
    scale = chance.choice([1.0, 0.001, 1000.0])
    slope = [chance.uniform(-1, 1) for _ in range(3)]
    middle = [chance.uniform(0, 2 * n) for _ in range(3)]
    levels = [threshold, threshold, threshold + scale, threshold - scale, threshold - scale / 3]

    def at(point):
        if kind == "levels":
            return chance.choice(levels)
        height = chance.uniform(-1, 1)
        if kind == "slope":
            height = 0.3 * height + sum(s * (p - m) for s, p, m in zip(slope, point, middle)) / n
        return threshold + scale * height

    return at


def fine_samples(at, n, side):
    """The neighbour's samples, by place; its points as the centre's fine grid has them."""
    shift = [2 * n * w for w in ROTATIONS[side].w]
    samples = [0] * reference.block_length(2 * n)
    span = range(-1, 2 * n + 2)
    for point in ((x, y, z) for x in span for y in span for z in span):
        place = reference.sample_place(2 * n, point)
        if place is not None:
            samples[place] = reference.bits(at([p - s for p, s in zip(point, shift)]))
    return samples


def agreeing(chance, n, side, threshold, centre, fine):
    """The fine face takes the centre's side of the threshold at the points they share; now and then another value there."""
    for u in range(n + 1):
        for v in range(n + 1):
            here = reference.sample_place(n, reference.face_point(n, side, u, v))
            there = reference.sample_place(2 * n, reference.neighbour_point(n, side, 2 * u, 2 * v))
            level = [reference.inside(reference.value(samples), threshold) for samples in (centre[here], fine[there])]
            if level[0] != level[1] or chance.random() < 0.8:
                fine[there] = centre[here]


def measures(chance):
    """Size and base: whole numbers, any, or about the origin, where a weight's last bit counts for most."""
    kind = chance.choice(["whole", "any", "origin"])
    if kind == "whole":
        return chance.choice([1.0, 8.0, 64.0]), [8.0 * chance.randrange(-16, 17) for _ in range(3)]
    size = reference.f32(chance.uniform(0.5, 100.0))
    return size, [reference.f32(-size * chance.random() if kind == "origin" else chance.uniform(-1000.0, 1000.0)) for _ in range(3)]


def a_pair(chance, side):
    """The coarse block, and its neighbour at the side as a block of its own."""
    n = chance.choice([1, 2, 2, 3, 3, 4, 5, 8])
    threshold = reference.f32(chance.choice([0.0, 0.5, -3.25]))
    size, base = measures(chance)
    at = field(chance, n, threshold)
    centre = [reference.bits(at((x, y, z))) for x, y, z in points(n)]
    fine = fine_samples(at, n, side)
    agreeing(chance, n, side, threshold, centre, fine)
    beside = [reference.subtract(b, reference.multiply(size, w)) for b, w in zip(base, ROTATIONS[side].w)]
    level, length = reference.bits(threshold), reference.bits(size)
    return (reference.Block(n, 1 << side, level, tuple(map(reference.bits, base)), length, centre, fine),
            reference.Block(2 * n, 0, level, tuple(map(reference.bits, beside)), length, fine, []))


def points(n):
    """A block's points by place, in fine steps."""
    span = range(-1, n + 2)
    placed = {reference.sample_place(n, (x, y, z)): (2 * x, 2 * y, 2 * z) for x in span for y in span for z in span}
    return [placed[place] for place in range(reference.block_length(n))]


# The walk: which codes make a vertex, and on which edge

def edge(fine, a, b):
    low, high = min(a, b), max(a, b)
    return Label(fine, low, [p != q for p, q in zip(low, high)].index(True))


def regular_label(cell, code):
    return edge(False, *(reference.corner_point(cell, corner) for corner in reference.edge_of(code)))


def transition_label(n, side, u, v, code):
    """A fine edge in the steps of the fine grid from the centre's base; a coarse one as the centre's grid edge."""
    a, b = reference.edge_of(code)
    if a < 9:
        return edge(True, *(reference.fine_steps(n, side, 2 * u + p % 3, 2 * v + p // 3) for p in (a, b)))
    return edge(False, *(reference.face_point(n, side, u + (p - 9) % 2, v + (p - 9) // 2) for p in (a, b)))


def regular_makes(cell, code):
    return bool(code >> 15 & 1) or min(cell[k] - (code >> (12 + k) & 1) for k in range(3)) < 0


def transition_makes(u, v, code):
    back = (code >> 12 & 1, code >> 13 & 1)
    return bool(code >> 15 & 1) or back == (0, 0) or u < back[0] or v < back[1]


def walk(block):
    """The label and the side of each vertex, the class of each triangle's cell, and the transition cases."""
    held, n = reference.Field(block), block.n
    labels, sides, cells, cases = [], [], [], set()
    for cell in ((x, y, z) for x in range(n) for y in range(n) for z in range(n)):
        case = reference.regular_case(held, cell)
        made = [regular_label(cell, code) for code in reference.REGULAR_CODES[case] if regular_makes(cell, code)]
        labels += made
        sides += [None] * len(made)
        cells += [None] * len(reference.REGULAR_TRIANGLES[reference.REGULAR_CLASS[case]])
    for side in reference.sides_named(block.mask):
        for u, v in ((u, v) for u in range(n) for v in range(n)):
            case = reference.transition_case(held, side, u, v)
            cases.add(case)
            made = [transition_label(n, side, u, v, code) for code in reference.TRANSITION_CODES[case] if transition_makes(u, v, code)]
            labels += made
            sides += [side] * len(made)
            kind = reference.TRANSITION_CLASS[case] & 0x7F
            cells += [kind] * len(reference.TRANSITION_TRIANGLES[kind])
    return labels, sides, cells, cases


def meshed(ours, block):
    labels, sides, cells, cases = walk(block)
    lengths = [reference.store_length(block.n), 6 * len(labels), 3 * len(cells)]
    head = [block.n, block.mask, block.threshold, *block.base, block.size]
    answer, places = ours.call(head, lengths, block.centre, block.neighbours)
    if answer[:3] != (0, len(labels), len(cells)):
        raise SystemExit("ours answers %s where the walk has %d vertices and %d triangles" % (answer, len(labels), len(cells)))
    vertices, triangles = places[lengths[0]:lengths[0] + lengths[1]], places[lengths[0] + lengths[1]:]
    return Told(labels, sides, cells, cases, [vertices[k:k + 6] for k in range(0, len(vertices), 6)],
                [triangles[k:k + 3] for k in range(0, len(triangles), 3)])


# Laid together

def on_fine_grid(n, side, label):
    """An edge of the neighbour's grid in the fine steps from the centre's base."""
    return Label(True, tuple(p - 2 * n * w for p, w in zip(label.low, ROTATIONS[side].w)), label.axis)


def rims(n, side, label):
    """The rim lines of the face that a fine edge of it lies on: an axis and an end."""
    return {(axis, label.low[axis]) for axis in range(3)
            if axis not in (side // 2, label.axis) and label.low[axis] in (0, 2 * n)}


def in_face(n, side, label):
    return label.fine and label.axis != side // 2 and label.low[side // 2] == (2 * n if side % 2 else 0)


def directed(n, side, told, label_of):
    """Each triangle side between two fine edges of the face that lie on no common rim line, with its triangle's cell."""
    for corners, cell in zip(told.triangles, told.cells):
        ends = [label_of(told.labels[corner]) for corner in corners]
        for a, b in zip(ends, ends[1:] + ends[:1]):
            if in_face(n, side, a) and in_face(n, side, b) and not rims(n, side, a) & rims(n, side, b):
                yield a, b, cell


def last_place(numbers):
    """The distance of two neighbouring f32 at the largest of some numbers."""
    return math.ldexp(1.0, math.frexp(max(map(abs, numbers)))[1] - 24)


class Met:
    """Pairs of vertices on one edge: how many, how many differ in their bits, and the most they differ in units of the last place."""

    def __init__(self):
        self.count, self.differ, self.most = 0, 0, 0.0

    def add(self, a, b, unit):
        self.count += 1
        if a != b:
            self.differ += 1
            self.most = max(self.most, max(abs(p - q) for p, q in zip(reference.values(a), reference.values(b))) / unit)


class Tally:
    def __init__(self):
        self.shared, self.weak, self.cases = Counter(), Counter(), set()
        self.across, self.positions, self.gradients = defaultdict(Met), defaultdict(Met), defaultdict(Met)
        self.share = 0.0

    def sides(self, seed, n, side, coarse, fine):
        """Every side of the face is shared by two triangles of opposite direction."""
        self.cases |= coarse.cases
        runs = {}
        for told, label_of in ((coarse, lambda label: label), (fine, lambda label: on_fine_grid(n, side, label))):
            for a, b, cell in directed(n, side, told, label_of):
                key, way = (a, b) if a < b else (b, a), int(a < b)
                runs.setdefault(key, ([], []))[way].append((told is coarse, cell))
        for key, (back, forth) in runs.items():
            if len(back) != 1 or len(forth) != 1:
                raise SystemExit("seed %d, %s: between the edges %s and %s %d sides run one way and %d back"
                                 % (seed, SIDES[side], key[0], key[1], len(forth), len(back)))
            (one, cell), (other, _) = sorted(back + forth, key=lambda met: not met[0])
            joined = one != other
            self.shared["by both meshes" if joined else "within the coarse mesh" if one else "within the fine mesh"] += 1
            if joined and cell in WEAKEST:
                self.weak[cell] += 1

    def vertices(self, seed, side, block, coarse, fine):
        """Transition vertices: those on the fine face against the neighbour's, those on the coarse face against the regular ones."""
        held, n = reference.Field(block), block.n
        unit = last_place([c for b in held.base for c in (b, b + held.size)])
        across = {on_fine_grid(n, side, label): vertex for label, vertex in zip(fine.labels, fine.vertices)}
        regular = {label: vertex for label, vertex, of in zip(coarse.labels, coarse.vertices, coarse.sides) if of is None}
        for label, vertex, of in zip(coarse.labels, coarse.vertices, coarse.sides):
            if of is not None and label.fine:
                self.across[side, label.axis].add(vertex[:3], across[label][:3], unit)
            elif of is not None:
                if vertex != regular[label] and (side, label.axis) not in RUNS_DOWN:
                    raise SystemExit("seed %d, %s: two vertices on the edge %s are not the same" % (seed, SIDES[side], label))
                high = tuple(p + (k == label.axis) for k, p in enumerate(label.low))
                gradients = held.regular_gradient(label.low) + held.regular_gradient(high)
                self.positions[side, label.axis].add(vertex[:3], regular[label][:3], unit)
                self.gradients[side, label.axis].add(vertex[3:], regular[label][3:], last_place(gradients))
                self.near(seed, side, vertex, regular[label], held.regular_position(label.low), held.regular_position(high))

    def near(self, seed, side, vertex, other, low, high):
        """Two positions on one edge are no farther apart than is proved (docs/NO-HOLES.md)."""
        for p, q, a, b in zip(reference.values(vertex), reference.values(other), low, high):
            most = (7 * abs(b - a) + max(abs(a), abs(b))) / 8388608 + 2 * SMALLEST
            if abs(p - q) > most:
                raise SystemExit("seed %d, %s: %r and %r on the edge from %r to %r are farther apart than %r"
                                 % (seed, SIDES[side], p, q, a, b, most))
            self.share = max(self.share, abs(p - q) / most)


def told_met(name, met):
    return ["  %s, %s along %s: %d pairs, %d not the same bits, by %.3g units in the last place at most"
            % (name, SIDES[side], "xyz"[axis], here.count, here.differ, here.most) for (side, axis), here in sorted(met.items())]


def main(words):
    all_seeds = seeds(words, __doc__)
    ours, tally = Ours(), Tally()
    for seed in in_turn(all_seeds):
        side = seed % 6
        pair = a_pair(random.Random(seed), side)
        coarse, fine = (meshed(ours, block) for block in pair)
        tally.sides(seed, pair[0].n, side, coarse, fine)
        tally.vertices(seed, side, pair[0], coarse, fine)
    lines = ["%d pairs; every side of the common face off its rim is shared by two triangles of opposite direction: %s"
             % (len(all_seeds), ", ".join("%d %s" % (k, where) for where, k in sorted(tally.shared.items())))]
    lines.append("  %d of the 512 transition cases met" % len(tally.cases))
    lines.append("  at transition cells of the least certain classes, by both meshes: " + ", ".join("0x%02X %d" % met for met in sorted(tally.weak.items())))
    lines += told_met("fine edges, positions against the neighbour's", tally.across)
    lines += told_met("coarse edges, positions against the regular ones", tally.positions)
    lines.append("  coarse edges, positions: at most %.2f of the distance that is proved" % tally.share)
    lines += told_met("coarse edges, gradients against the regular ones", tally.gradients)
    print("\n".join(lines))


if __name__ == "__main__":
    main(sys.argv[1:])
