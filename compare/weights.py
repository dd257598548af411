#!/usr/bin/env python3
"""Weights and positions against exact fractions: how far they are off, and that what crates/weights proves holds.

    python3 compare/weights.py COUNT [FIRST]

Of the block of each seed every vertex that tools/reference.py makes, with its two points; and beside it a hundred edges with samples and
coordinates of every size, and a hundred of a block of the largest size with n = 16.  It stops at the first that is not as proved, and at
the end says the worst that was met.
"""

import random
import subprocess
import sys
from fractions import Fraction

from calling import in_turn, seeds
import reference
from against_reference import PROGRAMS, build, next_record

WEIGHT_PARTS = 4194304
PARTS = 2 ** 24
UNIT = Fraction(1, 2 ** 149)
EDGES = 100
LARGEST_SIZE = 1048576.0


class Watched(reference.Mesher):
    """A mesher that keeps the two points of each vertex."""

    made = []

    def new_vertex(self, a, b, edge):
        index = super().new_vertex(a, b, edge)
        Watched.made.append((a, b, reference.values(self.vertices[index][:3])))
        return index


class Worst:
    """The largest of a kind met so far, and where."""

    def __init__(self):
        self.all = {}

    def meet(self, kind, amount, where):
        if amount > self.all.get(kind, (-1, None))[0]:
            self.all[kind] = (amount, where)


def weighed(a, b, threshold):
    """The weight and the exact quotient, in fractions."""
    weight = Fraction(reference.weight(a, b, threshold))
    return weight, (Fraction(threshold) - Fraction(a)) / (Fraction(b) - Fraction(a))


def hold_weight(a, b, threshold, worst):
    weight, quotient = weighed(a, b, threshold)
    assert 0 <= weight <= 1, "a weight beyond 0 and 1"
    assert a != threshold or weight == 0, "not 0 at the threshold"
    assert b != threshold or weight == 1, "not 1 at the threshold"
    off = abs(weight - quotient) * WEIGHT_PARTS
    assert off <= 1, "a weight too far from its quotient"
    worst.meet("weight's error, of its bound", off, (a, b, threshold))
    return quotient


def hold_coordinate(a, b, r, quotient, worst):
    """One coordinate of the ends and of the vertex; answers how far it is off."""
    low, high, at = Fraction(a), Fraction(b), Fraction(r)
    if high < low:
        low, high, at = -low, -high, -at
    apart = high - low
    assert at >= low, "a coordinate before its first end"
    past = (at - high) * (PARTS - 1)
    assert past <= abs(high) + apart, "a coordinate too far past its second end"
    close = low * high > 0 and abs(low) <= 2 * abs(high) and abs(high) <= 2 * abs(low)
    assert past <= 0 or not close, "a coordinate past its end though the ends are close"
    if past > 0:
        worst.meet("how far an end is passed, of its bound", past / (abs(high) + apart), (a, b, r))
    off = abs(at - (low + quotient * apart))
    bound = (7 * apart + max(abs(low), abs(high))) / PARTS + UNIT
    assert off <= bound, "a coordinate too far from the exact point"
    worst.meet("coordinate's error, of its bound", off / bound, (a, b, r))
    return off


def hold_edge(a, b, threshold, pairs, worst):
    """An edge by its samples, and pairs of its ends' coordinates."""
    quotient = hold_weight(a, b, threshold, worst)
    weight = reference.weight(a, b, threshold)
    return max(hold_coordinate(p, q, reference.between(p, q, weight), quotient, worst) for p, q in pairs)


def any_size(chance, most):
    """An f32 of any size up to 2 ^ most."""
    return reference.f32(chance.choice([1, -1]) * chance.uniform(1, 2) * 2.0 ** chance.randrange(-149, most))


def edge_samples(chance):
    """Two samples and a threshold that one of them is inside of and the other outside."""
    while True:
        a, threshold = any_size(chance, 20), any_size(chance, 20)
        b = chance.choice([any_size(chance, 20), reference.f32(threshold + (threshold - a) * chance.uniform(0, 2) ** 8)])
        if abs(b) <= reference.LIMIT and reference.inside(a, threshold) != reference.inside(b, threshold):
            return a, b, threshold


def edges(chance, worst):
    for _ in range(EDGES):
        a, b, threshold = edge_samples(chance)
        hold_edge(a, b, threshold, [(any_size(chance, 21), any_size(chance, 21)) for _ in range(3)], worst)


def largest_edges(chance, worst):
    """Edges of blocks of the largest size, n = 16, wherever they lie; and of such that lie at 0."""
    for base, where in ((reference.f32(chance.uniform(-LARGEST_SIZE, LARGEST_SIZE)), "anywhere"), (0.0, "at 0")):
        for _ in range(EDGES // 2):
            index = chance.randrange(16)
            ends = [reference.add(base, reference.multiply(LARGEST_SIZE, reference.divide(k, 16))) for k in (index, index + 1)]
            off = hold_edge(*edge_samples(chance), [chance.choice([ends, ends[::-1]])], worst)
            worst.meet("distance from the exact point at size 1,048,576, n = 16, " + where, off, tuple(ends))


def main(words):
    all_seeds = seeds(words, __doc__)
    build()
    maker = subprocess.Popen([PROGRAMS / "blocks", str(len(all_seeds)), str(all_seeds.start)], stdout=subprocess.PIPE)
    worst, vertices = Worst(), 0
    for seed in in_turn(all_seeds):
        block, chance = reference.parse(next_record(maker.stdout)), random.Random(seed)
        Watched.made = []
        reference.mesh_of(block, Watched)
        try:
            for a, b, position in Watched.made:
                quotient = hold_weight(a.sample, b.sample, reference.value(block.threshold), worst)
                for p, q, r in zip(a.position, b.position, position):
                    hold_coordinate(p, q, r, quotient, worst)
            edges(chance, worst)
            largest_edges(chance, worst)
        except AssertionError as fault:
            sys.exit("seed %d: %s" % (seed, fault))
        vertices += len(Watched.made)
    print("%d blocks from seed %d, %d vertices, %d edges: all as proved"
          % (len(all_seeds), all_seeds.start, vertices, 2 * EDGES * len(all_seeds)))
    for kind, (amount, where) in sorted(worst.all.items()):
        print("worst %s: %.4f at %s" % (kind, amount, " ".join(number.hex() for number in where)))


if __name__ == "__main__":
    main(sys.argv[1:])
