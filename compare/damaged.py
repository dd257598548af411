#!/usr/bin/env python3
"""Damaged calls to our mesher alone: the Rust judges nothing.

    python3 compare/damaged.py COUNT [FIRST]

Each seed makes a call that is good but for a fault or two (a length, a number, a mask, a sample, a
face that disagrees, a buffer one place short, or none), and compares the answer, its three numbers
and all three lent buffers with tools/reference.py, which follows document 01's table of refusals. Of a
mesh the third number is its sample reads, which the reference counts one by one.
"""

import random
import sys
from collections import Counter

from calling import MARK, Ours, in_turn, seeds, tally
import records
import reference

NAN, INFINITY, LIMIT = 0x7FC00000, 0x7F800000, 0x49800000
BAD = [NAN, 0xFFC00001, INFINITY, INFINITY | 1 << 31, LIMIT + 1, LIMIT + 1 | 1 << 31]
SMALL = [1, 1, 1, 2, 2, 3]


class Call:
    """What one call lends: a block and the lengths of the three buffers."""

    def __init__(self, chance, sizes=SMALL):
        self.n = chance.choice(sizes)
        self.mask = chance.choice([0, 1 << chance.randrange(6), chance.randrange(64)])
        self.threshold = chance.choice([0, 0x3F000000, 0x80000000])
        self.base = [chance.choice([0, 0x3F800000, LIMIT]) for _ in range(3)]
        self.size = chance.choice([0x3F800000, 0x3A800000, LIMIT])
        level = reference.value(self.threshold)
        inside = [reference.bits(level + k) for k in (0, 1)]
        outside = [reference.bits(level - k) for k in (1, 2)]
        shape = chance.choice(["blank", "corner", "mixed"])
        pick = {"blank": outside, "corner": outside, "mixed": inside + outside}[shape]
        self.centre = [chance.choice(pick) for _ in range(reference.block_length(self.n))]
        if shape == "corner":
            self.centre[0] = inside[1]
        self.neighbours = [chance.choice(pick) for _ in range(reference.neighbours_length(self.n, self.mask))]
        samples = self.centre + self.neighbours
        records.agree(self.n, self.mask, samples)
        self.neighbours = samples[len(self.centre):]
        mesh = reference.mesh_of(self.block())
        self.store = reference.store_length(self.n)
        self.vertices = 6 * len(mesh.vertices)
        self.triangles = 3 * len(mesh.triangles)

    def block(self):
        return reference.Block(self.n, self.mask, self.threshold, tuple(self.base), self.size, self.centre, self.neighbours)

    def damage(self, chance):
        """One fault, of a kind that some refusal is about."""
        fault = chance.randrange(12)
        if fault == 0:
            self.n = chance.choice([0, 17, 64, 65, 255, 4294967295])
        elif fault == 1:
            self.mask = chance.choice([64, 128, 255, self.mask ^ 1 << chance.randrange(6)])
        elif fault == 2:
            self.base[chance.randrange(3)] = chance.choice(BAD)
        elif fault == 3:
            self.size = chance.choice(BAD + [0, 0x3A7FFFFF, 0xBF800000])
        elif fault == 4:
            self.threshold = chance.choice(BAD)
        elif fault == 5:
            self.centre = self.centre[1:] if chance.random() < 0.5 else self.centre + [0]
        elif fault == 6:
            keep = chance.choice([0, len(self.neighbours) // 2, max(0, len(self.neighbours) - 1)])
            self.neighbours = self.neighbours[:keep] if chance.random() < 0.6 else self.neighbours + [0]
        elif fault == 7 and self.centre:
            self.centre[chance.choice([0, len(self.centre) - 1, chance.randrange(len(self.centre))])] = chance.choice(BAD)
        elif fault == 8 and self.neighbours:
            self.neighbours[chance.choice([0, len(self.neighbours) - 1])] = chance.choice(BAD)
        elif fault == 9 and self.neighbours:
            place = chance.randrange(len(self.neighbours))
            level = reference.value(self.threshold)
            self.neighbours[place] = reference.bits(level - 1 if reference.value(self.neighbours[place]) >= level else level)
        elif fault == 10:
            self.store = max(0, self.store - chance.choice([1, self.store]))
        elif fault == 11:
            self.vertices = max(0, self.vertices - chance.choice([0, 1, 6]))
            self.triangles = max(0, self.triangles - chance.choice([0, 1, 3]))

    def answer(self, ours):
        """The answer's four numbers and the three buffers after the call."""
        head = [self.n, self.mask, self.threshold, *self.base, self.size]
        numbers, places = ours.call(head, [self.store, self.vertices, self.triangles], self.centre, self.neighbours)
        return list(numbers + places)

    def wanted(self):
        """The same by the reference."""
        store, vertices, triangles = ([MARK] * length for length in (self.store, self.vertices, self.triangles))
        answer = reference.extract(self.block(), vertices, triangles, store)
        if isinstance(answer, reference.Refusal):
            numbers = list(answer)
        else:
            numbers = [0, *answer]
        return numbers + store + vertices + triangles


def main(words):
    all_seeds = seeds(words, __doc__)
    ours, met = Ours(), Counter()
    for seed in in_turn(all_seeds):
        chance = random.Random(seed)
        call = Call(chance)
        for _ in range(chance.choice([0, 1, 1, 1, 2])):
            call.damage(chance)
        answer, wanted = call.answer(ours), call.wanted()
        met[wanted[0]] += 1
        if answer != wanted:
            sys.exit("seed %d: ours %s, document 01 %s" % (seed, answer[:4], wanted[:4]))
    print("%d calls, no difference; answers met: %s" % (len(all_seeds), tally(met)))


if __name__ == "__main__":
    main(sys.argv[1:])
