#!/usr/bin/env python3
"""Our extraction with a summary by layer against tools/reference.py, and against our own without the summary.

    python3 compare/layered.py COUNT [FIRST]

Each seed makes a call as compare/whole.py does, of a block whose planes are inside, outside, at the threshold or mixed, and a summary of
it: as it is made, with some layers marked by a NaN, zeros with the other sign, now and then one that is wrong or too short; and now and
then a fault in the call. Answer, its numbers, reads among them, and all places of the four buffers are compared; where the summary is not
refused they must be those of the call without it, but for the reads, which are fewer by eight for each cell passed over.
"""

import random
import sys
from collections import Counter

from calling import MARK, in_turn, seeds, tally
import records
import reference
from layers import ZEROS
from whole import Ours, WholeCall


class LayeredCall(WholeCall):
    """A call that lends a summary too. Its block has layers on one side of the threshold."""

    def __init__(self, chance):
        super().__init__(chance)
        self.n = chance.choice([1, 2, 3, 4, 5])
        self.sample(chance)
        mesh = reference.mesh_of(self.block())
        self.store, self.vertices, self.triangles = reference.store_length(self.n), 6 * len(mesh.vertices), 3 * len(mesh.triangles)
        self.edges = len(mesh.vertices) + chance.choice([0, 0, 1])
        self.summary = [MARK] * (2 * self.n + chance.choice([0, 0, 1, 2]))
        reference.make_summary(self.n, self.centre, self.summary)
        self.disturb(chance)

    def sample(self, chance):
        level = reference.value(self.threshold)
        mixed = [0, 1, -1, -2]
        kinds = [[0, 1], [1, 2], [-1, -2], [-1, -0.5], [0, -1], mixed]
        self.centre = [reference.bits(level + chance.choice(mixed)) for _ in range(reference.block_length(self.n))]
        for x in range(self.n + 1):
            steps = chance.choice(kinds)
            for y in range(self.n + 1):
                for z in range(self.n + 1):
                    self.centre[reference.sample_place(self.n, (x, y, z))] = reference.bits(level + chance.choice(steps))
        count = reference.neighbours_length(self.n, self.mask)
        samples = self.centre + [reference.bits(level + chance.choice(mixed)) for _ in range(count)]
        records.agree(self.n, self.mask, samples)
        self.neighbours = samples[len(self.centre):]

    def disturb(self, chance):
        """Some layers marked, zeros of others with the other sign, now and then one that is wrong, or the list too short."""
        marked, self.turned = chance.choice([0, 0, 0.3, 1]), 0
        for layer in range(self.n):
            if chance.random() < marked:
                self.summary[2 * layer + chance.randrange(2)] = chance.choice([MARK, 0x7FC00000, 0xFFC00001])
            elif chance.random() < 0.5:
                self.turn(layer)
        if chance.random() < 0.1:
            self.summary[chance.randrange(2 * self.n)] = reference.bits(chance.choice([-1.0, 0.0, 1.0, 2.5]))
        if chance.random() < 0.05:
            del self.summary[chance.randrange(2 * self.n):]

    def turn(self, layer):
        for k in (2 * layer, 2 * layer + 1):
            if self.summary[k] in ZEROS:
                self.summary[k] ^= ZEROS[1]
                self.turned += 1


class Comparison:
    def __init__(self):
        self.ours, self.met, self.over, self.turned = Ours(), Counter(), 0, 0

    def call(self, seed):
        chance = random.Random(seed)
        call = LayeredCall(chance)
        for _ in range(chance.choice([0, 0, 0, 0, 1, 2])):
            call.damage(chance)
        (numbers, buffers), right = self.ours.answer(call, call.summary), call.wanted(call.summary)
        self.met[right[0][0]] += 1
        if (numbers, buffers) != right:
            sys.exit("seed %d: ours %s, the reference %s" % (seed, numbers, right[0]))
        if numbers[0] not in (14, 26):
            self.without(seed, call, numbers, buffers)

    def without(self, seed, call, numbers, buffers):
        plain, left = self.ours.answer(call)
        over = len(reference.layers_over(call.block(), call.summary)) if numbers[0] == 0 else 0
        numbers[6] += 8 * call.n * call.n * over
        if (plain, left) != (numbers, buffers):
            sys.exit("seed %d: with the summary %s, without it %s" % (seed, numbers, plain))
        self.over += over
        self.turned += numbers[0] == 0 and call.turned > 0


def main(words):
    all_seeds = seeds(words, __doc__)
    comparison = Comparison()
    for seed in in_turn(all_seeds):
        comparison.call(seed)
    print("%d calls, no difference; %d layers were passed over; %d meshes with a zero of the other sign; answers met: %s"
          % (len(all_seeds), comparison.over, comparison.turned, tally(comparison.met)))


if __name__ == "__main__":
    main(sys.argv[1:])
