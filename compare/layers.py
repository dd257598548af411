#!/usr/bin/env python3
"""Our calls for summaries by layer against tools/reference.py: summaries made, and samples set one after another.

    python3 compare/layers.py COUNT [FIRST]

Each seed makes a block's samples of few different numbers, zeros of both signs among them, a summary of them, with some layers
marked by a NaN and now and then one that is wrong, and then sets several samples; now and then with a fault (n, a length, a bad
sample or value, a point outside, a short list). Answer, its three numbers and all of both lists are compared, bit by bit. A
summary that passes 26 before a setting passes it afterwards.
"""

import random
import struct
import sys
from collections import Counter

from calling import MARK, Program, in_turn, seeds, tally
import reference

ZEROS = [0x00000000, 0x80000000]
BAD = [0x7FC00000, 0xFFA00001, 0x7F800000, 0xFF800000, 0x49800001, 0xC9800001, 0x7F7FFFFF]
FAR = [0x49800000, 0xC9800000, 0x00000001, 0x80000001, 0x00800000]


class Ours(Program):
    """The answers of both calls: a refusal's four numbers, and both lists as they are left."""

    def __init__(self):
        super().__init__("layer_answers")

    def call(self, setting, n, samples, point, pattern, summary):
        head = [setting, n & 0xFFFFFFFF, n >> 32, len(samples), len(summary), *(c & 0xFFFFFFFF for c in point), pattern]
        words = [*head, *samples, *summary]
        answer = self.ask(struct.pack("<%dI" % len(words), *words), 32 + 4 * (len(samples) + len(summary)))
        lists = struct.unpack("<%dI" % (len(samples) + len(summary)), answer[32:])
        return list(struct.unpack("<4Q", answer[:32])), list(lists[:len(samples)]), list(lists[len(samples):])


def a_number(chance):
    """Mostly one of few, so that equals are met; in both signs."""
    if chance.random() < 0.3:
        return chance.choice(ZEROS)
    if chance.random() < 0.1:
        return chance.choice(FAR)
    return reference.bits(chance.choice([-2.0, -1.0, -0.5, 0.5, 1.0, 1.5, chance.uniform(-9, 9)]))


def a_point(chance, n):
    """Mostly one of the block, often on a border; now and then one of a face, or never sampled."""
    point = [chance.choice([0, n, chance.randint(0, n)]) for _ in range(3)]
    for _ in range(chance.choice([0, 0, 0, 1, 1, 2])):
        point[chance.randrange(3)] = chance.choice([-1, n + 1, -1, n + 1, -2, n + 2, 2 ** 31 - 1, -2 ** 31])
    return tuple(point)


def told(refusal):
    return [0, 0, 0, 0] if refusal is None else list(refusal)


class Comparison:
    def __init__(self):
        self.ours, self.made, self.set = Ours(), Counter(), Counter()

    def hold(self, what, met, found, wanted):
        met[wanted[0][0]] += 1
        if found != wanted:
            raise SystemExit("%s: ours %s, the reference %s" % (what, found[0], wanted[0]))

    def make(self, what, n, samples, summary):
        found = self.ours.call(0, n, samples, (0, 0, 0), 0, summary)
        wanted = list(summary)
        refusal = reference.make_summary(n, samples, wanted)
        self.hold(what, self.made, found, (told(refusal), samples, wanted))
        return wanted

    def change(self, what, n, samples, point, pattern, summary):
        found = self.ours.call(1, n, samples, point, pattern, summary)
        wanted = list(samples), list(summary)
        refusal = reference.set_sample(n, wanted[0], point, pattern, wanted[1])
        self.hold(what, self.set, found, (told(refusal), *wanted))
        return wanted

    def seed(self, seed):
        chance = random.Random(seed)
        n = reference.LARGEST_N if chance.random() < 0.002 else chance.choice([1, 1, 2, 2, 3, 3, 4, 4, 5, 8])
        samples = [a_number(chance) for _ in range(reference.block_length(n))]
        summary = [MARK] * (2 * n + chance.choice([0, 1, 3]))
        if chance.random() < 0.3:
            self.faulty(seed, chance, n, list(samples), list(summary))
        summary = self.make("seed %d, made" % seed, n, samples, summary)
        self.disturb(chance, n, summary)
        for step in range(chance.randrange(1, 4)):
            what = "seed %d, set %d" % (seed, step)
            before = reference.refuse_summary(n, samples, summary)
            pattern = chance.choice(BAD) if chance.random() < 0.05 else a_number(chance)
            samples, summary = self.change(what, n, samples, a_point(chance, n), pattern, summary)
            if before is None and reference.refuse_summary(n, samples, summary) is not None:
                raise SystemExit("%s: a summary that was right is not so afterwards" % what)

    def disturb(self, chance, n, summary):
        """Some layers marked, now and then one that is wrong."""
        for layer in range(n):
            if chance.random() < 0.3:
                summary[2 * layer + chance.randrange(2)] = chance.choice([MARK, 0x7FC00000, 0xFFC00001])
        if chance.random() < 0.1:
            summary[chance.randrange(2 * n)] = a_number(chance)

    def faulty(self, seed, chance, n, samples, summary):
        fault = chance.randrange(5)
        if fault == 0:
            n = chance.choice([0, reference.LARGEST_N + 1, 2 ** 32 + n, 2 ** 64 - 1])
        elif fault == 1:
            samples = samples[:-1] if chance.random() < 0.5 else samples + [0]
        elif fault == 2:
            samples[chance.randrange(len(samples))] = chance.choice(BAD)
        else:
            summary = summary[:chance.randrange(2 * n)]
        self.make("seed %d, made with a fault" % seed, n, samples, summary)
        pattern = chance.choice([a_number(chance), chance.choice(BAD)])
        self.change("seed %d, set with a fault" % seed, n, samples, a_point(chance, min(n, 99)), pattern, summary)


def main(words):
    all_seeds = seeds(words, __doc__)
    comparison = Comparison()
    for seed in in_turn(all_seeds):
        comparison.seed(seed)
    print("%d summaries made and %d samples set, no difference; answers met in making: %s; in setting: %s"
          % (sum(comparison.made.values()), sum(comparison.set.values()), tally(comparison.made), tally(comparison.set)))


if __name__ == "__main__":
    main(sys.argv[1:])
