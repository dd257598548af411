#!/usr/bin/env python3
"""Our two calls for a sample against tools/reference.py: points of records, some of the records damaged.

    python3 compare/samples.py COUNT [FIRST]

Each seed makes a record with samples of every size, now and then with a fault (cut, another byte, a sample that cannot be used), and
asks for points of the block, around its borders and far outside. Compared are the packed number, and of the call that tells the place
kind the refusal with how many coordinates are outside, the value's bits and the kind.
"""

import random
import struct
import sys
from collections import Counter

from calling import Program, in_turn, seeds
import reference
from damaged import BAD, LIMIT

POINTS = 40


class Ours(Program):
    """The answers of both calls, seven numbers a point."""

    def __init__(self):
        super().__init__("sample_answers")

    def samples(self, record, points):
        asked = struct.pack("<%di" % (3 * len(points)), *(c for point in points for c in point))
        answer = self.ask(struct.pack("<2I", len(record), len(points)) + record + asked, 56 * len(points))
        return list(struct.iter_unpack("<7Q", answer))


def a_record(chance):
    n = chance.choice([1, 1, 2, 2, 3, 4, 7, 16])
    mask = 1 << chance.randrange(6) if n < 4 and chance.random() < 0.3 else 0
    samples = [chance.randrange(LIMIT + 1) | chance.getrandbits(1) << 31 for _ in range(reference.samples_length(n, mask))]
    if chance.random() < 0.1:
        samples[chance.randrange(len(samples))] = chance.choice(BAD)
    centre = reference.block_length(n)
    block = reference.Block(n, mask, 0, (0, 0, 0), LIMIT, samples[:centre], samples[centre:])
    return n, reference.record_of(block)


def damaged(chance, record):
    place = chance.randrange(12)
    if chance.random() < 0.3:
        return record[:chance.randrange(len(record))]
    return record[:place] + bytes([chance.randrange(256)]) + record[place + 1:]


def a_point(chance, n):
    """Mostly in the block or one step outside; now and then farther, to where numbers end."""
    near = [-1, 0, 1, n // 2, n - 1, n, n + 1]
    far = [-2 ** 31, -2, n + 2, n + 3, 2 ** 31 - 1]
    return [chance.choice(near if chance.random() < 0.9 else far) for _ in range(3)]


def called(answer):
    """What was met: a kind, a refusal, or 15 with its count."""
    number, first, *_, kind = answer
    if number:
        return "refusal 15 with %d" % first if number == 15 else "refusal %d" % number
    return "in-block" if kind == reference.IN_BLOCK else "face %d" % kind


def main(words):
    all_seeds = seeds(words, __doc__)
    ours, met = Ours(), Counter()
    for seed in in_turn(all_seeds):
        chance = random.Random(seed)
        n, record = a_record(chance)
        if chance.random() < 0.15:
            record = damaged(chance, record)
        points = [a_point(chance, n) for _ in range(POINTS)]
        for point, found in zip(points, ours.samples(record, points)):
            wanted = (reference.viewer_sample(record, *point), *reference.sample_kind(record, *point))
            if found != wanted:
                sys.exit("seed %d, point %s: ours %s, the reference %s" % (seed, point, found, wanted))
            met[called(wanted[1:])] += 1
    told = ", ".join("%s: %d" % pair for pair in sorted(met.items()))
    print("%d records, %d points, no difference; met %s" % (len(all_seeds), POINTS * len(all_seeds), told))


if __name__ == "__main__":
    main(sys.argv[1:])
