#!/usr/bin/env python3
"""Our weld against tools/reference.py: meshes of blocks, lists at random, long lists, and damaged calls.

    python3 compare/weld.py COUNT [FIRST]

Each seed makes lists (those of a block's mesh, or at random: few numbers and many, close together and far apart, numbers that share a place
in every table, marks), now and then more than one window of vertices or with a fault (counts too high, a short list, a corner that names no
vertex). Answer, its numbers and all places of the three lists are compared, and then those of a second pass.
"""

import random
import struct
import sys
from collections import Counter

from calling import Program, in_turn, seeds, tally
import reference
from damaged import Call

WINDOWS = [2048, 16384, 65536]


class Ours(Program):
    def __init__(self):
        super().__init__("weld_answers")

    def weld(self, counts, lists):
        """The answer's six numbers and the three lists."""
        lengths = [len(numbers) for numbers in lists]
        words = [*counts[:2], *lengths, *lists[0], *lists[1], *lists[2]]
        answer = self.ask(struct.pack("<%dI" % len(words), *words), 48 + 4 * sum(lengths))
        places = list(struct.unpack("<%dI" % sum(lengths), answer[48:]))
        corners, numbers = lengths[0], lengths[0] + lengths[1]
        return list(struct.unpack("<6Q", answer[:48])), [places[:corners], places[corners:numbers], places[numbers:]]


def wanted(counts, lists):
    after = [list(numbers) for numbers in lists]
    answer = reference.weld(counts, *after)
    numbers = [*answer, 0, 0] if isinstance(answer, reference.Refusal) else [0, 0, 0, 0, *answer[:2]]
    return numbers, after


def numbers_at_random(chance, count):
    """The edges of so many vertices."""
    span = chance.choice([1, 3, 50, 4913 * 3, 823875, 1 << 32])
    step = chance.choice([1, 1, 64, 2048, 16384, 1 << 20])
    near = chance.random() < 0.5
    numbers = []
    for k in range(count):
        if chance.random() < 0.1:
            numbers.append(reference.NO_EDGE)
        elif near and numbers and chance.random() < 0.3:
            numbers.append(numbers[-chance.randrange(1, min(len(numbers), 40) + 1)])
        else:
            numbers.append(step * chance.randrange(span) & 0xFFFFFFFF)
    return numbers


def lists_at_random(chance, held, count):
    vertices = [chance.getrandbits(32) for _ in range(6 * held)]
    return vertices, [chance.randrange(held) for _ in range(3 * count)] if held else [], numbers_at_random(chance, held)


def lists_of_mesh(chance):
    mesh = reference.mesh_of(Call(chance).block())
    return reference.flat(mesh.vertices), reference.flat(mesh.triangles), list(mesh.edges)


def some_lists(seed, chance):
    if seed % 50 == 7:
        window = WINDOWS[seed // 50 % 3]
        return lists_at_random(chance, chance.choice([window, window + 1, 2 * window + 5]), 3000)
    if chance.random() < 0.4:
        return lists_of_mesh(chance)
    return lists_at_random(chance, chance.choice([0, 1, 2, 3, 10, 70, 400]), chance.choice([0, 1, 2, 7, 200]))


def damaged(chance, counts, lists):
    """One fault: counts too high, a list too short or longer, a corner that names no vertex."""
    fault = chance.randrange(5)
    vertices, triangles, edges = lists
    most = 0xFFFFFFFF
    if fault == 0:
        counts = reference.Counts(chance.choice([min(counts[0] + 1, most), most, 1 << 31]), counts[1])
    elif fault == 1:
        counts = reference.Counts(counts[0], chance.choice([min(counts[1] + 1, most), most, 1 << 31]))
    elif fault == 2 and triangles:
        triangles[chance.randrange(len(triangles))] = chance.choice([counts[0], min(counts[0] + 1, most), most])
    elif fault == 3:
        del lists[chance.randrange(3)][-chance.randrange(1, 8):]
    else:
        lists[chance.randrange(3)].extend(chance.getrandbits(32) for _ in range(chance.randrange(1, 9)))
    return counts


class Comparison:
    def __init__(self):
        self.ours, self.met, self.doubled = Ours(), Counter(), 0

    def hold(self, seed, counts, lists):
        found, right = self.ours.weld(counts, lists), wanted(counts, lists)
        if found != right:
            sys.exit("seed %d: ours %s, the reference %s" % (seed, found[0], right[0]))
        return found

    def call(self, seed):
        chance = random.Random(seed)
        lists = [list(numbers) for numbers in some_lists(seed, chance)]
        counts = reference.Counts(len(lists[0]) // 6, len(lists[1]) // 3)
        for _ in range(chance.choice([0, 0, 0, 1, 2])):
            counts = damaged(chance, counts, lists)
        numbers, after = self.hold(seed, counts, lists)
        self.met[numbers[0]] += 1
        if numbers[0] == 0:
            self.doubled += counts.vertices - numbers[4]
            self.again(seed, reference.Counts(*numbers[4:]), after)

    def again(self, seed, counts, lists):
        """A second pass moves nothing."""
        numbers, after = self.ours.weld(counts, lists)
        if numbers != [0, 0, 0, 0, *counts[:2]] or after != lists:
            sys.exit("seed %d: a second pass moves something" % seed)


def main(words):
    all_seeds = seeds(words, __doc__)
    comparison = Comparison()
    for seed in in_turn(all_seeds):
        comparison.call(seed)
    told = len(all_seeds), comparison.doubled, tally(comparison.met)
    print("%d calls, no difference; %d vertices were doubled; answers met: %s" % told)


if __name__ == "__main__":
    main(sys.argv[1:])
