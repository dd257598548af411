#!/usr/bin/env python3
"""Our call that cuts a block from a raw volume against tools/reference.py.

    python3 compare/volume.py COUNT [FIRST]

Each seed makes a volume and a block of it, mostly near an edge of the volume or beyond it, and more than half of them with one or two
faults (n, a size, bytes cut or added, a first point outside, bad samples among those taken and beside them, a short list). Answer, its
three numbers and all of the lent list are compared, bit for bit.

Each tenth seed makes a star too: a block, and finer neighbours cut from a volume of twice the resolution whose even points are the first
volume's. Their cuts are compared in the same way, and the star passes 8, in our mesher and in the reference.
"""

import itertools
import random
import struct
import sys
from collections import Counter

from calling import MARK, Ours as Mesher, Program, in_turn, seeds, tally
import reference

SIZES = [1, 2, 3, 4, 5, 7, 9, 12, 17, 20]
BAD = [0x7FC00000, 0xFFA00001, 0x7F800001, 0x7F800000, 0xFF800000, 0x49800001, 0xC9800001, 0x7F7FFFFF]
GOOD = [0, 0x80000000, 1, 0x49800000, 0xC9800000, 0x3F800000]
SMALL = [1, 2, 3, 5, 6, 9]
LARGEST = (1 << 64) - 1
WIDE = [0, 65, 255, 1 << 32, LARGEST]


class Ours(Program):
    """The answer as five numbers and the lent list."""

    def __init__(self):
        super().__init__("volume_answers")

    def cut(self, volume, sizes, n, first, room):
        call = struct.pack("<9Q", len(volume), *sizes, n, *first, room) + volume
        answer = self.ask(call, 40 + 4 * room)
        return list(struct.unpack("<5Q", answer[:40])), struct.unpack("<%dI" % room, answer[40:])


def wanted(volume, sizes, n, first, room):
    samples = [MARK] * room
    answer = reference.cut(volume, sizes, n, first, samples)
    numbers = [*answer, 0] if isinstance(answer, reference.Refusal) else [0, 0, 0, 0, answer]
    return numbers, tuple(samples)


def compare(ours, seed, *parts):
    """Ours and the reference's answer to a cut, which must be one."""
    found, right = ours.cut(*parts), wanted(*parts)
    if found != right:
        raise SystemExit("seed %d: ours %s, the reference %s" % (seed, found[0], right[0]))
    return right


def a_sample(chance):
    if chance.random() < 0.1:
        return chance.choice(GOOD)
    return struct.unpack("<I", struct.pack("<f", chance.uniform(-1048576, 1048576)))[0]


class Cut:
    """A cut that is refused nothing, until it is damaged."""

    def __init__(self, chance):
        self.chance = chance
        self.sizes = [chance.choice(SIZES) for _ in range(3)]
        count = self.sizes[0] * self.sizes[1] * self.sizes[2]
        self.volume = bytearray(struct.pack("<%dI" % count, *(a_sample(chance) for _ in range(count))))
        self.n = chance.choice([1, 1, 2, 2, 3, 4, 5, 8, 16] if chance.randrange(100) else [17, 33, 64])
        self.first = [chance.choice([0, size - 1, chance.randrange(size)]) for size in self.sizes]
        self.room = reference.block_length(self.n) + chance.choice([0, 0, 1, 7])

    def put_bad(self, place):
        self.volume[4 * place:4 * place + 4] = struct.pack("<I", self.chance.choice(BAD))

    def damage(self):
        chance, axis = self.chance, self.chance.randrange(3)
        fault = chance.randrange(8)
        if fault == 0:
            self.n = chance.choice(WIDE)
        elif fault == 1:
            self.sizes[axis] = chance.choice([0, 1025, 1 << 62, LARGEST, min(self.sizes[axis] + 1, LARGEST)])
        elif fault == 2:
            self.volume += bytes(chance.choice([1, 4]))
        elif fault == 3:
            del self.volume[-chance.choice([1, 4]):]
        elif fault == 4:
            self.first[axis] = chance.choice([self.sizes[axis], min(self.sizes[axis] + 1, LARGEST), LARGEST])
        elif fault == 5:
            self.room = chance.choice([0, max(0, self.room - 8), max(0, reference.block_length(min(self.n, 64)) - 1)])
        else:
            for _ in range(chance.choice([1, 1, 2, 9])):
                self.put_bad(chance.randrange(max(1, len(self.volume) // 4)))

    def parts(self):
        return bytes(self.volume), tuple(self.sizes), self.n, tuple(self.first), self.room


class Volume:
    def __init__(self, chance, sizes):
        self.sizes = sizes
        self.samples = [a_sample(chance) for _ in range(sizes[0] * sizes[1] * sizes[2])]

    def place(self, point):
        return reference.volume_place(self.sizes, point, (0, 0, 0))

    def cut(self, ours, seed, n, first):
        volume = struct.pack("<%dI" % len(self.samples), *self.samples)
        return list(compare(ours, seed, volume, self.sizes, n, first, reference.block_length(n))[1])


class Star:
    """A block of a volume; the fine volume goes on where the block ends in the coarse one, and ends with it where the block goes beyond."""

    def __init__(self, chance):
        self.n = chance.choice([1, 1, 2, 3, 4])
        sizes = [chance.choice(SMALL) for _ in range(3)]
        self.first = [chance.randrange(size) for size in sizes]
        more = [chance.choice([0, 1, 2]) if start + self.n < size else 0 for start, size in zip(self.first, sizes)]
        self.coarse = Volume(chance, sizes)
        self.fine = Volume(chance, [2 * size - 1 + k for size, k in zip(sizes, more)])
        for point in itertools.product(*map(range, sizes)):
            self.fine.samples[self.fine.place([2 * k for k in point])] = self.coarse.samples[self.coarse.place(point)]
        self.threshold = reference.bits(reference.f32(chance.uniform(-524288, 524288)))

    def beyond(self):
        """Where the neighbours begin in the fine volume, by side; a side has none where that is outside."""
        for side in range(6):
            first = list(self.first)
            first[side // 2] += self.n if side % 2 else -self.n
            first = [2 * start for start in first]
            if all(0 <= start < size for start, size in zip(first, self.fine.sizes)):
                yield side, first

    def block(self, ours, seed):
        centre = self.coarse.cut(ours, seed, self.n, self.first)
        neighbours = {side: self.fine.cut(ours, seed, 2 * self.n, first) for side, first in self.beyond()}
        mask, one = sum(1 << side for side in neighbours), reference.bits(1.0)
        return reference.Block(self.n, mask, self.threshold, (0, 0, 0), one, centre, sum(neighbours.values(), []))


def check_star(ours, mesher, seed):
    """How many finer neighbours it has."""
    block = Star(random.Random(seed)).block(ours, seed)
    head = [block.n, block.mask, block.threshold, *block.base, block.size]
    answer, _ = mesher.call(head, [reference.store_length(block.n), 0, 0], block.centre, block.neighbours)
    refusal = reference.refuse_block(block) or reference.refuse_face_mismatch(block)
    if answer[0] not in (0, 10) or refusal:
        raise SystemExit("seed %d, a star: ours %s, the reference %s" % (seed, answer, refusal))
    return len(reference.sides_named(block.mask))


def main(words):
    all_seeds = seeds(words, __doc__)
    ours, mesher, met = Ours(), Mesher(), Counter()
    stars = sides = 0
    for seed in in_turn(all_seeds):
        chance = random.Random(seed)
        cut = Cut(chance)
        for _ in range(chance.choice([0, 0, 1, 1, 2])):
            cut.damage()
        met[compare(ours, seed, *cut.parts())[0][0]] += 1
        if seed % 10 == 0:
            stars, sides = stars + 1, sides + check_star(ours, mesher, seed)
    print("%d cuts, no difference; answers met: %s; %d blocks with %d finer neighbours pass 8"
          % (len(all_seeds), tally(met), stars, sides))


if __name__ == "__main__":
    main(sys.argv[1:])
