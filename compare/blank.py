#!/usr/bin/env python3
"""The viewer's blank against tools/reference.py, and against our own meshes.

    python3 compare/blank.py COUNT [FIRST]

Each seed makes a record whose samples lie on one side of the threshold but for some, if any: in the block, in its extension faces, in a
named side's w=0 plane, elsewhere in a neighbour, or a whole neighbour; now and then a byte is another. The answer must be the
reference's. Where extraction takes the block, it must be 1 exactly when the mesh has no triangle, and where extraction refuses it by 8, a
block that is blank must have no triangle by the reference.
"""

import struct
import sys
from collections import Counter

from calling import Program, answers, seeds, tally
import reference
from records import agree, level_block

OUTSIDE, INSIDE = reference.bits(-1.0), reference.bits(0.0)


class Ours(Program):
    def __init__(self):
        super().__init__("blank_answers")

    def answer(self, record):
        """What blank answers, the number of extraction's refusal, its triangles."""
        return struct.unpack("<3Q", self.ask(struct.pack("<I", len(record)) + record, 24))


def places(chance, n, mask):
    """Where some samples stand: one of a kind, or a whole neighbour's."""
    own, fine = reference.block_length(n), reference.block_length(2 * n)
    kind, side = chance.randrange(5), chance.choice(reference.sides_named(mask) or [None])
    if kind == 0:
        return [chance.randrange((n + 1) ** 3)]
    if kind == 1 or side is None:
        return [chance.randrange((n + 1) ** 3, own)]
    if kind == 2:
        return [reference.fine_place(n, mask, side, chance.randrange(2 * n + 1), chance.randrange(2 * n + 1))]
    if kind == 3:
        return [own + chance.randrange(reference.neighbours_length(n, mask))]
    first = own + reference.sides_named(mask).index(side) * fine
    return range(first, first + fine)


def a_record(chance):
    n, mask = chance.choice([1, 1, 1, 2, 2, 3]), chance.choice([0, 1 << chance.randrange(6), chance.randrange(64)])
    here, other = chance.choice([(OUTSIDE, INSIDE), (INSIDE, OUTSIDE)])
    block = level_block(n, mask, here)
    samples = block.centre + block.neighbours
    for _ in range(chance.choice([0, 1, 1, 2])):
        for place in places(chance, n, mask):
            samples[place] = other
    if chance.random() < 0.6:
        agree(n, mask, samples)
    own = len(block.centre)
    record = reference.record_of(block._replace(centre=samples[:own], neighbours=samples[own:]))
    if chance.random() < 0.1:
        place = chance.randrange(chance.choice([reference.HEADER, len(record)]))
        record = record[:place] + bytes([chance.randrange(256)]) + record[place + 1:]
    return record


def fault(record, ours):
    """What is wrong with an answer, or None."""
    blank, refused, triangles = ours
    wanted = reference.viewer_blank(record)
    if blank != wanted:
        return "blank is %d, not %d" % (blank, wanted)
    if refused == 0 and blank != int(triangles == 0):
        return "blank is %d, with %d triangles" % (blank, triangles)
    if refused == 8 and blank == 1 and reference.mesh_of(reference.parse(record)).triangles:
        return "blank, and the reference has triangles"
    return None


def main(words):
    all_seeds = seeds(words, __doc__)
    met = Counter(blank for blank, _, _ in answers(all_seeds, a_record, Ours(), fault))
    print("%d records, no difference; answers met: %s" % (len(all_seeds), tally(met)))


if __name__ == "__main__":
    main(sys.argv[1:])
