#!/usr/bin/env python3
"""The sample reads that our mesher reports, against their bound (document 02, [7]).

    python3 compare/reads.py [COUNT [FIRST]]

Blocks whose samples alternate, of 1 to 8 subdivisions with every mask and of 16 and 64 with no finer side and with six, must be
reported with just as many reads as the bound in n and s says.  Blocks of noise, COUNT seeds (100) from FIRST (0) on, must stay
within it; how near they come is told.  Small blocks are held against tools/reference.py, which counts its reads one by one.
"""

import random
import sys

from calling import Ours, seeds
import records
import reference

INSIDE, OUTSIDE = reference.bits(1.0), reference.bits(-1.0)
ALL = reference.LARGEST_MASK


def most_vertices(n, sides):
    return 3 * n * (n * n + 4 * n - 1) + sides * 4 * n * (2 * n + 1)


def most_reads(n, sides):
    return 50 * n ** 3 + 168 * n ** 2 - 42 * n + sides * (121 * n ** 2 + 56 * n)


def alternating(n, mask):
    """Inside and outside from point to point, the fine points of a face too; where both have a point the neighbour's is the centre's."""
    def samples(m):
        places = [OUTSIDE] * reference.block_length(m)
        for x in range(m + 1):
            for y in range(m + 1):
                for z in range(m + 1):
                    if (x + y + z) % 2 == 0:
                        places[reference.sample_place(m, (x, y, z))] = INSIDE
        return places

    own = samples(n)
    every = own + samples(2 * n) * len(reference.sides_named(mask)) if mask else own
    records.agree(n, mask, every)
    return block(n, mask, every)


def noisy(chance, n, mask):
    every = chance.choices([INSIDE, OUTSIDE], k=reference.samples_length(n, mask))
    records.agree(n, mask, every)
    return block(n, mask, every)


def block(n, mask, samples):
    own = reference.block_length(n)
    zero = reference.bits(0.0)
    return reference.Block(n, mask, zero, (zero,) * 3, reference.bits(1.0), samples[:own], samples[own:])


def reads_of(ours, b):
    """What our mesher reports; it must be what its own counts come to, and of a small block what the reference counts."""
    sides = len(reference.sides_named(b.mask))
    most = most_vertices(b.n, sides)
    head = [b.n, b.mask, b.threshold, *b.base, b.size]
    sizes = [reference.store_length(b.n), 6 * most, 3 * (5 * b.n ** 3 + sides * 12 * b.n ** 2)]
    (number, vertices, _, reads), _ = ours.call(head, sizes, b.centre, b.neighbours)
    wanted = 8 * b.n ** 3 + 9 * sides * b.n ** 2 + 14 * vertices
    if number or reads != wanted:
        sys.exit("n = %d, mask %d: answer %d, %d reads, not %d" % (b.n, b.mask, number, reads, wanted))
    if b.n <= 2 and reads != reference.mesh_of(b).reads:
        sys.exit("n = %d, mask %d: not the reference's reads" % (b.n, b.mask))
    return reads, most_reads(b.n, sides)


def main(words):
    all_seeds = seeds(words or ["100"], __doc__)
    ours, met = Ours(), 0
    for n, masks in [(n, range(ALL + 1)) for n in range(1, 9)] + [(16, (0, ALL)), (64, (0, ALL))]:
        for mask in masks:
            reads, most = reads_of(ours, alternating(n, mask))
            if reads != most:
                sys.exit("n = %d, mask %d: %d reads, and the bound is %d" % (n, mask, reads, most))
            met += 1
    parts = []
    for seed in all_seeds:
        chance = random.Random(seed)
        reads, most = reads_of(ours, noisy(chance, chance.randrange(1, 9), chance.randrange(ALL + 1)))
        if reads > most:
            sys.exit("seed %d: %d reads, beyond the bound %d" % (seed, reads, most))
        parts.append(reads / most)
    print("%d alternating blocks reach the bound; noise, %d blocks: %.2f to %.2f of it" % (met, len(parts), min(parts), max(parts)))


if __name__ == "__main__":
    main(sys.argv[1:])
