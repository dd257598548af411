#!/usr/bin/env python3
"""The largest block, n = 64 with six finer neighbours, at the exact sizes of the three buffers and at one less of each.

    python3 compare/largest.py

At the exact sizes every place is written; at one less, refusal 9 or 10 gives what is wanted and no place changes.
"""

import random
import sys

from calling import MARK, Ours
import reference
from records import agree

N, MASK = reference.LARGEST_N, reference.LARGEST_MASK
STORE = reference.store_length(N)


def block():
    """Noise on both sides of the threshold 0; each fine face takes the centre's samples at the points they share."""
    chance = random.Random(7)
    noise = [reference.bits(k) for k in (1.0, -1.0, 0.3, -0.5)]
    centre = chance.choices(noise, k=reference.block_length(N))
    neighbours = chance.choices(noise, k=reference.neighbours_length(N, MASK))
    samples = centre + neighbours
    agree(N, MASK, samples)
    return samples[:len(centre)], samples[len(centre):]


def main():
    centre, neighbours = block()
    ours = Ours()

    def call(*sizes):
        """The answer's four numbers, and how many places of the buffers still hold the mark."""
        numbers, places = ours.call([N, MASK, 0, 0, 0, 0, reference.bits(1.0)], sizes, centre, neighbours)
        return numbers, places.count(MARK)

    def expect(sizes, wanted, untouched):
        got = call(*sizes)
        if got != (wanted, untouched):
            sys.exit("buffers of %s: %s with %d places untouched, not %s with %d" % (sizes, *got, wanted, untouched))

    (number, vertices, triangles, _), _ = call(STORE, 0, 0)
    if number != 10 or not vertices or not triangles:
        sys.exit("without room: %d %d %d, not 10 and two counts" % (number, vertices, triangles))
    exact = [STORE, 6 * vertices, 3 * triangles]
    reads = 8 * N ** 3 + 9 * 6 * N ** 2 + 14 * vertices
    expect(exact, (0, vertices, triangles, reads), 0)
    for short, wanted in enumerate([(9, STORE, 0, 0), (10, vertices, triangles, 0), (10, vertices, triangles, 0)]):
        sizes = [size - (place == short) for place, size in enumerate(exact)]
        expect(sizes, wanted, sum(sizes))
    print("%d vertices, %d triangles, %d reads; exact sizes are accepted, one less of each is refused" % (vertices, triangles, reads))


if __name__ == "__main__":
    main()
