#!/usr/bin/env python3
"""Makes crates/listing_test/data, and the lines that the program must print, always the same bytes.

    python3 tools/listing_vectors.py

The lines are worked out by tools/reference.py, which reads document 01 and shares nothing with the
proved code.  The script ends only if the records come to a mesh with no finer side, one with one and
one with six, an empty mesh, and every refusal that the listing program can print.  4, 5, 6, 14 and 15
it cannot: the reader's answers leave no room for them.
"""

import random
import struct
import sys
from pathlib import Path

import reference as ref
from records import case_a, depth_in_rock, level_block, sampled_block

CRATE = Path(__file__).resolve().parent.parent / "crates" / "listing_test"
REFUSALS = {1, 2, 3, 7, 8, 9, 10, 11, 12, 13}


def with_word(record, place, word):
    """The record with another word of four bytes at a place."""
    return record[:place] + struct.pack(">I", word) + record[place + 4:]


def with_byte(record, place, byte):
    return record[:place] + bytes([byte]) + record[place + 1:]


def of_length(length):
    """A record of a block of one subdivision with zeros after it, whose length field is right."""
    record = ref.record_of(case_a())
    return with_word(record + bytes(length - len(record)), 0, length - 4)


def noise(n):
    centre = [random.Random(k).choice([0, 0x3F800000]) for k in range(ref.block_length(n))]
    return case_a()._replace(n=n, centre=centre)


def disagreeing():
    """A block whose finer neighbour is all outside, where the block itself is not."""
    block = sampled_block(depth_in_rock, 2, 0b000001)
    return block._replace(neighbours=[0xBF800000] * len(block.neighbours))


def meshes():
    return [
        case_a(),
        sampled_block(depth_in_rock, 4, 0),
        sampled_block(depth_in_rock, 3, 0b000010),
        sampled_block(depth_in_rock, 2, 0b111111),
        case_a()._replace(centre=[0] * ref.block_length(1)),
    ]


def refused():
    good = ref.record_of(case_a())
    return [
        b"",
        good[:-1],
        with_byte(good, 4, 2),
        with_byte(good, 5, 0),
        with_byte(good, 5, 65),
        with_byte(good, 6, 64),
        with_word(good, 7, 0x7FC00000),
        with_word(good, 23, 0x3A7FFFFF),
        with_byte(good, 5, 2),
        with_word(good, 27 + 4 * 31, 0x7F800000),
        ref.record_of(disagreeing()),
        ref.record_of(noise(13)),
        ref.record_of(noise(12)),
        of_length(ref.LISTING_BYTES),
        of_length(ref.LISTING_BYTES + 1),
        ref.record_of(noise(17)),
        ref.record_of(level_block(22, 0, 0)),
    ]


def main():
    records = [ref.record_of(block) for block in meshes()] + refused()
    answers = [ref.listing(record) for record in records]
    kinds = [answer.split()[:2] for answer in answers]
    missing = REFUSALS - {int(number) for kind, number in kinds if kind == "refused"}
    if missing or any(kind != "mesh" for kind, number in kinds[:len(meshes())]):
        sys.exit("not met: refusals %s, answers %s" % (sorted(missing), kinds))
    data = CRATE / "data"
    data.mkdir(parents=True, exist_ok=True)
    lines = []
    for k, record in enumerate(records):
        (data / ("r%02d" % k)).write_bytes(record)
        lines.append("r%02d\n%s" % (k, answers[k]))
    (CRATE / "stdout").write_text("".join(lines))


if __name__ == "__main__":
    main()
