#!/usr/bin/env python3
"""The sheet of runs of records against tools/reference.py, and against our own meshes.

    python3 compare/sheet.py COUNT [FIRST]

Each seed makes a run of up to twelve records. Of each the surface is a level block with some samples on the other side, a
mixture or blank; some are damaged: a byte, a length field, a sample, a face that disagrees, a version, a number of samples. Some
runs are cut, and some have a few bytes after the last record. Most blocks have 1 to 3 subdivisions, one in some hundred 16 or 17.
Each line's refusal, numbers, figures and end must be the reference's, and the total the sum. Where a line has figures, its vertices
and triangles must be what our extraction tells.
"""

import struct
import sys
from collections import Counter

from calling import Program, answers, seeds, tally
import reference
from records import agree

BAD = [0x7FC00000, 0x7F800000, 0x49800001, 0xFF800000]
LINE = 13
TOTAL = 7


class Ours(Program):
    def __init__(self):
        super().__init__("sheet_answers")

    def answer(self, run):
        """The lines, each of thirteen numbers, and the total's seven."""
        lines = struct.unpack("<Q", self.ask(struct.pack("<I", len(run)) + run, 8))[0]
        numbers = struct.unpack("<%dQ" % (LINE * lines + TOTAL), self.process.stdout.read(8 * (LINE * lines + TOTAL)))
        return [numbers[LINE * k:LINE * k + LINE] for k in range(lines)], numbers[LINE * lines:]


def a_block(chance):
    n = chance.choice([16, 17]) if chance.random() < 0.01 else chance.choice([1, 1, 1, 1, 2, 2, 3])
    several = chance.randrange(64) if n == 1 else 0
    mask = chance.choice([0, 0, 0, 1 << chance.randrange(6), several]) if n < 3 else 0
    level = chance.choice([0.0, 0.5, -1.0])
    inside, outside = [reference.bits(level + k) for k in (0, 1)], [reference.bits(level - k) for k in (1, 2)]
    pick = chance.choice([inside, outside, inside + outside, inside + outside, [inside[0]] + outside * 4])
    samples = [chance.choice(pick) for _ in range(reference.samples_length(n, mask))]
    agree(n, mask, samples)
    own = reference.block_length(n)
    return reference.Block(n, mask, reference.bits(level), (0, 0, 0), reference.bits(1.0), samples[:own], samples[own:])


def with_byte(record, place, byte):
    return record[:place] + bytes([byte]) + record[place + 1:]


def with_length(body):
    return len(body).to_bytes(4, "big") + body


def disagreeing(chance, block):
    """A fine sample that the centre has too lies on the other side of the threshold."""
    side = chance.choice(reference.sides_named(block.mask))
    u, v = chance.randrange(block.n + 1), chance.randrange(block.n + 1)
    place = reference.fine_place(block.n, block.mask, side, 2 * u, 2 * v) - len(block.centre)
    level = reference.value(block.threshold)
    other = level - 1 if reference.value(block.neighbours[place]) >= level else level
    neighbours = block.neighbours[:place] + [reference.bits(other)] + block.neighbours[place + 1:]
    return reference.record_of(block._replace(neighbours=neighbours))


def damaged(chance, block):
    """The block's record with one fault, its length field told anew where the fault is not in it."""
    if block.mask and chance.random() < 0.4:
        return disagreeing(chance, block)
    record, fault = reference.record_of(block), chance.randrange(8)
    if fault == 0:
        return with_byte(record, chance.randrange(4, reference.HEADER), chance.randrange(256))
    if fault == 1:
        return with_length(record[4:4 + chance.randrange(0, 30)])
    if fault == 2:
        return with_length(record[4:-chance.choice([1, 4, 40])])
    if fault == 3:
        return with_length(record[4:] + bytes(chance.choice([1, 4, 8])))
    if fault == 4:
        place = reference.HEADER + 4 * chance.randrange((len(record) - reference.HEADER) // 4)
        return record[:place] + struct.pack(">I", chance.choice(BAD)) + record[place + 4:]
    if fault == 5:
        return with_byte(record, 5, chance.choice([0, 17, 65, 255]))
    if fault == 6:
        return with_byte(record, 6, chance.choice([64, 255, 1, 63]))
    place = chance.randrange(reference.HEADER, len(record))
    return with_byte(record, place, chance.randrange(256))


def a_run(chance):
    run = b""
    for _ in range(chance.randrange(13)):
        block = a_block(chance)
        run += damaged(chance, block) if chance.random() < 0.3 else reference.record_of(block)
    ending = chance.random()
    if ending < 0.2:
        return run[:len(run) - chance.randrange(min(len(run), 200) + 1)]
    if ending < 0.3:
        return run + bytes(chance.randrange(256) for _ in range(chance.randrange(1, 8)))
    return run


def wanted(run):
    """The lines and the total as our program tells them, by the reference."""
    lines, at = [], 0
    while at < len(run):
        line, at = reference.sheet_line(run, at)
        if isinstance(line, reference.Refusal):
            lines.append((*line, 0, 0, 0, 0, 0, 0, at, 0, 0))
        else:
            lines.append((0, 0, 0, 0, *line, at, line.vertices, line.triangles))
    return lines, (0, *reference.sheet_total(run))


def fault(run, ours):
    lines, total = wanted(run)
    if len(ours[0]) != len(lines):
        return "%d lines, not %d" % (len(ours[0]), len(lines))
    for k, (our, line) in enumerate(zip(ours[0], lines)):
        if our != line:
            return "line %d is %s, not %s" % (k, our, line)
    return None if ours[1] == total else "the total is %s, not %s" % (ours[1], total)


def main(words):
    all_seeds = seeds(words, __doc__)
    met = Counter(line[0] for lines, _ in answers(all_seeds, a_run, Ours(), fault) for line in lines)
    print("%d runs of %d lines, no difference; refusals met (0: none): %s" % (len(all_seeds), sum(met.values()), tally(met)))


if __name__ == "__main__":
    main(sys.argv[1:])
