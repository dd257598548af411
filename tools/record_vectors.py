#!/usr/bin/env python3
"""Makes the vectors of crates/record_test/data, always the same bytes.

    python3 tools/record_vectors.py

Every answer is worked out by tools/reference.py, which reads document 01 and
shares nothing with the proved code.  A file is a run of vectors; a vector is
words of four bytes, the lowest first (a record's words are the highest first),
and opens with its own length in bytes.

read0, read1, ..: a record, what the reader and the viewer's calls answer

    length, record's bytes, places lent,
    number, three numbers                   number 0 where the record is accepted
    n, mask, threshold, base x, y, z, size  0 where it is refused
    subdivisions, blank, samples filled, points asked,
    the record (padded to four bytes), the samples filled,
    for each point: three coordinates as places in COORDINATES, the answer's low word, its high word,
    the kind (0 to 5 a face, 6 in-block), the refusal's first number; 0 where there is none

faces0, ..: the same for records that are blank or not by the fine samples of a named side

write0, ..: a block, what the writer answers

    length, n, mask, threshold, base x, y, z, size,
    centre's samples, neighbours' samples, bytes lent,
    number, three numbers                   number 0 and the bytes written where it is accepted
    the samples, the bytes written (padded to four bytes)
"""

import random
import struct
from pathlib import Path

import reference
from records import case_a, depth_in_rock, ledge, level_block, sampled_block
from reference import Block, Refusal, bits, block_length, neighbours_length, record_of

DATA = Path(__file__).resolve().parent.parent / "crates" / "record_test" / "data"
LONGEST_FILE = 131071

COORDINATES = [-2147483648, -3, -2, *range(-1, 20), 2147483647]

NAN, NEGATIVE_NAN, SIGNALLING_NAN, INFINITY = 0x7FC00000, 0xFFC00001, 0x7F800001, 0x7F800000
MINUS = 0x80000000
LIMIT, LEAST_SIZE = bits(1048576.0), bits(1 / 1024)

rng = random.Random(1)


# Blocks

def usable_sample():
    """Any pattern of at most 1,048,576 in size; zeros, subnormals and the limit among them."""
    size = rng.choice([0, 1, 0x007FFFFF, 0x00800000, LIMIT, LIMIT - 1,
                       rng.randrange(LIMIT + 1), bits(rng.random())])
    return rng.choice([0, MINUS]) | size


def block_of(n, mask, sample=usable_sample):
    return Block(n, mask, usable_sample(), tuple(usable_sample() for _ in range(3)),
                 rng.randrange(LEAST_SIZE, LIMIT + 1),
                 [sample() for _ in range(block_length(n))],
                 [sample() for _ in range(neighbours_length(n, mask))])


SMALL = block_of(1, 0b000100)
FIELDS = ["threshold", "x", "y", "z", "size"]


def with_field(block, field, pattern):
    if field in "xyz":
        base = list(block.base)
        base["xyz".index(field)] = pattern
        return block._replace(base=tuple(base))
    return block._replace(**{field: pattern})


def with_sample(block, place, pattern):
    samples = block.centre + block.neighbours
    samples[place] = pattern
    centre = len(block.centre)
    return block._replace(centre=samples[:centre], neighbours=samples[centre:])


def edge_patterns(field):
    """Exactly at a limit, one step beyond it, and no number."""
    at = [LIMIT, LEAST_SIZE] if field == "size" else [LIMIT, MINUS | LIMIT, 0, MINUS, 1, MINUS | 1]
    beyond = [LIMIT + 1, LEAST_SIZE - 1, 0, MINUS | LIMIT, MINUS | LEAST_SIZE] if field == "size" else [LIMIT + 1, MINUS | LIMIT + 1]
    return at + beyond + [NAN, NEGATIVE_NAN, SIGNALLING_NAN, INFINITY, MINUS | INFINITY]


# Records

def accepted():
    yield case_a()
    yield sampled_block(depth_in_rock, 3, 0b010011)
    for mask in range(64):
        yield block_of(1, mask)
    for n in (1, 2, 3, 4, 5, 6, 7, 8, 16):
        yield block_of(n, 0)
    for n, mask in ((2, 0b100000), (2, 0b000011), (2, 63), (3, 0b001000), (4, 0b000001), (5, 0b010000)):
        yield block_of(n, mask)


def blanks():
    """All in-block samples inside, or none, with the extension faces on either side; and one that is not."""
    for n in (1, 2, 5):
        points = (n + 1) ** 3
        faces = block_length(n) - points
        for inner, outer in ((1.0, 1.0), (1.0, -1.0), (-1.0, 1.0), (-1.0, -1.0), (0.0, -1.0), (-0.0, -1.0)):
            centre = [bits(inner)] * points + [bits(outer)] * faces
            block = Block(n, 0, bits(0.0), (0, 0, 0), bits(1.0), centre, [])
            yield block
            for place in (0, points // 2, points - 1):
                yield with_sample(block, place, bits(-inner if inner else -1.0))


def face_blanks():
    """All samples on one side but for some of a named side's neighbour: in its w=0 plane, off it, or everywhere."""
    yield ledge()
    for n, mask, side in [*((1, 1 << side, side) for side in range(6)), (1, 63, 5), (2, 0b001000, 3)]:
        outside, inside = level_block(n, mask, bits(-1.0)), level_block(n, mask, bits(0.0))
        for u2, v2 in ((0, 0), (1, 1), (2 * n, 2 * n - 1)):
            yield with_sample(outside, reference.fine_place(n, mask, side, u2, v2), bits(0.0))
        yield with_sample(outside, reference.fine_place(n, mask, side, 1, 1, w=1), bits(0.0))
        yield with_sample(outside, len(outside.centre) + len(outside.neighbours) - 1, bits(0.0))
        yield outside._replace(neighbours=inside.neighbours)
        yield with_sample(inside, reference.fine_place(n, mask, side, n, n), bits(-1.0))


def with_length(record, length):
    return length.to_bytes(4, "big") + record[4:]


def with_byte(record, place, byte):
    return record[:place] + bytes([byte]) + record[place + 1:]


def damaged():
    record = record_of(SMALL)
    yield from (record[:k] for k in (0, 1, 3, 4, 5, 26, 27, 28, len(record) - 1))
    yield from (with_length(record[:k], k - 4) for k in (4, 26, 27, 28, 31, len(record) - 4, len(record) - 1))
    yield from (record + tail for tail in (b"\0", b"\0\0\0\0"))
    yield from (with_length(record + tail, len(record) + len(tail) - 4) for tail in (b"\0", b"\0\0\0\0"))
    yield from (with_length(record, len(record) - 4 + k) for k in (-1, 1, 4, 256, 65536, 1 << 24))
    yield with_length(record, (1 << 32) - 1)
    yield record[:4][::-1] + record[4:]
    yield from (with_byte(record, 4, version) for version in (0, 2, 255))
    yield from (with_byte(record, 5, n) for n in (0, 2, 16, 65, 255))
    yield from (with_byte(record, 6, mask) for mask in (0, 8, 63, 64, 255))
    yield with_byte(with_byte(record, 4, 2), 5, 0)
    yield with_byte(with_byte(record, 5, 65), 6, 64)
    yield with_byte(record_of(with_field(SMALL, "size", NAN)), 6, 64)
    yield record_of(with_field(with_field(SMALL, "z", NAN), "threshold", NAN))
    yield with_byte(record_of(with_field(SMALL, "threshold", NAN)), 5, 2)
    yield with_byte(record_of(with_sample(SMALL, 0, NAN)), 6, 0)


def edges():
    for field in FIELDS:
        for pattern in edge_patterns(field):
            yield with_field(SMALL, field, pattern)
    count = len(SMALL.centre) + len(SMALL.neighbours)
    for place in (0, len(SMALL.centre) - 1, len(SMALL.centre), count - 1):
        for pattern in edge_patterns("threshold"):
            yield with_sample(SMALL, place, pattern)
    yield with_sample(with_sample(SMALL, 40, INFINITY), 7, NAN)


def records():
    """Each record with how many places are lent."""
    for block in [*accepted(), *blanks()]:
        count = len(block.centre) + len(block.neighbours)
        yield record_of(block), count + rng.choice([0, 1, 5])
    for block in edges():
        yield record_of(block), len(block.centre) + len(block.neighbours)
    for record in damaged():
        yield record, rng.choice([0, 200])
    for n, mask in ((1, 0), (1, 63), (2, 1), (3, 0)):
        record, count = record_of(block_of(n, mask)), reference.samples_length(n, mask)
        yield from ((record, held) for held in (0, 1, count - 1, count, count + 1))


# Vectors

def words(*numbers):
    return struct.pack("<%dI" % len(numbers), *numbers)


def padded(data):
    return bytes(data) + bytes(-len(data) % 4)


def whole(vector):
    return words(len(vector) + 4) + vector


def points_of(record):
    n = record[5] if len(record) > 5 and record[5] <= 17 else 1
    line = [c for c in COORDINATES if c <= n + 2 or c == 2147483647]
    chosen = [(0, 0, 0), (n, n, n), (-1, 0, n), (n + 1, n, 0), (0, -1, n), (n, n + 1, 0), (0, n, -1), (n, 0, n + 1),
              (-1, -1, 0), (n + 1, 0, n + 1), (-2, 0, 0), (0, n + 2, 0), (0, 0, 2147483647), (-2147483648, 0, 0)]
    return chosen + [tuple(rng.choice(line) for _ in range(3)) for _ in range(6)]


def read_vector(record, held):
    samples = [None] * held
    answer = reference.read(record, samples)
    refused = isinstance(answer, Refusal)
    filled = [] if refused else [number for number in samples if number is not None]
    points = points_of(record)
    vector = words(len(record), held)
    vector += words(*answer) if refused else words(0, 0, 0, 0)
    vector += words(*[0] * 7) if refused else words(answer.n, answer.mask, answer.threshold, *answer.base, answer.size)
    vector += words(reference.viewer_subdivisions(record), reference.viewer_blank(record), len(filled), len(points))
    vector += padded(record) + words(*filled)
    for point in points:
        found = reference.viewer_sample(record, *point)
        _, first, _, _, _, kind = reference.sample_kind(record, *point)
        vector += words(*map(COORDINATES.index, point), found & 0xFFFFFFFF, found >> 32, kind, first)
    return whole(vector)


def write_vector(block, held):
    buffer = bytearray(held)
    answer = reference.write(block, buffer)
    vector = words(block.n, block.mask, block.threshold, *block.base, block.size,
                   len(block.centre), len(block.neighbours), held)
    written = b""
    if isinstance(answer, Refusal):
        vector += words(*answer)
    else:
        vector += words(0, answer, 0, 0)
        written = buffer[:answer]
    return whole(vector + words(*block.centre, *block.neighbours) + padded(written))


def long_enough(block):
    return 27 + 4 * (len(block.centre) + len(block.neighbours))


def blocks():
    """Each block with how many bytes are lent."""
    for block in [case_a(), *(block_of(1, mask) for mask in range(0, 64, 3)), block_of(2, 63), block_of(4, 1), block_of(8, 0), block_of(16, 0)]:
        yield block, long_enough(block) + rng.choice([0, 1, 7])
    for block in edges():
        yield block, long_enough(block)
    for n in (0, 65, 255, 256, 4294967295):
        yield SMALL._replace(n=n), 5000
    for mask in (0, 8, 63, 64, 255):
        yield SMALL._replace(mask=mask), 5000
    for change in (-1, 1, -len(SMALL.centre)):
        yield SMALL._replace(centre=(SMALL.centre + [0])[:len(SMALL.centre) + change]), 5000
        yield SMALL._replace(neighbours=(SMALL.neighbours + [0])[:len(SMALL.neighbours) + change]), 5000
    for held in (0, 26, 27, long_enough(SMALL) - 1, long_enough(SMALL), long_enough(SMALL) + 1):
        yield SMALL, held


def larger():
    """A block of more than 16 subdivisions, and a small one that says that it has more, each with the places and the bytes to lend."""
    for block in (block_of(17, 0), SMALL._replace(n=17), SMALL._replace(n=64)):
        yield block, len(block.centre) + 1, long_enough(block) + 1


def files(name, vectors):
    """The vectors by file name, as many to a file as it may hold."""
    runs = [b""]
    for vector in vectors:
        if len(runs[-1]) + len(vector) > LONGEST_FILE:
            runs.append(b"")
        runs[-1] += vector
    return {"%s%d" % (name, k): run for k, run in enumerate(runs)}


def main():
    DATA.mkdir(parents=True, exist_ok=True)
    read = [read_vector(*case) for case in records()]
    write = [write_vector(*case) for case in blocks()]
    faces = [read_vector(record_of(block), reference.samples_length(block.n, block.mask)) for block in face_blanks()]
    for block, places, held in larger():
        read.append(read_vector(record_of(block), places))
        write.append(write_vector(block, held))
    for name, run in {**files("read", read), **files("write", write), **files("faces", faces)}.items():
        (DATA / name).write_bytes(run)
    print("%d records, %d blocks" % (len(read) + len(faces), len(write)))


if __name__ == "__main__":
    main()
