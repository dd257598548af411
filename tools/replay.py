#!/usr/bin/env python3
"""Makes the vectors of crates/replay/data, always the same bytes.

    python3 tools/replay.py

A vector is a call and the answer that it must get, laid out as the crate says.  Every mesh in an
answer is the Rust mesher's: compare/oracle is built with cargo and run as a program, and
tools/reference.py must agree with it to the last bit.  The Rust judges nothing, so every refusal is
tools/reference.py's.  The script ends only if the vectors meet what is asked of them: all 256
regular and all 512 transition cases, every refusal from 1 to 14, and the other things that
`Vectors.finish` names.
"""

import itertools
import random
import struct
import subprocess
import sys
from pathlib import Path
from typing import NamedTuple

ROOT = Path(__file__).resolve().parent.parent
sys.path.insert(0, str(ROOT / "compare"))
import against_reference as compare  # noqa: E402
import records  # noqa: E402
import reference as ref  # noqa: E402

DATA = ROOT / "crates" / "replay" / "data"
MOST_BYTES = 64000

ZERO, MINUS_ZERO, ONE, HALF = 0, 0x80000000, 0x3F800000, 0x3F000000
LIMIT, MINUS_LIMIT, LEAST_SIZE = 0x49800000, 0xC9800000, 0x3A800000
INFINITY, NAN = 0x7F800000, 0x7FC00000
TOO_LARGE = [LIMIT + 1, MINUS_LIMIT + 1, INFINITY, INFINITY | MINUS_ZERO, NAN, NAN | MINUS_ZERO]


# Calls and answers

class Lent(NamedTuple):
    """How many places of the three buffers extraction gets."""
    store: int
    vertices: int
    triangles: int


class Answer(NamedTuple):
    """The four numbers (0, the counts and the reads for a mesh), and what is laid into the buffers."""
    numbers: tuple
    mesh: ref.Mesh


NOTHING = ref.Mesh([], [], [], 0)


def exact(mesh):
    return Lent(len(mesh.store), 6 * len(mesh.vertices), 3 * len(mesh.triangles))


def reference_answer(block, lent):
    """Extraction's answer by the reference: a refusal, or the mesh."""
    vertices, triangles, store = [0] * lent.vertices, [0] * lent.triangles, [0] * lent.store
    answer = ref.extract(block, vertices, triangles, store)
    if isinstance(answer, ref.Refusal):
        return Answer(tuple(answer), NOTHING)
    return Answer((0, *answer), ref.mesh_of(block))


def mesh_of_text(text):
    """The mesh in the oracle's two texts, which tell no reads and no edges."""
    listing, store = text.split("store\n")
    rows = [line.split() for line in listing.splitlines()[1:]]
    return ref.Mesh([tuple(int(word, 16) for word in row[1:]) for row in rows if row[0] == "v"],
                    [tuple(map(int, row[1:])) for row in rows if row[0] == "t"],
                    [int(line) for line in store.splitlines()[:-1]], None)


# Bytes

def words(numbers):
    return struct.pack(">%dI" % len(numbers), *numbers)


def part(data):
    return words([len(data)]) + data


def runs(numbers):
    """Numbers as pairs: how many times, and which."""
    return words([word for number, group in itertools.groupby(numbers)
                  for word in (len(list(group)), number)])


def vector(call, body, answer):
    mesh = answer.mesh
    stored = [word for pair in enumerate(mesh.store) if pair[1] for word in pair]
    parts = [words(call), body, words([*answer.numbers, len(mesh.store)]),
             words(list(itertools.chain(*mesh.vertices))),
             words(list(itertools.chain(*mesh.triangles))), words(stored)]
    return part(b"".join(map(part, parts)))


class Vectors:
    """The vectors so far, and what they meet."""

    def __init__(self):
        compare.build()
        self.oracle = compare.Oracle()
        self.bytes = []
        self.refused = {"record": set(), "block": set()}
        self.regular, self.transition, self.masks = set(), set(), set()
        self.blocks = []

    def mesh(self, block):
        """The Rust mesher's mesh of a block that passes 1 to 8."""
        return mesh_of_text(self.oracle.answer(ref.record_of(block)))

    def answer(self, kind, block, lent):
        """Extraction's answer: a refusal by the reference, a mesh by the Rust."""
        answer = reference_answer(block, lent)
        if answer.numbers[0]:
            self.refused[kind].add(answer.numbers[0])
            return answer
        assert answer.mesh._replace(reads=None, edges=()) == self.mesh(block)
        self.blocks.append(block)
        for met, cases in zip((self.regular, self.transition), compare.cases_met(block)):
            met |= cases
        self.masks.add(block.mask)
        return answer

    def record(self, record, lent, samples):
        """A record is read into so many places, and what it says is meshed; the answer's number."""
        block = ref.read(record, [0] * samples)
        if isinstance(block, ref.Refusal):
            self.refused["record"].add(block.number)
            centre, answer = 0, Answer(tuple(block), NOTHING)
        else:
            centre, answer = len(block.centre), self.answer("record", block, lent)
        self.bytes.append(vector([0, *lent, centre, samples], record, answer))
        return answer.numbers[0]

    def block(self, block, lent):
        """A block is meshed as it stands; the answer's number."""
        answer = self.answer("block", block, lent)
        call = [1, *lent, len(block.centre), block.n, block.mask, block.threshold, *block.base,
                block.size]
        self.bytes.append(vector(call, runs(block.centre + block.neighbours), answer))
        return answer.numbers[0]

    def meshed_record(self, block):
        """A record with places to spare, others from vector to vector."""
        k = len(self.bytes)
        store, vertices, triangles = exact(self.mesh(block))
        self.record(ref.record_of(block), Lent(store + k % 3, vertices + k % 7, triangles + k % 4),
                    ref.samples_length(block.n, block.mask) + k % 5)

    def finish(self):
        samples = [(pattern, block.threshold) for block in self.blocks for pattern in block.centre]
        plain = {pattern for pattern, _ in samples}
        assert len(self.bytes) >= 500
        assert self.regular == set(range(256)) and self.transition == set(range(512))
        assert self.masks == set(range(64))
        assert self.refused["record"] | self.refused["block"] == set(range(1, 15))
        assert self.refused["block"] == set(range(1, 11))
        assert self.refused["record"] == {1, 2, 3, 7, 8, 9, 10, 11, 12, 13, 14}
        assert any(pattern == threshold for pattern, threshold in samples)
        assert {MINUS_ZERO, LIMIT, MINUS_LIMIT} <= plain
        return self.bytes


# Blocks

def with_samples(block, changes):
    """The block with other samples at some places, neighbours counted on after the centre."""
    samples = block.centre + block.neighbours
    for place, pattern in changes:
        samples[place] = pattern
    return block._replace(centre=samples[:len(block.centre)],
                          neighbours=samples[len(block.centre):])


class Noise:
    """Blocks of samples that know nothing of each other, but for which of them are inside."""

    def __init__(self, seed):
        self.chance = random.Random(seed)

    def below(self, most):
        return int(self.chance.random() * most)

    def pick(self, choices):
        return choices[self.below(len(choices))]

    def pattern(self, inside, threshold):
        """A sample within 1 of the threshold; one in sixteen of those inside is the threshold."""
        away = (1 + self.below(1024)) / 1024
        if inside:
            return ref.bits(threshold + (away if self.below(16) else 0))
        return ref.bits(threshold - away)

    def block(self, n, mask, insides):
        """The block whose samples are inside or not as told."""
        threshold = self.pick([0.0, -0.0, 0.5, -0.75])
        patterns = [self.pattern(inside, threshold) for inside in insides]
        base = tuple(ref.bits(self.pick([0.0, -3.25, 120.0, 0.1])) for _ in range(3))
        size = ref.bits(self.pick([1.0, 8.0, 0.3]))
        centre = ref.block_length(n)
        return ref.Block(n, mask, ref.bits(threshold), base, size, patterns[:centre],
                         patterns[centre:])

    def insides(self, count):
        return [self.below(2) for _ in range(count)]


def corner_block(noise, pattern):
    """One cell, whose case is told."""
    insides = noise.insides(ref.block_length(1))
    for corner in range(8):
        insides[ref.sample_place(1, ref.corner_point((0, 0, 0), corner))] = pattern >> corner & 1
    return noise.block(1, 0, insides)


def meet_cases(noise, n, mask, insides, met):
    """Makes the fine faces agree with the centre, and their cells meet new cases where they can."""
    settled = set()
    for side in ref.sides_named(mask):
        for u, v in itertools.product(range(n + 1), repeat=2):
            place = ref.fine_place(n, mask, side, 2 * u, 2 * v)
            insides[place] = insides[ref.sample_place(n, ref.face_point(n, side, u, v))]
            settled.add(place)
        for u, v in itertools.product(range(n), repeat=2):
            places = [ref.fine_place(n, mask, side, 2 * u + k % 3, 2 * v + k // 3) for k in range(9)]
            free = [place for place in places if place not in settled]
            for choice in itertools.product((0, 1), repeat=len(free)):
                for place, inside in zip(free, choice):
                    insides[place] = inside
                case = sum(ref.TRANSITION_CONTRIBUTIONS[k] for k in range(9) if insides[places[k]])
                if case not in met:
                    break
            met.add(case)
            settled.update(free)


def transition_blocks(noise):
    """Every mask with one and with two subdivisions; then one with all sides for each corner
    pattern that is still needed to meet all transition cases."""
    met = set()
    for n, mask in itertools.product((1, 2), range(64)):
        insides = noise.insides(ref.samples_length(n, mask))
        meet_cases(noise, n, mask, insides, met)
        yield noise.block(n, mask, insides)
    while len(met) < 512:
        before = len(met)
        insides = noise.insides(ref.samples_length(1, 63))
        meet_cases(noise, 1, 63, insides, met)
        if len(met) > before:
            yield noise.block(1, 63, insides)


def seeded_blocks(count):
    """The first blocks of compare/run whose records have at most 3,000 bytes."""
    maker = subprocess.Popen([compare.PROGRAMS / "blocks", str(10 * count)],
                             stdout=subprocess.PIPE)
    made = (compare.next_record(maker.stdout) for _ in range(10 * count))
    short = [ref.parse(record) for record in made if len(record) <= 3000]
    return short[:count]


def crossing_bars(x, y, z, width=0.9):
    """Three bars that cross in the middle of a block and leave it by all six sides."""
    return 1.0 if sum(abs(k - records.SIZE / 2) < width for k in (x, y, z)) >= 2 else -0.25


# The vectors

def add_meshes(vectors):
    case_a = records.case_a()
    for lent, number in fits(exact(vectors.mesh(case_a))):
        assert vectors.record(ref.record_of(case_a), lent, len(case_a.centre)) == number
    noise = Noise(1)
    for pattern in range(256):
        vectors.meshed_record(corner_block(noise, pattern))
    for block in transition_blocks(noise):
        vectors.meshed_record(block)
    for mask in (0, 1, 2, 4, 8, 16, 32, 63):
        insides = noise.insides(ref.samples_length(3, mask))
        meet_cases(noise, 3, mask, insides, set())
        vectors.meshed_record(noise.block(3, mask, insides))
    for block in seeded_blocks(100):
        vectors.meshed_record(block)


def add_level_blocks(vectors):
    """All samples equal, outside and at the threshold: no vertex, and a store of zeros."""
    for mask in (0, 63):
        for pattern in (ref.bits(-1.0), ZERO):
            vectors.meshed_record(records.level_block(1, mask, pattern))
            for n in range(1, 17):
                vectors.block(records.level_block(n, mask, pattern), Lent(ref.store_length(n), 0, 0))


def fits(lent):
    """The exact places, and one less of each buffer, with the number of the answer."""
    yield lent, 0
    for name, number in (("store", 9), ("vertices", 10), ("triangles", 10)):
        yield lent._replace(**{name: getattr(lent, name) - 1}), number


def add_largest(vectors):
    """16 subdivisions, the most of document 01: alone as a record, and with all six sides as a block."""
    face = records.sampled_block(records.depth_in_rock, 16, 0)
    vectors.record(ref.record_of(face), exact(vectors.mesh(face)), len(face.centre))
    bars = records.sampled_block(crossing_bars, 16, 63)
    for lent, number in fits(exact(vectors.mesh(bars))):
        assert vectors.block(bars, lent) == number


def add_larger(vectors):
    """More than 16 subdivisions: alone, with points inside at three corners and within; and 17 with all six sides."""
    for n in (17, 33, 64):
        inside = [(0, 0, 0), (n, n, n), (n, 0, n // 2), (1, 2, n - 1)]
        alone = with_samples(records.level_block(n, 0, ref.bits(-1.0)),
                             [(ref.sample_place(n, point), ONE) for point in inside])
        lent = exact(vectors.mesh(alone))
        assert vectors.block(alone, lent) == 0
        assert vectors.block(alone, lent._replace(store=lent.store - 1)) == 9
    bars = records.sampled_block(lambda *point: crossing_bars(*point, width=0.7), 17, 63)
    for lent, number in fits(exact(vectors.mesh(bars))):
        assert vectors.block(bars, lent) == number


def record_faults():
    """The record of a small block, damaged, in the order in which the reader judges."""
    whole = ref.record_of(records.level_block(1, 1, ZERO, HALF))

    def put(place, data):
        return whole[:place] + data + whole[place + len(data):]

    def cut(record):
        return words([len(record) - 4]) + record[4:]

    return {
        11: [b"", whole[:26], whole[:-1], whole + b"\0", put(3, bytes([whole[3] + 1]))],
        12: [put(4, bytes([byte])) for byte in (0, 2, 255)],
        1: [put(5, bytes([n])) for n in (0, 65, 255)],
        2: [put(6, bytes([mask])) for mask in (64, 128, 255)],
        3: [put(place, words([pattern])) for place in (11, 15, 19, 23, 7) for pattern in TOO_LARGE]
           + [put(23, words([pattern])) for pattern in (ZERO, LEAST_SIZE - 1, ONE | MINUS_ZERO)],
        13: [cut(whole[:-1]), cut(whole[:-4]), cut(whole[:27]), cut(whole + bytes(4)),
             put(6, b"\0"), put(6, b"\3"), put(5, b"\2")],
        7: [put(27 + 4 * place, words([pattern])) for pattern in TOO_LARGE
            for place in (0, 31, 32, 112)],
    }


def add_record_refusals(vectors):
    block = records.level_block(1, 1, ZERO, HALF)
    whole, count = ref.record_of(block), ref.samples_length(1, 1)
    lent = exact(vectors.mesh(block))
    for number, records_of_it in record_faults().items():
        for faulty in records_of_it:
            assert vectors.record(faulty, lent, count) == number
    for samples in (0, 1, count - 1):
        vectors.record(whole, lent, samples)
    vectors.record(ref.record_of(with_samples(block, [(0, ONE)])), lent, count)
    vectors.record(whole, lent._replace(store=lent.store - 1), count)
    for pair in first_and_next_faults(whole):
        vectors.record(pair, lent, 0)


def first_and_next_faults(whole):
    """Two faults at once: of each two that the reader judges one after the other."""
    faults = [(4, b"\2"), (5, b"\0"), (6, b"\xff"), (11, words([NAN])), (23, words([ZERO])),
              (7, words([INFINITY])), (27, words([NAN]))]
    for first, second in zip(faults, faults[1:]):
        damaged = bytearray(whole)
        for place, data in (first, second):
            damaged[place:place + len(data)] = data
        yield bytes(damaged)
        yield bytes(damaged[:-4])
        yield words([len(damaged) - 8]) + bytes(damaged[4:-4])


def block_faults():
    """A small block, damaged, for each refusal that extraction judges before its buffers."""
    block = records.level_block(2, 63, ZERO, HALF)
    one = ref.block_length(4)
    base = [block._replace(base=tuple(pattern if k == axis else ZERO for k in range(3)))
            for axis in range(3) for pattern in TOO_LARGE]
    numbers = [block._replace(**{name: pattern}) for name in ("size", "threshold")
               for pattern in TOO_LARGE]
    sizes = [block._replace(size=pattern) for pattern in (ZERO, LEAST_SIZE - 1, ONE | MINUS_ZERO)]
    few = records.level_block(2, 0b101010, ZERO, HALF)
    lengths = sorted({0, 1, *(k * one + more for k in range(1, 7) for more in (-1, 0))})
    return {
        1: [block._replace(n=n) for n in (0, 65, 255, 4294967295)],
        2: [block._replace(mask=mask) for mask in (64, 128, 255)],
        3: base + numbers + sizes,
        4: [block._replace(centre=[ZERO] * length) for length in (0, 80, 82)],
        5: [given._replace(neighbours=[ZERO] * length) for given in (block, few)
            for length in lengths if length < len(given.neighbours)],
        6: [given._replace(neighbours=given.neighbours + [ZERO] * more)
            for given in (block, few, records.level_block(2, 0, ZERO, HALF)) for more in (1, one)],
        7: [with_samples(block, [(place, pattern)]) for pattern in TOO_LARGE
            for place in (0, 80, 81, 80 + 6 * one)],
        8: list(mismatches(block)),
    }


def mismatches(block):
    """A fine face point on the other side of the threshold: at each place, and then two at once."""
    spots = list(itertools.product(range(6), range(3), range(3)))
    places = {spot: ref.fine_place(2, 63, spot[0], 2 * spot[1], 2 * spot[2]) for spot in spots}
    for place in places.values():
        yield with_samples(block, [(place, ONE)])
    for first, second in (((0, 0, 2), (0, 1, 0)), ((1, 2, 2), (2, 0, 0)), ((3, 1, 1), (5, 0, 0))):
        yield with_samples(block, [(places[first], ONE), (places[second], ONE)])


def order_blocks():
    """Of each two refusals that extraction judges one after the other, the faults of both."""
    one_up = ref.block_length(2) + 1
    block = records.level_block(2, 63, ZERO, HALF)
    faults = [{"n": 0}, {"mask": 255}, {"base": (NAN, ZERO, ZERO)}, {"centre": [NAN] * one_up}]
    for first, second in zip(faults, faults[1:]):
        yield block._replace(**first, **second)
    yield block._replace(centre=[NAN] * one_up, neighbours=[NAN])
    yield block._replace(neighbours=[NAN])
    yield block._replace(neighbours=block.neighbours + [NAN])
    yield with_samples(block, [(ref.fine_place(2, 63, 0, 0, 0), NAN), (0, ONE)])


def add_block_refusals(vectors):
    room = exact(vectors.mesh(records.level_block(2, 63, ZERO, HALF)))
    for number, blocks in block_faults().items():
        for block in blocks:
            assert vectors.block(block, room) == number
    for block in order_blocks():
        vectors.block(block, room)
    vectors.block(with_samples(records.level_block(2, 63, ZERO, HALF), [(0, ONE)]), Lent(0, 0, 0))
    for n in range(1, 17):
        block = records.level_block(n, 0, ZERO)
        for store in (0, ref.store_length(n) - 1):
            vectors.block(block, Lent(store, 0, 0))
    lone = with_samples(records.level_block(2, 0, ZERO, HALF), [(ref.sample_place(2, (1, 1, 1)), ONE)])
    lent = exact(vectors.mesh(lone))
    for short in (lent._replace(vertices=0), lent._replace(triangles=0),
                  Lent(lent.store, 0, 0), Lent(lent.store - 1, 0, 0)):
        vectors.block(lone, short)


def add_ledge(vectors):
    """A block whose own samples all lie on one side: what there is to see, the transition cells make."""
    ledge = records.ledge()
    assert vectors.mesh(ledge).triangles
    assert not vectors.mesh(ledge._replace(mask=0, neighbours=[])).triangles
    vectors.meshed_record(ledge)


def files(vectors):
    """The vectors laid end to end, cut into files between two of them."""
    laid = [b""]
    for each in vectors:
        if len(laid[-1]) + len(each) > MOST_BYTES:
            laid.append(b"")
        laid[-1] += each
    return laid


def main():
    vectors = Vectors()
    add_meshes(vectors)
    add_level_blocks(vectors)
    add_largest(vectors)
    add_larger(vectors)
    add_record_refusals(vectors)
    add_block_refusals(vectors)
    add_ledge(vectors)
    DATA.mkdir(parents=True, exist_ok=True)
    for old in DATA.glob("v*"):
        old.unlink()
    laid = files(vectors.finish())
    for number, data in enumerate(laid):
        (DATA / ("v%02d" % number)).write_bytes(data)
    print("%d vectors in %d files, %d bytes; %d meshes" % (
        len(vectors.bytes), len(laid), sum(map(len, laid)), len(vectors.blocks)))


if __name__ == "__main__":
    main()
