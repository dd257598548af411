#!/usr/bin/env python3
"""Document 01's figures, case A and refusals, document 02's STL, blank, reads, repair, cut blocks, the sheet and the weld, asked of
tools/reference.py; the example records.

    python3 tools/test_reference.py
"""

import random
import struct
import unittest

import records
import reference
from records import case_a
from reference import Block, Counts, Refusal, bits

NAN = 0x7FC00000
INFINITY = 0x7F800000
LIMIT = bits(1048576.0)
BEYOND = LIMIT + 1
ZERO, ONE, HALF = bits(0.0), bits(1.0), bits(0.5)
NEGATIVE_ZERO = 0x80000000

CASE_A = """\
mesh 3 1
v 3f000000 00000000 00000000 bf000000 00000000 00000000
v 00000000 3f000000 00000000 00000000 bf000000 00000000
v 00000000 00000000 3f000000 00000000 00000000 bf000000
t 0 1 2
"""


def flat_block(n=1, mask=0, sample=ZERO):
    return Block(n, mask, HALF, (ZERO, ZERO, ZERO), ONE,
                 [sample] * reference.block_length(n),
                 [sample] * reference.neighbours_length(n, mask))


def lent(block, vertices=600, triangles=600):
    return [7] * vertices, [7] * triangles, [7] * (reference.store_length(block.n) + 5)


def with_byte(record, place, byte):
    return record[:place] + bytes([byte]) + record[place + 1:]


def with_number(record, place, pattern):
    return record[:place] + struct.pack(">I", pattern) + record[place + 4:]


class Figures(unittest.TestCase):
    def test_sample_places(self):
        self.assertEqual(reference.block_length(2), 81)
        for point, place in (((1, 2, 0), 15), ((-1, 1, 2), 32), ((1, 2, 3), 77)):
            self.assertEqual(reference.sample_place(2, point), place)
        for point in ((-1, -1, 0), (-2, 0, 0), (0, 4, 0), (3, 0, -1)):
            self.assertIsNone(reference.sample_place(2, point))

    def test_place_kinds(self):
        for point, kind in (((1, 2, 0), reference.IN_BLOCK), ((0, 0, 2), reference.IN_BLOCK), ((-1, 1, 2), 0), ((3, 0, 0), 1), ((0, -1, 0), 2),
                            ((0, 3, 0), 3), ((0, 0, -1), 4), ((1, 2, 3), 5), ((-1, -1, 0), None), ((-2, 0, 0), None)):
            self.assertEqual(reference.place_kind(2, point), kind)
        samples = [ZERO] * 81
        for point, count in (((-1, -1, 0), 2), ((-2, 0, 0), 1), ((0, 4, 0), 1), ((3, 0, -9), 2), ((9, 9, 9), 3)):
            self.assertEqual(reference.read_point(2, samples, *point), reference.Refusal(15, count))

    def test_every_place_once(self):
        for n in (1, 2, 5):
            span = range(-2, n + 3)
            places = [reference.sample_place(n, (x, y, z))
                      for x in span for y in span for z in span]
            self.assertEqual(sorted(place for place in places if place is not None),
                             list(range(reference.block_length(n))))

    def test_neighbour_points(self):
        self.assertEqual(reference.neighbour_point(4, 0, 2 * 1 + 1, 2 * 2), (8, 4, 5))
        self.assertEqual(reference.neighbour_point(4, 0, 2 * 1, 2 * 2), (8, 4, 6))

    def test_rotations_are_right_handed(self):
        for rotation in reference.ROTATIONS:
            (a, b, c), (d, e, f) = rotation.u, rotation.v
            self.assertEqual((b * f - c * e, c * d - a * f, a * e - b * d), rotation.w)

    def test_shrinking(self):
        moves = lambda n, mask, point: (
            reference.Field(flat_block(n, mask)).regular_position(point)
            != reference.Field(flat_block(n, 0)).regular_position(point))
        self.assertTrue(moves(2, 1, (0, 1, 1)))
        self.assertFalse(moves(2, 1, (0, 0, 1)))
        self.assertFalse(any(moves(1, 1, (x, y, z)) for x in (0, 1) for y in (0, 1)
                             for z in (0, 1)))
        self.assertTrue(moves(2, 0b101, (0, 0, 1)))

    def test_used_codes(self):
        codes = {code for row in reference.REGULAR_CODES for code in row}
        self.assertEqual(codes, {0x6201, 0x5102, 0x3304, 0x2315, 0x4113, 0x4223,
                                 0x1326, 0x2245, 0x1146, 0x8337, 0x8157, 0x8267})
        self.assertEqual(reference.edge_of(0x6201), (0, 1))

    def test_case_a(self):
        self.assertEqual(reference.listing(reference.record_of(case_a())), CASE_A)

    def test_all_samples_equal(self):
        for mask in (0, 63):
            for sample in (ZERO, HALF, ONE):
                block = flat_block(2, mask, sample)
                self.assertEqual(reference.extract(block, *lent(block)), Counts(0, 0, 64 + (216 if mask else 0)))

    def test_negative_zero_is_inside(self):
        block = flat_block()._replace(threshold=ZERO)
        block.centre[:8] = [NEGATIVE_ZERO, bits(-1.0)] * 4
        field = reference.Field(block)
        self.assertEqual(reference.regular_case(field, (0, 0, 0)), 0x0F)


class Extraction(unittest.TestCase):
    def refused(self, block, refusal, vertices=600, triangles=600, store=None):
        lists = [7] * vertices, [7] * triangles, [7] * (1000 if store is None else store)
        before = [list(numbers) for numbers in lists]
        self.assertEqual(reference.extract(block, *lists), refusal)
        self.assertEqual([list(numbers) for numbers in lists], before)

    def test_fills_the_first_places(self):
        vertices, triangles, store = lent(case_a())
        self.assertEqual(reference.extract(case_a(), vertices, triangles, store), Counts(3, 1, 50))
        self.assertEqual(triangles, [0, 1, 2] + [7] * 597)
        self.assertEqual(vertices[18:], [7] * 582)
        self.assertEqual(store, [0] * 64 + [7] * 5)

    def test_1_2(self):
        self.refused(case_a()._replace(n=0, mask=64), Refusal(1, 0))
        self.refused(case_a()._replace(n=65), Refusal(1, 65))
        for n in (17, 64):
            self.refused(case_a()._replace(n=n), Refusal(4, reference.block_length(n)))
        self.refused(case_a()._replace(mask=64, size=ZERO), Refusal(2, 64))

    def test_3(self):
        bad = [NAN, INFINITY, INFINITY | NEGATIVE_ZERO, BEYOND, BEYOND | NEGATIVE_ZERO]
        for pattern in bad:
            for place in range(3):
                base = tuple(pattern if k >= place else ZERO for k in range(3))
                self.refused(case_a()._replace(base=base, size=pattern), Refusal(3, place))
            self.refused(case_a()._replace(size=pattern, threshold=pattern), Refusal(3, 3))
            self.refused(case_a()._replace(threshold=pattern, centre=[]), Refusal(3, 4))
        for pattern in (ZERO, bits(1 / 1024) - 1, bits(-1.0)):
            self.refused(case_a()._replace(size=pattern), Refusal(3, 3))
        for pattern in (bits(1 / 1024), LIMIT):
            block = case_a()._replace(size=pattern, base=(LIMIT, LIMIT | NEGATIVE_ZERO, ZERO))
            self.assertEqual(reference.extract(block, *lent(block)), Counts(3, 1, 50))

    def test_4_5_6(self):
        self.refused(case_a()._replace(centre=[NAN] * 31), Refusal(4, 32))
        self.refused(case_a()._replace(centre=[NAN] * 33), Refusal(4, 32))
        self.refused(case_a()._replace(neighbours=[NAN]), Refusal(6, 0))
        two = flat_block(1, 0b100010)
        for length, side in ((0, 1), (80, 1), (81, 5), (161, 5)):
            self.refused(two._replace(neighbours=[NAN] * length), Refusal(5, side))
        self.refused(two._replace(neighbours=[NAN] * 163), Refusal(6, 162))

    def test_7(self):
        block = flat_block(1, 1)
        block.neighbours[80] = BEYOND
        self.refused(block, Refusal(7, 32 + 80))
        block.centre[31] = NAN
        self.refused(block, Refusal(7, 31))

    def test_8(self):
        block = flat_block(2, 0b11)
        one = reference.block_length(4)
        place = reference.sample_place(4, reference.neighbour_point(2, 1, 4, 2))
        block.neighbours[one + place] = ONE
        self.refused(block, Refusal(8, 1, 2, 1), store=0)
        block.centre[reference.sample_place(2, reference.face_point(2, 0, 0, 2))] = ONE
        self.refused(block, Refusal(8, 0, 0, 2))

    def test_9_10(self):
        self.refused(case_a(), Refusal(9, 64), store=63, vertices=0)
        self.refused(case_a(), Refusal(10, 3, 1), vertices=17)
        self.refused(case_a(), Refusal(10, 3, 1), triangles=2)
        self.assertEqual(reference.extract(case_a(), [0] * 18, [0] * 3, [0] * 64), Counts(3, 1, 50))


class Reads(unittest.TestCase):
    """Document 02, [7]: the samples that meshing reads, counted one by one as the field is asked for them."""

    def test_as_many_as_stated(self):
        for n, mask in ((1, 0), (2, 0), (2, 0b000001), (3, 0b100110), (1, 63)):
            chance = random.Random(n + mask)
            samples = chance.choices([ZERO, ONE], k=reference.samples_length(n, mask))
            records.agree(n, mask, samples)
            own = reference.block_length(n)
            mesh = reference.mesh_of(flat_block(n, mask)._replace(centre=samples[:own], neighbours=samples[own:]))
            sides = len(reference.sides_named(mask))
            self.assertEqual(mesh.reads, 8 * n ** 3 + 9 * sides * n ** 2 + 14 * len(mesh.vertices))


class Records(unittest.TestCase):
    def test_round_trip(self):
        block = case_a()._replace(base=(NEGATIVE_ZERO, LIMIT, ONE))
        buffer = bytearray(b"\7" * 200)
        self.assertEqual(reference.write(block, buffer), 155)
        self.assertEqual(buffer[155:], b"\7" * 45)
        samples = [7] * 40
        self.assertEqual(reference.read(bytes(buffer[:155]), samples), block)
        self.assertEqual(samples, block.centre + [7] * 8)

    def test_reader_order(self):
        record = reference.record_of(case_a())
        worse = with_number(record, 27, NAN)
        expected = [(worse, Refusal(7, 0))]
        worse = worse + bytes(4)
        worse = (len(worse) - 4).to_bytes(4, "big") + worse[4:]
        expected.append((worse, Refusal(13, 32)))
        for place, refusal in ((7, Refusal(3, 4)), (23, Refusal(3, 3)), (19, Refusal(3, 2)),
                               (11, Refusal(3, 0))):
            worse = with_number(worse, place, INFINITY)
            expected.append((worse, refusal))
        for place, byte, refusal in ((6, 64, Refusal(2, 64)), (5, 65, Refusal(1, 65)),
                                     (4, 2, Refusal(12, 2)), (3, 0, Refusal(11))):
            worse = with_byte(worse, place, byte)
            expected.append((worse, refusal))
        for damaged, refusal in expected:
            samples = [7] * 40
            self.assertEqual(reference.read(damaged, samples), refusal)
            self.assertEqual(samples, [7] * 40)
        self.assertEqual(reference.read(record, [0] * 31), Refusal(14, 32))
        self.assertEqual(reference.parse(b""), Refusal(11))
        self.assertEqual(reference.parse((22).to_bytes(4, "big") + bytes(22)), Refusal(11))

    def test_sample_bytes_not_whole(self):
        record = reference.record_of(case_a())[:-1]
        self.assertEqual(reference.parse((len(record) - 4).to_bytes(4, "big") + record[4:]),
                         Refusal(13, 32))

    def test_writer(self):
        self.assertEqual(reference.write(case_a(), bytearray(154)), Refusal(14, 155))
        self.assertEqual(reference.write(case_a()._replace(n=65), bytearray()), Refusal(1, 65))
        block = flat_block(1, 1)
        block.neighbours[0] = NAN
        self.assertEqual(reference.write(block, bytearray()), Refusal(7, 32))

    def test_neither_judges_8(self):
        block = flat_block(1, 1)
        block.neighbours[reference.sample_place(2, reference.neighbour_point(1, 0, 0, 0))] = ONE
        self.assertEqual(reference.parse(reference.record_of(block)), block)
        self.assertEqual(reference.listing(reference.record_of(block)), "refused 8 0 0 0\n")


class Stl(unittest.TestCase):
    # Three vertices, a part of one more, a triangle and a part of one more.
    VERTICES = [bits(k / 4) for k in range(6 * 3 + 4)]
    TRIANGLES = [2, 0, 1, 0, 0]

    def written(self, vertices, triangles):
        buffer = bytearray(b"\7" * 200)
        length = reference.write_stl(vertices, triangles, buffer)
        self.assertEqual(buffer[length:], b"\7" * (200 - length))
        return bytes(buffer[:length])

    def not_written(self, refusal, triangles, room=200):
        buffer = bytearray(b"\7" * room)
        self.assertEqual(reference.write_stl(self.VERTICES, triangles, buffer), refusal)
        self.assertEqual(buffer, b"\7" * room)

    def not_read(self, refusal, file, room=40):
        positions = [7] * room
        self.assertEqual(reference.read_stl(file, positions), refusal)
        self.assertEqual(positions, [7] * room)

    def test_form(self):
        file = self.written(self.VERTICES, self.TRIANGLES)
        corners = struct.pack("<9f", 3, 3.25, 3.5, 0, 0.25, 0.5, 1.5, 1.75, 2)
        self.assertEqual(file, bytes(80) + b"\1\0\0\0" + bytes(12) + corners + bytes(2))
        self.assertEqual(self.written([], [9, 9]), bytes(84))

    def test_round_trip(self):
        vertices = list(self.VERTICES)
        vertices[0], vertices[7], vertices[14] = NEGATIVE_ZERO, INFINITY, 0xFFA00001
        positions = [7] * 11
        self.assertEqual(reference.read_stl(self.written(vertices, [0, 1, 2]), positions), 1)
        wanted = vertices[0:3] + vertices[6:9] + vertices[12:14] + [NAN]
        self.assertEqual(positions, wanted + [7, 7])

    def test_dropped(self):
        file = bytearray(self.written(self.VERTICES, self.TRIANGLES))
        plain, marked = [7] * 9, [7] * 9
        reference.read_stl(bytes(file), plain)
        file[:80], file[84:96], file[132:] = b"\1" * 80, b"\1" * 12, b"\1" * 2
        self.assertEqual(reference.read_stl(bytes(file), marked), 1)
        self.assertEqual(marked, plain)

    def test_writing_refuses(self):
        self.not_written(Refusal(16, 0), range(3 << 32), room=0)
        self.not_written(Refusal(17, 1), [0, 1, 2, 0, 3, 3, 9, 9, 9], room=0)
        self.not_written(Refusal(14, 184), [0, 1, 2, 2, 1, 0, 9], room=183)

    def test_reading_refuses(self):
        file = self.written(self.VERTICES, self.TRIANGLES)
        for damaged, wanted in ((b"", 84), (file[:83], 84), (file[:84], 134), (file[:-1], 134), (file + b"\0", 134)):
            self.not_read(Refusal(16, wanted), damaged)
        self.not_read(Refusal(16, 84 + 50 * 4294967295), file[:80] + b"\xff" * 4 + file[84:], room=0)
        self.not_read(Refusal(14, 9), file, room=8)


class Repair(unittest.TestCase):
    def damaged(self):
        """Two bad samples and two fine ones that disagree with the centre, one of which is bad too."""
        block = flat_block(1, 0b100001, ONE)
        block.centre[4] = NAN + 5
        block.neighbours[7] = INFINITY
        block.neighbours[reference.shared_place(block, 0, 0, 1)] = NEGATIVE_ZERO
        block.neighbours[reference.shared_place(block, 5, 1, 0)] = BEYOND
        return block

    def test_order(self):
        block = self.damaged()
        low, high = reference.shared_place(block, 0, 0, 1), reference.shared_place(block, 5, 1, 0)
        bad = sorted([(7, INFINITY), (high, BEYOND)])
        filled = [(0, 4, NAN + 5, ZERO)] + [(1, place, old, ZERO) for place, old in bad]
        taken = [(1, low, NEGATIVE_ZERO, ONE), (1, high, ZERO, ONE)]
        self.assertEqual(reference.changes_of(block, ZERO), filled + taken)

    def test_repairs(self):
        block = self.damaged()
        before = reference.copied(block)
        lent = [7] * 80
        count = reference.repair(block, ONE, lent)
        self.assertIsNone(reference.refuse_block(block))
        self.assertIsNone(reference.refuse_face_mismatch(block))
        self.assertEqual(lent[4 * count:], [7] * (80 - 4 * count))
        self.assertEqual(reference.changes_of(block, ZERO), [])
        changes = [reference.Change(*lent[4 * k:4 * k + 4]) for k in range(count)]
        reference.undo_changes(block, changes)
        self.assertEqual(block, before)

    def test_bits_are_taken(self):
        block = flat_block(1, 0b000001, ZERO)._replace(threshold=ZERO)
        place = reference.shared_place(block, 0, 1, 1)
        block.centre[reference.sample_place(1, reference.face_point(1, 0, 1, 1))] = NEGATIVE_ZERO
        block.neighbours[place] = bits(-1.0)
        self.assertEqual(reference.changes_of(block, ONE), [(1, place, bits(-1.0), NEGATIVE_ZERO)])

    def test_refuses(self):
        block = self.damaged()
        before = reference.copied(block)
        wanted = len(reference.changes_of(block, ZERO))
        self.assertEqual(reference.repair(block._replace(n=0), NAN, []), Refusal(1, 0))
        self.assertEqual(reference.repair(block._replace(neighbours=[]), NAN, []), Refusal(5, 0))
        for filler in (NAN, INFINITY, BEYOND):
            self.assertEqual(reference.repair(block, filler, []), Refusal(18))
        lent = [7] * (4 * wanted - 1)
        self.assertEqual(reference.repair(block, ZERO, lent), Refusal(19, wanted))
        self.assertEqual((block, lent), (before, [7] * (4 * wanted - 1)))


class Cut(unittest.TestCase):
    # A volume of 4 x 3 x 5 whose samples tell their place.
    SIZES = (4, 3, 5)
    VOLUME = struct.pack("<60f", *range(60))

    def cut(self, n, first):
        samples = [7] * (reference.block_length(n) + 3)
        self.assertEqual(reference.cut(self.VOLUME, self.SIZES, n, first, samples), reference.block_length(n))
        self.assertEqual(samples[-3:], [7] * 3)
        return reference.values(samples[:-3])

    def not_cut(self, refusal, volume=VOLUME, sizes=SIZES, n=2, first=(0, 0, 0), room=90):
        samples = [7] * room
        self.assertEqual(reference.cut(volume, sizes, n, first, samples), refusal)
        self.assertEqual(samples, [7] * room)

    def test_x_is_fastest(self):
        samples = self.cut(1, (1, 1, 2))
        for (x, y, z), place in {(0, 0, 0): 29, (1, 0, 0): 30, (0, 1, 0): 33, (0, 0, 1): 41, (-1, 1, 0): 32, (1, 0, 2): 54}.items():
            self.assertEqual(samples[reference.sample_place(1, (x, y, z))], place)

    def test_beyond_the_volume(self):
        samples = self.cut(2, (3, 2, 0))
        for point, place in {(0, 0, 0): 11, (2, 2, 2): 35, (3, 0, 1): 23, (-1, 2, 0): 10, (0, 1, -1): 11}.items():
            self.assertEqual(samples[reference.sample_place(2, point)], place)

    def test_side_by_side(self):
        one, next_one = self.cut(2, (0, 0, 0)), self.cut(2, (0, 0, 2))
        for x in range(3):
            for y in range(3):
                for here, there in ((2, 0), (1, -1), (3, 1)):
                    self.assertEqual(one[reference.sample_place(2, (x, y, here))], next_one[reference.sample_place(2, (x, y, there))])

    def test_refusals_in_order(self):
        bad = bytearray(self.VOLUME)
        bad[4 * 17:4 * 18] = struct.pack("<I", NAN)
        bad[4 * 5:4 * 6] = struct.pack("<f", -1048577)
        self.not_cut(Refusal(1, 0), sizes=(0, 0, 0), n=0)
        self.not_cut(Refusal(1, 65), n=65)
        self.not_cut(Refusal(20), sizes=(4, 0, 5), volume=b"")
        self.not_cut(Refusal(20), sizes=(4, 1025, 5))
        self.not_cut(Refusal(21), volume=self.VOLUME[:-1], first=(4, 0, 0))
        self.not_cut(Refusal(21), sizes=(4, 3, 4), first=(4, 0, 0))
        self.not_cut(Refusal(22), volume=bytes(bad), first=(0, 3, 0))
        self.not_cut(Refusal(7, 17), volume=bytes(bad), first=(0, 1, 1), room=0)
        self.not_cut(Refusal(7, 5), volume=bytes(bad), n=1, room=0)
        self.not_cut(Refusal(14, 81), room=80)

    def test_blocks_of_a_whole_volume(self):
        self.assertEqual(reference.first_points((4, 3, 5), 2), [(0, 0, 0), (2, 0, 0), (0, 0, 2), (2, 0, 2)])
        self.assertEqual(reference.first_points((1, 2, 3), 2), [(0, 0, 0)])
        self.assertEqual(len(reference.first_points((512, 512, 512), 16)), 32 ** 3)


class Sheet(unittest.TestCase):
    CORNER = reference.Figures(1, 1, 1, 1, 3, 1)

    def test_figures(self):
        self.assertEqual(reference.figures_of(case_a()), self.CORNER)
        self.assertEqual(reference.figures_of(flat_block(2)), reference.Figures(0, 0, 0, 0, 0, 0))
        self.assertEqual(reference.figures_of(flat_block(2, sample=ONE)), reference.Figures(27, 0, 0, 0, 0, 0))

    def test_edges_by_axis(self):
        for axis in range(3):
            block = records.sampled_block(lambda *point: point[axis] - 1.5, 3, 0)
            edges = [16 if k == axis else 0 for k in range(3)]
            self.assertEqual(reference.figures_of(block)[1:4], tuple(edges))

    def test_crossing_edges_are_those_that_carry(self):
        for block in (case_a(), records.sampled_block(lambda x, y, z: x * y - z - 0.25, 4, 0)):
            made = {tuple(vertex[:3]) for vertex in reference.mesh_of(block).vertices}
            self.assertEqual(sum(reference.figures_of(block)[1:4]), len(made))

    def test_lines(self):
        good = reference.record_of(case_a())
        run = good + with_byte(good, 4, 2) + bytes(4) + good + good[:-1]
        refused = [Refusal(12, 2), Refusal(11), Refusal(11)]
        self.assertEqual(reference.sheet(run), [self.CORNER, *refused[:2], self.CORNER, refused[2]])
        self.assertEqual(reference.sheet_total(run), reference.Figures(2, 2, 2, 2, 6, 2))
        self.assertEqual(reference.sheet_line(run, len(good)), (Refusal(12, 2), 2 * len(good)))
        self.assertIsNone(reference.sheet_line(run, len(run)))

    def test_cut(self):
        good = reference.record_of(case_a())
        for left in (1, 3, 4, 26, len(good) - 1):
            self.assertEqual(reference.sheet(good + good[:left]), [self.CORNER, Refusal(11)])
        self.assertEqual(reference.sheet(b""), [])
        self.assertEqual(reference.sheet_total(b""), reference.Figures(0, 0, 0, 0, 0, 0))

    def test_eight_after_the_reader(self):
        apart = flat_block(mask=1)._replace(neighbours=[ONE] * reference.neighbours_length(1, 1))
        self.assertEqual(reference.sheet(reference.record_of(apart)), [Refusal(8, 0, 0, 0)])


class Weld(unittest.TestCase):
    # Five vertices, two of them on edge 4 and two transition vertices; a part of one more; two triangles and a part of one more.
    VERTICES = list(range(100, 100 + 6 * 5 + 4))
    EDGES = [4, reference.NO_EDGE, 4, reference.NO_EDGE, 9, 4]
    TRIANGLES = [0, 1, 2, 4, 3, 2, 5, 5]
    COUNTS = Counts(5, 2)

    def refused(self, refusal, counts=COUNTS, vertices=VERTICES, triangles=TRIANGLES, edges=EDGES):
        lists = list(vertices), list(triangles), list(edges)
        self.assertEqual(reference.weld(counts, *lists), refusal)
        self.assertEqual(lists, (list(vertices), list(triangles), list(edges)))

    def test_welded(self):
        vertices, triangles, edges = list(self.VERTICES), list(self.TRIANGLES), list(self.EDGES)
        self.assertEqual(reference.weld(self.COUNTS, vertices, triangles, edges), Counts(4, 2))
        self.assertEqual(edges, [4, reference.NO_EDGE, reference.NO_EDGE, 9, 9, 4])
        self.assertEqual(triangles, [0, 1, 0, 3, 2, 0, 5, 5])
        self.assertEqual(vertices, self.VERTICES[:12] + self.VERTICES[18:30] + self.VERTICES[24:])
        again = list(vertices), list(triangles), list(edges)
        self.assertEqual(reference.weld(Counts(4, 2), *again), Counts(4, 2))
        self.assertEqual(again, (vertices, triangles, edges))

    def test_refuses(self):
        self.refused(Refusal(14, 36), Counts(6, 3), triangles=[9], edges=[])
        self.refused(Refusal(14, 9), Counts(5, 3), edges=[])
        self.refused(Refusal(23, 5), edges=[4, 4, 4, 4], triangles=[9] * 6)
        self.refused(Refusal(17, 1), Counts(4, 2))

    def test_low_faces(self):
        """Of a block with a surface at its low faces: each crossed edge once, each corner with its six numbers."""
        block = records.sampled_block(records.depth_in_rock, 6, 0)
        mesh = reference.mesh_of(block)
        welded = reference.welded(mesh)
        self.assertLess(len(welded.vertices), len(mesh.vertices))
        self.assertEqual(len(welded.vertices), len(set(mesh.edges)))
        self.assertEqual(sorted(welded.edges), sorted(set(mesh.edges)))
        corners = [[mesh.vertices[corner] for corner in triangle] for triangle in mesh.triangles]
        self.assertEqual([[welded.vertices[corner] for corner in triangle] for triangle in welded.triangles], corners)


class Layers(unittest.TestCase):
    """Document 02, [12]."""

    def block(self, n=2):
        """Samples that grow along x, and faces outside that are far below."""
        samples = [reference.bits(-9.0)] * reference.block_length(n)
        for x in range(n + 1):
            for y in range(n + 1):
                for z in range(n + 1):
                    samples[reference.sample_place(n, (x, y, z))] = reference.bits(x + (y + z) % 2 / 2)
        return samples

    def extents(self, summary):
        return list(reference.values(summary))

    def test_made_of_both_planes(self):
        summary = [7] * 6
        self.assertIsNone(reference.make_summary(2, self.block(), summary))
        self.assertEqual((self.extents(summary[:4]), summary[4:]), ([0.0, 1.5, 1.0, 2.5], [7, 7]))

    def test_of_equals_the_first_is_kept(self):
        samples = [ZERO] * reference.block_length(1)
        samples[3] = 0x80000000
        self.assertEqual(reference.layer_extent(1, samples, 0), (ZERO, ZERO))
        samples[0] = 0x80000000
        self.assertEqual(reference.layer_extent(1, samples, 0), (0x80000000, 0x80000000))

    def test_set_touches_the_layers_that_hold_the_point(self):
        for x, touched in [(0, [0]), (1, [0, 1]), (2, [1])]:
            self.assertEqual(reference.layers_holding(2, (x, 0, 2)), touched)
        self.assertEqual(reference.layers_holding(2, (-1, 0, 2)), [])
        samples, summary = self.block(), [reference.NAN] * 4
        self.assertIsNone(reference.set_sample(2, samples, (2, 1, 1), reference.bits(9.0), summary))
        self.assertEqual((summary[:2], self.extents(summary[2:])), ([reference.NAN] * 2, [1.0, 9.0]))
        self.assertIsNone(reference.refuse_summary(2, samples, summary))

    def test_refusals_of_making(self):
        samples = self.block()
        for n, held, room, wanted in [(0, samples, 4, (1, 0)), (2, samples[1:], 4, (4, 81)), (2, samples, 3, (14, 4)),
                                      (2, samples[:80] + [reference.NAN], 3, (7, 80))]:
            summary = [7] * room
            self.assertEqual(reference.make_summary(n, held, summary), reference.Refusal(*wanted))
            self.assertEqual(summary, [7] * room)

    def test_refusals_of_setting_in_their_order(self):
        for fault, point, pattern, room, wanted in [(0, (0, 0, 9), 0, 0, (7, 0)), (None, (-1, 3, 0), reference.NAN, 0, (15, 2)),
                                                    (None, (-1, 1, 2), reference.NAN, 0, (7, 32)), (None, (0, 0, 0), 0, 3, (14, 4))]:
            samples, summary = self.block(), [7] * room
            if fault is not None:
                samples[fault] = reference.NAN
            before = list(samples)
            self.assertEqual(reference.set_sample(2, samples, point, pattern, summary), reference.Refusal(*wanted))
            self.assertEqual((samples, summary), (before, [7] * room))

    def test_a_layer_that_differs(self):
        samples, summary = self.block(), [7] * 4
        reference.make_summary(2, samples, summary)
        self.assertEqual(reference.refuse_summary(2, samples, summary[:3]), reference.Refusal(14, 4))
        summary[3] = reference.bits(2.0)
        self.assertEqual(reference.refuse_summary(2, samples, summary), reference.Refusal(26, 1))
        summary[2] = reference.NAN
        self.assertIsNone(reference.refuse_summary(2, samples, summary))

    def test_passed_over(self):
        """The surface is in the second of three layers: the mesh is the same, and two layers' cells are not read."""
        samples, summary = self.block(3), [7] * 6
        reference.make_summary(3, samples, summary)
        block = reference.Block(3, 0, reference.bits(1.75), (0, 0, 0), reference.bits(1.0), samples, [])
        self.assertEqual(reference.layers_over(block, summary), [0, 2])
        plain, layered = reference.mesh_of(block), reference.mesh_of(block, over=[0, 2])
        self.assertEqual(layered._replace(reads=plain.reads), plain)
        self.assertEqual(plain.reads - layered.reads, 2 * 8 * 9)
        summary[5] = reference.NAN
        self.assertEqual(reference.layers_over(block, summary), [0])


class Viewer(unittest.TestCase):
    def test_answers(self):
        record = reference.record_of(case_a())
        self.assertEqual(reference.viewer_subdivisions(record), 1)
        self.assertEqual(reference.viewer_blank(record), 0)
        self.assertEqual(reference.viewer_sample(record, 0, 0, 0), ONE)
        self.assertEqual(reference.viewer_sample(record, -1, 0, 0), ZERO)
        self.assertEqual(reference.viewer_sample(record, -1, -1, 0), (1 << 32) + 15)
        self.assertEqual(reference.viewer_sample(record, -1 << 31, 0, 0), (1 << 32) + 15)

    def test_blank(self):
        block = flat_block()
        block.centre[8:] = [ONE] * 24
        self.assertEqual(reference.viewer_blank(reference.record_of(block)), 1)
        self.assertEqual(reference.viewer_blank(reference.record_of(flat_block(sample=ONE))), 1)

    def with_fine(self, mask, side, u2, v2, w=0):
        block = flat_block(mask=mask)
        block.neighbours[reference.fine_place(1, mask, side, u2, v2, w) - len(block.centre)] = ONE
        return reference.viewer_blank(reference.record_of(block))

    def test_blank_with_sides(self):
        for mask, side in [(1 << side, side) for side in range(6)] + [(63, 5), (0b010001, 4)]:
            for u2, v2 in ((0, 0), (1, 1), (2, 1)):
                self.assertEqual(self.with_fine(mask, side, u2, v2), 0)
                self.assertEqual(self.with_fine(mask, side, u2, v2, w=1), 1)
        apart = flat_block(mask=16)._replace(neighbours=[ONE] * reference.block_length(2))
        self.assertEqual(reference.viewer_blank(reference.record_of(apart)), 0)
        self.assertFalse(reference.mesh_of(apart).triangles)

    def test_blank_is_no_triangle(self):
        self.assertFalse(reference.is_blank(records.ledge()))
        self.assertTrue(reference.mesh_of(records.ledge()).triangles)
        alone = records.ledge()._replace(mask=0, neighbours=[])
        self.assertTrue(reference.is_blank(alone))
        self.assertFalse(reference.mesh_of(alone).triangles)

    def test_refusals(self):
        damaged = with_byte(reference.record_of(case_a()), 4, 3)
        self.assertEqual(reference.viewer_subdivisions(damaged), 112)
        self.assertEqual(reference.viewer_blank(damaged), 112)
        self.assertEqual(reference.viewer_sample(damaged, 9, 9, 9), (1 << 32) + 12)


class Points(unittest.TestCase):
    def test_point_read(self):
        samples = list(range(81))
        self.assertEqual(reference.read_point(2, samples, 1, 2, 3), 77)
        self.assertEqual(reference.read_point(2, samples, 3, 3, 0), Refusal(15, 2))
        self.assertEqual(reference.read_point(2, samples[1:], 9, 9, 9), Refusal(4, 81))
        self.assertEqual(reference.read_point(0, samples, 9, 9, 9), Refusal(1, 0))


class Listing(unittest.TestCase):
    def test_longest_input(self):
        self.assertEqual(reference.listing(bytes(65537)), "refused 11 0 0 0\n")

    def test_store(self):
        for n, text in ((12, "mesh 0 0\n"), (13, "refused 9 18928 0 0\n")):
            self.assertEqual(reference.listing(reference.record_of(flat_block(n))), text)


class Examples(unittest.TestCase):
    def test_stored_as_made(self):
        for name, content in {**records.examples(), **records.deliveries(), **records.runs(), **records.volumes()}.items():
            self.assertEqual((records.EXAMPLES / name).read_bytes(), content)

    def test_all_are_meshed(self):
        for record in records.examples().values():
            self.assertTrue(reference.listing(record).startswith("mesh "))

    def test_finer_face_has_all_three_sides(self):
        mesh = {mask: reference.mesh_of(records.sampled_block(records.depth_in_rock, 7, mask))
                for mask in (0, 0b1, 0b10, 0b10000)}
        for mask in (0b1, 0b10, 0b10000):
            self.assertGreater(len(mesh[mask].triangles), len(mesh[0].triangles))


if __name__ == "__main__":
    unittest.main()
