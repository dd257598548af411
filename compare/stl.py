#!/usr/bin/env python3
"""Our STL calls against tools/reference.py: meshes written and read back, and damaged files.

    python3 compare/stl.py COUNT [FIRST]

Each seed makes a mesh (of a block, or lists at random with numbers of every kind), now and then with a fault (a corner that names no
vertex, a part vertex or triangle at the end, a short buffer), and a file, mostly with one or two faults (cut, grown, another count, other
bytes, a short list). Answer, its three numbers and all of the lent buffer are compared. A NaN that is read has no fixed bits: there it
counts that both are one.
"""

import random
import struct
import sys
from collections import Counter

from calling import MARK, Program, in_turn, seeds, tally
import reference
from damaged import Call

KINDS = [0x7FC00000, 0xFFA00001, 0x7F800001, 0x7F800000, 0xFF800000, 0, 0x80000000, 1, 0x7F7FFFFF]
MARK_BYTES = struct.pack("<I", MARK)


class Ours(Program):
    """The answers of both calls as five numbers and the lent buffer."""

    def __init__(self):
        super().__init__("stl_answers")

    def _ask(self, call, length):
        answer = self.ask(call, 40 + length)
        return list(struct.unpack("<5Q", answer[:40])), answer[40:]

    def write(self, vertices, triangles, room):
        words = [0, len(vertices), len(triangles), room, *vertices, *triangles]
        return self._ask(struct.pack("<%dI" % len(words), *words), room)

    def read(self, file, room):
        numbers, lent = self._ask(struct.pack("<4I", 1, len(file), 0, room) + file, 4 * room)
        return numbers, struct.unpack("<%dI" % room, lent)


def numbers_of(answer):
    """A reference's answer as ours tells it."""
    return [*answer, 0] if isinstance(answer, reference.Refusal) else [0, 0, 0, 0, answer]


def wanted_written(vertices, triangles, room):
    buffer = bytearray((MARK_BYTES * (room // 4 + 1))[:room])
    return numbers_of(reference.write_stl(vertices, triangles, buffer)), bytes(buffer)


def wanted_read(file, room):
    positions = [MARK] * room
    return numbers_of(reference.read_stl(file, positions)), tuple(positions)


def one_nan(numbers, places):
    """The answer with every NaN that was read made the same; beyond them each place counts as it is."""
    read = 9 * numbers[4]
    return numbers, tuple(map(reference.stl_pattern, places[:read])) + tuple(places[read:])


def a_mesh(chance):
    """The flat lists of a mesh."""
    if chance.random() < 0.3:
        mesh = reference.mesh_of(Call(chance).block())
        return [k for vertex in mesh.vertices for k in vertex], [k for triangle in mesh.triangles for k in triangle]
    held, count = chance.choice([1, 2, 3, 10, 50]), chance.choice([0, 1, 2, 7, 30])
    vertices = [chance.choice(KINDS) if chance.random() < 0.2 else chance.getrandbits(32) for _ in range(6 * held)]
    return vertices, [chance.randrange(held) for _ in range(3 * count)]


def damage_mesh(chance, vertices, triangles):
    fault = chance.randrange(4)
    if fault == 0 and triangles:
        held = len(vertices) // 6
        triangles[chance.randrange(len(triangles))] = chance.choice([held, held + 1, 0x80000000, 0xFFFFFFFF])
    elif fault == 1:
        vertices += [chance.getrandbits(32) for _ in range(chance.randrange(1, 6))]
    elif fault == 2:
        triangles += [chance.getrandbits(32) for _ in range(chance.randrange(1, 3))]
    else:
        del vertices[-chance.randrange(1, 7):]


def damage_file(chance, file):
    fault = chance.randrange(6)
    if fault == 0:
        return file[:chance.choice([0, 83, 84, max(0, len(file) - 1), chance.randrange(len(file) + 1)])]
    if fault == 1:
        return file + bytes(chance.choice([1, 49, 50, 51]))
    if fault == 2 and len(file) >= 84:
        count = int.from_bytes(file[80:84], "little")
        count = chance.choice([0, count + 1 & 0xFFFFFFFF, max(0, count - 1), 0xFFFFFFFF, 1 << 31, chance.getrandbits(32)])
        return file[:80] + struct.pack("<I", count) + file[84:]
    file = bytearray(file)
    for _ in range(chance.choice([1, 5, 40]) if file else 0):
        file[chance.randrange(len(file))] = chance.randrange(256)
    return bytes(file)


def short(chance, room):
    """Mostly enough and a little more; now and then too little."""
    return chance.choice([room, room, room + 3, max(0, room - 1), 0])


class Comparison:
    def __init__(self):
        self.ours, self.written, self.read = Ours(), Counter(), Counter()

    def hold(self, what, met, found, wanted):
        met[wanted[0][0]] += 1
        if found != wanted:
            raise SystemExit("%s: ours %s, the reference %s" % (what, found[0], wanted[0]))

    def mesh(self, seed, chance):
        vertices, triangles = a_mesh(chance)
        for _ in range(chance.choice([0, 0, 1, 2])):
            damage_mesh(chance, vertices, triangles)
        room = short(chance, reference.stl_length(len(triangles) // 3))
        written = self.ours.write(vertices, triangles, room)
        self.hold("seed %d, written" % seed, self.written, written, wanted_written(vertices, triangles, room))
        if written[0][0] == 0:
            self.back(seed, vertices, triangles, written[1][:written[0][4]])

    def back(self, seed, vertices, triangles, file):
        """What was written and read again is the corners' positions."""
        corners = [pattern for nine in reference.stl_positions(vertices, triangles) for pattern in nine]
        numbers, positions = one_nan(*self.ours.read(file, len(corners)))
        if numbers != [0, 0, 0, 0, len(triangles) // 3] or list(positions) != corners:
            raise SystemExit("seed %d: what was written is not read back" % seed)

    def file(self, seed, chance):
        file = reference.stl_of(*a_mesh(chance))
        for _ in range(chance.choice([0, 1, 1, 2])):
            file = damage_file(chance, file)
        room = short(chance, 9 * (max(0, len(file) - 84) // 50))
        self.hold("seed %d, read" % seed, self.read, one_nan(*self.ours.read(file, room)), one_nan(*wanted_read(file, room)))


def main(words):
    all_seeds = seeds(words, __doc__)
    comparison = Comparison()
    for seed in in_turn(all_seeds):
        chance = random.Random(seed)
        comparison.mesh(seed, chance)
        comparison.file(seed, chance)
    print("%d meshes and %d files, no difference; answers met in writing: %s; in reading: %s"
          % (len(all_seeds), len(all_seeds), tally(comparison.written), tally(comparison.read)))


if __name__ == "__main__":
    main(sys.argv[1:])
