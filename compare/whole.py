#!/usr/bin/env python3
"""Our extraction with the further list, and our weld of what it leaves, against tools/reference.py.

    python3 compare/whole.py COUNT [FIRST]

Each seed makes a call as compare/damaged.py does, good but for a fault or two, with a list for the grid edges that is long enough or
not. Answer, its numbers and all places of the four buffers are compared. A mesh is then welded: the lists are compared with the
reference's, each corner must keep its six numbers, and each crossed grid edge must have one regular vertex.
"""

import struct
import sys
from collections import Counter

from calling import MARK, Program, answers, seeds, tally
import reference
from damaged import Call
from weld import Ours as Welder, wanted as welded_by_reference


class Ours(Program):
    """The answer's seven numbers, and the four buffers (store, vertices, triangles, edges)."""

    def __init__(self):
        super().__init__("whole_answers")

    def answer(self, call, summary=None):
        head, lengths = [call.n, call.mask, call.threshold, *call.base, call.size], call.lengths()
        told = [0] if summary is None else [len(summary) + 1]
        samples = [*call.centre, *call.neighbours]
        words = [*head, len(call.centre), len(call.neighbours), *lengths, *told, *samples, *(summary or [])]
        answer = self.ask(struct.pack("<%dI" % len(words), *words), 56 + 4 * sum(lengths))
        places = list(struct.unpack("<%dI" % sum(lengths), answer[56:]))
        buffers = []
        for length in lengths:
            buffers.append(places[:length])
            del places[:length]
        return list(struct.unpack("<7Q", answer[:56])), buffers


class WholeCall(Call):
    """A call of extraction that lends the further list too."""

    def __init__(self, chance):
        super().__init__(chance)
        self.edges = self.vertices // 6 + chance.choice([0, 0, 0, 1, 5])

    def damage(self, chance):
        if chance.random() < 0.3:
            self.edges = chance.choice([0, max(0, self.edges - 1), self.edges // 2])
        else:
            super().damage(chance)

    def lengths(self):
        return [self.store, self.vertices, self.triangles, self.edges]

    def wanted(self, summary=None):
        store, vertices, triangles, edges = ([MARK] * length for length in self.lengths())
        answer = reference.extract(self.block(), vertices, triangles, store, edges, summary)
        numbers = [*answer, 0, 0, 0] if isinstance(answer, reference.Refusal) else [0, 0, 0, 0, *answer]
        return numbers, [store, vertices, triangles, edges]


def a_call(chance):
    call = WholeCall(chance)
    for _ in range(chance.choice([0, 0, 1, 1, 2])):
        call.damage(chance)
    return call


def six_of_corners(vertices, triangles, count):
    return [vertices[6 * corner:6 * corner + 6] for corner in triangles[:3 * count]]


class Faults:
    """What is wrong with an answer, or None; and how many vertices of the meshes were doubled."""

    def __init__(self):
        self.welder, self.doubled = Welder(), 0

    def fault(self, call, found):
        (numbers, buffers), right = found, call.wanted()
        if found != right:
            return "ours %s, the reference %s" % (numbers, right[0])
        return None if numbers[0] else self.weld_fault(call, reference.Counts(*numbers[4:6]), buffers[1:])

    def weld_fault(self, call, counts, lists):
        numbers, after = self.welder.weld(counts, lists)
        if (numbers, after) != welded_by_reference(counts, lists):
            return "the weld differs"
        left, (vertices, triangles, edges) = numbers[4], after
        if six_of_corners(vertices, triangles, counts.triangles) != six_of_corners(*lists[:2], counts.triangles):
            return "a corner has other numbers"
        regular = [edge for edge in edges[:left] if edge != reference.NO_EDGE]
        if sorted(regular) != crossed_edges(call.block()):
            return "a crossed edge has no vertex, or several"
        self.doubled += counts.vertices - left
        return None


def crossed_edges(block):
    """The numbers of the grid edges with one end inside and the other outside, from the samples alone."""
    steps, threshold = range(block.n + 1), reference.value(block.threshold)
    inside = {(x, y, z): reference.inside(reference.value(block.centre[reference.sample_place(block.n, (x, y, z))]), threshold)
              for x in steps for y in steps for z in steps}
    found = []
    for low in inside:
        for axis in range(3):
            high = tuple(low[k] + (k == axis) for k in range(3))
            if high in inside and inside[low] != inside[high]:
                found.append(3 * reference.sample_place(block.n, low) + axis)
    return sorted(found)


def main(words):
    all_seeds, faults = seeds(words, __doc__), Faults()
    met = Counter(numbers[0] for numbers, _ in answers(all_seeds, a_call, Ours(), faults.fault))
    print("%d calls, no difference; %d vertices were doubled; answers met: %s" % (len(all_seeds), faults.doubled, tally(met)))


if __name__ == "__main__":
    main(sys.argv[1:])
