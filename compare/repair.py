#!/usr/bin/env python3
"""Our repair call against tools/reference.py: damaged deliveries, repaired by both.

    python3 compare/repair.py COUNT [FIRST]

Each seed makes a delivery with samples of every kind (NaNs of several payloads, infinities, the limits and one step beyond them, both
zeros), with faces that disagree, and now and then with a fault in a length, a number, the filler or the lent list. Answer, its three
numbers, every bit of the delivery and all of the lent list are compared; and then that a second pass lists nothing, and that the list
undone backwards gives the delivery back.
"""

import struct
import sys
from collections import Counter
from typing import NamedTuple

from calling import MARK, Program, answers, seeds, tally
import reference
from damaged import BAD, LIMIT, SMALL, Call

SIGN = 1 << 31
NANS = [0x7FC00000, 0x7FC00001, 0xFFC12345, 0x7F800001, 0xFFA5A5A5, 0x7FFFFFFF]
WILD = NANS + BAD + [0x7F7FFFFF, 0xFF7FFFFF]
TAME = [0, SIGN, 1, SIGN | 1, LIMIT, SIGN | LIMIT, LIMIT - 1, 0x3F000000, 0xBF000000]

# The subdivisions of one delivery in five hundred.
LARGER = [17, 20]


class Delivery(NamedTuple):
    """What one call lends, the words of its list, and the filler of the second pass."""
    block: reference.Block
    filler: int
    room: int
    filler_again: int


class Ours(Program):
    """The answer of the call as five numbers; the centre, the neighbours and the lent list as one list of words."""

    def __init__(self):
        super().__init__("repair_answers")

    def answer(self, delivery):
        return self.repair(delivery.block, delivery.filler, delivery.room)

    def repair(self, block, filler, room):
        lengths = [len(block.centre), len(block.neighbours), room]
        words = [block.n, block.mask, block.threshold, *block.base, block.size, filler, *lengths, *block.centre, *block.neighbours]
        answer = self.ask(struct.pack("<%dI" % len(words), *words), 40 + 4 * sum(lengths))
        return list(struct.unpack("<5Q", answer[:40])), list(struct.unpack("<%dI" % sum(lengths), answer[40:]))


def scattered(chance, samples):
    """Numbers of every kind at random places."""
    for _ in range(chance.choice([0, 0, 1, 3, 20]) if samples else 0):
        samples[chance.randrange(len(samples))] = chance.choice(WILD if chance.random() < 0.6 else TAME)


def disagreeing(chance, call):
    """Fine samples at the points that are shared, at random; those of one side in all of them now and then."""
    for side in reference.sides_named(call.mask):
        share = chance.choice([0, 0.1, 0.5, 1])
        for u in range(call.n + 1):
            for v in range(call.n + 1):
                if chance.random() < share:
                    call.neighbours[reference.shared_place(call, side, u, v)] = chance.choice(TAME + WILD[:3])


def a_delivery(chance):
    call = Call(chance, SMALL if chance.randrange(500) else LARGER)
    disagreeing(chance, call)
    scattered(chance, call.centre)
    scattered(chance, call.neighbours)
    for _ in range(chance.choice([0, 0, 0, 1])):
        call.damage(chance)
    block = call.block()
    filler = chance.choice(TAME) if chance.random() < 0.9 else chance.choice(WILD)
    fit = reference.refuse_lent(block) or reference.refuse_filler(filler)
    count = 0 if fit else len(reference.changes_of(block, filler))
    room = chance.choice([4 * count, 4 * count, 4 * count + 7, max(0, 4 * count - 1), 0])
    return Delivery(block, filler, room, chance.choice(TAME))


def difference(what, found, wanted):
    """Where two answers differ first, or None."""
    if found == wanted:
        return None
    places = [k for k, (a, b) in enumerate(zip(found[1], wanted[1])) if a != b]
    word = "word %d is %08x, not %08x" % (places[0], found[1][places[0]], wanted[1][places[0]]) if places else "the words are the same"
    return "%s: ours %s, the reference %s; %s" % (what, found[0], wanted[0], word)


def lasting_fault(ours, delivery, left, lent):
    """What is wrong with a second pass over what an accepted call left, or with its list undone, or None."""
    again = ours.repair(left, delivery.filler_again, 3)
    undone = reference.copied(left)
    reference.undo_changes(undone, [reference.Change(*lent[at:at + 4]) for at in range(0, len(lent), 4)])
    if undone != delivery.block:
        return "undone, the list does not give the delivery back"
    return difference("a second pass", again, ([0] * 5, left.centre + left.neighbours + [MARK] * 3))


def fault_by(ours):
    """What is wrong with an answer, or None."""
    def fault(delivery, found):
        left, lent = reference.copied(delivery.block), [MARK] * delivery.room
        answer = reference.repair(left, delivery.filler, lent)
        refused = isinstance(answer, reference.Refusal)
        numbers = [*answer, 0] if refused else [0, 0, 0, 0, answer]
        wrong = difference("the call", found, (numbers, left.centre + left.neighbours + lent))
        if wrong or refused:
            return wrong
        own = len(left.centre) + len(left.neighbours)
        return lasting_fault(ours, delivery, left, found[1][own:own + 4 * answer])
    return fault


def main(words):
    all_seeds, ours = seeds(words, __doc__), Ours()
    met, changes = Counter(), 0
    for numbers, _ in answers(all_seeds, a_delivery, ours, fault_by(ours)):
        met[numbers[0]] += 1
        changes += numbers[4]
    print("%d deliveries, %d changes, no difference; answers met: %s" % (len(all_seeds), changes, tally(met)))


if __name__ == "__main__":
    main(sys.argv[1:])
