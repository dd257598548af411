#!/usr/bin/env python3
"""The listing program as it was before document 02, [9], on records of today and on larger ones.

    python3 compare/former.py PROGRAM COUNT [FIRST]

PROGRAM is the listing program of an earlier commit, built with the toolchain of its time.  The records of COUNT seeds from FIRST (0) on that it can read, with at most 16
subdivisions, must be listed as tools/reference.py lists them now; and records of 17 to 22 subdivisions, which fit its bytes, and
small ones that say that they have 17, 33 or 64, must be refused with 1.
"""

import random
import subprocess
import sys

from against_reference import PROGRAMS, build, next_record
from calling import in_turn, seeds
import records
import reference


def listed(program, record):
    return subprocess.run([program], input=record, capture_output=True).stdout.decode()


def larger():
    """Records of more than 16 subdivisions, with what they say."""
    chance = random.Random(9)
    for n in range(17, 23):
        centre = chance.choices([0, 0x3F800000], k=reference.block_length(n))
        yield n, reference.record_of(records.case_a()._replace(n=n, centre=centre))
    for n in (17, 33, 64):
        small = reference.record_of(records.case_a())
        yield n, small[:5] + bytes([n]) + small[6:]


def main(arguments):
    if not arguments:
        sys.exit(__doc__)
    program, all_seeds = arguments[0], seeds(arguments[1:], __doc__)
    build()
    maker = subprocess.Popen([PROGRAMS / "blocks", str(len(all_seeds)), str(all_seeds.start)], stdout=subprocess.PIPE)
    met = 0
    for seed in in_turn(all_seeds):
        record = next_record(maker.stdout)
        if len(record) <= reference.LISTING_BYTES:
            met += 1
            if listed(program, record) != reference.listing(record):
                sys.exit("seed %d: not the listing of today" % seed)
    refused = 0
    for n, record in larger():
        refused += 1
        if listed(program, record) != "refused 1 %d 0 0\n" % n:
            sys.exit("n = %d, %d bytes: not refused with 1" % (n, len(record)))
    print("%d records of at most 16 subdivisions: listed as today; %d larger ones: refused with 1" % (met, refused))


if __name__ == "__main__":
    main(sys.argv[1:])
