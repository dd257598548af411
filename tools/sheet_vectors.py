#!/usr/bin/env python3
"""Makes crates/sheet_test's run of records, its standard input, and the sheet that it must print, always the same bytes.

    python3 tools/sheet_vectors.py

The sheet is tools/reference.py's, which shares nothing with the proved code.  The run has every kind of line: records with no
finer side, with one and with six, blank ones, each refusal that the sheet can have, records whose length field is too small for a
record, and a cut end; or the script ends.
"""

import struct
import sys
from pathlib import Path

import reference as ref
from records import agree, case_a, depth_in_rock, level_block, sampled_block

CRATE = Path(__file__).resolve().parent.parent / "crates" / "sheet_test"
REFUSALS = {1, 2, 3, 7, 8, 11, 12, 13}
INSIDE, OUTSIDE, NAN = ref.bits(1.0), ref.bits(-1.0), 0x7FC00000


def mixed(n, mask):
    """Each third sample is inside, and each fifth; the fine faces agree."""
    samples = [INSIDE if k % 3 == 0 or k % 5 == 0 else OUTSIDE for k in range(ref.samples_length(n, mask))]
    agree(n, mask, samples)
    own = ref.block_length(n)
    return level_block(n, mask, OUTSIDE)._replace(centre=samples[:own], neighbours=samples[own:])


def with_sample(block, place, pattern):
    samples = block.centre + block.neighbours
    samples[place] = pattern
    own = ref.block_length(block.n)
    return block._replace(centre=samples[:own], neighbours=samples[own:])


def with_byte(record, place, byte):
    return record[:place] + bytes([byte]) + record[place + 1:]


def told(body):
    """Bytes after a length field that tells them."""
    return struct.pack(">I", len(body)) + body


def disagreeing(n, mask, side, u, v):
    block = level_block(n, mask, OUTSIDE)
    return with_sample(block, ref.fine_place(n, mask, side, 2 * u, 2 * v), INSIDE)


def records():
    small, finer = mixed(1, 0), mixed(2, 0b000010)
    record = ref.record_of(small)
    return [
        ref.record_of(case_a()),
        ref.record_of(sampled_block(depth_in_rock, 4, 0)),
        told(b""),
        ref.record_of(mixed(2, 0b100000)),
        told(record[4:26]),
        ref.record_of(mixed(1, 0b111111)),
        with_byte(record, 4, 2),
        with_byte(record, 5, 0),
        with_byte(record, 6, 64),
        ref.record_of(small._replace(size=0)),
        ref.record_of(level_block(2, 0, INSIDE)),
        ref.record_of(level_block(1, 0, OUTSIDE)),
        told(record[4:] + bytes(4)),
        ref.record_of(with_sample(small, 9, NAN)),
        ref.record_of(with_sample(finer, len(finer.centre) + 5, NAN)),
        ref.record_of(disagreeing(2, 0b001100, 3, 1, 2)),
        ref.record_of(mixed(3, 0)),
        record[:-1],
    ]


def main():
    run = b"".join(records())
    sheet = ref.sheet(run)
    met = {line.number for line in sheet if isinstance(line, ref.Refusal)}
    if len(sheet) != len(records()) or met != REFUSALS:
        sys.exit("%d lines of %d records, refusals %s" % (len(sheet), len(records()), sorted(met)))
    (CRATE / "stdin").write_bytes(run)
    (CRATE / "stdout").write_text(ref.sheet_text(run))


if __name__ == "__main__":
    main()
