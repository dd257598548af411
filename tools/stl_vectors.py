#!/usr/bin/env python3
"""Makes crates/stl_test/data, and the lines that the program must print, always the same bytes.

    python3 tools/stl_vectors.py

Records, and the STL files of their meshes as tools/reference.py makes them, which shares nothing with
the proved code: document 01's case A, a face with a finer side, one with six, and an empty mesh.  The
finer sides have triangles of their own, or the script ends.
"""

import sys
from pathlib import Path

import reference as ref
from records import case_a, depth_in_rock, sampled_block

CRATE = Path(__file__).resolve().parent.parent / "crates" / "stl_test"


def blocks():
    return {
        "case-a": case_a(),
        "finer": sampled_block(depth_in_rock, 3, 0b000010),
        "six-finer": sampled_block(depth_in_rock, 2, 0b111111),
        "empty": case_a()._replace(centre=[0] * ref.block_length(1)),
    }


def has_transition_triangles(block):
    alone = ref.mesh_of(block._replace(mask=0, neighbours=[]))
    return len(ref.mesh_of(block).triangles) > len(alone.triangles)


def main():
    data = CRATE / "data"
    data.mkdir(parents=True, exist_ok=True)
    lines = []
    for name, block in blocks().items():
        if block.mask and not has_transition_triangles(block):
            sys.exit("%s: its finer sides have no triangle" % name)
        file = ref.mesh_stl(ref.mesh_of(block))
        (data / (name + ".record")).write_bytes(ref.record_of(block))
        (data / (name + ".stl")).write_bytes(file)
        lines.append("%s: %d bytes, as stored; read and written again: %d bytes, as stored\n" % (name, len(file), len(file)))
    (CRATE / "stdout").write_text("".join(lines))


if __name__ == "__main__":
    main()
