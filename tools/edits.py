#!/usr/bin/env python3
"""Holds each must-fail edit to the form in which the gate reads it, so that none is applied by a part of its lines.

    edits.py              say each fault on a line of its own; exit status 1 if there is one
    edits.py --self-test  try it on edits with one fault each

An edit is crates/C/must-fail/NAME.edit: comment lines (#), a line `file: PATH` of the crate, and after it pairs of one line `old: TEXT` and
one line `new: TEXT`, each made in what the pair before it left. The gate passes over any other line without a word. An old text must stand
in its file exactly once.
"""
import glob
import os
import sys

ROOT = os.path.dirname(os.path.dirname(os.path.abspath(__file__)))


def faults(lines, read):
    """What is wrong with an edit's lines, where read(PATH) gives the text of a file of the crate, or None."""
    found, texts, path, old, pairs = [], {}, None, None, 0
    for number, line in enumerate(lines, 1):
        if line.startswith("file: "):
            path = line[len("file: "):]
            texts.setdefault(path, read(path))
            if texts[path] is None:
                return found + ["line %d: no file %s" % (number, path)]
        elif line.startswith("old: ") and path is not None and old is None:
            old = line[len("old: "):]
            times = texts[path].count(old)
            if times != 1:
                return found + ["line %d: the old text stands in %s %d times" % (number, path, times)]
        elif line.startswith("new:") and old is not None:
            texts[path] = texts[path].replace(old, line[len("new:"):].removeprefix(" "))
            old, pairs = None, pairs + 1
        elif line and not line.startswith("#"):
            found.append("line %d: passed over: %s" % (number, line))
    if old is not None or pairs == 0:
        found.append("an old text has no new one" if old is not None else "no pair of old and new")
    return found


def check():
    edits = sorted(glob.glob(os.path.join(ROOT, "crates", "*", "must-fail", "*.edit")))
    failed = 0
    for edit in edits:
        crate = os.path.dirname(os.path.dirname(edit))

        def read(path):
            whole = os.path.join(crate, path)
            return open(whole, encoding="utf-8").read() if os.path.isfile(whole) else None

        with open(edit, encoding="utf-8") as text:
            for fault in faults(text.read().splitlines(), read):
                print("%s: %s" % (os.path.relpath(edit, ROOT), fault))
                failed = 1
    print("%d edits" % len(edits))
    return failed


def self_test():
    read = {"src/a.rt": "one two two\nthree\n"}.get
    right = ["# why", "file: src/a.rt", "old: one", "new: four", "old: four", "new:"]
    wrong = [
        ["file: src/b.rt", "old: one", "new: 1"],
        ["file: src/a.rt", "old: two", "new: 2"],
        ["file: src/a.rt", "old: zero", "new: 0"],
        ["file: src/a.rt", "old: one", "three", "new: 1"],
        ["file: src/a.rt", "old: one", "new: 1", "and more"],
        ["file: src/a.rt", "old: one", "old: three", "new: 1"],
        ["file: src/a.rt", "old: one"],
        ["old: one", "new: 1"],
        ["file: src/a.rt"],
    ]
    bad = ["said of a right edit: %s" % fault for fault in faults(right, read)]
    bad += ["nothing said of: %s" % lines for lines in wrong if not faults(lines, read)]
    print("\n".join(bad) or "%d edits as they should be" % (1 + len(wrong)))
    return 1 if bad else 0


if __name__ == "__main__":
    words = sys.argv[1:]
    if words not in ([], ["--self-test"]):
        sys.exit(__doc__)
    sys.exit(self_test() if words else check())
