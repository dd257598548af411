#!/usr/bin/env python3
"""The Transvoxel tables, from one copy of the numbers (tools/tables/*.txt) to code and specs. The numbers were set down from knowledge of the
published ones and have not been compared with that file.

    tables.py                  write src/*_classes.rt, *_cells.rt, *_codes.rt and specs/*Rows.antt of crates/tables
    tables.py --check          say whether writing them again would change anything
    tables.py --compare FILE   report each entry in which a copy of the published C++ file differs
    tables.py --self-test      try --compare on a file in that layout with two entries altered
"""
import os
import re
import sys
import tempfile

ROOT = os.path.dirname(os.path.dirname(os.path.abspath(__file__)))
NUMBERS = os.path.join(ROOT, "tools", "tables")
CRATE = os.path.join(ROOT, "crates", "tables")


class Table:
    """One table: its file and its name here, its name in the published file, its element type, and its rows as lists of numbers."""

    def __init__(self, file, name, published, element, rows, width, digits):
        self.file = file
        self.name = name
        self.published = published
        self.element = element
        self.rows = rows
        self.width = width
        self.digits = digits

    def padded(self):
        return [row + [0] * (self.width - len(row)) for row in self.rows]

    def flat(self):
        return [number for row in self.padded() for number in row]


def read_rows(file):
    with open(os.path.join(NUMBERS, file + ".txt")) as lines:
        return [[int(word, 0) for word in line.split()] for line in lines]


def class_table(kind, cases):
    numbers = [number for row in read_rows(kind + "_class") for number in row]
    assert len(numbers) == cases, kind
    return Table(kind + "_classes", kind + "_cell_class", kind + "CellClass", "u8", [[number] for number in numbers], 1, 2)


def cell_table(kind, classes, width):
    rows = read_rows(kind + "_cell")
    assert len(rows) == classes and max(map(len, rows)) <= width, kind
    return Table(kind + "_cells", kind + "_cell_data", kind + "CellData", "u8", rows, width, 2)


def vertex_table(kind, cases):
    rows = read_rows(kind + "_vertex")
    assert len(rows) == cases and max(map(len, rows)) <= 12, kind
    return Table(kind + "_codes", kind + "_vertex_data", kind + "VertexData", "u16", rows, 12, 4)


def tables(kind):
    cases, classes, width = {"regular": (256, 16, 16), "transition": (512, 56, 37)}[kind]
    return [class_table(kind, cases), cell_table(kind, classes, width), vertex_table(kind, cases)]


def hexed(number, digits):
    return "0x%0*X" % (digits, number)


# ---- the text of the code and of the specs


def const_text(table):
    rows = table.padded()
    lines = [
        "// Written by tools/tables.py from tools/tables: change the numbers there. Beside each entry stand its row and its place in the row.",
        "pub const %s: [%s; %d] = [" % (table.name.upper(), table.element, len(rows) * table.width),
    ]
    for k, row in enumerate(rows):
        lines += ["    %s, // %s[%d]" % (hexed(number, table.digits), hexed(k, 2), i) for i, number in enumerate(row)]
    return "\n".join(lines + ["];"]) + "\n"


def list_text(numbers, digits):
    return "".join("%s ∷ " % hexed(number, digits) for number in numbers) + "[]"


def rows_text(kind):
    classes, cells, vertices = tables(kind)
    lines = [
        "-- The %s tables as rows. Written by tools/tables.py from tools/tables: change the numbers there." % kind,
        "use Rattle.std.specs.Prelude.{List, [], ◌∷◌, ℕ}",
        "",
        "-- the class of each case",
        "unfoldable pub classes : List ℕ",
        "classes =",
    ]
    numbers = classes.flat()
    for start in range(0, len(numbers), 16):
        lines.append("    " + "".join("%s ∷ " % hexed(n, 2) for n in numbers[start : start + 16]).rstrip())
    lines.append("    []")
    for table, name, says in [
        (cells, "cell_rows", "for each class its counts byte, then its triangles' corners"),
        (vertices, "vertex_rows", "the vertex codes of each case"),
    ]:
        lines += ["", "-- " + says, "unfoldable pub %s : List (List ℕ)" % name, name + " ="]
        lines += ["    (%s) ∷" % list_text(row, table.digits) for row in table.padded()]
        lines.append("    []")
    return "\n".join(lines) + "\n"


def generated():
    files = {}
    for kind in ["regular", "transition"]:
        for table in tables(kind):
            files[os.path.join("src", table.file + ".rt")] = const_text(table)
        files[os.path.join("specs", kind.capitalize() + "Rows.antt")] = rows_text(kind)
    return files


def write():
    for path, text in generated().items():
        with open(os.path.join(CRATE, path), "w") as out:
            out.write(text)
        print("written:", path)
    return 0


def check():
    stale = 0
    for path, text in generated().items():
        full = os.path.join(CRATE, path)
        if not os.path.exists(full) or open(full).read() != text:
            print("would change:", path)
            stale += 1
    print("%d of %d files would change" % (stale, len(generated())))
    return 1 if stale else 0


# ---- the published file


def braces(text):
    """The nested brace list that starts at the first '{' of text, as nested Python lists."""
    stack = [[]]
    for token in re.findall(r"[{}]|0[xX][0-9a-fA-F]+|\d+", text):
        if token == "{":
            stack.append([])
        elif token == "}":
            done = stack.pop()
            stack[-1].append(done)
            if len(stack) == 1:
                return done
        else:
            stack[-1].append(int(token, 0))
    raise ValueError("a brace is not closed")


def flattened(entry):
    if isinstance(entry, int):
        return [entry]
    return [number for part in entry for number in flattened(part)]


def published_rows(text, table):
    """The rows of a table in the C++ text: `.. NAME[..] = { .. };`, comments already taken out."""
    found = re.search(r"\b%s\s*(\[[^\]]*\]\s*)+=\s*(?=\{)" % table.published, text)
    if found is None:
        return None
    rows = [flattened(row) for row in braces(text[found.end() :])]
    return [row + [0] * (table.width - len(row)) for row in rows]


def differences(path):
    text = open(path, encoding="utf-8", errors="replace").read()
    text = re.sub(r"/\*.*?\*/|//[^\n]*", " ", text, flags=re.S)
    reports = []
    for kind in ["regular", "transition"]:
        for table in tables(kind):
            theirs = published_rows(text, table)
            if theirs is None:
                reports.append("%s: not in the file" % table.published)
                continue
            ours = table.padded()
            if len(theirs) != len(ours):
                reports.append("%s: %d rows there, %d here" % (table.published, len(theirs), len(ours)))
            for k, (there, here) in enumerate(zip(theirs, ours)):
                if len(there) != len(here):
                    reports.append("%s[%d]: %d entries there, %d here" % (table.published, k, len(there), len(here)))
                for i, (a, b) in enumerate(zip(there, here)):
                    if a != b:
                        place = "%s[%d][%d]" % (table.published, k, i)
                        reports.append("%s: %s there, %s here" % (place, hexed(a, table.digits), hexed(b, table.digits)))
    return reports


def compare(path):
    reports = differences(path)
    for report in reports:
        print(report)
    print("%d differences" % len(reports))
    return 1 if reports else 0


# ---- the layout of the published file, to try compare on


def cpp_array(table, altered):
    kind = {"u8": "unsigned char", "u16": "unsigned short"}[table.element]
    rows = [[altered.get((table.name, k, i), n) for i, n in enumerate(row)] for k, row in enumerate(table.rows)]
    if table.width == 1:
        body = ", ".join(hexed(row[0], 2) for row in rows)
        return "const %s %s[%d] =\n{\n\t%s\n};\n" % (kind, table.published, len(rows), body)
    if table.element == "u8":
        cells = ["\t{%s, {%s}}" % (hexed(row[0], 2), ", ".join(map(str, row[1:]))) for row in rows]
        struct = table.published[0].upper() + table.published[1:]
        return "const %s %s[%d] =\n{\n%s\n};\n" % (struct, table.published, len(rows), ",\n".join(cells))
    lines = ["\t{%s}" % ", ".join(hexed(n, 4) for n in row) for row in rows]
    return "const %s %s[%d][12] =\n{\n%s\n};\n" % (kind, table.published, len(rows), ",\n".join(lines))


def cpp_text(altered):
    parts = ["// A comment with { braces } and numbers 0x12 that are no entries.\n"]
    parts.append("struct RegularCellData\n{\n\tunsigned char geometryCounts;\n\tunsigned char vertexIndex[15];\n};\n")
    for kind in ["regular", "transition"]:
        parts += [cpp_array(table, altered) for table in tables(kind)]
    return "\n".join(parts)


def reported_for(altered):
    with tempfile.TemporaryDirectory() as folder:
        path = os.path.join(folder, "Transvoxel.cpp")
        with open(path, "w") as out:
            out.write(cpp_text(altered))
        return differences(path)


def self_test():
    assert reported_for({}) == []
    altered = {("regular_vertex_data", 9, 2): 0x3305, ("transition_cell_data", 5, 4): 3}
    assert reported_for(altered) == [
        "regularVertexData[9][2]: 0x3305 there, 0x3304 here",
        "transitionCellData[5][4]: 0x03 there, 0x01 here",
    ]
    print("compare reports nothing for the same numbers, and just the two altered entries")
    return 0


def main(words):
    if words == []:
        return write()
    if words == ["--check"]:
        return check()
    if words == ["--self-test"]:
        return self_test()
    if len(words) == 2 and words[0] == "--compare":
        try:
            return compare(words[1])
        except (OSError, ValueError) as reason:
            print("tables.py: %s: %s" % (words[1], reason))
            return 2
    print(__doc__)
    return 2


if __name__ == "__main__":
    sys.exit(main(sys.argv[1:]))
