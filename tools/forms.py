#!/usr/bin/env python3
"""Counts the places in src/ that docs/DESIGN-PASS.md speaks of, point by point: `python3 tools/forms.py [-v] [COMMIT]`.
With -v each place is named. With no commit it reads the files as they stand."""
import collections
import re
import subprocess
import sys

DATA = re.compile(r"crates/tables/src/(regular|transition)_(cells|classes|codes)\.rt$")
GROUPS = [
    ("header", "centre", "neighbours"),
    ("header", "fractions", "centre"),
    ("store", "vertices", "triangles"),
    ("classes", "cells", "codes"),
    ("layer", "side", "marks"),
    ("threshold", "a", "b", "c", "d"),
    ("sizes", "n", "first"),
    ("src", "header"),
    ("centre", "neighbours", "filler"),
    ("at", "stride", "low", "c", "i", "j"),
    ("seen", "hints"),
    ("number", "first", "second", "third"),
]


def files(commit):
    if commit:
        names = subprocess.run(["git", "ls-tree", "-r", "--name-only", commit], capture_output=True, text=True, check=True).stdout.split("\n")
    else:
        names = subprocess.run(["git", "ls-files"], capture_output=True, text=True, check=True).stdout.split("\n")
    for name in sorted(names):
        if re.match(r"crates/\w+/src/.*\.rt$", name) and not DATA.match(name):
            if commit:
                yield name, subprocess.run(["git", "show", f"{commit}:{name}"], capture_output=True, text=True, check=True).stdout
            else:
                yield name, open(name).read()


FN = re.compile(r"^( *)(?:pub(?:\(crate\))? )?(?:extern \"C\" )?fn (\w+)(<[^(]*>)?\(([^{]*?)\)( -> [^{]*?)?\n?(?: *(?:requires|ensures)[^\n]*\n(?: +[^\n]*\n)*?)* *\{\n(.*?)^\1\}", re.M | re.S)


def functions(text):
    for m in FN.finditer(text):
        params = [p.split(":")[0].strip().removeprefix("mut ") for p in m.group(4).split(",") if ":" in p]
        yield m.group(2), params, m.group(4), m.group(6)


def shape(body):
    body = re.sub(r"//[^\n]*", "", body)
    body = re.sub(r"\d[\w.]*", "0", body)
    return re.sub(r"\b[A-Za-z_]\w*\b", lambda m: m.group(0) if m.group(0) in ("for", "while", "if", "else", "let", "mut", "return", "match", "in", "as") else "x", body)


def main():
    args = [a for a in sys.argv[1:] if a != "-v"]
    told = collections.OrderedDict()

    def note(point, place):
        told.setdefault(point, []).append(place)

    for key in ("1 enums of the shape of Option or Result", "1 `if let` or `match` arms that hand a refusal on", "1 parameters that are flags", "1 answers that mean none by a number",
                "2 functions of one shape", "3 `while` loops", "3 `for` over numbers", "4 casts wrapped in a function", "4 printing, comparing or converting by hand",
                "5 parameters that travel together", "5 functions of more than six parameters", "6 arrays with a length beside them", "7 functions that switch on a kind"):
        told[key] = []
    shapes = collections.defaultdict(list)
    for name, text in files(args[0] if args else None):
        short = name.removeprefix("crates/").replace("/src", "")
        for m in re.finditer(r"^(?:pub )?enum (\w+)(?:<[^>]*>)? \{\n(.*?)^\}", text, re.M | re.S):
            variants = [v for v in re.findall(r"^    (\w+)(\(|,)", m.group(2), re.M)]
            if len(variants) <= 3 and any(v in ("Refused", "Passed", "Nothing", "NeverSampled") for v, _ in variants):
                note("1 enums of the shape of Option or Result", f"{short} {m.group(1)}")
        for _ in re.finditer(r"(if let \w+::Refused\(\w+\)|\w+::Refused\(\w+\) => \w+::Refused\(|if let Err\((\w+)\) = \w+ \{\s*return Err\()", text):
            note("1 `if let` or `match` arms that hand a refusal on", short)
        for i, line in enumerate(text.split("\n"), 1):
            if re.match(r"\s*('\w+: )?while ", line):
                note("3 `while` loops", f"{short}:{i}")
            if re.match(r"\s*for .* in [^{]*\.\.", line) and not re.search(r"in &?\w+\[", line):
                note("3 `for` over numbers", f"{short}:{i}")
        for m in re.finditer(r"^pub struct (\w+)[^{]*\{([^}]*)\}", text, re.M):
            if re.search(r"\[\w+; \w+\]", m.group(2)) and re.search(r"\bcount\b|\blen\b", m.group(2)):
                note("6 arrays with a length beside them", f"{short} {m.group(1)}")
        for fn, params, whole, body in functions(text):
            where = f"{short} {fn}"
            if re.search(r": bool\b", whole):
                note("1 parameters that are flags", where)
            if fn in ("next_side", "next_layer", "next_marked", "next_by_words", "look", "lowest_bit", "outside_by"):
                note("1 answers that mean none by a number", where)
            if re.fullmatch(r"\s*\w+ as \w+\s*", body):
                note("4 casts wrapped in a function", where)
            if re.match(r"(print_|as_|numbers_of|plus$|.*_agrees?$|is_refusal|is_at$|kind_number)", fn):
                note("4 printing, comparing or converting by hand", where)
            if any(set(g) <= set(params) for g in GROUPS):
                note("5 parameters that travel together", where)
            if len(params) > 6:
                note("5 functions of more than six parameters", where)
            if re.search(r"match (at|sheet|p|self|cell)\b", body) and re.search(r"(CellIndex|SheetIndex|CellPoint|PlaceKind)::", body):
                note("7 functions that switch on a kind", where)
            if body.count("\n") >= 3:
                shapes[shape(body)].append(where)
    for places in shapes.values():
        if len(places) > 1:
            for place in places:
                note("2 functions of one shape", place)
    for point, places in told.items():
        print(f"{point}: {len(places)}")
        if "-v" in sys.argv:
            for place in places:
                print(f"    {place}")


if __name__ == "__main__":
    main()
