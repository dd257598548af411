#!/usr/bin/env python3
"""The refusals from one table, docs/refusals.tsv: what can be written from it, and what is held to it.

    refusals.py                write README's and API.md's tables, the list in include/sirveshan.h, bindings/rust/src/refusals.rs
    refusals.py --check        say where one of these, the model, the code, the second reading or document 01 differs from the table
    refusals.py --self-test    damage each of them in turn and see that --check tells

A row has the number, the model's name of the case, when it is met, what its three numbers are (empty: 0) and its words, in which {first},
{second} and {third} stand for the numbers, and {first side}, {first measure} for what such a number names.
"""
import ast
import re
import sys
from pathlib import Path
from typing import NamedTuple

ROOT = Path(__file__).resolve().parent.parent
TABLE = "docs/refusals.tsv"
RUST = "bindings/rust/src/refusals.rs"
HEADER = "include/sirveshan.h"
TABLES = ["README.md", "docs/API.md"]
MODEL = "crates/model/specs/Refusals.antt"
TYPES = "crates/model/src"
READING = "tools/reference.py"
DOCUMENT = "docs/01-scope.md"

COLUMNS = ["number", "case", "when", "first", "second", "third", "words"]
NAMES = {
    "side": ["low x", "high x", "low y", "high y", "low z", "high z"],
    "measure": ["base x", "base y", "base z", "size", "threshold"],
}
# Of document 01's refusals those that document 02 gives numbers: 15 by [4].
GIVEN_NUMBERS = {15}
OPENS = "refusals: written by tools/refusals.py from docs/refusals.tsv"
CLOSES = "end of refusals"


class Refusal(NamedTuple):
    number: int
    case: str
    when: str
    numbers: tuple
    words: str

    def used(self):
        """How many of the three numbers it uses."""
        return len([number for number in self.numbers if number])


class Wrong(Exception):
    """Why the table or a file cannot be read."""


def read_table(text):
    head, *rows = [line.split("\t") for line in text.splitlines()]
    if head != COLUMNS:
        raise Wrong("%s: its columns are not %s" % (TABLE, ", ".join(COLUMNS)))
    refusals = []
    for row in rows:
        if len(row) != len(COLUMNS):
            raise Wrong("%s: %d columns in the row of %s" % (TABLE, len(row), row[0]))
        refusals.append(Refusal(int(row[0]), row[1], row[2], tuple(row[3:6]), row[6]))
    numbers = [refusal.number for refusal in refusals]
    if numbers != sorted(set(numbers)):
        raise Wrong("%s: its numbers do not rise" % TABLE)
    for refusal in refusals:
        if list(refusal.numbers) != sorted(refusal.numbers, key=lambda number: not number):
            raise Wrong("%s: %d leaves out a number before one that it uses" % (TABLE, refusal.number))
        for place, kind in holes(refusal.words):
            if place not in COLUMNS[3 : 3 + refusal.used()] or kind and kind not in NAMES:
                raise Wrong("%s: %d has no {%s}" % (TABLE, refusal.number, " ".join([place, kind]).strip()))
    return refusals


def holes(words):
    """The places of a text that stand for a number, each with what the number names."""
    return re.findall(r"\{(\w+) ?(\w*)\}", words)


# ---- what is written


def table_text(refusals):
    lines = ["| number | when | its numbers |", "|---|---|---|"]
    lines += ["| %d | %s | %s |" % (r.number, r.when, ", ".join(filter(None, r.numbers))) for r in refusals]
    return "".join(line.replace("|  |", "| |") + "\n" for line in lines)


def header_text(refusals):
    lines = []
    for refusal in refusals:
        numbers = "; ".join(filter(None, refusal.numbers))
        lines.append((" *   %2d  %-52s%s" % (refusal.number, refusal.when, numbers)).rstrip())
    return "".join(line + "\n" for line in lines)


def rust_words(words):
    """A text as a Rust expression."""
    if not holes(words):
        return '"%s".to_string()' % words
    named = ["name(&%s, %s)" % (kind.upper(), place) for place, kind in holes(words) if kind]
    return "format!(%s)" % ", ".join(['"%s"' % re.sub(r"\{\w+ \w+\}", "{}", words)] + named)


def rust_text(refusals):
    lines = [
        "//! What each refusal says in words. Written by tools/refusals.py from docs/refusals.tsv: change",
        "//! the words there.",
        "",
    ]
    for kind, names in NAMES.items():
        listed = ", ".join('"%s"' % name for name in names)
        lines.append("const %s: [&str; %d] = [%s];" % (kind.upper(), len(names), listed))
    lines += [
        "",
        "fn name<'a>(names: &[&'a str], number: usize) -> &'a str {",
        '    names.get(number).copied().unwrap_or("unknown")',
        "}",
        "",
        "/// The words of a refusal with its three numbers; none for a number that no refusal has.",
        "#[rustfmt::skip]",
        "pub(crate) fn words(number: u32, [first, second, third]: [usize; 3]) -> Option<String> {",
        "    Some(match number {",
    ]
    lines += ["        %d => %s," % (refusal.number, rust_words(refusal.words)) for refusal in refusals]
    return "\n".join(lines + ["        _ => return None,", "    })", "}"]) + "\n"


def between_marks(path, text, body, left, right):
    """The text with what stands between its two marks replaced."""
    opens, closes = left + OPENS + right + "\n", left + CLOSES + right + "\n"
    if text.count(opens) != 1 or text.count(closes) != 1 or text.index(closes) < text.index(opens):
        raise Wrong("%s: the lines '%s' and '%s' do not stand there once each" % (path, opens.strip(), closes.strip()))
    before, rest = text.split(opens)
    return before + opens + body + closes + rest.split(closes)[1]


def written(files, refusals):
    """Each file that is written, as it should be."""
    made = {RUST: rust_text(refusals)}
    for path in TABLES:
        if path in files:
            made[path] = between_marks(path, files[path], table_text(refusals), "<!-- ", " -->")
    made[HEADER] = between_marks(HEADER, files[HEADER], header_text(refusals), " * [", "]")
    return made


# ---- what is held to the table


def model_cases(text):
    """Each case of the model's numbers_of: its name, its number, how many of its numbers are not 0."""
    cases = []
    for name, bare, number, rest in re.findall(r"^numbers_of (?:\((\w+)[^)]*\)|(\w+)) = numbers (\d+) (.*)$", text, re.M):
        atoms = re.findall(r"\([^)]*\)|\S+", rest)
        cases.append((name or bare, int(number), len([atom for atom in atoms if atom != "0"])))
    return cases


def code_cases(text):
    """The same of the code: a refusal's From for the numbers."""
    body = re.search(r"fn from\(refusal: Refusal\)(.*?)\n    }", text, re.S)
    cases = []
    arms = r"Refusal::(\w+)(?:\(\w+\))? => (?:\{\s*)?[\w:]+\s*[({]([^})]*)[)}]"
    for name, inner in re.findall(arms, body.group(1) if body else "", re.S):
        atoms = [atom.split(":")[-1].strip() for atom in inner.split(",") if atom.strip()]
        cases.append((name, int(atoms[0]), len([atom for atom in atoms[1:] if atom != "0"])))
    return cases


def enum_cases(text):
    body = re.search(r"pub enum Refusal \{(.*?)\n}", text, re.S)
    return re.findall(r"^\s*(\w+)(?:\(\w+\))?,$", body.group(1) if body else "", re.M)


def reading_cases(text):
    """Each refusal that the second reading answers: number, and how many numbers it gives."""
    calls = [node for node in ast.walk(ast.parse(text)) if isinstance(node, ast.Call)]
    calls = [call for call in calls if isinstance(call.func, ast.Name) and call.func.id == "Refusal"]
    return {(call.args[0].value, len(call.args) - 1) for call in calls if isinstance(call.args[0], ast.Constant)}


def document_cases(text):
    """The rows of document 01's table: number, and whether it gives numbers."""
    return [(int(number), numbers != "0") for number, numbers in re.findall(r"^\| (\d+) \| .* \| ([^|]*) \|$", text, re.M)]


def differences(files):
    try:
        refusals = read_table(files[TABLE])
        made = written(files, refusals)
    except Wrong as reason:
        return [str(reason)]
    reports = ["%s: not what is written from the table" % path for path, text in made.items() if files.get(path) != text]
    wanted = [(r.case, r.number, r.used()) for r in refusals]
    for path, found in [(MODEL, model_cases(files[MODEL])), (TYPES, code_cases(files[TYPES]))]:
        for case in sorted(set(wanted) ^ set(found), key=lambda case: case[1]):
            where = "only in the table" if case in wanted else "not so in the table"
            reports.append("%s: %s is %d with %d numbers: %s" % ((path,) + case + (where,)))
    if enum_cases(files[TYPES]) != [r.case for r in refusals]:
        reports.append("%s: the cases of Refusal are not the table's, in its order" % TYPES)
    for number, used in sorted(reading_cases(files[READING]) ^ {(r.number, r.used()) for r in refusals}):
        reports.append("%s: %d with %d numbers stands only here or only in the table" % (READING, number, used))
    for number, used in document_cases(files[DOCUMENT]):
        if (number, used or number in GIVEN_NUMBERS) not in {(r.number, r.used() > 0) for r in refusals}:
            reports.append("%s: %d is not so in the table" % (DOCUMENT, number))
    return reports


# ---- the commands


def read_files():
    """All that is written or held, by path; the files of a folder as one text."""
    files = {}
    for path in [TABLE, RUST, HEADER, *TABLES, MODEL, TYPES, READING, DOCUMENT]:
        full = ROOT / path
        if full.is_dir():
            files[path] = "".join(file.read_text() for file in sorted(full.glob("*.rt")))
        elif full.exists():
            files[path] = full.read_text()
    return files


def write():
    files = read_files()
    try:
        made = written(files, read_table(files[TABLE]))
    except Wrong as reason:
        sys.exit("refusals.py: %s" % reason)
    for path, text in made.items():
        if files.get(path) != text:
            (ROOT / path).write_text(text)
            print("written:", path)
    return 0


def check():
    reports = differences(read_files())
    for report in reports:
        print(report)
    print("%d differences" % len(reports))
    return 1 if reports else 0


def self_test():
    files = read_files()
    if differences(files):
        sys.exit("refusals.py: --check is not clean, so the self-test can show nothing")
    damages = [
        (TABLE, "length wanted", ""),
        (TABLE, "CentreLength", "CenterLength"),
        (TABLE, "{second}", "{fourth}"),
        (TABLE, "coordinates outside, 1 to 3", ""),
        (TABLE, "mask above 63", "mask above 64"),
        (TABLE, "\n8\t", "\n9\t"),
        (RUST, "above 63", "above 64"),
        (HEADER, "mask above 63", "mask above 64"),
        (HEADER, OPENS, "refusals"),
        (MODEL, "numbers 9 wanted 0 0", "numbers 14 wanted 0 0"),
        (MODEL, " at.u ", " 0 "),
        (TYPES, "    Mask(usize),\n", ""),
        (TYPES, "Refusal::Mask(", "Refusal::Marsk("),
        (READING, "Refusal(2, mask)", "Refusal(2)"),
        (READING, "Refusal(2, mask)", "Refusal(1, mask)"),
        (DOCUMENT, "| 11 | record under 27 bytes, or its length field wrong | 0 |", "| 11 | record | its length |"),
    ]
    damages += [(path, "mask above 63", "mask above 64") for path in TABLES if path in files]
    missed = []
    for path, old, new in damages:
        if old not in files[path]:
            missed.append("%s has no '%s' to damage" % (path, old))
        elif not differences({**files, path: files[path].replace(old, new)}):
            missed.append("%s: '%s' for '%s' is not told" % (path, new, old))
    for line in missed:
        print(line)
    print("%d damages, %d not told" % (len(damages), len(missed)))
    return 1 if missed else 0


def main(words):
    commands = {(): write, ("--check",): check, ("--self-test",): self_test}
    if tuple(words) not in commands:
        print(__doc__)
        return 2
    return commands[tuple(words)]()


if __name__ == "__main__":
    sys.exit(main(sys.argv[1:]))
