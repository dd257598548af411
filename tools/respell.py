#!/usr/bin/env python3
"""Brings the names of specs/ and proofs/ to today's spelling: words in snake case, types in camel case. Run once, after port.py.

usage: python3 tools/respell.py [--list]    at the top of the repository; --list prints old and new names and changes nothing

What is respelled: each name that a file of specs/, or a file of lemmas right in proofs/, declares. Names of the library, of Rattle's own making, of src/ and
of strings stay. A name whose new spelling some other thing has already keeps its old one, and is told.
"""
import os
import re
import sys

CRATES = "crates"
TOKEN = re.compile(r"[^\s(){}\[\],.;:λ→=@\"`⌜⌝∣∥⟨⟩!?/\\|&*+#%$^<>≡≢≤≥∷×⊎¬↔∘∙·←↦◌-][^\s(){}\[\],.;:λ→=@\"`⌜⌝∣∥⟨⟩!?/\\|&+#%$^≡≢≥∷×⊎¬↔∘∙·←↦◌]*")
DECLARED = re.compile(r"^\s*(?:mut )?(?:abbrev |unfoldable |pub )*((?:[^\s(){}\[\],.;:λ→=@\"]+ )*[^\s(){}\[\],.;:λ→=@\"]+) : ")
FOREIGN = re.compile(r"^\s*(?:ghost |pub )*use (?:Rattle\.std|mathlib|native|borrow|lib|Prim)\b[^{]*\{([^}]*)\}")


def files(ends):
    for folder, dirs, names in os.walk(CRATES):
        dirs[:] = sorted(d for d in dirs if d not in ("out", ".git"))
        for name in sorted(names):
            if name.endswith(ends):
                yield os.path.join(folder, name)


def declaring(path):
    parts = path.split(os.sep)
    return path.endswith(".antt") and (parts[2] == "specs" or parts[2] == "proofs" and len(parts) == 4)


def snake(name):
    name = re.sub(r"(?<=[a-z0-9])([A-Z])", lambda m: "_" + m.group(1).lower(), name) if name[0].islower() else name
    return name.replace("-", "_")


def new_name(name, facts):
    if name in facts:
        return "".join(part[:1].upper() + part[1:] for part in re.split("[-_]", name))
    return snake(name)


def read(path):
    with open(path, encoding="utf-8") as it:
        return it.read()


def declared_names():
    """The names that are declared, with a file of each; those that are facts; those of the library; and of each file what stands in it."""
    names, facts, foreign, tokens = {}, set(), set(), {}
    for path in files((".antt", ".rt")):
        text = read(path)
        tokens[path] = set(TOKEN.findall(re.sub(r"\.[\w-]+", " ", ghost_of(code_of(text, path), path))))
        for line in text.splitlines():
            m = FOREIGN.match(line)
            if m:
                foreign.update(w.strip().split(" as ")[0] for w in m.group(1).split(","))
            if not declaring(path) or line.strip().startswith("--"):
                continue
            m = DECLARED.match(line)
            if m:
                for name in m.group(1).split():
                    names.setdefault(name, path)
                    if re.search(r"→ Type \d+ *$", line) and name[0].islower():
                        facts.add(name)
    return names, facts, foreign, tokens


def ghost_of(text, path):
    """Of a source file: what a clause could mean by a name, so its imports, parameters and locals, and no function's name or call."""
    return text if path.endswith(".antt") else re.sub(r"\b(fn|mod|use|::)\s*[\w:]+|\w+(?=\()|(?<=::)\w+|(?<!ghost )use [^;]*;|mod \w+;", " ", text)


def code_of(text, path):
    """The text without its comments: names in prose stay."""
    mark = "--" if path.endswith(".antt") else "//"
    return "\n".join(line.split(mark)[0] if mark == "//" or line.lstrip().startswith("--") else line for line in text.splitlines())


def turned(text, table, path):
    mark = "//" if path.endswith(".rt") else "--"
    out = []
    for line in text.split("\n"):
        at = line.find(mark)
        if mark == "--" and not (line.lstrip().startswith("--") or " -- " in line):
            at = -1
        elif mark == "--":
            at = line.find("--") if line.lstrip().startswith("--") else line.find(" -- ")
        code, prose = (line, "") if at < 0 else (line[:at], line[at:])
        code = TOKEN.sub(lambda m: table.get(m.group(0), m.group(0)), code)
        prose = re.sub(r"[A-Za-z][\w'-]*", lambda m: table[m.group(0)] if m.group(0) in table and re.search("[a-z][A-Z]", m.group(0)) else m.group(0), prose)
        prose = re.sub(r"`([^`]*)`", lambda m: "`" + TOKEN.sub(lambda t: table.get(t.group(0), t.group(0)), m.group(1)) + "`", prose)
        out.append(code + prose)
    return "\n".join(out)


def main():
    names, facts, foreign, tokens = declared_names()
    tokens_of_all = set().union(*tokens.values())
    table, kept = {}, []
    wanted = {name: new_name(name, facts) for name in sorted(names) if re.match(r"[a-z]", name) and name not in foreign}
    wanted = {name: new for name, new in wanted.items() if new != name}
    # Where a definition and a lemma fall together the lemma is told apart by an ending.
    for name, new in wanted.items():
        among = [path for path, held in tokens.items() if name in held and path.endswith(".antt")]
        twins = {other for other, to in wanted.items() if to == new and other != name}
        lemma = "-" in name
        if lemma and any(tokens[path] & ({new} | twins) for path in among):
            table[name] = new + "_lem"
        elif not lemma and any(new in tokens[path] for path in among) and new in names and name not in facts:
            table[new], table[name] = new + "_lem", new
        elif new in tokens_of_all and name in facts:
            kept.append((name, new, among))
        else:
            table[name] = new
    for name, new in table.items():
        for path, held in tokens.items():
            if name in held and new in held and path.endswith(".antt") and new not in table:
                print(f"look: {name} becomes {new}, which stands in {path}")
    for name, new, meets in kept:
        print(f"kept: {name}, since {new} or what becomes it stands in {' '.join(meets)}")
    print(f"{len(table)} names respelled, {len(kept)} kept")
    if "--list" in sys.argv:
        for name, new in table.items():
            print(name, new)
        return
    for path in files((".antt", ".rt", ".edit")):
        text = read(path)
        if path.endswith(".edit"):
            target = [line.split(":", 1)[1].strip() for line in text.splitlines() if line.startswith("file:")]
            pieces = text.split("\n")
            result = "\n".join(turned(p, table, target[0] if target else ".antt") if p.startswith(("old:", "new:")) else p for p in pieces)
        else:
            plain = path.endswith(".rt") or path.endswith("Proof.antt") or os.sep + "proofs" + os.sep in path
            result = turned(text, {old: new for old, new in table.items() if not (plain and re.fullmatch("[a-z0-9_]+", old))}, path)
        if result != text:
            with open(path, "w", encoding="utf-8") as it:
                it.write(result)


if __name__ == "__main__":
    main()
