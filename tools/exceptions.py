#!/usr/bin/env python3
"""Holds docs/EXCEPTIONS.md and each crate's proofs/Pinned.antt to the public functions of the libraries.

    exceptions.py              say each fault on a line of its own; exit status 1 if there is one
    exceptions.py --list       print each public function, and whether it is pinned and requires something
    exceptions.py --self-test  try it on a small project with one fault after another

Public is a `pub fn` of a library (src/lib.rt) that every `pub mod` on its way lets out, and a method that an `impl` there gives a type for a
trait of the library's own or of the toolchain's std. A method's type stands between its module and its name. Of std's traits an operator requires
what its ghost `can_..` asks.

Each is pinned: crates/C/proofs/Pinned.antt has

    use Rattle.C.proofs.MODULE.NAME.Reads as ALIAS
    pub NAME_pinned : .. ALIAS.Learnt .. ALIAS.Learnt .. → ..

(MODULE_NAME_pinned where two modules have one NAME, TYPE_NAME_pinned of a method; no MODULE for lib.rt): two outcomes that its statement allows are equal. What is not pinned stands in docs/EXCEPTIONS.md, in a table headed `| crate | functions | why not pinned |`.

Each that requires something of its caller stands there too, in a table headed `| crate | functions | require | called by |`, and no other does.
A name stands in backquotes: `name` or `module::name`.
"""
import os
import re
import sys
import tempfile

ROOT = os.path.dirname(os.path.dirname(os.path.abspath(__file__)))

FUNCTION = re.compile(r'^\s*pub\s+(?:extern\s+"C"\s+)?fn\s+(\w+)')
MODULE = re.compile(r"^\s*pub\s+mod\s+(\w+)\s*;")
IMPL = re.compile(r"^impl\b(?:<[^>]*>)?(?:.*\sfor)?\s+(\w+)")
TRAIT = re.compile(r"^pub\s+trait\s+(\w+)")
METHOD = re.compile(r"^\s+fn\s+(\w+)")
GIVEN = re.compile(r"^impl\b(?:<[^>]*>)?\s+(?:\w+::)*(\w+)(<.*>)?\s+for\s+(\w+)")
ASKED = re.compile(r"^\s+ghost can_\w+ = ")
REEXPORT = re.compile(r"^\s*pub\s+use\b")
IMPORT = re.compile(r"^use Rattle\.(\w+)\.proofs\.([\w.]+)\.Reads as (\S+)\s*$")
LEMMA = re.compile(r"^pub (\S+)_pinned\s*:")
BACKQUOTED = re.compile(r"`([\w:]+)`")


def lines_of(path, comment):
    with open(path, encoding="utf-8") as text:
        return [line.split(comment)[0].rstrip() for line in text]


class Function:
    """A public function: its crate, the path of its module, its name, and whether it requires something of its caller."""

    def __init__(self, crate, modules, name, requires, trait=""):
        self.crate = crate
        self.modules = modules
        self.name = name
        self.requires = requires
        self.trait = trait

    def path(self):
        return ".".join(self.modules) + self.trait + "." + self.name if self.trait else ".".join(self.modules + [self.name])

    def called(self):
        return self.crate + "::" + "::".join(self.modules + [self.name])

    def lemmas(self):
        return {"_".join(parts) for parts in ([self.name], self.modules[-1:] + [self.name])}


def requires(lines, start):
    """Whether the contract between the signature that begins at `start` and its body has a `requires`."""
    for line in lines[start:]:
        if re.match(r"^\s*requires\b", line):
            return True
        if re.match(r"^\s*\{", line) or (line.endswith("{") and not re.match(r"^\s*(ensures|requires)\b", line)):
            return False
    return False


def operator_requires(lines, start):
    """Whether the `impl` of an operator that begins at `start` asks something of its operands."""
    for line in lines[start:]:
        if ASKED.match(line):
            return True
        if line.startswith("}"):
            return False
    return False


def public_functions(root, faults):
    found = []
    crates = os.path.join(root, "crates")
    for crate in sorted(os.listdir(crates)):
        source = os.path.join(crates, crate, "src")
        if os.path.exists(os.path.join(source, "lib.rt")):
            walk(source, crate, [], os.path.join(source, "lib.rt"), found, faults)
    return found


def walk(folder, crate, modules, file, found, faults):
    lines = lines_of(file, "//")
    owner = []
    traits = {}
    declared = None
    given_by_std = None
    for at, line in enumerate(lines):
        trait = TRAIT.match(line)
        if trait or line.startswith("}"):
            declared = traits.setdefault(trait.group(1), []) if trait else None
        method = METHOD.match(line)
        if method and declared is not None:
            declared.append((method.group(1), requires(lines, at)))
        if method and given_by_std:
            kind, asked, trait_name = given_by_std
            found.append(Function(crate, modules + [kind], method.group(1), asked, trait_name))
        given = GIVEN.match(line)
        if given or line.startswith("}"):
            given_by_std = None
        if given and given.group(1) in traits:
            for name, asks in traits[given.group(1)]:
                found.append(Function(crate, modules + [given.group(3)], name, asks, given.group(1)))
        elif given:
            given_by_std = (given.group(3), operator_requires(lines, at), given.group(1) + "".join(re.findall(r"\w+", given.group(2) or "")))
        owned = IMPL.match(line)
        if owned or line.startswith("}"):
            owner = [owned.group(1)] if owned else []
        function = FUNCTION.match(line)
        if function:
            found.append(Function(crate, modules + owner, function.group(1), requires(lines, at)))
        module = MODULE.match(line)
        if module:
            name = module.group(1)
            walk(os.path.join(folder, name), crate, modules + [name], os.path.join(folder, name + ".rt"), found, faults)
        if REEXPORT.match(line):
            faults.append("%s: `pub use` is not read here: make the module public instead" % os.path.join("crates", crate))


class Pinned:
    """A crate's Pinned.antt: the functions that it imports, by alias, and the statement of each lemma."""

    def __init__(self, root, crate, faults):
        self.crate = crate
        self.imports = {}
        self.lemmas = {}
        path = os.path.join(root, "crates", crate, "proofs", "Pinned.antt")
        if not os.path.exists(path):
            return
        name = None
        for line in lines_of(path, "--"):
            used = IMPORT.match(line)
            lemma = LEMMA.match(line)
            if used:
                if used.group(1) != crate:
                    faults.append("%s: Pinned.antt takes a statement of another crate, %s" % (crate, used.group(1)))
                self.imports[used.group(3)] = used.group(2)
            elif lemma:
                name = lemma.group(1)
                self.lemmas[name] = line
            elif line and not line[0].isspace():
                name = None
            elif name:
                self.lemmas[name] += " " + line

    def pins(self, function):
        """The lemmas that say of two outcomes of the function that they are equal."""
        aliases = [alias for alias, path in self.imports.items() if path == function.path()]
        return [name for name, statement in self.lemmas.items() if name in function.lemmas() and "≡" in statement
                and any(statement.count(alias + ".Learnt ") >= 2 for alias in aliases)]


class Exceptions:
    """The tables of docs/EXCEPTIONS.md: the functions that are not pinned and those that require something, with the reason."""

    def __init__(self, root, functions, faults):
        self.unpinned = set()
        self.requiring = set()
        kind = None
        for number, line in enumerate(lines_of(os.path.join(root, "docs", "EXCEPTIONS.md"), "\0"), 1):
            cells = [cell.strip() for cell in line.strip().strip("|").split("|")] if line.lstrip().startswith("|") else []
            if cells[:2] == ["crate", "functions"]:
                kind = {"why not pinned": self.unpinned, "require": self.requiring}.get(cells[2] if len(cells) > 2 else "")
                if kind is None:
                    faults.append("EXCEPTIONS.md:%d: a table of functions is headed `why not pinned` or `require`" % number)
            elif not cells:
                kind = None
            elif kind is not None and not re.match(r"^[-: ]*$", cells[0]):
                if len(cells) < 3 or not all(cells[:3]):
                    faults.append("EXCEPTIONS.md:%d: an entry without a reason" % number)
                for named in BACKQUOTED.findall(cells[1] if len(cells) > 1 else ""):
                    self.enter(kind, cells[0], named, number, functions, faults)

    def enter(self, kind, crate, named, number, functions, faults):
        meant = [f for f in functions if f.crate == crate and (f.called() == crate + "::" + named or f.name == named)]
        if len(meant) != 1:
            faults.append("EXCEPTIONS.md:%d: %s::%s is %s" % (number, crate, named, "more than one function" if meant else "no public function"))
        elif meant[0] in kind:
            faults.append("EXCEPTIONS.md:%d: %s stands there twice" % (number, meant[0].called()))
        else:
            kind.add(meant[0])


def check(root, listing=False):
    faults = []
    functions = public_functions(root, faults)
    pinned = {crate: Pinned(root, crate, faults) for crate in sorted({f.crate for f in functions})}
    exceptions = Exceptions(root, functions, faults)
    used = set()
    for f in functions:
        lemmas = pinned[f.crate].pins(f)
        used |= {(f.crate, name) for name in lemmas}
        if not lemmas and f not in exceptions.unpinned:
            faults.append("%s: neither pinned nor listed as `why not pinned`" % f.called())
        if lemmas and f in exceptions.unpinned:
            faults.append("%s: pinned, and listed as `why not pinned`" % f.called())
        if f.requires and f not in exceptions.requiring:
            faults.append("%s: requires something, and is not listed as `require`" % f.called())
        if not f.requires and f in exceptions.requiring:
            faults.append("%s: requires nothing, and is listed as `require`" % f.called())
        if listing:
            print("%s%s%s" % (f.called(), ", pinned" if lemmas else "", ", requires" if f.requires else ""))
    for crate, file in pinned.items():
        for name in file.lemmas:
            if (crate, name) not in used:
                faults.append("%s: %s_pinned pins no public function of that name" % (crate, name))
    return functions, faults


SOURCE = """mod inner;
pub mod outer;
// pub fn commented() {}
pub fn free(x: u64) -> u64
    ensures { result ≡ x }
{
    x
}
"""
OUTER = """pub extern "C" fn bound_to(x: u64) -> u64
    requires { x < 8 }
    ensures { result ≡ x }
{
    x
}

impl<'a> Kept<'a> {
    pub fn of(x: u64) -> u64
        ensures { result ≡ x }
    {
        x
    }
}

impl Add for Sum {
    ghost can_add = { λ a b. a.x + b.x < 8 };

    fn add(self, rhs: Sum) -> Sum {
        Sum { x: self.x + rhs.x }
    }
}
"""
PINNED = """use Rattle.small.proofs.free.Reads as free
use Rattle.small.proofs.outer.bound_to.Reads as bound
use Rattle.small.proofs.outer.Kept.of.Reads as kept
use Rattle.small.proofs.outer.SumAdd.add.Reads as sum

pub free_pinned : (a : _) (r r' : _) → free.Learnt a r → free.Learnt a r'
    → r ≡ r'
free_pinned a r r' h k = pinned h k

pub bound_to_pinned : (a : _) (r r' : _) → bound.Learnt a r → bound.Learnt a r' → r ≡ r'
bound_to_pinned a r r' h k = pinned h k

pub Kept_of_pinned : (a : _) (r r' : _) → kept.Learnt a r → kept.Learnt a r' → r ≡ r'
Kept_of_pinned a r r' h k = pinned h k

pub Sum_add_pinned : (a : _) (r r' : _) → sum.Learnt a r → sum.Learnt a r' → r ≡ r'
Sum_add_pinned a r r' h k = pinned h k
"""
TABLE = """| crate | functions | require | called by |
|---|---|---|---|
| small | `bound_to` | below 8 | large |
| small | `outer::Sum::add` | a small sum | large |
"""
UNPINNED = """
| crate | functions | why not pinned |
|---|---|---|
| small | `free` | any answer will do |
"""


def self_test():
    """Each trial: the files as they should be, with a part replaced; and words of the one fault, or none."""
    trials = [
        ({}, None),
        ({"Pinned": ("pub free_pinned", "pub freed_pinned")}, ["free: neither", "freed_pinned pins no"]),
        ({"Pinned": ("free.Learnt a r'", "free.Asked a")}, ["free: neither", "free_pinned pins no"]),
        ({"Pinned": ("proofs.free.Reads", "proofs.other.Reads")}, ["free: neither", "free_pinned pins no"]),
        ({"Pinned": ("pub free_pinned", "-- pub free_pinned")}, ["free: neither"]),
        ({"outer": ("pub extern", "extern")}, ["bound_to is no public", "bound_to_pinned pins no"]),
        ({"lib": ("pub mod outer", "mod outer")},
         ["bound_to is no public", "Sum::add is no public", "bound_to_pinned pins no", "Kept_of_pinned pins no", "Sum_add_pinned pins no"]),
        ({"lib": ("pub mod outer", "pub use outer::bound_to;\npub mod outer")}, ["`pub use`"]),
        ({"outer": ("    requires { x < 8 }\n", "")}, ["bound_to: requires nothing"]),
        ({"lib": ("    ensures", "    requires { x < 8 }\n    ensures")}, ["free: requires something"]),
        ({"Pinned": ("outer.Kept.of", "outer.of")}, ["outer::Kept::of: neither", "Kept_of_pinned pins no"]),
        ({"Pinned": ("outer.SumAdd.add", "outer.Sum.add")}, ["outer::Sum::add: neither", "Sum_add_pinned pins no"]),
        ({"outer": ("ghost can_add", "ghost may_add")}, ["outer::Sum::add: requires nothing"]),
        ({"EXCEPTIONS": ("| small | `outer::Sum::add` | a small sum | large |\n", "")}, ["outer::Sum::add: requires something"]),
        ({"EXCEPTIONS": ("`bound_to`", "`bound_to`, `gone`")}, ["gone is no public"]),
        ({"EXCEPTIONS": ("`bound_to`", "`bound_to`, `outer::bound_to`")}, ["stands there twice"]),
        ({"EXCEPTIONS": ("| below 8 |", "| |")}, ["without a reason"]),
        ({"EXCEPTIONS": ("| require |", "| needs |")}, ["is headed", "bound_to: requires something", "Sum::add: requires something"]),
        ({"EXCEPTIONS": (TABLE, TABLE + UNPINNED)}, ["free: pinned, and listed"]),
        ({"EXCEPTIONS": (TABLE, TABLE + UNPINNED), "Pinned": (PINNED[PINNED.index("pub free"):PINNED.index("pub bound")], "")}, None),
    ]
    for edits, wanted in trials:
        texts = {"lib": SOURCE, "outer": OUTER, "Pinned": PINNED, "EXCEPTIONS": TABLE}
        for name, (old, new) in edits.items():
            assert texts[name].count(old) == 1, old
            texts[name] = texts[name].replace(old, new)
        with tempfile.TemporaryDirectory() as root:
            places = {"lib": "crates/small/src/lib.rt", "outer": "crates/small/src/outer.rt", "Pinned": "crates/small/proofs/Pinned.antt",
                      "EXCEPTIONS": "docs/EXCEPTIONS.md"}
            for name, text in texts.items():
                path = os.path.join(root, places[name])
                os.makedirs(os.path.dirname(path), exist_ok=True)
                with open(path, "w", encoding="utf-8") as file:
                    file.write(text)
            faults = check(root)[1]
        if len(faults) != len(wanted or []) or not all(any(words in fault for fault in faults) for words in wanted or []):
            print("exceptions.py: the self-test wanted %s and found %s" % (wanted, faults))
            return 1
    print("exceptions.py: self-test ok, %d trials" % len(trials))
    return 0


def main(words):
    if words == ["--self-test"]:
        return self_test()
    if words not in ([], ["--list"]):
        print(__doc__)
        return 2
    functions, faults = check(ROOT, words == ["--list"])
    for fault in faults:
        print("exceptions.py: " + fault)
    if not faults:
        print("exceptions.py: ok, %d public functions" % len(functions))
    return 1 if faults else 0


if __name__ == "__main__":
    sys.exit(main(sys.argv[1:]))
