#!/usr/bin/env python3
"""tools/x86.sh in a small project with a toolchain of its own making: the library is the sources' as they stand, and what is missing is said.

    python3 tools/test_x86.py
"""

import os
import shutil
import subprocess
import tempfile
import unittest
from pathlib import Path

HERE = Path(__file__).resolve().parent
TOOLS = "bash env readlink dirname mktemp rm cat sed tee cp mkdir tail find sort xargs sha256sum".split()

# Makes a library, or a program, of the source's text, in the folder of its crate.
RT = """#!/bin/bash
[ "$1" != version ] || { cat ../../kit 2> /dev/null || cat kit; exit; }
echo "${PWD##*/}: $*" >> ../../calls
echo "rt: chose --jobs 2 for ${PWD##*/}"
[ "$(cat src/lib.rt)" != wrong ] || { echo "the reason"; exit 1; }
mkdir -p out
case $1 in
lib) cat src/lib.rt > "out/lib${PWD##*/}.a" ;;
run) cat src/lib.rt > "out/${PWD##*/}" ;;
esac
"""

SCRIPT = """#!/usr/bin/env bash
set -euo pipefail
root=$(dirname "$(readlink -f "$0")")
. "$root/tools/x86.sh"
show_library() { library && cat "$archive"; }
"$@"
"""


class Project(unittest.TestCase):
    def setUp(self):
        made = tempfile.TemporaryDirectory()
        self.addCleanup(made.cleanup)
        self.root = Path(made.name)
        for folder in ("tools", "bin", "crates/sirveshan/src", "crates/listing/src"):
            (self.root / folder).mkdir(parents=True)
        shutil.copy(HERE / "x86.sh", self.root / "tools")
        (self.root / "crates.txt").write_text("sirveshan staticlib:\nlisting:\n")
        (self.root / "kit").write_text("rattle-kit-1\n")
        for tool in TOOLS:
            (self.root / "bin" / tool).symlink_to(shutil.which(tool))
        self.program("bin/rt", RT)
        self.program("bin/uname", "#!/bin/bash\necho x86_64\n")
        self.program("script", SCRIPT)

    def program(self, path, text):
        (self.root / path).write_text(text)
        (self.root / path).chmod(0o755)

    def run_in(self, *words):
        return subprocess.run([self.root / "script", *words], cwd=self.root, capture_output=True, text=True,
                              env={**os.environ, "PATH": str(self.root / "bin"), "CC": "cc"})

    def library_of(self, source):
        """What the library holds once the source has this text, and how often it was made so far."""
        (self.root / "crates/sirveshan/src/lib.rt").write_text(source)
        done = self.run_in("show_library")
        self.assertEqual(done.returncode, 0)
        calls = (self.root / "calls").read_text().splitlines()
        return done.stdout, calls.count("sirveshan: lib")

    def missing(self, done, *said):
        self.assertEqual(done.returncode, 77)
        for words in said:
            self.assertIn(words, done.stderr)


class Library(Project):
    def test_is_that_of_the_sources(self):
        self.assertEqual(self.library_of("one"), ("one", 1))
        self.assertEqual(self.library_of("one"), ("one", 1))
        self.assertEqual(self.library_of("two"), ("two", 2))
        self.assertEqual(self.library_of("one"), ("one", 3))

    def test_that_is_gone_is_made_again(self):
        self.library_of("one")
        (self.root / "crates/sirveshan/out/libsirveshan.a").unlink()
        self.assertEqual(self.library_of("one"), ("one", 2))

    def test_of_a_crate_below_or_another_toolchain(self):
        self.library_of("one")
        (self.root / "crates/listing/src/more.rt").write_text("more")
        self.assertEqual(self.library_of("one"), ("one", 2))
        (self.root / "kit").write_text("rattle-kit-2\n")
        self.assertEqual(self.library_of("one"), ("one", 3))

    def test_tells_what_is_proved(self):
        (self.root / "crates/sirveshan/src/lib.rt").write_text("one")
        done = self.run_in("library")
        self.assertEqual(done.stdout, "")
        self.assertEqual(done.stderr.splitlines(), ["script: proving and building sirveshan first, once: some minutes", "script: proving sirveshan"])
        self.assertEqual(self.run_in("library").stderr, "")

    def test_of_what_is_not_proved(self):
        self.library_of("one")
        (self.root / "crates/sirveshan/src/lib.rt").write_text("wrong")
        done = self.run_in("library")
        self.assertEqual(done.returncode, 2)
        self.assertIn("the reason", done.stderr)
        self.assertIn("script: sirveshan is not proved and built", done.stderr)


class Program(Project):
    def test_is_that_of_the_sources(self):
        for source in ("one", "two"):
            (self.root / "crates/listing/src/lib.rt").write_text(source)
            self.assertEqual(self.run_in("program", "listing").returncode, 0)
            self.assertEqual((self.root / "crates/listing/out/listing").read_text(), source)

    def test_of_what_is_not_proved(self):
        (self.root / "crates/listing/src/lib.rt").write_text("wrong")
        done = self.run_in("program", "listing")
        self.assertEqual(done.returncode, 2)
        self.assertIn("the reason", done.stderr)


class Missing(Project):
    def test_toolchain(self):
        (self.root / "bin/rt").unlink()
        self.missing(self.run_in("library"), "rt is missing", "rattle-kit-")

    def test_compiler(self):
        self.missing(self.run_in("find_x86_cc"), "cc is missing")

    def test_emulator_and_compiler_elsewhere(self):
        self.program("bin/uname", "#!/bin/bash\necho riscv64\n")
        self.missing(self.run_in("find_x86"), "qemu-x86_64 is missing")
        self.program("bin/qemu-x86_64", "#!/bin/bash\n")
        self.assertEqual(self.run_in("find_x86").returncode, 0)
        self.missing(self.run_in("find_x86_cc"), "x86_64-linux-gnu-gcc is missing")


if __name__ == "__main__":
    unittest.main()
