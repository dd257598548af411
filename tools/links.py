#!/usr/bin/env python3
"""Whether each link to a file, in the project's own pages, leads to one that is there.

    python3 tools/links.py
"""

import re
import subprocess
import sys
from pathlib import Path

ROOT = Path(__file__).resolve().parent.parent


def pages():
    listed = subprocess.run(["git", "ls-files", "*.md"], cwd=ROOT, capture_output=True, text=True)
    return [ROOT / name for name in listed.stdout.split()]


def broken(page):
    """The links of a page that lead nowhere."""
    fences = re.sub(r"^```.*?^```$", "", page.read_text(), flags=re.M | re.S)
    text = "\n".join(line for line in fences.splitlines() if not line.startswith("    "))
    targets = [target.split("#")[0] for target in re.findall(r"\]\(([^)\s]+)\)", text)]
    return [target for target in targets if target and "://" not in target and not (page.parent / target).exists()]


def main():
    found = [(page.relative_to(ROOT), target) for page in pages() for target in broken(page)]
    for page, target in found:
        print("%s: %s is not there" % (page, target))
    print("%d pages, %d links lead nowhere" % (len(pages()), len(found)))
    return 1 if found else 0


if __name__ == "__main__":
    sys.exit(main())
