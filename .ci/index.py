#!/usr/bin/env python3
"""Makes docs/INDEX.md: the crates of crates.txt with what each is and stands on, and the files of
definitions with what each defines.

usage: index.py [--check]     writes the page; with --check it fails where the page is another one

What a crate is, and what a file defines, is the first sentence of the comment that it begins with.
"""
import re
import sys
from pathlib import Path

TOP = Path(__file__).resolve().parent.parent
PAGE = TOP / "docs" / "INDEX.md"

HEAD = """\
# Index

`.ci/index.py` makes this page of `crates.txt`, of the first sentence of each crate's `src/lib.rt` or `src/main.rt`, and of
that of each file in its `specs/`. Change these and run it: the gate fails where the page isn't what it makes.

## Crates

In layers, the lowest first. A crate stands on crates of earlier rows, on crates of the kit, which are marked so, and on the
standard library.
"""

DEFINITIONS = """
## Where each definition stands

A file of `specs/` has the definitions that contracts cite, and at times theorems on them for crates above.
"""


def first_sentence(path, mark):
    """The first sentence of the comment that the file begins with, or nothing."""
    words = []
    for line in path.read_text(encoding="utf-8").splitlines():
        if not line.startswith(mark + " "):
            break
        words += line[len(mark):].split()
    sentence = re.match(r"(.+?)\.?(?:(?<=\.) (?=[A-Z`])|$)", " ".join(words))
    return sentence.group(1).replace("|", "\\|") if sentence else ""


def layers():
    """The headings of crates.txt, each with its crates and what these stand on."""
    found = []
    for line in (TOP / "crates.txt").read_text(encoding="utf-8").splitlines():
        if line.startswith("#"):
            found.append((line[1:].strip(), []))
        elif line.strip():
            name, stands_on = line.split(":")
            found[-1][1].append((name.split()[0], stands_on.split()))
    return [(heading, crates) for heading, crates in found if crates]


def root(name):
    library = TOP / "crates" / name / "src" / "lib.rt"
    return library if library.exists() else library.with_name("main.rt")


def crate_row(name, stands_on, own):
    below = [f"`{below}`" + ("" if below in own else " (kit)") for below in stands_on]
    return f"| `{name}` | {first_sentence(root(name), '//')} | {', '.join(below) or '-'} |\n"


def definition_rows(name):
    specs = TOP / "crates" / name / "specs"
    files = sorted(path.relative_to(specs) for path in specs.rglob("*.antt"))
    for file in files:
        if file.name != "Lib.antt":
            yield f"| `{name}` | `{file}` | {first_sentence(specs / file, '--')} |\n"


def page():
    own = {name for _, crates in layers() for name, _ in crates}
    parts = [HEAD]
    for heading, crates in layers():
        parts.append(f"\n**{heading}**\n\n| crate | what it is | stands on |\n|---|---|---|\n")
        parts += [crate_row(name, stands_on, own) for name, stands_on in crates]
    parts.append(DEFINITIONS + "\n| crate | file | what it has |\n|---|---|---|\n")
    for _, crates in layers():
        for name, _ in crates:
            parts += definition_rows(name)
    return "".join(parts)


if sys.argv[1:] == ["--check"]:
    if not PAGE.exists() or PAGE.read_text(encoding="utf-8") != page():
        sys.exit("index: docs/INDEX.md isn't what .ci/index.py makes; run it")
elif sys.argv[1:]:
    sys.exit(__doc__)
else:
    PAGE.write_text(page(), encoding="utf-8")
