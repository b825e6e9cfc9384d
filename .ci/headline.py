#!/usr/bin/env python3
"""Makes docs/HEADLINE.md: how to check the main claim in an hour, with its definitions cut out of the
sources.

usage: headline.py [--check]    writes the page; with --check it fails where the page is another one

The page's text is `.ci/headline.md`. In it a line `@cut CRATE/PATH NAME` becomes the definition of that
name, or the signature and the contract of that function, as it is in the source; and `@row CRATE/PATH
NAME[, NAME..] | TEXT` a row of a table with the definitions, their file and line, how many lines they
have together, and the text. A name that isn't there, or is there twice, is a fault, and so is an edit of
`must-fail` that the page names and that isn't there.
"""
import re
import sys
from pathlib import Path

TOP = Path(__file__).resolve().parent.parent
PAGE = TOP / "docs" / "HEADLINE.md"
TEXT = TOP / ".ci" / "headline.md"
MOST_LINES = 150


def definition(path, name):
    """Where the item of this name begins in a file, with its comment, and its lines."""
    lines = (TOP / "crates" / path).read_text(encoding="utf-8").splitlines()
    word = re.escape(name)
    if path.endswith(".rt"):
        begins, comment, ends = rf"(pub )?fn {word}\b", "///", r"\{|\}$"
    else:
        begins = rf"\s*(pub )?(abbrev|unfoldable|record|data)( pub)? {word}(?= |$)"
        begins, comment, ends = rf"{begins}|\s*pub (record|data) {word}(?= |$)", "--", "$"
    found = [i for i, line in enumerate(lines) if re.match(begins, line)]
    if len(found) != 1:
        sys.exit(f"headline: {path} has {name} {len(found)} times")
    first = last = found[0]
    while first > 0 and lines[first - 1].lstrip().startswith(comment):
        first -= 1
    while last + 1 < len(lines) and not re.match(ends, lines[last + 1]):
        last += 1
    indent = len(lines[found[0]]) - len(lines[found[0]].lstrip())
    return found[0] + 1, [line[indent:] for line in lines[first:last + 1]]


def place(path, line):
    return f"[`{path}:{line}`](../crates/{path}#L{line})"


def cut(path, name):
    line, text = definition(path, name)
    return [f"{place(path, line)}", "", "```", *text, "```"]


def row(path, names, text):
    found = [definition(path, name) for name in names]
    shown = ", ".join(f"`{name}`" for name in names)
    return f"| {shown} | {place(path, found[0][0])} | {sum(len(it) for _, it in found)} | {text} |"


def page():
    made, total = [], 0
    for line in TEXT.read_text(encoding="utf-8").splitlines():
        word, _, rest = line.partition(" ")
        if word == "@cut":
            made += cut(*rest.split())
        elif word == "@row":
            named, _, text = rest.partition(" | ")
            path, _, names = named.partition(" ")
            made.append(row(path, names.split(", "), text))
            total += int(made[-1].split(" | ")[2])
        else:
            made.append(line)
    for crate, edit in re.findall(r"\| `(\w+)`: `(\w+)` \|$", "\n".join(made), re.M):
        if not (TOP / "crates" / crate / "must-fail" / f"{edit}.edit").exists():
            sys.exit(f"headline: there is no edit {edit} of {crate}")
    if len(made) > MOST_LINES:
        sys.exit(f"headline: the page has {len(made)} lines; {MOST_LINES} are the limit")
    return "\n".join(made).replace("@total", str(total)) + "\n"


if sys.argv[1:] == ["--check"]:
    if not PAGE.exists() or PAGE.read_text(encoding="utf-8") != page():
        sys.exit("headline: docs/HEADLINE.md isn't what .ci/headline.py makes; run it")
elif sys.argv[1:]:
    sys.exit(__doc__)
else:
    PAGE.write_text(page(), encoding="utf-8")
