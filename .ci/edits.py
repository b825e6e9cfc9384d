#!/usr/bin/env python3
"""Compares the must-fail edits with section 6 of docs/PROMISES.md, from the top of a clone.

Each edit that the section names is there, each one that is there is named once, there are at most
three in a crate and edits in at most twenty-five crates, and the text that each changes stands once in
its file: where it doesn't, `rt ci` says so and passes.
"""
import collections
import glob
import re
import sys

MOST_OF_A_CRATE = 3
MOST_CRATES = 25


def fault_of(path):
    """Returns why an edit can't be tried, or None."""
    texts, old, pairs = {}, None, 0
    for line in open(path, encoding="utf-8").read().splitlines():
        read = re.fullmatch("(file|old|new):(?: (.*))?", line)
        if not read:
            return f"a line that isn't read: {line}"
        word, text = read.groups("")
        if word == "file":
            file = f"{path.partition('/must-fail/')[0]}/{text}"
            texts.setdefault(file, open(file, encoding="utf-8").read())
        elif word == "old":
            old = text
        elif texts[file].count(old) != 1:
            return f"its text stands {texts[file].count(old)} times: {old.strip()}"
        else:
            texts[file] = texts[file].replace(old, text)
            pairs += 1
    return None if pairs else "it changes nothing"


pages = open("docs/PROMISES.md", encoding="utf-8").read()
section = re.search(r"^## 6\. .*?(?=^## |\Z)", pages, re.M | re.S)[0]
named = [f"crates/{crate}/must-fail/{edit}.edit"
         for crate, edit in re.findall(r"\| `(\w+)`: `(\w+)` \|$", section, re.M)]
there = glob.glob("crates/*/must-fail/*")
counts = collections.Counter(path.split("/")[1] for path in there)
faults = [f"{path}: named, but not there" for path in set(named) - set(there)]
faults += [f"{path}: there, but not named" for path in set(there) - set(named)]
faults += [f"{path}: named {n} times" for path, n in collections.Counter(named).items() if n > 1]
faults += [f"crates/{crate}: {n} edits" for crate, n in counts.items() if n > MOST_OF_A_CRATE]
if len(counts) > MOST_CRATES:
    faults.append(f"edits in {len(counts)} crates")
faults += [f"{path}: {fault}" for path in there if (fault := fault_of(path))]
for fault in sorted(faults):
    print(f"edits: {fault}")
print(f"edits: {len(there)} in {len(counts)} crates, {len(faults)} faults")
sys.exit(bool(faults))
