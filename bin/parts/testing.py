"""`bin/provider test`: passes the tests, unproved, one crate for each core at once."""
import concurrent.futures
import os
import re
import shutil
import subprocess
import sys
import time

import words
from programs import TOP
from words import refuse, usage

TEST = re.compile(r"^\s*#\[test\]", re.M)


def crates():
    """The crates that have tests, in the order of crates.txt."""
    names = []
    with open(os.path.join(TOP, "crates.txt")) as file:
        for line in file:
            if re.match(r"[a-z]", line):
                names.append(line.split(":")[0].split()[0])
    return [name for name in names if has_tests(name)]


def has_tests(name):
    folder = os.path.join(TOP, "crates", name, "src")
    for place, _, files in os.walk(folder):
        for file in files:
            if file.endswith(".rt"):
                with open(os.path.join(place, file)) as source:
                    if TEST.search(source.read()):
                        return True
    return False


def try_one(name):
    """The exit code, what was written, and how long it took, of the tests of a crate."""
    begun = time.monotonic()
    done = subprocess.run(["rt", "try", "--test"], cwd=os.path.join(TOP, "crates", name), stdin=subprocess.DEVNULL,
                          stdout=subprocess.PIPE, stderr=subprocess.STDOUT, text=True, errors="replace")
    return done.returncode, done.stdout, time.monotonic() - begun


def run(names):
    known = crates()
    for name in names:
        if name not in known:
            usage(f"crate `{name}` has no tests{words.meant(name, known)}")
    if not shutil.which("rt"):
        refuse("there is no rt on the path: the Rattle kit has it")
    chosen = [name for name in known if name in names] or known
    failed = []
    with concurrent.futures.ThreadPoolExecutor(int(os.environ.get("RT_JOBS") or os.cpu_count() or 1)) as pool:
        tried = {pool.submit(try_one, name): name for name in chosen}
        for each in concurrent.futures.as_completed(tried):
            name, (code, text, seconds) = tried[each], each.result()
            print(f"{'passed' if code == 0 else 'FAILED'} {name} in {seconds:.0f} s", flush=True)
            if code != 0:
                failed.append(name)
                sys.stderr.write(text)
    print(f"{len(chosen) - len(failed)} passed, {len(failed)} failed")
    return 1 if failed else 0
