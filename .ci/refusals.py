#!/usr/bin/env python3
"""Drives the launcher into each refusal, and looks for the words that it says of it.

    .ci/refusals.py PROVIDER LAUNCHER

The last line is `N passed, M failed`.
"""
import os
import pathlib
import sys
import tempfile

sys.dont_write_bytecode = True
from checks import Checks, run

TOP = pathlib.Path(__file__).resolve().parent.parent

checks = Checks("refusals")
check = checks.check


SITE = b"site\n%send\n"
PEER = b"peer MOC none sha1 60 000000000000\n"
RAF = b"raf sagr=1.raf=onlt%d MOC timely 1 5 60\n"
# a script, its exit code, and words that stand in what is said of it
REFUSALS = [
    ("a first word", b"\nfly\n", 3, [b"line 2", b"(fly)", b"no word", b"help drill"]),
    ("a form", b"mark 1\n", 3, [b"line 1", b"(mark 1)", b"malformed", b"help drill"]),
    ("a closed connection", b"shut 1\n", 3, [b"line 1", b"(shut 1)", b"isn't open"]),
    ("an open one", b"open 1\nopen 1\n", 3, [b"line 2", b"(open 1)", b"open already"]),
    ("an ask", b"ask 1 unbind\n", 3, [b"line 1", b"(ask 1 unbind)", b"isn't open"]),
    ("a turn's form", b"take no\n", 3, [b"line 1", b"(take no)", b"malformed"]),
    ("an empty air", b"take\ndone\n", 3, [b"line 2", b"(done)", b"in the air"]),
    ("an open head", b"site\nprovider GROUND\n", 3, [b"no end", b"`end`"]),
    ("cause 1", SITE % b"fly\n", 4, [b"line 2", b"no line has"]),
    ("cause 2", SITE % b"provider\n", 4, [b"line 2", b"too few words"]),
    ("cause 3", SITE % b"provider AB\n", 4, [b"line 2", b"out of its range"]),
    ("cause 4", SITE % (PEER + PEER), 4, [b"line 3", b"once more"]),
    ("cause 5", SITE % (RAF % 1), 4, [b"line 2", b"above it"]),
    ("cause 6", SITE % (PEER + b"".join(RAF % n for n in range(33))), 4,
     [b"line 35", b"thirty-third"]),
    ("a full archive", b"site\ncapacity 64\nend\nframe 0/0/0 0 41 0 " + b"00" * 64 + b"\n", 9,
     [b"capacity"]),
    ("a long script", b"#" * 16_777_217, 11, [b"16777216", b"in parts"]),
]


def said(launcher, name, words, status, wanted, provider, **more):
    """The launcher ends and writes as the program does, and says the words on a line of its own."""
    own = run([provider, *words], **more)
    found = run([launcher, *words], **more)
    check(f"{name}, program", (own[0], own[2]), (status, b""))
    check(f"{name}, launcher", found[:2], own[:2])
    check(f"{name}, lines", (found[2].count(b"\n"), found[2][:10]), (1, b"provider: "))
    for word in wanted:
        check(f"{name}, {word}", word in found[2], True)


def sites(launcher, path):
    """`check` names the line of the configuration itself."""
    for name, script, status, wanted in REFUSALS:
        if status != 4:
            continue
        path.write_bytes(script.removeprefix(b"site\n").removesuffix(b"end\n"))
        number = int(wanted[0].split()[1]) - 1
        found = run([launcher, "check", path])
        told = b"bad site %d %s\n" % (number, name.split()[1].encode())
        check(f"check, {name}", found[:2], (4, told))
        for word in [b"line %d of %s" % (number, bytes(path)), *wanted[1:]]:
            check(f"check, {name}, {word}", word in found[2], True)
    status, output, errors = run([launcher, "check", TOP / "examples/station.conf"])
    check("check, a site", (status, output), (0, b"valid\n"))
    for word in [b"2 peers: MOC, SCIENCE", b"6 instances", b"raf=offl1 (SCIENCE)", b"268435456 octets"]:
        check(f"check, a site, {word}", word in errors, True)
    secret, none = (f"peer MOC bind sha1 60 {word}\n" for word in ("a1b2c3d4e5f6", "000000000000"))
    for text, mode, warns in [(secret, 0o644, True), (secret, 0o640, True), (secret, 0o600, False), (none, 0o644, False)]:
        path.write_text(text)
        path.chmod(mode)
        status, output, errors = run([launcher, "check", path])
        check(f"check, mode {mode:o}: {errors}", (status, output, b"others may read" in errors), (0, b"valid\n", warns))
    for line, said in [("peer MOC bind md5 60 a1b2c3d4e5f6", "word 4 (column 15), `md5`,"),
                       ("versions 4 10", "word 3 (column 12), `10`,"), ("heartbeat 9 5 2 100", "don't fit each other"),
                       ("provder GROUND", "did you mean `provider`"), ("capacity", "`capacity N`"),
                       ("raf sagr=1 NOBODY offline 1 0 60", "word 3 (column 12), `NOBODY`,")]:
        path.write_text(line + "\n")
        status, output, errors = run([launcher, "check", path])
        check(f"check, {line}: {errors}", (status, said.encode() in errors), (4, True))


def refusals(provider, launcher):
    for name, script, status, wanted in REFUSALS:
        said(launcher, name, ["drill"], status, wanted, provider, text=script)
    with tempfile.TemporaryDirectory() as folder:
        path = pathlib.Path(folder) / "x.archive"
        path.write_bytes(b"SLEA")
        name = bytes(path)
        said(launcher, "a used path", ["init", path], 5, [name, b"isn't empty"], provider)
        said(launcher, "no archive", ["list", path], 5, [name, b"octet 4"], provider)
        sites(launcher, pathlib.Path(folder) / "x.conf")
        said(launcher, "no file", ["list", folder + "/y"], 8, [b"/y", b"there"], provider)
    folder = os.open("/", os.O_RDONLY)
    said(launcher, "a read fault", ["drill"], 6, [b"can't be read"], provider, stdin=folder)
    os.close(folder)
    with open("/dev/full", "wb") as full:
        for words in [["rehearse", "1"], ["drill"]]:
            found = run([launcher, *words], b"fly\n", stdout=full)
            is_said = b"disk is full" in found[2]
            check(f"a write fault of {words[0]}", (found[0], is_said), (7, True))
    # a success says nothing
    script = (TOP / "examples/first-pass.script").read_bytes()
    check("a success", run([launcher, "drill"], script), run([provider, "drill"], script))


def main(provider, launcher):
    refusals(*(str(pathlib.Path(each).resolve()) for each in (provider, launcher)))
    return checks.end()


if __name__ == "__main__":
    if len(sys.argv) != 3:
        sys.exit(__doc__)
    sys.exit(main(*sys.argv[1:]))
