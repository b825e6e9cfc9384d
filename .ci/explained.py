#!/usr/bin/env python3
"""Has lines explained by the built program, and compares what they are said to mean.

    .ci/explained.py PROGRAM PROVIDER LAUNCHER

PROGRAM explains, PROVIDER writes the transcripts and the list, LAUNCHER is `bin/provider`. A file of
.ci/explained/ is what its words (its name, with a dash for a blank) are to write, in words written by
hand: a line as it stands begins with no blank. All transcripts of examples/ and those that its scripts
give are explained too, and a list: there each line is to be read, and a field that isn't one of those
below, which have numbers of their own, is to have a word. The last line is `N passed, M failed`.
"""
import os
import pathlib
import re
import sys
import tempfile

sys.dont_write_bytecode = True
from checks import Checks, run as run_words

TOP = pathlib.Path(__file__).resolve().parent.parent

# The fields that no table of the standard has words for: counts, identifications, octets, times,
# names of this side's and of the peer's own.
OF_NUMBERS = re.compile(
    r"    (?:invokeId|versionNumber|(?:invoker|performer|responder)Credentials|initiatorIdentifier"
    r"|responderIdentifier|responderPortIdentifier|\w+Time|time|antennaId(?:, \w+)?|data"
    r"|dataLinkContinuity|privateAnnotation|frames lost before it|\w+FrameNumber|numberOf\w+|bufferSize"
    r"|latencyLimit|reportingCycle|reportType, periodically|returnTimeoutPeriod|\w*[cC]ltuIdentification"
    r"|cltuLastProcessed, cltuIdentification|cltuLastOk, cltuIdentification|cltuBufferAvailable"
    r"|cltuLastProcessed, \w+Time|cltuLastOk, \w+Time"
    r"|eventInvocationIdentification|eventIdentifier|eventQualifier|cltuData|octets[\w ]*|items"
    r"|heartbeat interval in seconds|dead factor|fault, none of 1 to 5): ")

checks = Checks("explained")


def check(name, found, expected):
    """Of two texts that differ it says where they first do."""
    if found != expected and isinstance(found, str) and isinstance(expected, str):
        lines, wanted = found.splitlines(), expected.splitlines()
        place = next((at for at, pair in enumerate(zip(lines, wanted)) if pair[0] != pair[1]),
                     min(len(lines), len(wanted)))
        if lines[place:place + 1] != wanted[place:place + 1]:
            found, expected = lines[place:place + 1], wanted[place:place + 1]
        name = f"{name}, line {place + 1}"
    checks.check(name, found, expected)


def run(program, words, text=b"", **more):
    """The exit code, and what was written to standard output."""
    return run_words([program, *words], text, **more)[:2]


def lines_of(text):
    """The lines that are explained: no meaning, and no comment."""
    return "".join(line for line in text.splitlines(True) if line[0] not in " #")


def by_hand(program):
    for file in sorted((TOP / ".ci/explained").glob("*.txt")):
        text = "".join(line for line in file.read_text().splitlines(True) if line[0] != "#")
        status, output = run(program, file.stem.split("-"), lines_of(text).encode())
        check(file.name, output.decode(), text)
        check(f"{file.name}, status", status, 0)
        without_end = run(program, file.stem.split("-"), lines_of(text).encode()[:-1])
        check(f"{file.name}, without its last line end", without_end, (status, output))


def readable(program, name, text):
    """Each line is read, and numbers that have words are told by them."""
    # the messages of examples/channels.script are of RCF, those of examples/commands.script of FCLTU
    service = {"channels": ["rcf"], "commands": ["cltu"]}.get(name.split(".")[0], [])
    words = ["explain", *service]
    status, output = run(program, words, text)
    meant = output.decode().splitlines()
    check(f"{name}, status", status, 0)
    check(f"{name}, its lines", lines_of(output.decode()).encode(), text)
    check(f"{name}, unread", [line for line in meant if "not read" in line], [])
    check(f"{name}, numbers", [line for line in meant if line.startswith("    ")
                               and re.search(r": -?\d", line) and not OF_NUMBERS.match(line)], [])
    silent = [line for line, more in zip(meant, [*meant[1:], ""])
              if line[0] != " " and more[:1] != " "]
    check(f"{name}, lines without a meaning", silent, [])


def examples(program, provider):
    for file in sorted((TOP / "examples").glob("*.transcript")):
        readable(program, file.name, file.read_bytes())
    for file in sorted((TOP / "examples").glob("*.script")):
        readable(program, file.name, run(provider, ["drill"], file.read_bytes())[1])
    # a file of one frame, a loss, a production change and a seal
    time = b"\x00\x4e\x20\x00\x00\x03\xe8\x00\x00"
    entries = [b"\x01" + time + b"\x00\x01\x41\x00\x00\x00\x00\x00\x00\x00\x03\x00\x10\xa1",
               b"\x02" + time + b"\x00\x03\x01", b"\x03\x02", b"\x04" + time]
    batch = b"".join(entries)
    head = len(batch).to_bytes(4, "big") + len(entries).to_bytes(2, "big")
    with tempfile.TemporaryDirectory() as folder:
        path = pathlib.Path(folder) / "x.archive"
        path.write_bytes(b"SLEA\0\0\0\1\xa5" + head + batch + b"\0")
        status, listed = run(provider, ["list", path])
        check("a list", (status, listed.count(b"\n")), (0, 4))
        readable(program, "a list", listed)


def statuses(program):
    for words in [[], ["explain", "x"], ["explain", ""], ["explain", "raf", "raf"], ["drill"], ["Explain"]]:
        check(f"words {words}", run(program, words), (2, b"usage\n"))
    check("no line", run(program, ["explain"]), (0, b""))
    check("too long", run(program, ["explain"], b"idle\n" * 13_421_773), (11, b""))
    folder = os.open("/", os.O_RDONLY)
    check("a read fault", run(program, ["explain"], stdin=folder), (6, b""))
    os.close(folder)
    with open("/dev/full", "wb") as full:
        check("a write fault", run(program, ["explain"], b"idle\n", stdout=full)[0], 7)
        check("a write fault of usage", run(program, [], stdout=full)[0], 7)


def launched(program, launcher):
    text = (TOP / "examples/two-users.transcript").read_bytes()
    check("launched", run(launcher, ["explain"], text), run(program, ["explain"], text))
    check("launched, of a service", run(launcher, ["explain", "cltu"], b"notice 0\n"),
          run(program, ["explain", "cltu"], b"notice 0\n"))
    for words in [["explain", "x"], ["explain", "raf", "raf"], ["prove", "x"]]:
        check(f"launched, {words}", run(launcher, words), (2, b"usage\n"))


def main(*programs):
    program, provider, launcher = (str(pathlib.Path(each).resolve()) for each in programs)
    by_hand(program)
    examples(program, provider)
    statuses(program)
    launched(program, launcher)
    return checks.end()


if __name__ == "__main__":
    if len(sys.argv) != 4:
        sys.exit(__doc__)
    sys.exit(main(*sys.argv[1:]))
