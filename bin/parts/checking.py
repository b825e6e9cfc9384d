"""What `bin/provider check` says of a configuration: of a refused line the word, and of a valid one what was read.

The program judges; it gives the number of the first refused line and the cause. Here the word is found that fits it.
"""
import os
import re
import stat
import sys

import words
from words import say

words.LAUNCHER = "provider"
NAME = r"[!-~]{3,16}"
HEX = r"([0-9a-fA-F]{2}){6,16}"
ID = r"[a-z-]+=[!--/-<>-~]{1,256}(\.[a-z-]+=[!--/-<>-~]{1,256}){0,7}"
CHANNEL = r"(\d{1,4})/[0-3]/(\d\d?|\*)"


def within(least, most):
    return lambda word: bool(re.fullmatch(r"0|[1-9][0-9]*", word)) and least <= int(word) <= most


def like(form):
    return lambda word: bool(re.fullmatch(form, word))


def attributes(word):
    names = ["sagr", "spack", "rsl-fg", "fsl-fg", "raf", "rcf", "rocf", "cltu"]
    return bool(re.fullmatch(ID, word)) and all(part.split("=")[0] in names for part in word.split("."))


FRONT = [("ID", attributes, "attribute=value, joined by dots"), ("OWNER", like(r"[!-~]+"), "the name of a peer")]
RETURN = FRONT + [("MODE", like("timely|complete|offline"), "timely, complete or offline"),
                  ("SIZE", within(1, 1000), "1 to 1000"), ("LATENCY", within(0, 3600), "1 to 3600, and 0 for offline"),
                  ("TIMEOUT", within(1, 600), "1 to 600")]
# The words behind each first word: its name, whether it is one, and what would be.
LINES = {
    "provider": [("NAME", like(NAME), "3 to 16 characters without blanks")],
    "password": [("HEX", like(HEX), "6 to 16 octets in pairs of hexadecimal digits")],
    "capacity": [("N", within(64, 268_435_456), "64 to 268435456")],
    "heartbeat": [("A", within(1, 3600), "1 to 3600"), ("B", within(1, 3600), "1 to 3600"),
                  ("C", within(2, 100), "2 to 100"), ("D", within(2, 100), "2 to 100")],
    "versions": [("N", within(4, 9), "4 to 9")],
    "peer": [("NAME", like(NAME), "3 to 16 characters without blanks"),
             ("LEVEL", like("none|bind|all"), "none, bind or all"),
             ("HASH", like("sha1|sha256"), "sha1 or sha256"), ("DELAY", within(1, 86_400), "1 to 86400"),
             ("HEX", like(HEX), "6 to 16 octets in pairs of hexadecimal digits")],
    "raf": RETURN,
    "rcf": RETURN + [("CHANNEL", like(CHANNEL), "spacecraft/version/channel, as 171/0/7 or 171/0/*")],
    "cltu": FRONT + [("ROOM", within(1, 16_777_216), "1 to 16777216"), ("LONGEST", within(1, 65_536), "1 to 65536"),
                     ("TIMEOUT", within(1, 600), "1 to 600")],
}
MANY = {"versions": 4, "rcf": 8}


# What `bench/memory` measured of a station: its memory beside the archive's, that of an entry beside its frame's
# octets, and an entry's octets in the file beside them. An archive holds so many entries at most.
BARE, ENTRY, IN_FILE, MOST_ENTRIES = 3_000_000, 350, 21, 4_194_304
# A frame as most missions have it.
USUAL_FRAME = 1115


def memory_of(capacity, frame):
    """The memory of a station whose archive is full of frames of so many octets, in octets."""
    entries = min(MOST_ENTRIES, capacity // (frame + IN_FILE))
    return BARE + entries * (ENTRY + frame)


def size(octets):
    return f"{-(-octets // 2**20):,} MiB"


def place_of(parts, index):
    """A word of a line: its number, its column and itself."""
    column = sum(len(word) + 1 for word in parts[:index]) + 1
    return f"word {index + 1} (column {column}), `{parts[index]}`,"


def bad_word(parts):
    """The first word that is out of form, with what would be in form; none where each is by itself."""
    rows = LINES[parts[0]]
    rows = rows + rows[-1:] * (len(parts) - 1 - len(rows))
    for index, (name, fits, says) in enumerate(rows, 1):
        if not fits(parts[index]):
            return f"{place_of(parts, index)} is malformed or out of its range: {name} is {says}; correct it"
    if parts[0] == "heartbeat":
        return "has words that don't fit each other, malformed or out of its range: A goes to B, and C to D; correct it"
    return "has a LATENCY that doesn't fit its MODE, out of its range: 0 for offline, and 1 to 3600 else; correct it"


def why(line, cause):
    parts = line.split(" ")
    known = parts[0] in LINES
    if cause == 1:
        near = words.meant(parts[0], LINES)
        return f"begins with a word that no line has, `{parts[0]}`{near}; correct the word or take the line out"
    if cause == 2 and known:
        form = " ".join(name for name, _, _ in LINES[parts[0]]) + (".." if parts[0] in MANY else "")
        return f"has too few words or too many, {len(parts)}: its form is `{parts[0]} {form}`, one blank apart"
    if cause == 3 and known:
        return bad_word(parts)
    if cause == 5 and len(parts) > 2:
        return f"has an owner that isn't a peer yet, {place_of(parts, 2)} so write its peer line above it"
    return {
        4: "gives a setting, a peer's name or an identifier once more; keep one of the lines",
        6: "is a thirty-third peer, a thirty-third instance or a second cltu; take it out",
    }.get(cause, "is refused")


def tell_bad(path, number, cause):
    with open(path, encoding="utf-8", errors="replace") as file:
        line = file.read().split("\n")[number - 1]
    text = why(line, cause)
    comma = "," if text.startswith("word ") else ""
    say(f"line {number} of {path}{comma} {text}; examples/station.conf has lines that are right")


def tell_read(path):
    """What a valid configuration has."""
    with open(path, encoding="utf-8", errors="replace") as file:
        lines = [line.split(" ") for line in file.read().split("\n") if line and not line.startswith("#")]
    of = {first: [parts for parts in lines if parts[0] == first] for first in LINES}
    capacity = int(of["capacity"][0][1]) if of["capacity"] else 268_435_456
    instances = [f"{parts[1]} ({parts[2]})" for first in ("raf", "rcf", "cltu") for parts in of[first]]
    say(f"{len(of['peer'])} peers: {', '.join(parts[1] for parts in of['peer']) or 'none'}")
    say(f"{len(instances)} instances: {', '.join(instances) or 'none'}")
    say(f"{min(16, len(instances))} doors let all of them be bound at once; the archive's file grows to {capacity} octets")
    usual, short = memory_of(capacity, USUAL_FRAME), memory_of(capacity, 10)
    say(f"memory for a full archive: about {size(usual)} with frames of {USUAL_FRAME:,} octets, {size(short)} with frames of"
        f" ten; while a run recovers it, {size(capacity)} more")
    mode = os.stat(path).st_mode
    secret = [parts for parts in of["peer"] + of["password"] if set(parts[-1]) != {"0"}]
    if secret and stat.S_ISREG(mode) and mode & 0o044:
        say(f"others may read {path}, which has passwords; `chmod 600` makes it yours alone")


if __name__ == "__main__":
    if len(sys.argv) == 2:
        tell_read(sys.argv[1])
    else:
        tell_bad(sys.argv[1], int(sys.argv[2]), int(sys.argv[3]))
