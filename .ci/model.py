#!/usr/bin/env python3
"""Compares the built provider with a second program for `drill`, over random scripts.

usage: model.py PROGRAM [COUNT]     COUNT scripts, 1000 if left out, the same in each run; then one
                                    of 2,000 lines for each 125, and the struck ones of a pass

The second program (drills.py, sessions.py) follows docs/PROFILE.md and shares nothing with the
first. A user's decoder (reading.py) then reads the messages that the built program wrote, and what
they say is compared with what the second program meant, field by field, credentials included.
Where anything differs it writes the script to a file and fails.
"""
import subprocess
import sys
import tempfile
from collections import Counter

sys.dont_write_bytecode = True
from drills import drill
from reading import read_sent
from passes import long_script, random_script, struck_scripts


def told_kinds(transcript):
    """How often each kind of line of a transcript comes, and each kind of an end."""
    kinds = Counter()
    for line in transcript.splitlines():
        word, *rest = line.split(b" ")
        kinds["ended " + rest[1].decode() if word == b"ended" else word.decode()] += 1
    return kinds


def scripts(count):
    """All scripts, the random ones first."""
    yield from map(random_script, range(count))
    yield from map(long_script, range(count // 125))
    yield from struck_scripts()


def main(program, count):
    messages, many, kinds = 0, 0, Counter()
    for script in scripts(count):
        done = subprocess.run([program, "drill"], input=script, capture_output=True)
        code, written, said, site = drill(script)
        lines = [line for line in done.stdout.split(b"\n") if line.startswith(b"sent ")]
        same = (done.returncode, done.stdout) == (code, written)
        if not same or [read_sent(line, site) for line in lines] != said:
            with tempfile.NamedTemporaryFile(suffix=".script", delete=False) as kept:
                kept.write(script)
            sys.exit(f"model: the programs differ on {kept.name}: "
                     f"exit codes {done.returncode} and {code}")
        messages, many = messages + sum(map(len, said)), many + 1
        kinds += told_kinds(written)
    ends = sum(many for kind, many in kinds.items() if kind.startswith("ended "))
    print(f"model: {many} scripts with {messages} messages, each read back to what it says, and "
          f"{ends} ends of connections, and no difference")


if __name__ == "__main__":
    main(sys.argv[1], int(sys.argv[2]) if len(sys.argv) > 2 else 1000)
