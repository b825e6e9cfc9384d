#!/usr/bin/env python3
"""Runs the scripts of .ci/scripts by the built program and compares their transcripts and statuses.

    .ci/transcripts.py PROGRAM

A file begins with comments, lines of `#`, and with the lines that stand before each of its scripts.
A script has a title behind `====`, its lines, its status behind `----` and its transcript.
`%N*XX%` stands for N times XX. The last line is `N passed, M failed`.
"""
import pathlib
import re
import subprocess
import sys

sys.dont_write_bytecode = True
from checks import Checks

SCRIPTS = pathlib.Path(__file__).resolve().parent / "scripts"


def spelled(text):
    return re.sub(r"%(\d+)\*(\w+)%", lambda many: int(many[1]) * many[2], text)


def cases_of(text):
    """The title, the script, the status and the transcript of each script of a file."""
    head, *blocks = re.split(r"(?m)^==== ", text)
    head = re.sub(r"(?m)^#.*\n", "", head)
    for block in blocks:
        title, said = block.split("\n", 1)
        script, status, transcript = re.split(r"(?m)^---- (\d+)\n", said)
        yield title, head + spelled(script), int(status), spelled(transcript)


def difference(program, script, status, transcript):
    """How the program's run differs from what is expected, or None."""
    run = subprocess.run([program, "drill"], input=script.encode(), stdout=subprocess.PIPE,
                         stderr=subprocess.PIPE, timeout=120)
    if run.returncode != status:
        return f"status {run.returncode} and not {status}"
    said = run.stdout.decode()
    if said == transcript:
        return None
    lines, wanted = said.splitlines(), transcript.splitlines()
    place = next((at for at, pair in enumerate(zip(lines, wanted)) if pair[0] != pair[1]),
                 min(len(lines), len(wanted)))
    return f"line {place + 1} of the transcript: {lines[place:place + 1]}, {wanted[place:place + 1]}"


def main(program):
    program = str(pathlib.Path(program).resolve())
    checks = Checks("transcripts")
    for file in sorted(SCRIPTS.glob("*.txt")):
        for title, *case in cases_of(file.read_text()):
            checks.check(f"{file.name}: {title}", difference(program, *case), None)
    return checks.end()


if __name__ == "__main__":
    if len(sys.argv) != 2:
        sys.exit(__doc__)
    sys.exit(main(sys.argv[1]))
