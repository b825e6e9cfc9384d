"""Runs a program unproved, by the kit's `rt try`, which compiles it with checks in place of proofs."""
import os
import re
import shutil
import signal
import subprocess
import sys
import tempfile

from programs import TOP
from words import refuse

# How long a run may take behind its compilation, in seconds, and how many octets its input may have.
LIMIT = 600
MOST = 16_777_216


def run(main, line):
    """The program's exit code, or none; what it wrote; and why there is no code."""
    if not shutil.which("rt"):
        refuse("there is no rt on the path: the Rattle kit has it")
    with tempfile.TemporaryDirectory(prefix="user-") as folder:
        os.chmod(folder, 0o711)
        place = os.path.join(folder, "input")
        # (handed in as a file, since rt try takes a pipe that is silent for two seconds as ended)
        with open(place, "wb") as file:
            file.write(sys.stdin.buffer.read(MOST + 1))
        with open(place, "rb") as file, open(os.path.join(folder, "log"), "w+b") as log:
            words = ["rt", "try", "--seconds", str(LIMIT), "--", *line]
            child = subprocess.Popen(words, cwd=os.path.join(TOP, "crates", main), stdin=file, stdout=subprocess.PIPE,
                                     stderr=log, env={**os.environ, "TMPDIR": folder}, start_new_session=True)
            for each in signal.SIGINT, signal.SIGTERM, signal.SIGHUP:
                signal.signal(each, lambda number, frame: end(child, number))
            output = child.communicate()[0]
            log.seek(0)
            return answer(output, log.read().decode(errors="replace"))


def end(child, number):
    os.killpg(child.pid, signal.SIGTERM)
    child.wait()
    sys.exit(128 + number)


def answer(output, log):
    last = log.splitlines()[-1] if log else ""
    found = re.fullmatch(r"run=ended status=(\d+) .*proved=no", last)
    if found:
        return int(found[1]), output, ""
    why = re.findall(r"^checked: no-answer: (.*)$", log, re.M)
    if why:
        return None, b"", f"{why[-1]} (an unproved run has {LIMIT} seconds, and 1 MiB to write)"
    sys.stderr.write(log)
    return None, b"", "the unproved run failed"
