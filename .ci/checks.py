"""Checks that a script makes of a program, counted: a module of the other scripts.

`check` compares what was found with what was expected, and says where they differ; `run` runs a
program; `end` says how many checks passed, the script's last line, and gives its exit code.
"""
import subprocess
import threading


class Checks:
    """The checks of the script of this name, which may make them on several threads."""

    def __init__(self, name, most=400):
        self.name, self.most = name, most
        self.passed = self.failed = 0
        self.lock = threading.Lock()

    def check(self, name, found, expected):
        self.add(int(found == expected), int(found != expected))
        if found == expected:
            return
        shown = (f"{it!r}"[:self.most] for it in (found, expected))
        print("{}: {}: found {}, expected {}".format(self.name, name, *shown))

    def add(self, passed, failed):
        """So many more passed and failed."""
        with self.lock:
            self.passed += passed
            self.failed += failed

    def end(self):
        """The exit code is 1 where a check failed, and where none was made."""
        print(f"{self.passed} passed, {self.failed} failed")
        return int(self.failed > 0 or self.passed == 0)


def run(words, text=b"", patience=120, **more):
    """The exit code, and what was written to standard output and to standard error."""
    if "stdin" not in more:
        more["input"] = text
    more = {"stdout": subprocess.PIPE, "stderr": subprocess.PIPE, **more}
    done = subprocess.run(words, timeout=patience, **more)
    return done.returncode, done.stdout, done.stderr
