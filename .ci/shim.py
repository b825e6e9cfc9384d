"""The library of shim.c, compiled and driven: a module of the other scripts.

A `Shim` gives orders to a program that runs under it, and reads the calls that it recorded.
"""
import atexit
import functools
import mmap
import os
import shutil
import struct
import subprocess
import tempfile

HERE = os.path.dirname(os.path.abspath(__file__))
PAGE = 4096


def compiler():
    """A C compiler, which the kit needs as well; None where there is none."""
    return shutil.which("clang") or shutil.which("cc")


@functools.cache
def library():
    """The library, which is compiled once for all that use it."""
    folder = tempfile.mkdtemp()
    atexit.register(shutil.rmtree, folder)
    path = os.path.join(folder, "shim.so")
    subprocess.run([compiler(), "-shared", "-fPIC", "-O1", "-o", path, os.path.join(HERE, "shim.c")], check=True)
    return path


class Shim:
    def __init__(self, folder, calls=""):
        """What the library needs, in this folder; it records these calls."""
        self.record = os.path.join(folder, "calls")
        page = os.path.join(folder, "shim")
        with open(page, "w+b") as file:
            file.truncate(PAGE)
            self.page = mmap.mmap(file.fileno(), PAGE)
        self.number = 0
        self.environment = {"LD_PRELOAD": library(), "SHIM": page}
        if calls:
            self.environment.update(SHIM_RECORD=self.record, SHIM_CALLS=calls)

    def shift(self, seconds):
        """Has the wall clock be so many seconds ahead."""
        self.page[:8] = struct.pack("=q", round(seconds * 1000))

    def advance(self, seconds):
        """Has all clocks be so many seconds ahead, as if this time had passed."""
        self.page[16:24] = struct.pack("=q", round(seconds * 1000))

    def order(self, *orders):
        """Gives these orders in place of all before: (call, file, first, times, error) each."""
        text = "".join("{} {} {} {} {}\n".format(*order) for order in orders).encode() + b"\0"
        self.page[24:24 + len(text)] = text
        self.number += 1
        self.page[8:16] = struct.pack("=q", self.number)

    def calls(self):
        """The words of each line that was recorded whole."""
        try:
            with open(self.record, "rb") as file:
                text = file.read()
        except FileNotFoundError:
            return []
        return [line.decode().split() for line in text.split(b"\n")[:-1]]
