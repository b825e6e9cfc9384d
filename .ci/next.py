#!/usr/bin/env python3
"""Puts a new archive in the place of an old one between two runs, and kills that at each step.

usage: next.py PROGRAM PROVIDER USER

PROGRAM is the built program, PROVIDER and USER are the launchers. What docs/OPERATING.md has an operator type
between two passes is typed, up to a second station that serves the old archive to an offline user while the first
station serves the new one. Then `next` is killed after each of its steps and run again, and each refusal leaves
all files as they were. The last line says how many checks passed.
"""
import os
import pathlib
import re
import shutil
import signal
import socket
import subprocess
import sys
import tempfile
import time

sys.dont_write_bytecode = True
from checks import Checks, run
from control_centre import Station, User, free_ports, instance, programs

TOP = pathlib.Path(__file__).resolve().parent.parent
PROGRAM, PROVIDER, USER = map(os.path.abspath, sys.argv[1:])
programs.update(provider=PROGRAM)
PATIENCE = 60
# The first frame isn't the first entry, and its second has parts.
ENTRIES = ("production 2\nloss 20000/500/0 3 0 2\nframe 20000/1999/999 0 41 0 0010a1\n"
           "frame 20000/2000/0 0 41 0 0010a2\nmark 20000/3000/0\n")
KEPT = "archive.20121004T000001Z"

checks = Checks("next")
check = checks.check


def listed(path):
    """The exit code and the lines of an archive."""
    code, output, _ = run([PROGRAM, "list", path])
    return code, output.decode()


def archive_of(folder, text):
    """An archive of these entries, which a station stored."""
    folder.mkdir()
    station = Station(folder, 1, 1)
    source = station.front_end()
    source.sendall(text.encode())
    source.close()
    # (it ends once its source has and its door has given its one connection)
    user = User(station.ports[0])
    user.bound("an archive", "MOC", instance("offl", 1))
    user.unbind("an archive")
    station.process.communicate(timeout=PATIENCE)
    check("what the station stored", listed(station.path), (0, text))
    return pathlib.Path(station.path)


def held_by(folder):
    """The files of a folder: of each what it has, its mode, and which file it is."""
    return {file.name: (file.read_bytes(), file.stat().st_mode, file.stat().st_ino) for file in folder.iterdir()
            if file.is_file()}


# ---- what OPERATING says

def typed_lines():
    """The commands of OPERATING's section on archives, each with the lines that follow it."""
    text = (TOP / "docs/OPERATING.md").read_text().split("## Archives of a pass", 1)[1].split("\n## ", 1)[0]
    typed = []
    for line in text.split("\n"):
        if line.startswith("    $ "):
            typed.append([line[6:], []])
        elif line.startswith("    ") and typed[-1][0].endswith("\\"):
            typed[-1][0] = typed[-1][0][:-1] + line.strip()
        elif line.startswith("    "):
            typed[-1][1].append(line[4:])
    return typed


class Operator:
    """Who types commands, with other ports, and files in a folder."""

    def __init__(self, folder):
        names = ["5100", "5101", "5102", "5110", "5111", "5198", "5199"]
        self.ports = dict(zip(names, map(str, free_ports(len(names)))))
        self.folder, self.stations = folder, []
        self.env = {**os.environ, "STATION_ADDRESS": "127.0.0.1", "STATION_STOP": self.ports["5199"]}

    def as_typed(self, line):
        line = re.sub(r"\b5[0-9]{3}\b", lambda found: self.ports.get(found[0], found[0]), line)
        for said, so in [("/tmp/", f"{self.folder}/"), ("bin/provider", PROVIDER), ("bin/user", USER)]:
            line = line.replace(said, so)
        return line

    def begin(self, line, log=subprocess.PIPE):
        front = "" if line.startswith("(") else "exec " if line.startswith("bin/") else "exec env "
        return subprocess.Popen(["bash", "-c", front + self.as_typed(line)], cwd=TOP, env=self.env, text=True,
                                stdin=subprocess.DEVNULL, stdout=subprocess.PIPE, stderr=log)

    def types(self, line, said):
        """A command that ends well, and says these lines in all that it says."""
        process = self.begin(line)
        output, errors = process.communicate(timeout=PATIENCE)
        check(f"{line}: {errors}", process.returncode, 0)
        for each in said:
            check(f"{line}: `{each}` in {output + errors}", self.as_typed(each).split("…")[0] in output + errors, True)
        return output

    def station(self, name, line):
        """A station that runs, once it serves."""
        with open(self.folder / name, "w") as log:
            process = self.begin(line, log)
        self.stations.append(process)
        self.wait(name, "station: began")
        return process

    def __enter__(self):
        return self

    def __exit__(self, *why):
        for process in self.stations:
            if process.poll() is None:
                process.terminate()
                process.wait(PATIENCE)

    def wait(self, name, word, count=1):
        end = time.monotonic() + PATIENCE
        while (self.folder / name).read_text().count(word) < count and time.monotonic() < end:
            time.sleep(0.02)
        check(f"{name}: {word}", (self.folder / name).read_text().count(word) >= count, True)

    def feed(self, port, text):
        with socket.create_connection(("127.0.0.1", int(self.ports[port]))) as source:
            source.sendall(text)


def between_runs(folder):
    """OPERATING's section on archives, as it stands there."""
    with Operator(folder) as operator:
        an_operator(operator, folder)


def an_operator(operator, folder):
    (stopping, stopped), (rotating, kept), (first, _), (site, _), (second, _), (user, told), (ending, ended) = typed_lines()
    archive, old = folder / "pass.archive", folder / "pass.archive.20121004T000001Z"
    fed = (TOP / "examples/pass.feed").read_bytes()
    pass_1 = "".join(line + "\n" for line in fed.decode().splitlines() if line[:1] not in ("", "#"))
    operator.types("bin/provider init /tmp/pass.archive", ["made"])
    station = operator.station("first", first)
    operator.feed("5100", fed)
    operator.wait("first", "ended after line")
    found = run([PROVIDER, "next", archive])
    check(f"while its station runs: {found}", (found[:2], b"is held by a station" in found[2]), ((1, b""), True))
    operator.types(stopping, stopped)
    check("the first run", station.wait(PATIENCE), 0)
    before = archive.stat()
    operator.types(rotating, kept)
    check("the old archive", (listed(old), old.stat().st_ino), ((0, pass_1), before.st_ino))
    check("the new archive", (listed(archive), archive.stat().st_mode), ((0, ""), before.st_mode))
    # the station goes on over the new one, and another serves the old one
    station = operator.station("again", first)
    operator.types(site, [])
    check("the second station's configuration", run([PROVIDER, "check", folder / "old.conf"])[:2], (0, b"valid\n"))
    other = operator.station("other", second)
    later = b"frame 20000/9100/0 0 41 0 0010b1\nmark 20000/9200/0\n"
    operator.feed("5100", later)
    frames = [line.split()[-1] for line in operator.types(user, told).splitlines() if line.startswith("frame ")]
    check("the offline user of the old archive", frames, [line.split()[5] for line in pass_1.splitlines()
                                                          if line.startswith("frame ")])
    span = "--from 2012-10-04T00:00:00Z --until 2012-10-04T00:00:09.2Z"
    there = re.sub("--from .*", span, user.replace("5111", "5101"))
    frames = [line.split()[-1] for line in operator.types(there, ["end"]).splitlines() if line.startswith("frame ")]
    check("an offline user of the new archive", frames, ["0010b1"])
    for path in archive, old:
        found = run([PROVIDER, "next", path])
        check(f"while a station runs over {path}: {found}", (found[0], b"is held by" in found[2]), (1, True))
    operator.types(ending, ended)
    check("the second station", other.wait(PATIENCE), 0)
    operator.types(stopping, stopped)
    check("the run over the new archive", station.wait(PATIENCE), 0)
    check("what both archives hold", (listed(old), listed(archive)), ((0, pass_1), (0, later.decode())))
    check("the next one's name", run([PROVIDER, "next", archive])[:2],
          (0, b"kept %s.20121004T000009Z\n" % bytes(archive)))


# ---- each step

# Runs `next` of the launcher's part with the words, and kills itself after step number LEFT: a call on files or
# names, or a program that it has run. It writes the steps' names.
STEPS = r"""
import fcntl, os, signal, subprocess, sys
parts, path, left = sys.argv[1:]
left = int(left)
sys.path.insert(0, parts)
import rotating

def count(module, name):
    call = getattr(module, name)
    def counted(*words, **more):
        global left
        answer = call(*words, **more)
        left -= 1
        print(name, file=sys.stderr, flush=True)
        if left == 0:
            if name == "Popen":
                answer.wait()
            os.kill(os.getpid(), signal.SIGKILL)
        return answer
    setattr(module, name, counted)

for module, names in [(os, "open link unlink rename chmod chown fsync"), (fcntl, "flock"), (subprocess, "Popen")]:
    for name in names.split():
        count(module, name)
sys.exit(rotating.run(path))
"""


def step(path, number):
    """The exit code of a `next` that is killed after a step, and the names of its steps."""
    done = subprocess.run([sys.executable, "-B", "-c", STEPS, os.path.join(os.path.dirname(PROVIDER), "parts"), path,
                           str(number)], stdin=subprocess.DEVNULL, stdout=subprocess.PIPE, stderr=subprocess.PIPE, text=True,
                          timeout=PATIENCE)
    return done.returncode, done.stderr.split()


def each_step(folder):
    base = archive_of(folder / "base", ENTRIES)
    number, code = 0, None
    while code not in (0, 1) and number < 40:
        number += 1
        place = folder / str(number)
        place.mkdir()
        path, kept = place / "archive", place / KEPT
        shutil.copy(base, path)
        (place / "archive.new").write_bytes(b"SLEA")
        code, steps = step(path, number)
        name = f"killed after step {number}, {steps[-1:]}"
        check(name, code in (0, -signal.SIGKILL), True)
        renamed = "rename" in steps
        check(f"{name}: the archive", listed(path), (0, "" if renamed else ENTRIES))
        check(f"{name}: the old one", "link" not in steps or listed(kept) == (0, ENTRIES), True)
        found = run([PROVIDER, "next", path])
        said = (0, b"kept %s\n" % bytes(kept)) if not renamed else (1, b"")
        check(f"{name}: again {found}", (found[:2], b"has no frame" in found[2]), (said, renamed))
        check(f"{name}: at the end", (listed(path), listed(kept), sorted(held_by(place))),
              ((0, ""), (0, ENTRIES), sorted(["archive", KEPT])))
    names = [each for each in steps if each in ("link", "unlink", "rename", "chmod", "fsync")]
    check("the steps in order", names, ["unlink", "chmod", "fsync", "link", "fsync", "rename", "fsync"])


# ---- refusals

def refusals(folder):
    base = archive_of(folder / "base", ENTRIES)
    bare = archive_of(folder / "bare", "production 1\nmark 20000/0/0\n")

    def at(name, octets, files=(), code=1, wanted=(), path="archive"):
        """A refusal, which leaves all as it was."""
        place = folder / name.replace(" ", "-")
        place.mkdir()
        if octets is not None:
            (place / "archive").write_bytes(octets)
        for each, text in files:
            (place / each).write_bytes(text)
        before = held_by(place)
        found = run([PROVIDER, "next", place / path])
        check(f"{name}: {found}", (found[0], found[1], found[2].count(b"\n"), held_by(place) == before), (code, b"", 1, True))
        for word in wanted:
            check(f"{name}: {word} in {found}", word in found[2], True)

    whole, new = base.read_bytes(), b"archive.new"
    at("another file of that name", whole, [(KEPT, whole)], 1, [KEPT.encode(), b"another file"])
    at("no entries", base.read_bytes()[:8] + b"\0", (), 1, [b"has no frame"])
    at("no frames", bare.read_bytes(), (), 1, [b"has no frame"])
    at("a greater new one", whole, [("archive.new", whole)], 1, [new, b"move it away"])
    at("no archive", b"SLEX" + whole[4:], (), 5, [b"octet 3 "])
    at("a cut archive", whole[:-1], (), 5, [b"octet %d " % (len(whole) - 1)])
    at("no file", None, (), 8, [b"No such file"])
    at("an empty file", b"", (), 5, [b"octet 0 "])
    at("in no folder", None, (), 8, [b"No such file"], "none/archive")
    at("a folder", None, (), 8, [b"directory"], "")
    place = folder / "link"
    place.mkdir()
    (place / "archive").symlink_to(base)
    found = run([PROVIDER, "next", place / "archive"])
    check(f"a symbolic link: {found}", (found[0], b"symbolic link" in found[2], listed(base)), (1, True, (0, ENTRIES)))
    found = subprocess.run(["flock", place / "archive", PROVIDER, "next", base], capture_output=True)
    check(f"held by another program: {found}", (found.returncode, b"is held by" in found.stderr), (1, True))
    with open("/dev/full", "wb") as full:
        found = run([PROVIDER, "next", base], stdout=full)
    check(f"a write fault: {found}", (found[0], listed(base), listed(folder / "base" / KEPT)), (7, (0, ""), (0, ENTRIES)))


def left_files(folder):
    """What a run that was killed may leave is no hindrance, and the old file's mode is the new one's."""
    base = archive_of(folder / "base", ENTRIES)
    for name, octets, links, mode in [("none", None, False, 0o600), ("empty", b"", False, 0o640), ("a prefix", b"SLEA", True, 0o600),
                                      ("whole", base.read_bytes()[:8] + b"\0", True, 0o660)]:
        place = folder / name.replace(" ", "-")
        place.mkdir()
        path = place / "archive"
        shutil.copy(base, path)
        path.chmod(mode)
        if octets is not None:
            (place / "archive.new").write_bytes(octets)
        if links:
            os.link(path, place / KEPT)
        found = run([PROVIDER, "next", "archive"], cwd=place)
        check(f"{name} is left: {found}", found, (0, b"kept %s\n" % KEPT.encode(), b""))
        modes = [os.stat(place / each).st_mode & 0o777 for each in ("archive", KEPT)]
        check(f"{name} is left, files", (listed(path), listed(place / KEPT), modes, len(held_by(place))),
              ((0, ""), (0, ENTRIES), [mode, mode], 2))


for part in [between_runs, each_step, refusals, left_files]:
    with tempfile.TemporaryDirectory() as folder:
        try:
            part(pathlib.Path(folder))
        except Exception as error:
            check(part.__name__, repr(error), None)
sys.exit(checks.end())
