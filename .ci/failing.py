#!/usr/bin/env python3
"""Fails each call of a station's files once, at each place of two stores and of two telecommands, and
each write and read of the other commands.

usage: failing.py PROVIDER

A library in front of the system counts the calls of a run in which nothing fails: a user hears two
frames, each a store of its own, and one has two telecommands radiated. Then each call fails in a run of
its own, with an error of the system and, where it writes, also by taking a part. What users are sent,
the exit code and the files are compared with what docs/OPERATING.md says: a failed write of the archive
loses nothing; after a failed sync nothing more is stored, and what was heard is there; a telecommand is
told as radiated only where both of its files have it. Then each write of what `drill`, `rehearse` and
`list` print fails, or takes a part, and each read of a script. The last line says how many checks passed.
"""
import collections
import errno
import os
import queue
import re
import subprocess
import sys
import tempfile

sys.dont_write_bytecode = True
from control_centre import (PATIENCE, User, check, checks, cltu_start, elements, frame, instance, items,
                            programs, site, start, told_at, transfer)
from shim import Shim, compiler
from watched import Watched, in_threads

programs.update(provider=os.path.abspath(sys.argv[1]))
checks.name = "failing"
COMMANDS = "sagr=1.spack=P.fsl-fg=1.cltu=cltu1"
CALLS = "pwrite write fsync fdatasync ftruncate open"
FILES = "archive", "cltus", "cltus.lines"
# The error of each call, and 5 octets of what it is to write.
FAILURES = {"open": [errno.EACCES], "pwrite": [errno.EIO, errno.ENOSPC, -5], "write": [errno.EIO, errno.ENOSPC, -5],
            "fsync": [errno.EIO], "fdatasync": [errno.EIO], "ftruncate": [errno.EIO]}
LINES, SENT = [frame(0), frame(1)], [b"first telecommand", b"second"]
# A script that writes several lines, and the most calls that a command may make of one stream.
SCRIPT, MOST_CALLS = "".join(f"frame 20000/{place}/0 0 41 0 0010a{place}\n" for place in range(1, 6)) \
    + "mark 20000/9/0\nstart 20000/0/0 20000/9/0 0\n", 100


class Run:
    """A run with one failing call at most: what users are sent, the exit code, and the files."""

    def __init__(self, folder, order=None):
        self.shim = Shim(folder, CALLS)
        self.frames, self.told, self.octets, self.lines, self.log = [], [], b"", "", ""
        path = os.path.join(folder, "archive")
        subprocess.run([programs["provider"], "init", path], check=True, stdout=subprocess.DEVNULL)
        if order:
            self.shim.order(order)
        text = site(2).replace("complete 3 1 60", "complete 1 1 60") + f"cltu {COMMANDS} MOC 100000 100 60\n"
        self.station = Watched(folder, 2, configuration=text, shim=self.shim)
        if self.station.process.poll() is None and self.station.told("station: began"):
            self.serve()
        told, _ = self.station.process.communicate(timeout=PATIENCE)
        self.status, self.log = self.station.process.returncode, "\n".join(self.station.log())
        self.stored = re.findall(r"^stored (\d+)$", told.decode(), re.M)
        self.listed = self.station.listed()
        for name in FILES[1:]:
            if os.path.exists(file := os.path.join(folder, name)):
                with open(file, "rb") as opened:
                    text = opened.read()
                self.octets, self.lines = (text, self.lines) if name == "cltus" else (self.octets, text.decode())

    def serve(self):
        try:
            listener, commander = (User(port) for port in self.station.ports)
            listener.bound("failing", "MOC", instance("onlc", 1))
            commander.bound("failing", "MOC", COMMANDS, service=16)
            listener.say(start(1))
            commander.say(cltu_start(0))
            listener.answer(), commander.answer()
            with self.station.front_end() as source:
                for number, line in enumerate(LINES):
                    source.sendall(line.encode())
                    commander.say(transfer(number, SENT[number]))
                    self.hear(listener, commander, number + 1)
            self.station.stop("failing")
        except (OSError, EOFError) as error:
            # (nothing listens where it ended or is just ending, which its exit code tells)
            try:
                self.station.process.wait(5)
            except subprocess.TimeoutExpired:
                check("a user", repr(error), None)

    def hear(self, listener, commander, count):
        """What each is sent, until it was sent so much, or nothing for a while."""
        for user, take in ((listener, self.take_frame), (commander, self.take_notice)):
            user.peer.settimeout(1)
            try:
                while len(self.frames if user is listener else self.told) < count:
                    take(user.answer()[8:])
            except TimeoutError:
                pass
            user.peer.settimeout(PATIENCE)

    def take_frame(self, pdu):
        self.frames += [item[2] for item in items(pdu) if isinstance(item, tuple)]

    def take_notice(self, pdu):
        if pdu[0] == 0xac and told_at(pdu, 1)[0] == 0x80:
            [(_, number), *_] = elements(told_at(pdu, 3)[1])
            self.told.append(int.from_bytes(number, "big"))


def octets_of(line):
    return bytes.fromhex(line.split()[-1])


def compare(name, run, call, file, number, error):
    """Compares a run with what OPERATING says of the call that failed."""
    heard = len(run.frames)
    check(f"{name}: heard in order", run.frames, [octets_of(line) for line in LINES[:heard]])
    check(f"{name}: listed in order", run.listed in ("", LINES[0], LINES[0] + LINES[1]), True)
    check(f"{name}: what was heard is listed", run.listed.count("\n") >= heard, True)
    named = [tuple(map(int, line.split())) for line in run.lines.split("\n")[:-1]]
    check(f"{name}: told in order", run.told, sorted(set(run.told)))
    kept = [run.octets[at:at + size] for at, size in named]
    check(f"{name}: what was told has its line", kept[:len(run.told)], [SENT[number] for number in run.told])
    check(f"{name}: each line names a telecommand", [octets for octets in kept if octets not in SENT], [])
    if call == "open":
        check(name, (run.status, run.stored), (8, []))
    elif file == "archive":
        stops = call in ("fsync", "fdatasync")
        check(f"{name}: exit code", run.status, 8 if stops else 0)
        # (the first sync is that of the opening, without which nothing begins)
        check(f"{name}: telecommands go on", run.told, [] if stops and number == 1 else [0, 1])
        if not stops:
            check(f"{name}: nothing is lost", (heard, run.listed), (2, LINES[0] + LINES[1]))
    else:
        check(f"{name}: frames go on", heard, 2)
        if error == -5:
            check(f"{name}: a part is written on", (run.status, run.told), (0, [0, 1]))
        else:
            # (each telecommand is one write and one sync of each file)
            check(f"{name}: what failed isn't told as radiated", number - 1 in run.told, False)


def one(orders):
    while True:
        try:
            call, file, number, error = orders.get_nowait()
        except queue.Empty:
            return
        word = errno.errorcode.get(error, f"{-error} octets")
        name = f"{call} {number} of {file}, {word}"
        with tempfile.TemporaryDirectory() as folder:
            try:
                compare(name, Run(folder, (call, "/" + file, number, 1, error)), call, file, number, error)
            except Exception as fault:
                check(name, repr(fault), None)


def failing():
    with tempfile.TemporaryDirectory() as folder:
        good = Run(folder)
        check("a good run", (good.status, good.frames, good.told, good.listed, good.octets),
              (0, [octets_of(line) for line in LINES], [0, 1], "".join(LINES), b"".join(SENT)))
        places = collections.Counter((words[0], os.path.basename(words[1])) for words in good.shim.calls()
                                     if words[0] != "=" and os.path.basename(words[1]) in FILES)
        with tempfile.TemporaryDirectory() as other:
            commands(other, good.station.path)
    orders, count = queue.Queue(), 0
    for (call, file), most in sorted(places.items()):
        for number in range(1, most + 1):
            for error in FAILURES[call]:
                orders.put((call, file, number, error))
                count += 1
    alike = {"pwrite": "write", "fdatasync": "fsync"}
    found = {(alike.get(call, call), file) for call, file in places}
    missing = {(call, file) for call in ("open", "write", "fsync") for file in FILES} - found
    check("each file is opened, written and synced", missing, set())
    in_threads([lambda: one(orders)] * 4)
    print(f"failing: {count} runs, of the calls "
          + ", ".join(f"{call} {file} {most}" for (call, file), most in sorted(places.items())))


# ---- what other commands read and write

def command(folder, words, order=None):
    """The exit code of a command, what it wrote, and what each of its writes of that was to write."""
    shim = Shim(folder, "write")
    if os.path.exists(shim.record):
        os.remove(shim.record)
    shim.order(*order or [])
    done = subprocess.run([programs["provider"], *words], input=SCRIPT.encode(), capture_output=True,
                          timeout=PATIENCE, env={**os.environ, **shim.environment})
    writes = [bytes.fromhex("".join(it[2:])) for it in shim.calls() if it[:2] == ["write", "output"]]
    return done.returncode, done.stdout, writes


def commands(folder, archive):
    """Fails each write of a command once, and each read."""
    counts = []
    for words in (["drill"], ["rehearse", "7"], ["list", archive]):
        status, whole, writes = command(folder, words)
        check(f"{words[0]}: a good run", (status, b"".join(writes)), (0, whole))
        for number in range(1, len(writes) + 1):
            for error, wanted in [(errno.EIO, (7, b"".join(writes[:number - 1]))),
                                  (errno.ENOSPC, (7, b"".join(writes[:number - 1]))),
                                  (errno.EINTR, (0, whole)), (-5, (0, whole))]:
                found = command(folder, words, [("write", "output", number, 1, error)])
                check(f"{words[0]}: write {number}, {errno.errorcode.get(error, error)}", found[:2], wanted)
        counts.append(f"{words[0]} {len(writes)}")
    reads = 0
    while command(folder, ["drill"], [("read", "input", reads + 1, 1, errno.EIO)])[0] and reads < MOST_CALLS:
        reads += 1
        order = [("read", "input", reads, 1, errno.EIO)]
        check(f"read {reads}", command(folder, ["drill"], order)[:2], (6, b"read fault\n"))
        # (where the line that tells it fails too)
        order.append(("write", "output", 1, 1, errno.EIO))
        check(f"read {reads}, untold", command(folder, ["drill"], order)[:2], (6, b""))
        interrupted = command(folder, ["drill"], [("read", "input", reads, 1, errno.EINTR)])
        check(f"read {reads}, interrupted", interrupted[:2], command(folder, ["drill"])[:2])
    check("a script is read", 2 <= reads < MOST_CALLS, True)
    print(f"failing: writes of {', '.join(counts)}; reads of drill {reads}")


if compiler() is None:
    print("failing: left out, as there is no C compiler on the path")
    sys.exit(0)
failing()
sys.exit(checks.end())
