#!/usr/bin/env python3
"""Kills a program that stores entries in a file, a hundred times, and lists what the file holds.

usage: kills.py PROVIDER STORE [SEED]

STORE PATH MOST stores the entry of each number, one after the other, and writes how many are
acknowledged after each. After a kill, `PROVIDER list PATH` must show the entries of the first
numbers: all that were acknowledged, and one more at most, which was being stored. The file is new
in every tenth round; in the others the store goes on where it was. A killed program leaves to the
system what it has written, so this says nothing of a cut of power.

And it lets stores run into a limit on the size of their file, at which the system takes a part of
the octets alone: a list shows all that was acknowledged, and a store without the limit goes on
behind it. The last line says how many checks passed.
"""
import os
import random
import resource
import signal
import subprocess
import sys
import tempfile
import threading
import time

sys.dont_write_bytecode = True
from checks import Checks

PROVIDER, STORE = sys.argv[1:3]
SEED = int(sys.argv[3]) if len(sys.argv) > 3 else random.SystemRandom().randrange(1_000_000)
ROUNDS = 100
ROUNDS_A_FILE = 10
# How many stores run into a limit.
FULL_FILES = 10
MOST_ENTRIES = b"500000"
# A program that runs for longer is stopped, in seconds.
PATIENCE = 20

checks = Checks(f"kills: seed {SEED}")
check = checks.check


def line_of(number):
    """The script line of the entry behind so many others."""
    at = b"20000/%d/0" % (number % 86_400_000)
    kind = number % 8
    if kind == 5:
        return b"loss %s %d 1 2\n" % (at, number % 4)
    if kind == 6:
        return b"production %d\n" % (number % 3)
    if kind == 7:
        return b"mark %s\n" % at
    octets = b"%02x" % (number % 251) * (1 + number % 1_000 * 37 % 1_000)
    return b"frame %s %d 41 %d %s\n" % (at, number % 3, number % 10, octets)


def lines_of(count):
    return b"".join(line_of(number) for number in range(count))


def listed(path):
    """The exit code of a list, and what was written to the two streams."""
    done = subprocess.run([PROVIDER, b"list", path], capture_output=True, timeout=PATIENCE)
    return done.returncode, done.stdout, done.stderr


def counts_from(first, lines):
    return b"".join(b"%d\n" % (first + 1 + place) for place in range(lines))


def killed(path, lines, pause):
    """Starts a store, and kills it so many seconds after so many lines.

    Answers how it ended, and what it wrote."""
    # (without a buffer: what one would hold is lost to communicate)
    running = subprocess.Popen([STORE, path, MOST_ENTRIES], bufsize=0, stdout=subprocess.PIPE,
                               stderr=subprocess.PIPE)
    watch = threading.Timer(PATIENCE, running.terminate)
    watch.start()
    head = b"".join(running.stdout.readline() for _ in range(lines))
    time.sleep(pause)
    running.send_signal(signal.SIGKILL)
    rest, complaint = running.communicate()
    watch.cancel()
    return running.returncode, head + rest, complaint


def rounds(folder):
    choices = random.Random(SEED)
    beyond = 0
    for turn in range(ROUNDS):
        if turn % ROUNDS_A_FILE == 0:
            # of a new file one line is awaited, so that it is an archive's
            path, before = os.path.join(folder, f"archive-{turn}").encode(), 0
            lines = choices.randrange(1, 30)
        else:
            lines = choices.choice([0, choices.randrange(30)])
        pause = choices.random() * (0.004 if lines else 0.03)
        name = f"round {turn}, killed {pause * 1000:.2f} ms after {lines} lines"
        status, told, complaint = killed(path, lines, pause)
        check(f"{name}, end", (status, complaint), (-signal.SIGKILL, b""))
        if status == -signal.SIGTERM:
            break
        count = told.count(b"\n")
        check(f"{name}, counts", (told, count >= lines), (counts_from(before, count), True))
        acknowledged = before + count
        status, shown, complaint = listed(path)
        check(f"{name}, list", (status, complaint), (0, b""))
        there = shown.count(b"\n")
        check(f"{name}, {acknowledged} acknowledged", there - acknowledged in (0, 1), True)
        check(f"{name}, a prefix", shown, lines_of(there))
        beyond += there > acknowledged
        before = there
    return beyond


def whole_runs(folder):
    """Stores that come to their end."""
    path = os.path.join(folder, "whole").encode()
    for most, told in [(20, counts_from(0, 20)), (20, b""), (3, b""), (70, counts_from(20, 50))]:
        done = subprocess.run([STORE, path, b"%d" % most], capture_output=True, timeout=PATIENCE)
        check(f"a store up to {most}", (done.returncode, done.stdout, done.stderr), (0, told, b""))
    check("a list of all", listed(path), (0, lines_of(70), b""))


def short_of_room(folder):
    """Stores whose file may have so many octets: the write that crosses that is a short one."""
    choices = random.Random(SEED)
    for turn in range(FULL_FILES):
        most = choices.randrange(9, 40_000)

        def limit():
            signal.signal(signal.SIGXFSZ, signal.SIG_IGN)
            resource.setrlimit(resource.RLIMIT_FSIZE, (most, most))

        path = os.path.join(folder, f"full-{turn}").encode()
        name = f"a file of at most {most} octets"
        done = subprocess.run([STORE, path, MOST_ENTRIES], capture_output=True, timeout=PATIENCE,
                              preexec_fn=limit)
        count = done.stdout.count(b"\n")
        check(f"{name}, end", (done.returncode, done.stdout, done.stderr),
              (1, counts_from(0, count), b"kill_store: disk fault\n"))
        check(f"{name}, size", os.path.getsize(path), most)
        check(f"{name}, list", listed(path), (0, lines_of(count), b""))
        done = subprocess.run([STORE, path, b"%d" % (count + 3)], capture_output=True,
                              timeout=PATIENCE)
        check(f"{name}, more", (done.returncode, done.stdout), (0, counts_from(count, 3)))
        check(f"{name}, list of more", listed(path), (0, lines_of(count + 3), b""))


with tempfile.TemporaryDirectory() as place:
    whole_runs(place)
    short_of_room(place)
    more = rounds(place)
print(f"kills: seed {SEED}; in {more} of {ROUNDS} rounds the file held one entry more than was"
      " acknowledged")
sys.exit(checks.end())
