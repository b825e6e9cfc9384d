#!/usr/bin/env python3
"""Cuts the power of a station after each call on its files, and lists what may be left.

usage: images.py PROVIDER [SEED]

A station stores entries and has telecommands radiated, under a library that records its calls on the
archive's file and on those of telecommands, and what it sends to its users. A cut of power leaves what
the last sync of a file left, and of each later write nothing, all, or a part. Each such image of the
archive, after each call, is listed by `list`: none is refused, and each shows the first entries that
were fed, with all that a user had been sent by then. Each image of the two files of telecommands has
the first that were sent, with all that were told as radiated, and a line for each whole one that a line
names. One run is plain; in another writes fail and are short. The last line says how many checks passed.
"""
import errno
import itertools
import os
import random
import shutil
import subprocess
import sys
import tempfile

sys.dont_write_bytecode = True
from control_centre import (User, check, checks, cltu_start, frame, instance, items, programs, site,
                            start, started, told_at, transfer)
from shim import Shim, compiler
from watched import Watched

programs.update(provider=os.path.abspath(sys.argv[1]))
SEED = int(sys.argv[2]) if len(sys.argv) > 2 else random.SystemRandom().randrange(1_000_000)
checks.name = f"images: seed {SEED}"
COMMANDS = "sagr=1.spack=P.fsl-fg=1.cltu=cltu1"
CALLS = "pwrite write fsync fdatasync ftruncate send accept"
FRAMES, TELECOMMANDS = 40, 12
# The most images of a file after a call, of which a right station leaves a few, and the most faults told.
MOST_IMAGES, MOST_FAULTS = 100, 20


class Disk:
    """A file as its calls leave it: what the last good sync left, and the writes since."""

    def __init__(self, octets=b""):
        self.synced, self.pending, self.size = octets, [], len(octets)

    def write(self, place, octets):
        place = self.size if place is None else place
        self.pending.append([place, octets])
        self.size = max(self.size, place + len(octets))

    def cut(self, size):
        self.pending.append([size, None])
        self.size = size

    def answered(self, call, answer):
        if call in ("fsync", "fdatasync"):
            if answer == 0:
                self.synced, self.pending = self.image([None] * len(self.pending)), []
        elif call in ("write", "pwrite") and answer >= 0:
            place, octets = self.pending[-1]
            self.pending[-1] = [place, octets[:answer]]
            self.size = len(self.image([None] * len(self.pending)))

    def image(self, parts):
        """What is left where so many octets of each pending write are; None stands for all."""
        octets = bytearray(self.synced)
        for (place, written), part in zip(self.pending, parts):
            if written is None:
                if part is None:
                    del octets[place:]
                continue
            written = written if part is None else written[:part]
            if written:
                octets += bytes(max(place - len(octets), 0))
                octets[place:place + len(written)] = written
        return bytes(octets)

    def images(self, choices):
        """Those of each pending write missing, whole, or cut at a few places."""
        parts = []
        for _, written in self.pending:
            size = len(written or b"")
            parts.append({None, 0, *(choices.randrange(1, size) for _ in range(2 if size > 1 else 0)),
                          *([size - 1] if size > 1 else [])})
        every = itertools.product(*parts)
        return {self.image(chosen) for chosen in itertools.islice(every, MOST_IMAGES)}


class Sent:
    """What a user was sent, in whole messages."""

    def __init__(self):
        self.octets, self.offered = b"", b""

    def messages(self):
        octets, place = self.octets + self.offered, 0
        while place + 8 <= len(octets):
            end = place + 8 + int.from_bytes(octets[place + 4:place + 8], "big")
            if end > len(octets):
                break
            if octets[place] == 1:
                yield octets[place + 8:end]
            place = end


class Replay:
    """The files and the users of a station, after each call of its record."""

    def __init__(self, folder, fed, telecommands, before):
        self.folder, self.fed, self.telecommands, self.before = folder, fed, telecommands, before
        self.choices, self.listed, self.count = random.Random(SEED), {}, 0
        with open(os.path.join(folder, "archive.before"), "rb") as file:
            self.disks = {"archive": Disk(file.read()), "cltus": Disk(), "cltus.lines": Disk()}
        self.users, self.heard, self.told = {}, 0, 0

    def go(self, calls):
        for words in calls:
            call = words[1] if words[0] == "=" else words[0]
            if call in ("accept", "send"):
                self.take_socket(words)
                continue
            disk = self.disks.get(os.path.basename(words[2] if words[0] == "=" else words[1]))
            if disk is None:
                continue
            if words[0] == "=":
                disk.answered(call, int(words[3]))
            elif call == "pwrite":
                disk.write(int(words[2]), bytes.fromhex(words[3]))
            elif call == "write":
                disk.write(None, bytes.fromhex(words[2]))
            elif call == "ftruncate":
                disk.cut(int(words[2]))
            self.compare(" ".join(words)[:60])
            if checks.failed > MOST_FAULTS:
                return

    def take_socket(self, words):
        if words[0] == "accept":
            self.users[words[2]] = Sent()
        elif words[0] == "send" and len(words) > 3:
            user = self.users.setdefault(words[2], Sent())
            user.offered = bytes.fromhex(words[3])
            self.note(user)
        elif words[0] == "=":
            user = self.users[words[3]]
            user.octets, user.offered = user.octets + user.offered[:max(int(words[4]), 0)], b""

    def note(self, user):
        """Counts the frames and the radiations of which a user is told."""
        frames, radiated = set(), 0
        for pdu in user.messages():
            if pdu[0] == 0xa8:
                frames.update(item[0] for item in items(pdu) if isinstance(item, tuple))
            else:
                radiated += is_radiated(pdu)
        last = max((int.from_bytes(it[2:6], "big") + 1 for it in frames), default=0)
        self.heard, self.told = max(self.heard, last), max(self.told, radiated)

    def compare(self, name):
        for image in self.disks["archive"].images(self.choices):
            status, lines = self.list(image)
            least = max(self.heard, self.before)
            is_right = (status, lines) == (0, self.fed[:len(lines)]) and len(lines) >= least
            self.tell(f"{name}: {len(lines)} listed, {self.heard} heard", is_right, (status, lines[-2:]))
        for octets in self.disks["cltus"].images(self.choices):
            for lines in self.disks["cltus.lines"].images(self.choices):
                fault = self.fault_of(octets, lines)
                self.tell(f"{name}: {fault}, {self.told} told", not fault, (octets[-20:], lines[-20:]))

    def tell(self, name, is_right, found):
        self.count += 1
        if is_right:
            checks.add(1, 0)
        else:
            check(name, found, "images of the first that came")

    def list(self, image):
        """The exit code of a list of this image, and its lines."""
        if image not in self.listed:
            path = os.path.join(self.folder, "image")
            with open(path, "wb") as file:
                file.write(image)
            done = subprocess.run([programs["provider"], "list", path], capture_output=True)
            self.listed[image] = done.returncode, done.stdout.decode().splitlines(keepends=True)
        return self.listed[image]

    def fault_of(self, octets, lines):
        """Why files aren't those of the first telecommands, or None."""
        whole, place = lines.decode("latin1").split("\n")[:-1], 0
        if len(whole) < self.told:
            return "a telecommand that was told has no line"
        for number, line in enumerate(whole):
            telecommand = self.telecommands[number]
            at, size = map(int, line.split())
            if octets[at:at + size] != telecommand or at < place:
                return f"line {number + 1} names other octets"
            place = at + size
        return None


def drive(folder, name, orders):
    """Runs a station under the shim, and answers what was fed, sent and recorded."""
    shim = Shim(folder, CALLS)
    before = os.path.exists(os.path.join(folder, "archive"))
    if not before:
        subprocess.run([programs["provider"], "init", os.path.join(folder, "archive")], check=True,
                       stdout=subprocess.DEVNULL)
    shutil.copy(os.path.join(folder, "archive"), os.path.join(folder, "archive.before"))
    text = site(2).replace("complete 3 1 60", "complete 1 1 60") + f"cltu {COMMANDS} MOC 100000 100 60\n"
    station = Watched(folder, 2, configuration=text, shim=shim)
    listener, commander = (User(port) for port in station.ports)
    listener.bound(name, "MOC", instance("onlc", 1))
    listener.say(start(1))
    check(f"{name}: started", listener.answer(), started(1))
    commander.bound(name, "MOC", COMMANDS, service=16)
    commander.say(cltu_start(0))
    check(f"{name}: started", commander.answer()[8], 0xa1)
    fed, sent, told = listed(station), [], 0
    first = len(fed)
    shim.order(*orders)
    source = station.front_end()
    choices = random.Random(SEED)
    while len(fed) < first + FRAMES:
        lines = [frame(len(fed) + place) for place in range(choices.choice([1, 1, 2, 7]))]
        fed += lines
        source.sendall("".join(lines).encode())
        check(f"{name}: heard", len(listener.frames(len(lines))), len(lines))
        if len(sent) < TELECOMMANDS:
            sent.append(b"telecommand %d" % len(sent))
            commander.say(transfer(len(sent) - 1, sent[-1]))
    while told < len(sent):
        told += is_radiated(commander.answer()[8:])
    station.stop(name)
    station.process.communicate()
    check(f"{name}: the exit code", station.process.returncode, 0)
    return fed, sent, shim.calls(), first


def made(folder):
    """What `init` tells as made is there, with its name, whatever comes."""
    shim = Shim(folder, "open " + CALLS)
    path = os.path.join(folder, "archive")
    done = subprocess.run([programs["provider"], "init", path], capture_output=True,
                          env={**os.environ, **shim.environment})
    calls = [" ".join(words) for words in shim.calls()]
    check("init", (done.returncode, done.stdout), (0, b"made\n"))
    opened = max(place for place, call in enumerate(calls) if call.startswith(f"= open {path} "))
    written = max(place for place, call in enumerate(calls) if call.startswith(f"= pwrite {path} "))
    check("init syncs the folder", f"= fsync {folder} 0" in calls[opened:], True)
    check("init syncs the file", f"= fsync {path} 0" in calls[written:], True)
    os.remove(path)
    os.remove(shim.record)


def listed(station):
    """What the archive's copy from before the run lists."""
    done = subprocess.run([programs["provider"], "list", station.path + ".before"], capture_output=True)
    return done.stdout.decode().splitlines(keepends=True)


def is_radiated(pdu):
    """Whether a user is told that a telecommand was radiated."""
    return pdu[0] == 0xac and told_at(pdu, 1)[0] == 0x80


def images(folder):
    total = 0
    for name, orders in [("plain", []),
                         ("failing", [("pwrite", "archive", 3, 1, errno.ENOSPC), ("pwrite", "archive", 9, 1, -5)])]:
        for path in ("cltus", "cltus.lines", "calls"):
            if os.path.exists(os.path.join(folder, path)):
                os.remove(os.path.join(folder, path))
        fed, sent, calls, before = drive(folder, name, orders)
        replay = Replay(folder, fed, sent, before)
        replay.go(calls)
        check(f"{name}: all that was fed was heard", replay.heard, len(fed))
        check(f"{name}: all that was sent was told", replay.told, len(sent))
        last = {key: disk.image([None] * len(disk.pending)) for key, disk in replay.disks.items()}
        for key in last:
            with open(os.path.join(folder, key), "rb") as file:
                check(f"{name}: {key} is as its calls say", file.read() == last[key], True)
        total += replay.count
        check(f"{name}: images were listed", len(replay.listed) > 2 * FRAMES // 7, True)
    print(f"images: seed {SEED}; {total} images of files were compared")


if compiler() is None:
    print("images: left out, as there is no C compiler on the path")
    sys.exit(0)
with tempfile.TemporaryDirectory() as folder:
    try:
        made(folder)
        images(folder)
    except Exception as error:
        check("images", repr(error), None)
sys.exit(checks.end())
