#!/usr/bin/env python3
"""Kills a station under load, and compares what its users had been handed with what its files hold.

usage: run_kills.py PROVIDER [ROUNDS] [SEED]

In each round a station goes on over the archive of the one before, but for every tenth, whose archive
is new. A front end feeds it at full speed, two users follow all frames, online and offline, and one
has telecommands radiated, until the process is killed at a moment that a random number says. Then
`list` must show what was listed before and behind it the first entries that were fed, and the file of
telecommands whole ones in their order. All that a user was handed or told must be there, in order,
and within one START nothing twice. A killed program leaves to the system what it has written, so this
says nothing of a cut of power. The last line says how many checks passed.
"""
import os
import random
import signal
import sys
import tempfile
import threading
import time

from control_centre import (Station, User, cds, check, checks, cltu_start, elements, frame,
                            instance, items, programs, site, start, started, told_at, transfer)

programs.update(provider=os.path.abspath(sys.argv[1]))
ROUNDS = int(sys.argv[2]) if len(sys.argv) > 2 else 100
SEED = int(sys.argv[3]) if len(sys.argv) > 3 else random.SystemRandom().randrange(1_000_000)
ROUNDS_AN_ARCHIVE = 10
COMMANDS = "sagr=1.spack=P.fsl-fg=1.cltu=cltu1"
LAST = 86_399_999
# How many frames are fed in a round at most, and how many telecommands are handed in at once.
MOST, PIECE = 20_000, 20


class Heard(threading.Thread):
    """A user that reads until its connection ends, and then what it was sent in whole messages."""

    def __init__(self, user):
        super().__init__()
        self.user, self.octets = user, b""
        self.start()

    def run(self):
        pieces = []
        try:
            while piece := self.user.peer.recv(1 << 16):
                pieces.append(piece)
        except OSError:
            pass
        self.octets = b"".join(pieces)

    def messages(self):
        place = 0
        while place + 8 <= len(self.octets):
            end = place + 8 + int.from_bytes(self.octets[place + 4:place + 8], "big")
            if end > len(self.octets):
                break
            if self.octets[place] == 1:
                yield self.octets[place + 8:end]
            place = end

    def numbers(self):
        """The numbers of the frames that it was handed."""
        self.join()
        return [int.from_bytes(item[0][2:6], "big") for pdu in self.messages() if pdu[0] == 0xa8
                for item in items(pdu)]

    def radiated(self):
        """The numbers of the telecommands of which it was told that they were radiated."""
        self.join()
        told = [pdu for pdu in self.messages() if pdu[0] != 0xab and told_at(pdu, 1)[0] == 0x80]
        return [int.from_bytes(list(elements(told_at(pdu, 3)[1]))[0][1], "big") for pdu in told]


def feed(station, first, fed):
    """Feeds frames until the station is gone."""
    try:
        peer = station.front_end()
        for number in range(first, first + MOST, 50):
            peer.sendall("".join(map(frame, range(number, number + 50))).encode())
            fed.append(number + 50)
    except OSError:
        pass


def command(user):
    """Hands in telecommands until the station is gone."""
    try:
        for first in range(0, 1 << 20, PIECE):
            user.say(*(transfer(number, cltu(number)) for number in range(first, first + PIECE)))
            time.sleep(0.01)
    except OSError:
        pass


def cltu(number):
    return b"cltu" + number.to_bytes(4, "big")


def bind(station, door, who, begin, service=0):
    user = User(station.ports[door])
    user.bound(f"round, door {door + 1}", "MOC", who, service=service)
    user.say(begin)
    return user


def one_round(turn, folder, base, choices):
    """A station over an archive that has the frames below a number; answers how many it has then."""
    station = Station(folder, 3, 1, site(1) + f"cltu {COMMANDS} MOC 1000000 100 60\n")
    online = bind(station, 0, instance("onlc", 1), start(1))
    check(f"round {turn}: started", online.answer(), started(1))
    offline = bind(station, 1, instance("offl", 1), start(1, cds(base), cds(LAST)))
    commands = bind(station, 2, COMMANDS, cltu_start(0), service=16)
    check(f"round {turn}: started", commands.answer()[8], 0xa1)
    path = os.path.join(folder, "cltus")
    before = os.path.getsize(path)
    fed, heard = [base], [Heard(user) for user in (online, offline, commands)]
    others = [threading.Thread(target=feed, args=[station, base, fed]),
              threading.Thread(target=command, args=[commands])]
    for other in others:
        other.start()
    time.sleep(choices.choice([0.1, 1]) * choices.random())
    station.process.send_signal(signal.SIGKILL)
    station.process.wait()
    for other in others:
        other.join()
    there = compare_frames(turn, station, base, fed[-1], heard)
    compare_commands(turn, path, before, heard[2].radiated())
    for user in (online, offline, commands):
        user.peer.close()
    for stream in (station.process.stdout, station.process.stderr):
        stream.close()
    return there, len(heard[0].numbers()) + len(heard[1].numbers()), len(heard[2].radiated())


def compare_frames(turn, station, base, fed, heard):
    listed = station.listed()
    there = listed.count("\n")
    name = f"seed {SEED}, round {turn}"
    check(f"{name}: what was fed is listed", listed == "".join(map(frame, range(there))), True)
    # (the feed counts what it had handed over whole; of one piece more, lines may have come)
    check(f"{name}: {base} listed before, {fed} fed", base <= there <= fed + 50, True)
    for kind, numbers in [("online", heard[0].numbers()), ("offline", heard[1].numbers()[:])]:
        first = numbers[0] if numbers and kind == "online" else base
        check(f"{name}: {kind}, in order and each once",
              numbers == list(range(first, first + len(numbers))), True)
        check(f"{name}: {kind}, nothing that isn't kept", not numbers or numbers[-1] < there, True)
    return there


def compare_commands(turn, path, before, radiated):
    name = f"seed {SEED}, round {turn}"
    with open(path, "rb") as file:
        octets = file.read()[before:]
    there = len(octets) // 8
    check(f"{name}: telecommands in order", octets[:8 * there] == b"".join(map(cltu, range(there))), True)
    check(f"{name}: told in order and each once", radiated, list(range(len(radiated))))
    check(f"{name}: what was told is there", len(radiated) <= there, True)


choices = random.Random(SEED)
stored = handed = told = 0
with tempfile.TemporaryDirectory() as place:
    for turn in range(ROUNDS):
        if turn % ROUNDS_AN_ARCHIVE == 0:
            folder, base = os.path.join(place, str(turn)), 0
            os.mkdir(folder)
        there, frames, commands = one_round(turn, folder, base, choices)
        stored, handed, told = stored + there - base, handed + frames, told + commands
        base = there
print(f"kills of a station: seed {SEED}, {ROUNDS} rounds; {stored} frames were kept, users had been handed"
      f" {handed}, and told of {told} telecommands")
sys.exit(checks.end())
