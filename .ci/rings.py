"""Feeds a station one frame at a time, and one telecommand at a time, and looks how soon each is told.

usage: rings.py PROGRAM

A thread of the station that has something to do is rung by the one that made it so; one ring left
out leaves hundreds of a thousand to a round of the thread itself, a hundred milliseconds later.
The archive and the antenna's files stand in memory, so that no disk is waited for. A machine that
does other things makes a few late: five of a thousand may be, and four more for each octet that a
plain process, asked after each of them, sends back as late.
"""
import os
import socket
import sys
import tempfile
import time

import control_centre
from control_centre import Station, User, check, checks, cltu_start, frame, instance, start, told_at, transfer

COUNT, LATE = 1_000, 5
COMMANDS = "sagr=1.spack=P.fsl-fg=1.cltu=1"
SITE = f"""heartbeat 1 3600 2 100
peer MOC none sha1 60 000000000000
raf {instance('onlc', 1)} MOC complete 1 1 60
cltu {COMMANDS} MOC 100000 100 60
"""


class Machine:
    """How soon the machine wakes a process that waits: one that sends each octet back."""

    def __init__(self):
        self.end, other = socket.socketpair()
        self.spent = []
        self.child = os.fork()
        if not self.child:
            self.end.close()
            while octet := other.recv(1):
                other.sendall(octet)
            os._exit(0)
        other.close()

    def ask(self):
        begin = time.perf_counter()
        self.end.sendall(b".")
        self.end.recv(1)
        self.spent.append(time.perf_counter() - begin)

    def close(self):
        self.end.close()
        os.waitpid(self.child, 0)


def count_late(spent, most):
    return sum(1 for it in spent if it > most)


def late(name, spent, machine, most):
    """Fails where more of these than the machine's own delays explain took longer than so many seconds."""
    slow, own = count_late(spent, most), count_late(machine.spent, most)
    told = f"{name}: {slow} of {len(spent)} took over {1e3 * most:.0f} ms, {own} of a plain process"
    check(told, slow <= LATE + 4 * own, True)


def frames(station, user, machine):
    """How long each frame takes from the source to its user."""
    front = station.front_end()
    spent = []
    for number in range(COUNT):
        begin = time.perf_counter()
        front.sendall(frame(number).encode())
        user.frames(1)
        spent.append(time.perf_counter() - begin)
        machine.ask()
    front.close()
    return spent


def is_notice(pdu):
    """True of the notice that a telecommand was radiated; its return is none, nor is an empty buffer's."""
    return pdu[0] == 0xac and told_at(pdu, 1)[0] == 0x80


def telecommands(user, lines, machine):
    """How long each telecommand takes to the antenna's file, and to its notice."""
    sent, told = [], []
    for number in range(1, COUNT + 1):
        begin = time.perf_counter()
        user.say(transfer(number, b"cltu"))
        while not (os.path.exists(lines) and open(lines, "rb").read().count(b"\n") >= number):
            time.sleep(0.0005)
        sent.append(time.perf_counter() - begin)
        while not is_notice(user.answer()[8:]):
            pass
        told.append(time.perf_counter() - begin)
        machine.ask()
    return sent, told


def main():
    control_centre.programs.update(provider=sys.argv[1])
    with tempfile.TemporaryDirectory(dir="/dev/shm") as folder:
        station = Station(folder, 2, 9, configuration=SITE, stops=True)
        taker, commander = User(station.ports[0]), User(station.ports[1])
        taker.bound("taker", "MOC", instance("onlc", 1), interval=3600)
        commander.bound("commander", "MOC", COMMANDS, interval=3600, service=16)
        taker.say(start(1))
        taker.answer()
        machine = Machine()
        spent = frames(station, taker, machine)
        machine.close()
        late("frames", spent, machine, 0.05)
        commander.say(cltu_start(1))
        commander.answer()
        machine = Machine()
        sent, told = telecommands(commander, os.path.join(folder, "cltus.lines"), machine)
        machine.close()
        late("telecommands", sent, machine, 0.02)
        late("notices", told, machine, 0.05)
        station.stop("rings")
        station.process.communicate(timeout=60)
    sys.exit(checks.end())


main()
