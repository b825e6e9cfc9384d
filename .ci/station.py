#!/usr/bin/env python3
"""Drives a station over the loopback, as users, a front end and an operator do.

usage: station.py PROVIDER USER

Users bind, hear heartbeats, start deliveries, read their transfer buffers back and unbind; sixteen of
them at once, of timely, complete and offline instances, of channels and of telecommands: one of them
octet by octet, one that doesn't read, one that resets its connection. Two more are the program USER. A
front end feeds frames meanwhile. What a user was handed is compared with what was fed, and so is what
`list` of the provider shows afterwards. An operator asks the station to stop, in the midst of it all,
and reads its log. The octets of the other users' messages are spelled here by hand, from the
standards. The last line says how many checks passed.
"""
import os
import socket
import subprocess
import sys
import tempfile
import threading
import time

from control_centre import (BACKLOG, END_OF_DATA, HEARTBEAT, PATIENCE, Station, User, cds, channel,
                            check, checks, cltu_start, context, elements, frame, instance, integer,
                            items, of_frames, programs, site, start, started, stop, stopped, told_at,
                            transfer)

TOP = os.path.dirname(os.path.dirname(os.path.abspath(__file__)))
# What a door says when it gives its last link.
LAST = "gave the last of its connections, and takes no more"
PROVIDER, USER = map(os.path.abspath, sys.argv[1:])
programs.update(provider=PROVIDER)


def one_user(folder):
    station = Station(folder, 1, 1)
    user = User(station.ports[0])
    user.bound("one user", "MOC", instance("onlc", 1), interval=1)
    user.say(HEARTBEAT)
    check("a heartbeat", user.hear(), HEARTBEAT)
    front_end = station.front_end()
    front_end.close()
    user.unbind("one user")
    log = station.ended("one user's run", 0, ["stored 0", "radiated 0", "door 1 links 1"])
    check("nothing listed", station.listed(), "")
    check("one user's log", station.log_at(log, 1), ["USER connected", LAST, "USER ended: unbound"])
    check("its source's log", station.log_at(log, None), ["USER connected", "USER ended after line 0"])


def deliveries(folder):
    station = Station(folder, 1, 3)
    front_end = station.front_end()
    user = User(station.ports[0])
    user.bound("online", "MOC", instance("onlc", 1))
    user.say(start(7))
    check("online: started", user.answer(), started(7))
    front_end.sendall("".join(map(frame, range(10))).encode())
    check("online: what was fed", user.frames(10), of_frames(range(10)))
    user.say(stop(8))
    check("online: stopped", user.answer(), stopped(8))
    user.unbind("online")
    # the archive closes the stop with a seal, while a user waits for it
    user = User(station.ports[0])
    user.bound("offline", "MOC", instance("offl", 1))
    user.say(start(9, cds(2), cds(6)))
    check("offline: started", user.answer(), started(9))
    check("offline: the frames of the span", user.frames(5), of_frames(range(2, 7)))
    check("offline: the end", items(user.answer()[8:]), END_OF_DATA)
    user.say(stop(10))
    check("offline: stopped", user.answer(), stopped(10))
    user.unbind("offline")
    # a user that resets its connection frees its instance, and the door serves the next
    front_end.sendall(b"mark 20000/9/0\n")
    front_end.close()
    user = User(station.ports[0])
    user.bound("reset", "MOC", instance("onlc", 1))
    user.reset()
    station.ended("the run of deliveries", 0, ["stored 11", "radiated 0", "door 1 links 3"])
    check("what was fed is listed", station.listed(),
          "".join(map(frame, range(10))) + "mark 20000/9/0\n")


CHANNELS = "sagr=1.spack=P.rsl-fg=1.rcf=onlc%d"
COMMANDS = "sagr=1.spack=P.fsl-fg=1.cltu=cltu1"
# How many frames a crowd is fed, of how many octets.
MANY, LONG = 120, 30_000


def crowd_site():
    lines = ["heartbeat 1 3600 2 100", "peer MOC none sha1 60 000000000000"]
    lines += [f"raf {instance('onlt', number)} MOC timely 2 1 60" for number in range(4)]
    lines += [f"raf {instance('onlc', number)} MOC complete 3 1 60" for number in range(6)]
    lines += [f"raf {instance('offl', number)} MOC offline 4 0 60" for number in range(3)]
    lines += [f"rcf {CHANNELS % number} MOC complete 3 1 60 171/0/{number}" for number in range(2)]
    lines.append(f"cltu {COMMANDS} MOC 100000 100 60")
    return "\n".join(lines) + "\n"


def long_frame(number):
    """The octets of a frame of one of two virtual channels of a spacecraft."""
    return (171 << 4 | number % 2 << 1).to_bytes(2, "big") + bytes([number]) * (LONG - 2)


def long_items(numbers):
    return [(cds(number), 0 if place else -1, long_frame(number))
            for place, number in enumerate(numbers)]


class Visitor:
    """A user of a crowd, on a thread of its own: it binds and starts, waits until all have, hears what
    it asked for, and unbinds or is left bound."""

    def __init__(self, name, instance, numbers, begin, stays, service=0):
        self.name, self.instance, self.numbers, self.begin = name, instance, numbers, begin
        self.stays, self.service, self.user = stays, service, None

    def come(self, port, ready):
        try:
            self.user = User(port)
            by_one = self.name == "complete 1"
            self.user.bound(self.name, "MOC", self.instance, one_by_one=by_one,
                            service=self.service)
            self.user.say(self.begin, one_by_one=by_one)
            check(f"{self.name}: started", self.user.answer()[8], 0xa1)
            ready.wait()
            self.hear()
            if not self.stays:
                self.user.say(stop(900))
                check(f"{self.name}: stopped", self.user.answer(), stopped(900))
                self.user.unbind(self.name)
        except Exception as error:
            check(self.name, repr(error), None)

    def hear(self):
        told = self.user.frames(len(self.numbers))
        check(f"{self.name}: what was fed", told == long_items(self.numbers), True)


class TimelyVisitor(Visitor):
    """It hears all frames in order, or a notice where some were discarded."""

    def hear(self):
        last, noticed, right = -1, False, True
        while last < MANY - 1:
            for item in items(self.user.answer()[8:]):
                if item == BACKLOG:
                    noticed = True
                    continue
                number = int.from_bytes(item[0][2:6], "big")
                right &= item[2] == long_frame(number) and number > last
                right &= noticed or number == last + 1
                last, noticed = number, False
        check(f"{self.name}: all, or a notice", right, True)


class OfflineVisitor(Visitor):
    """It waits for the end of its span."""

    def hear(self):
        super().hear()
        check(f"{self.name}: the end", items(self.user.answer()[8:]), END_OF_DATA)


class CommandVisitor(Visitor):
    """It has telecommands queued and radiated."""

    def hear(self):
        self.user.say(*(transfer(number, bytes([0xaa, number])) for number in range(9)))
        tags = [self.user.answer()[8] for _ in range(9 + 9 + 1)]
        check(f"{self.name}: returns", tags.count(0xab), 9)


def visitors():
    every = list(range(MANY))
    for number in range(3):
        yield TimelyVisitor(f"timely {number}", instance("onlt", number), every, start(1), number > 1)
    for number in range(4):
        yield Visitor(f"complete {number}", instance("onlc", number), every, start(1), number > 2)
    for number in range(3):
        yield OfflineVisitor(f"offline {number}", instance("offl", number), every,
                             start(1, cds(0), cds(MANY - 1)), number > 1)
    for number in range(2):
        yield Visitor(f"channel {number}", CHANNELS % number, every[number::2],
                      start(1, what=channel(171, number)), number > 0, 2)
    yield CommandVisitor("telecommands", COMMANDS, [], cltu_start(0), True, 16)


def crowd(folder):
    """Sixteen users at once, of every service, until an operator stops the station."""
    station = Station(folder, 16, 2, configuration=crowd_site(), stops=True)
    users = list(visitors())
    ready = threading.Barrier(len(users) + 1, timeout=PATIENCE)
    threads = [threading.Thread(target=user.come, args=[port, ready])
               for user, port in zip(users, station.ports)]
    for thread in threads:
        thread.start()
    # two that read nothing, and one that resets its connection while it is handed frames
    others = []
    for kind, number, port in [("onlc", 4, 13), ("onlt", 3, 14), ("onlc", 5, 15)]:
        other = User(station.ports[port], room=4096)
        other.bound(f"{kind} {number}", "MOC", instance(kind, number))
        other.say(start(1))
        others.append(other)
    ready.wait()
    front_end = station.front_end()
    for number in range(MANY):
        front_end.sendall(f"frame 20000/{number}/0 0 41 0 {long_frame(number).hex()}\n".encode())
        if number == MANY // 2:
            others[2].reset()
    front_end.sendall(f"mark 20000/{MANY}/0\n".encode())
    for thread in threads:
        thread.join()
    again = User(station.ports[15])
    again.bound("after a reset", "MOC", instance("onlc", 5))
    began = time.time()
    station.stop("a crowd")
    check("a stop is soon", time.time() - began < 20, True)
    for user in [*(it.user for it in users if it.stays), again]:
        check("a user that is bound hears the end", user.end(), b"")
    log = station.ended("the run of a crowd", 0, [f"stored {MANY + 1}", "radiated 9"]
                        + [f"door {number} links {1 + (number == 16)}" for number in range(1, 17)])
    listed = station.listed()
    check("what a crowd heard is listed", listed == "".join(
        f"frame 20000/{number}/0 0 41 0 {long_frame(number).hex()}\n" for number in range(MANY))
        + f"mark 20000/{MANY}/0\n", True)
    for place, user in enumerate(users, 1):
        end = "stopped" if user.stays else "unbound"
        check(f"{user.name}: log", station.log_at(log, place), ["USER connected", f"USER ended: {end}"])
    for place in (14, 15):
        check("a log of one that doesn't read", station.log_at(log, place), ["USER connected", "USER ended: stopped"])
    check("a log of a reset", station.log_at(log, 16),
          ["USER connected", "USER ended: the connection broke", "USER connected", LAST,
           "USER ended: stopped"])


def commands(folder):
    """A user queues telecommands, and hears of each that it is radiated; the antenna has each once."""
    sent = {number: bytes([0xaa, number]) * 40 for number in range(7, 27)}
    station = Station(folder, 1, 2, configuration=site(1) + f"cltu {COMMANDS} MOC 100000 100 60\n")
    user = User(station.ports[0])
    user.bound("commands", "MOC", COMMANDS, service=16)
    user.say(cltu_start(7))
    answer = user.answer()[8:]
    check("commands: started", (answer[0], told_at(answer, 2)[0]), (0xa1, 0xa0))
    user.say(transfer(8, b"out of order"))
    answer = user.answer()[8:]
    check("commands: out of order", (told_at(answer, 2), told_at(answer, 4)),
          ((0x02, b"\7"), (0xa1, bytes.fromhex("810102"))))
    user.say(*(transfer(number, octets) for number, octets in sent.items()))
    queued, radiated, last = [], [], None
    while len(radiated) < len(sent):
        answer = user.answer()[8:]
        if answer[0] == 0xab:
            queued.append((told_at(answer, 2)[1][-1], told_at(answer, 4)[0]))
        elif told_at(answer, 1)[0] == 0x80:
            [(_, number), *_] = elements(told_at(answer, 3)[1])
            radiated.append(number[-1])
    check("commands: queued in order", queued, [(number + 1, 0x80) for number in sent])
    check("commands: radiated in order", radiated, list(sent))
    check("commands: none waits", told_at(user.answer()[8:], 1), (0x85, b""))
    user.say(stop(9))
    check("commands: stopped", user.answer(), stopped(9))
    user.unbind("commands")
    # the instance is free again
    user = User(station.ports[0])
    user.bound("commands again", "MOC", COMMANDS, service=16)
    user.unbind("commands again")
    station.front_end().close()
    station.ended("the run of commands", 0,
                  ["stored 0", f"radiated {len(sent)}", "door 1 links 2"])
    with open(os.path.join(folder, "cltus"), "rb") as file:
        check("the antenna's octets", file.read(), b"".join(sent.values()))


def receiving(folder):
    """The user's program receives the frames of a span."""
    station = Station(folder, 1, 1)
    front_end = station.front_end()
    front_end.sendall("".join(map(frame, range(10))).encode())
    front_end.close()
    words = ["raf", str(station.ports[0]), "MOC", "none", instance("offl", 1), "20000/2/0", "20000/6/0",
             "2", "1000000"]
    for _ in range(100):
        found = subprocess.run([USER, *words], capture_output=True, stdin=subprocess.DEVNULL,
                               timeout=PATIENCE)
        if found.stdout != b"link fault\n":
            break
        # (the station doesn't listen yet)
        time.sleep(0.05)
    told = [f"frame 20000/{number}/0 0 {0 if place else -1} 41 {frame(number).split()[-1]}"
            for place, number in enumerate(range(2, 7))]
    check("the user's program", (found.returncode, found.stdout.decode().split("\n")[:-1]),
          (0, ["ok 101", "ok 1", *told, "end", "ok 3", "ok 103"]))
    station.ended("its station's run", 0, ["stored 10", "radiated 0", "door 1 links 1"])


def commanding(folder):
    """The user's program has the telecommands of a file radiated."""
    station = Station(folder, 1, 1, configuration=site(1) + f"cltu {COMMANDS} MOC 100000 100 60\n")
    with open(os.path.join(TOP, "examples", "telecommands.cltus"), "rb") as file:
        text = file.read()
    lines = [line.split() for line in text.decode().split("\n") if line.startswith("cltu ")]
    words = ["cltu", str(station.ports[0]), "MOC", "none", COMMANDS, lines[0][1], "100000"]
    for _ in range(100):
        found = subprocess.run([USER, *words], capture_output=True, input=text, timeout=PATIENCE)
        if found.stdout != b"link fault\n":
            break
        # (the station doesn't listen yet)
        time.sleep(0.05)
    told = found.stdout.decode().split("\n")[:-1]
    check("the user's telecommands", (found.returncode, told[:2], told[-2:]),
          (0, ["ok 101", "ok 1"], ["ok 3", "ok 103"]))
    check("what is expected behind each", [line.split()[:3] for line in told if line.startswith("ok 11 ")],
          [["ok", "11", str(int(line[1]) + 1)] for line in lines])
    check("the notices that were wanted", told.count("notice 0"), sum(line[5] == "0" for line in lines))
    station.front_end().close()
    station.ended("its station's run of telecommands", 0,
                  ["stored 0", f"radiated {len(lines)}", "door 1 links 1"])
    with open(os.path.join(folder, "cltus"), "rb") as file:
        check("the antenna's octets of a file", file.read(), b"".join(bytes.fromhex(line[6]) for line in lines))


def again(folder):
    """A second run over the archive of an earlier one goes on behind its entries."""
    for numbers in [range(3), range(3, 6)]:
        station = Station(folder, 1, 1)
        front_end = station.front_end()
        front_end.sendall("".join(map(frame, numbers)).encode())
        front_end.close()
        user = User(station.ports[0])
        user.bound("again", "MOC", instance("offl", 1))
        user.unbind("again")
        station.ended("a run again", 0, ["stored 3", "radiated 0", "door 1 links 1"])
    check("both runs are listed", station.listed(), "".join(map(frame, range(6))))


def stops(folder):
    """An operator stops a station at which nothing happens, and one whose source comes again."""
    def at(name):
        place = os.path.join(folder, name)
        os.mkdir(place)
        return place

    station = Station(at("idle"), 3, 5, stops=True)
    # (it listens to all before it hears a stop)
    stranger, silent = User(station.stop_port), User(station.stop_port)
    stranger.say(b"halt\n")
    check("another word at the stop's port", stranger.end(), b"")
    operator = User(station.stop_port)
    check("who is silent makes room", silent.end(), b"")
    for piece in [b"st", b"o", b"p\n"]:
        operator.say(piece)
        time.sleep(0.03)
    check("a stop in pieces", operator.octets(9), b"stopping\n")
    check("the end of a station", operator.end(), b"")
    log = station.ended("the run of an idle station", 0,
                        ["stored 0", "radiated 0", *(f"door {number} links 0" for number in (1, 2, 3))])
    check("an idle station's log", log, ["stop: asked for by USER"])
    # a source that ends is followed by the next one, and a stop leaves no line that came whole
    station = Station(at("sources"), 1, 1, stops=True)
    for numbers in [range(2), range(2, 5)]:
        front_end = station.front_end()
        front_end.sendall("".join(map(frame, numbers)).encode())
        front_end.close()
    front_end = station.front_end()
    front_end.sendall((frame(5) + frame(6)[:-3]).encode())
    user = User(station.ports[0])
    user.bound("sources", "MOC", instance("onlc", 1))
    user.say(start(1))
    check("sources: started", user.answer(), started(1))
    front_end.sendall((frame(6)[-3:] + frame(7)[:-1]).encode())
    # (what came before the START isn't handed over)
    last = user.frames(1)[-1]
    while last[2] != of_frames([6])[0][2]:
        last = user.frames(1)[-1]
    check("sources: what was fed last", last[0], cds(6))
    station.stop("sources")
    log = station.ended("the run of sources", 0, ["stored 7", "radiated 0", "door 1 links 1"])
    check("all sources are listed", station.listed(), "".join(map(frame, range(7))))
    check("the sources' log", station.log_at(log, None),
          ["USER connected", "USER ended after line 2", "USER connected", "USER ended after line 3",
           "USER connected"])
    with socket.create_server(("127.0.0.1", 0)) as other:
        port = str(other.getsockname()[1])
        station = Station(at("taken"), 1, 1, stops=True, given={"STATION_STOP": port})
        log = station.ended("a stop's port that is taken", 6, ["read fault"])
        check("its log", log, [f"stop 127.0.0.1:{port}: address in use"])
    for given in [{"STATION_STOP": "0"}, {"STATION_STOP": "x"}, {"STATION_ADDRESS": "here"}]:
        words = ["10", "1", station.path, "1", os.path.join(folder, "cltus"), "2"]
        found = subprocess.run([PROVIDER, "run", *words], capture_output=True, stdin=subprocess.DEVNULL,
                               env={**os.environ, **given})
        check(f"environment {given}", (found.returncode, found.stdout), (2, b"usage\n"))


def refusals(folder):
    def at(name):
        place = os.path.join(folder, name)
        os.mkdir(place)
        return place

    station = Station(at("site"), 1, 1, configuration="peer MOC none sha1 60 00\n")
    station.ended("a refused configuration", 4, ["bad site 1 3"])
    station = Station(at("none"), 1, 1, made=False)
    station.ended("no archive", 8, ["disk fault"])
    place = at("other")
    with open(os.path.join(place, "archive"), "wb") as file:
        file.write(b"no journal")
    station = Station(place, 1, 1)
    station.ended("a file that is no archive", 5, ["archive refused 0"])
    # each worker has ten turns, which an idle user spends at its door
    station = Station(at("spent"), 1, 1, turns="10")
    front_end = station.front_end()
    front_end.close()
    user = User(station.ports[0])
    user.say(context(30, 5))
    station.ended("spent turns", 10, ["stored 0", "radiated 0", "door 1 links 1", "turns spent"])
    user.peer.close()
    station = Station(at("fed"), 1, 1)
    front_end = station.front_end()
    user = User(station.ports[0])
    user.bound("a feed at fault", "MOC", instance("onlc", 1))
    user.say(start(1))
    check("a feed at fault: started", user.answer(), started(1))
    front_end.sendall(frame(1).encode())
    check("a feed at fault: what was fed before", user.frames(1), of_frames([1]))
    front_end.sendall(b"fly\n")
    user.say(stop(2))
    check("a feed at fault: stopped", user.answer(), stopped(2))
    user.unbind("a feed at fault")
    log = station.ended("a feed at fault", 6,
                        ["stored 1", "radiated 0", "door 1 links 1", "read fault"])
    check("its report", station.log_at(log, None), ["USER connected", "USER ended at line 2: it says no entry"])
    for words in [[], ["10", "1", "a", "1", "b"], ["9", "1", "a", "1", "b", "2"],
                  ["10", "0", "a", "1", "b", "2"], ["10", "1", "a", "0", "b", "2"],
                  ["10", "1", "a", "1", "b", "65536"], ["10", "1", "a", "1", "b", *["2"] * 17]]:
        found = subprocess.run([PROVIDER, "run", *words], capture_output=True, stdin=subprocess.DEVNULL)
        check(f"words {words}", (found.returncode, found.stdout), (2, b"usage\n"))


for part in [one_user, deliveries, crowd, stops, commands, receiving, commanding, again, refusals]:
    with tempfile.TemporaryDirectory() as folder:
        try:
            part(folder)
        except Exception as error:
            check(part.__name__, repr(error), None)
sys.exit(checks.end())
