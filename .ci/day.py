#!/usr/bin/env python3
"""Runs a station for two minutes, in which it meets each trouble that a day may bring, beside two users.

usage: day.py PROVIDER [SECONDS]

One user hears all frames and one has telecommands radiated. Beside them come users who say nothing,
half a context or only once, who reset, don't read, or look whether a port answers; accepts fail; the
source sends lines that are none, is cut short, breaks, falls silent and comes
again, twice at once too; writes of the archive fail; a second station wants the files; the process is
halted and continued; the wall clock steps; the archive fills. In the end the two users have lost
nothing, and have nothing twice. Then a write of the telecommands' file fails, and a sync of the archive.
The log tells each. The last line says how many checks passed.
"""
import errno
import os
import re
import signal
import socket
import subprocess
import sys
import tempfile
import threading
import time

sys.dont_write_bytecode = True
from control_centre import (HEARTBEAT, PATIENCE, User, check, checks, cltu_start, context, elements, instance, items,
                            programs, start, told_at, transfer)
from shim import Shim, compiler
from watched import Watched, new_ports

TOP = os.path.dirname(os.path.dirname(os.path.abspath(__file__)))
PROVIDER = os.path.abspath(sys.argv[1])
SECONDS = int(sys.argv[2]) if len(sys.argv) > 2 else 120
programs.update(provider=PROVIDER)
checks.name = "day"
COMMANDS = "sagr=1.spack=P.fsl-fg=1.cltu=cltu1"
CAPACITY, LINKS = 1_000_000, 40
# The doors: the listener's, the commander's, three that share a port, and one whose links are used up.
LISTENER, COMMANDER, SHARED, SPENT = 0, 1, 2, 5
DOORS = 6
# How long a line of the log may take to come.
SOON = 30


def site():
    lines = ["heartbeat 1 3600 2 100", f"capacity {CAPACITY}", "peer MOC none sha1 60 000000000000"]
    lines += [f"raf {instance('onlc', number)} MOC complete 1 1 60" for number in range(DOORS)]
    lines += [f"raf {instance('onlt', 1)} MOC timely 2 1 60", f"cltu {COMMANDS} MOC 100000 1000 60"]
    return "\n".join(lines) + "\n"


def reset(peer):
    peer.setsockopt(socket.SOL_SOCKET, socket.SO_LINGER, b"\1\0\0\0\0\0\0\0")
    peer.close()


class Honest(threading.Thread):
    """A user that says a heartbeat now and then, and keeps what it hears."""

    def __init__(self, port, name, who, begin, service=0):
        super().__init__(daemon=True)
        self.name, self.heard, self.fault, self.lock = name, [], None, threading.Lock()
        self.user = User(port)
        self.user.bound(name, "MOC", who, service=service)
        self.user.say(begin)
        check(f"{name}: started", self.user.answer()[8], 0xa1)
        self.user.peer.settimeout(5)
        self.start()

    def say(self, message):
        with self.lock:
            self.user.say(message)

    def run(self):
        said, octets = 0.0, b""
        try:
            while True:
                if time.time() > said + 5:
                    self.say(HEARTBEAT)
                    said = time.time()
                try:
                    piece = self.user.peer.recv(1 << 16)
                except TimeoutError:
                    continue
                if not piece:
                    raise EOFError
                octets += piece
                while len(octets) >= 8 and len(octets) >= (end := 8 + int.from_bytes(octets[4:8], "big")):
                    if octets[0] == 1:
                        self.take(octets[8:end])
                    octets = octets[end:]
        except (EOFError, OSError) as fault:
            self.fault = repr(fault)

    def has(self, count):
        end = time.time() + PATIENCE
        while len(self.heard) < count and time.time() < end and not self.fault:
            time.sleep(0.02)
        return len(self.heard) >= count


class Listener(Honest):
    def take(self, pdu):
        self.heard += [item[2] for item in items(pdu) if isinstance(item, tuple)]


class Commander(Honest):
    def take(self, pdu):
        if pdu[0] == 0xac and told_at(pdu, 1)[0] == 0x80:
            [(_, number), *_] = elements(told_at(pdu, 3)[1])
            self.heard.append(int.from_bytes(number, "big"))


class Day:
    def __init__(self, folder):
        shared, self.folder = new_ports(1) * 3, folder
        self.shim = Shim(folder)
        self.heard_at = os.path.join(folder, "stop.socket")
        self.station = Watched(folder, DOORS, LINKS, configuration=site(), shim=self.shim,
                               ports=[*new_ports(2), *shared, *new_ports(1)],
                               given={"STATION_SILENCE": "3", "STATION_IDLE": "6", "STATION_STOP": self.heard_at})
        self.began, self.is_over, self.fed, self.sent, self.met = time.time(), False, [], [], []
        self.listener = Listener(self.station.ports[LISTENER], "listener", instance("onlc", 0), start(1))
        self.commander = Commander(self.station.ports[COMMANDER], "commander", COMMANDS, cltu_start(0), 16)
        self.shared, self.spent = self.station.ports[SHARED], self.station.ports[SPENT]

    def until(self, second):
        """Waits for a second of the run, of which there are 120 where it isn't shorter."""
        time.sleep(max(0, self.began + second * SECONDS / 120 - time.time()))

    def tells(self, name, pattern, count=1):
        """A trouble was met, of which the log is to say this."""
        self.met.append(name)
        found = self.station.logs(pattern, count, SOON) or self.station.log()[-9:]
        check(f"{name}: the log has {pattern}", found, True)

    # ---- the source

    def line(self):
        """The next frame's line: as long as it has to be for the archive to fill in time."""
        number, size = len(self.fed), os.path.getsize(self.station.path)
        missing = 0.96 * CAPACITY * min(1, (time.time() - self.began) / (SECONDS * 100 / 120)) - size
        octets = number.to_bytes(4, "big") + bytes([number % 251]) * int(min(max(missing, 16), 5_000))
        self.fed.append(octets)
        return f"frame 20000/{number}/0 0 41 0 {octets.hex()}\n"

    def feed(self):
        troubles = [self.bad_line, self.too_long, self.cut_short, self.broken, self.silent_one, self.another_one,
                    self.taken_over]
        place = 0
        while time.time() < self.began + SECONDS * 112 / 120:
            ended = self.count(r"^feed \S+: \S+ ended after")
            with self.station.front_end() as peer:
                for _ in range(20):
                    peer.sendall(self.line().encode())
                    time.sleep(0.1)
            # (who comes before an older one has ended is closed)
            self.station.logs(r"^feed \S+: \S+ ended after", ended + 1)
            if place < len(troubles):
                came = self.count(r"^feed \S+: \S+ connected")
                troubles[place]()
                self.station.logs(r"^feed \S+: \S+ ended", self.count(r"^feed \S+: \S+ connected"), SOON)
                check("a source came", self.count(r"^feed \S+: \S+ connected") > came, True)
                place += 1
        check("the source met each of its troubles", place, len(troubles))

    def count(self, pattern):
        return sum(bool(re.search(pattern, line)) for line in self.station.log())

    def bad_line(self):
        peer = self.station.front_end(self.line() + self.line() + "fly me to the moon\n")
        self.tells("a line that is none", r"^feed \S+: \S+ ended.*line 3\b")
        peer.close()

    def too_long(self):
        peer = self.station.front_end(self.line())
        try:
            peer.sendall(b"frame 20000/1/0 0 41 0 " + b"0" * 140_000)
        except ConnectionError:
            pass
        self.tells("a line that is too long", r"^feed \S+: \S+ ended.*line 2\b")
        peer.close()

    def cut_short(self):
        self.station.front_end(self.line() + "frame 20000/86399999/0 0 41 0 0a0b").close()
        self.tells("a source that is cut short", r"^feed \S+: \S+ ended.*line 2\b.*cut short")

    def broken(self):
        peer = self.station.front_end(self.line() + "frame 20000/86399999/0 0 41 0 0a0b")
        check("the frame of a source that breaks is heard", self.listener.has(len(self.fed)), True)
        reset(peer)
        self.tells("a source that breaks", rf"^feed \S+: \S+ ended.*{os.strerror(errno.ECONNRESET)}")

    def silent_one(self):
        with self.station.front_end(self.line()):
            check("a source beside a silent one is heard", self.listener.has(len(self.fed)), True)
            with User(self.station.feed).peer:
                self.tells("a source that says nothing", r"^feed \S+: \S+ .*nothing heard for 10 s")

    def another_one(self):
        with self.station.front_end(self.line()):
            check("the first of two sources is heard", self.listener.has(len(self.fed)), True)
            with self.station.front_end("frame 20000/86399999/0 0 41 0 0a0b\n"):
                self.tells("a second source", r"^feed \S+: \S+ closed: (?!nothing heard)")

    def taken_over(self):
        with self.station.front_end(self.line() + "frame 20000/86399999/0 0 41"):
            check("a source that falls silent is heard", self.listener.has(len(self.fed)), True)
            time.sleep(10.5)
            ended = self.count(r"^feed \S+: \S+ ended after")
            with self.station.front_end(self.line()):
                self.tells("a source that comes again", r"^feed \S+: \S+ .*takes the place of")
                check("a source that comes again is heard", self.listener.has(len(self.fed)), True)
            self.station.logs(r"^feed \S+: \S+ ended after", ended + 1)

    # ---- telecommands

    def command(self):
        while not self.is_over:
            number = len(self.sent)
            self.sent.append(b"telecommand %d" % number)
            self.commander.say(transfer(number, self.sent[-1]))
            time.sleep(0.2)

    # ---- users

    def users(self):
        """Users of the port that three doors share."""
        number = 0
        while not self.is_over:
            for trouble in (self.silent_user, self.half_a_context, self.idle_user, self.health_checks, self.reset_user,
                            self.deaf_user, self.good_user):
                try:
                    trouble(number)
                except (OSError, EOFError) as fault:
                    check(f"a user, {trouble.__name__}", repr(fault), None)
                if self.is_over:
                    return
            number += 1

    def closed(self, name, user):
        """The station closes this connection."""
        user.peer.settimeout(SOON)
        try:
            while user.peer.recv(1 << 16):
                pass
        except ConnectionError:
            pass
        except TimeoutError:
            check(f"{name}: closed", False, True)

    def silent_user(self, _number):
        user = User(self.shared)
        self.closed("a silent user", user)
        self.tells("a silent user", r"^door \S+: \S+ .*nothing heard for 3 s")

    def half_a_context(self, _number):
        user = User(self.shared)
        user.say(context(30, 5)[:11])
        self.closed("half a context", user)
        self.tells("half a context", r"^door \S+: \S+ ended.*nothing heard for 3 s")

    def idle_user(self, _number):
        user = User(self.shared)
        user.bound("an idle user", "MOC", instance("onlc", 2), interval=0)
        self.closed("an idle user", user)
        self.tells("an idle user", r"^door \S+: \S+ ended.*nothing heard for 6 s")

    def health_checks(self, _number):
        for _ in range(100):
            User(self.shared).peer.close()

    def reset_user(self, _number):
        user = User(self.shared)
        user.bound("a user that resets", "MOC", instance("onlc", 3))
        user.say(start(1))
        user.answer()
        user.reset()

    def deaf_user(self, _number):
        user = User(self.shared, room=4096)
        user.bound("a user that doesn't read", "MOC", instance("onlt", 1))
        user.say(start(1))
        time.sleep(1)
        user.peer.close()

    def good_user(self, _number):
        users = [User(self.shared) for _ in range(3)]
        for place, user in enumerate(users):
            user.bound("three at once", "MOC", instance("onlc", 2 + place))
        self.tells("three users of a port", r"^door \S+: \S+ connected.*\b3 of (the port's )?3\b")
        for user in users:
            user.unbind("three at once")

    def spend(self):
        """Uses up the links of a door."""
        self.until(15)
        for _ in range(LINKS):
            user = User(self.spent)
            user.bound("a door that is used up", "MOC", instance("onlc", 5))
            user.unbind("a door that is used up")
        self.tells("a door that is used up", rf"^door \S+:{self.spent}: .*\b(all|last)\b.*(connection|link)")

    # ---- what is around the station

    def surroundings(self):
        self.until(8)
        self.shim.order(("accept", f":{self.shared}", 1, 3, errno.EMFILE),
                        ("accept", f":{self.station.feed}", 1, 2, errno.ENOBUFS))
        self.tells("an accept that fails", rf"^door \S+:{self.shared}: .*accept.*{os.strerror(errno.EMFILE)}.*again")
        self.tells("a source's accept that fails", rf"^feed \S+: .*accept.*{os.strerror(errno.ENOBUFS)}.*again")
        self.until(30)
        # (a negative number is that of the octets that a write takes)
        for error in (errno.EIO, errno.ENOSPC, -5):
            self.shim.order(("pwrite", "/archive", 1, 1, error), ("write", "/cltus", 1, 1, -5))
            if error > 0:
                self.tells("a write that fails", rf"^archive \S+: .*{os.strerror(error)}")
            heard = len(self.listener.heard)
            check("frames are heard after a write that fails", self.listener.has(heard + 3), True)
        self.shim.order()
        self.until(36)
        self.shim.shift(1_000)
        self.tells("a clock that steps", r"clock.*\b(999|100\d)(\.\d+)? s")
        self.until(40)
        self.second_station()
        self.until(46)
        self.station.process.send_signal(signal.SIGSTOP)
        time.sleep(3)
        self.station.process.send_signal(signal.SIGCONT)
        self.other_words()
        self.until(98)
        self.tells("a clock that steps, a minute later", "clock", 2 if SECONDS >= 120 else 1)
        self.shim.shift(-500)
        self.until(110)
        self.shim.shift(0)

    def second_station(self):
        place = os.path.join(self.folder, "second")
        os.mkdir(place)
        for name, archive, cltus in [("archive", self.station.path, os.path.join(place, "cltus")),
                                     ("CLTUs", None, self.station.cltus)]:
            if archive:
                os.symlink(archive, os.path.join(place, "archive"))
            else:
                os.remove(os.path.join(place, "archive"))
            other = Watched(place, cltus=cltus, began=False)
            told, _ = other.process.communicate(timeout=PATIENCE)
            check(f"a second station of the {name}", (other.process.returncode, told), (8, b"disk fault\n"))
            check(f"a second station of the {name}: its log", other.told(f"^{name} "), True)
            self.met.append(f"a second station of the {name}")

    def other_words(self):
        for text in (b"halt\n", b"stop", b"\n"):
            with socket.socket(socket.AF_UNIX) as peer:
                peer.connect(self.heard_at)
                peer.sendall(text)
                peer.shutdown(socket.SHUT_WR)
                peer.settimeout(SOON)
                try:
                    check(f"{text} at the stop's place", peer.recv(100), b"")
                except ConnectionError:
                    pass

    # ---- the end

    def compare(self):
        check("the process lives", self.station.process.poll(), None)
        check("all frames are heard", self.listener.has(len(self.fed)) or len(self.listener.heard), True)
        check("all telecommands are told", self.commander.has(len(self.sent)), True)
        check("frames, each heard once and in order", self.listener.heard == self.fed, True)
        check("telecommands, each told once and in order", self.commander.heard, list(range(len(self.sent))))
        check("neither lost its connection", (self.listener.fault, self.commander.fault), (None, None))
        with open(self.station.cltus, "rb") as file:
            check("telecommands, each radiated once and in order", file.read() == b"".join(self.sent), True)
        for percent in (80, 90, 95):
            self.tells(f"{percent} percent full", rf"^archive \S+: {percent} percent full")
        told = self.count(r"nothing heard for 10 s")
        told_again = self.count("accept.*again")
        check(f"a failing accept is told once a minute: {told_again}", told_again <= 6, True)
        check("a source is told of once", told, 1)

    def fail(self):
        """What ends commanding, and what ends recording."""
        self.shim.order(("write", "/cltus", 1, 1, errno.ENOSPC), ("fsync", "/archive", 1, 1, errno.EIO))
        self.commander.say(transfer(len(self.sent), b"one more"))
        self.tells("a telecommand's write that fails", rf"^CLTUs \S+: .*{os.strerror(errno.ENOSPC)}")
        listed = self.line()
        self.fed.pop()
        with self.station.front_end(listed):
            self.tells("a sync that fails", rf"^archive \S+: .*sync.*{os.strerror(errno.EIO)}.*(machine|volume)")
        part = os.path.join(TOP, "bin", "parts", "station.py")
        found = subprocess.run([sys.executable, "-BEs", part], capture_output=True,
                               env={**os.environ, "STATION_STOP": self.heard_at})
        check("stopped", (found.returncode, found.stdout), (0, b"stopped\n"))
        told, _ = self.station.process.communicate(timeout=PATIENCE)
        check("the end", (self.station.process.returncode, told.decode().split("\n")[:2]),
              (8, [f"stored {len(self.fed)}", f"radiated {len(self.sent)}"]))
        listed = [bytes.fromhex(line.split()[-1]) for line in self.station.listed().split("\n")[:-1]]
        # (the frame of the failed sync may be there)
        check("what was heard is listed", listed[:len(self.fed)] == self.fed, True)


def day(folder):
    it = Day(folder)
    works = [it.command, it.users, it.spend, it.surroundings]

    def run(work):
        try:
            work()
        except Exception as fault:
            check(work.__name__.replace("_", " "), repr(fault), None)
    threads = [threading.Thread(target=run, args=(work,), daemon=True) for work in works]
    for thread in threads:
        thread.start()
    run(it.feed)
    it.until(114)
    it.is_over = True
    for thread in threads:
        thread.join(PATIENCE)
    it.compare()
    it.fail()
    if checks.failed:
        with open(it.station.written) as file:
            lines = [line for line in file if not re.search(rf":{it.spent}: .*(connected|unbound)$", line)]
        print("day: what the station told last:\n    ", "    ".join(lines[-60:]))
    print(f"day: {time.time() - it.began:.0f} s, {len(it.fed)} frames and {len(it.sent)} telecommands;"
          f" {len(set(it.met))} kinds of trouble, {len(it.met)} met")


if __name__ == "__main__":
    if compiler() is None:
        print("day: left out, as there is no C compiler on the path")
        sys.exit(0)
    with tempfile.TemporaryDirectory() as folder:
        try:
            day(folder)
        except Exception as error:
            check("the day", repr(error), None)
    sys.exit(checks.end())
