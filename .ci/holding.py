#!/usr/bin/env python3
"""Brings a station each trouble of a day of operation, a part for each, and looks how it holds.

usage: holding.py PROVIDER [PART..]

Users who say nothing, health checks, refused connections, users who share a port and who come over TLS;
sources that send no lines, are cut short, break or come again; files whose calls fail, an archive that
fills; clocks that step; ports that are taken, signals, Unix sockets; and what a stop, a halt and a
full buffer leave. Each part has stations of its own, and all parts run at once. The last line says how
many checks passed; with `holding.py PROVIDER PART..` only these parts run.
"""
import errno
import os
import re
import shutil
import signal
import socket
import ssl
import stat
import subprocess
import sys
import tempfile
import time

sys.dont_write_bytecode = True
from control_centre import (HEARTBEAT, PATIENCE, UNBIND, UNBOUND, User, bind, cds, check, checks, cltu_start, context,
                            frame, instance, items, programs, site, start, started, stop, stopped, told_at, transfer)
from forms import identifier, pdu_message
from sessions import bind_pdu, signed, stamp_of
from shim import Shim, compiler, library
from watched import Watched, in_threads, new_ports, seconds_to_close, started_ones

TOP = os.path.dirname(os.path.dirname(os.path.abspath(__file__)))
PROVIDER = os.path.abspath(sys.argv[1])
programs.update(provider=PROVIDER)
checks.name = "holding"
COMMANDS = "sagr=1.spack=P.fsl-fg=1.cltu=cltu1"
# How many seconds a part waits for what is to come soon.
SOON = 20
DOOR, FEED = r"^door \S+: ", r"^feed \S+: "


class Trial:
    """A part: its name, its stations, and what it finds."""

    def __init__(self, part, folder):
        self.name, self.folder, self.stations = part.__name__.replace("_", " "), folder, []

    def check(self, what, found, expected):
        check(f"{self.name}: {what}", found, expected)

    def place(self):
        self.stations.append(None)
        place = os.path.join(self.folder, str(len(self.stations)))
        os.mkdir(place)
        return place

    def station(self, doors=1, links=9, **more):
        return Watched(self.place(), doors, links, **more)

    def told_last(self):
        """The last lines of its stations' logs."""
        for place, _, names in os.walk(self.folder):
            if "log" in names:
                with open(os.path.join(place, "log")) as file:
                    yield from file.read().split("\n")[-9:]

    def user(self, port):
        """A user that waits for little time."""
        user = User(port)
        user.peer.settimeout(SOON)
        return user

    def bound(self, station, door=0, kind="onlc", number=1, interval=30):
        user = self.user(station.ports[door])
        user.bound(self.name, "MOC", instance(kind, number), interval=interval)
        return user

    def listener(self, station, door=0, number=1, interval=30):
        """A user that hears all frames."""
        user = self.bound(station, door, number=number, interval=interval)
        user.say(start(1))
        self.check("started", user.answer(), started(1))
        return user

    def commander(self, station, door=0):
        user = self.user(station.ports[door])
        user.bound(self.name, "MOC", COMMANDS, service=16)
        user.say(cltu_start(0))
        self.check("started", user.answer()[8], 0xa1)
        return user

    def leaves(self, user):
        """A user that hears frames stops and unbinds; frames that come first are passed over."""
        user.say(stop(900))
        while (answer := user.answer()) != stopped(900):
            self.check("a frame before the stop", answer[8], 0xa8)
        user.unbind(self.name)

    def hears(self, user, *numbers):
        found = [item[2] for item in user.frames(len(numbers)) if isinstance(item, tuple)]
        self.check(f"frames {numbers}", found, [octets_of(number) for number in numbers])

    def has(self, station, *patterns, count=1):
        for pattern in patterns:
            self.check(f"the log has {pattern}", station.logs(pattern, count, SOON) or station.log(), True)

    def has_not(self, station, pattern):
        self.check(f"the log hasn't {pattern}", [line for line in station.log() if re.search(pattern, line)], [])

    def closed(self, peer, least, most=SOON):
        took = seconds_to_close(peer, most)
        self.check(f"closed after {least} s: {took}", took is not None and took >= least, True)

    def ends(self, station, *lines, status=0, asked=True):
        """Stops a station, if it is to be asked, and compares its last lines."""
        if asked and station.process.poll() is None and not station.told("^stop: asked for"):
            station.stop(self.name)
        told, _ = station.process.communicate(timeout=PATIENCE)
        found = told.decode().split("\n")[:-1]
        self.check("the end", (station.process.returncode, [line for line in lines if line not in found]), (status, []))


def octets_of(number):
    return bytes.fromhex(frame(number).split()[-1])


def reset(peer):
    peer.setsockopt(socket.SOL_SOCKET, socket.SO_LINGER, b"\1\0\0\0\0\0\0\0")
    peer.close()


def is_refused(port, patience=SOON):
    """Whether nobody listens at a port, within so many seconds."""
    end = time.time() + patience
    while time.time() < end:
        try:
            socket.create_connection(("127.0.0.1", port), 5).close()
        except ConnectionRefusedError:
            return True
        except OSError:
            pass
        time.sleep(0.05)
    return False


# ---- users

def a_silent_connection(it):
    station = it.station(given={"STATION_SILENCE": "2"})
    with User(station.ports[0]).peer as peer:
        it.closed(peer, 1.5)
    it.has(station, DOOR + r"\S+ .*nothing heard for 2 s")
    user = it.bound(station)
    user.unbind(it.name)
    it.ends(station, "door 1 links 1")


def thirty_seconds_of_silence(it):
    station = it.station()
    with User(station.ports[0]).peer as peer:
        it.closed(peer, 29, 50)
    it.has(station, DOOR + r"\S+ .*nothing heard for 30 s")
    it.ends(station, "door 1 links 0")


def half_a_context(it):
    station = it.station(given={"STATION_SILENCE": "2"})
    peer, began, octets = User(station.ports[0]).peer, time.time(), context(30, 5)
    try:
        for place in range(len(octets) - 1):
            peer.sendall(octets[place:place + 1])
            peer.settimeout(0.5)
            try:
                if not peer.recv(1):
                    break
            except TimeoutError:
                pass
    except ConnectionError:
        pass
    took = time.time() - began
    it.check(f"closed after 2 s, octet by octet: {took}", 1.5 <= took < 8, True)
    peer.close()
    it.has(station, DOOR + r"\S+ .*nothing heard for 2 s")
    it.has_not(station, "the user closed|connection broke")
    it.ends(station, "door 1 links 1")


def an_idle_user(it):
    """One without heartbeats has to speak; one with them has the dead timer."""
    station = it.station(3, given={"STATION_IDLE": "3"})
    silent, speaks, beats = (it.bound(station, door, number=door + 1, interval=interval)
                             for door, interval in enumerate((0, 0, 30)))

    def speak():
        for _ in range(12):
            speaks.say(HEARTBEAT)
            time.sleep(0.5)
    in_threads([speak, lambda: it.closed(silent.peer, 2)])
    it.has(station, DOOR + r"\S+ .*nothing heard for 3 s")
    it.has_not(station, "the user closed|connection broke")
    speaks.unbind(it.name)
    beats.unbind(it.name)
    it.ends(station, "door 1 links 1", "door 2 links 1", "door 3 links 1")


def an_idle_user_who_does_not_read(it):
    """One without heartbeats that neither speaks nor reads, so that a buffer waits for it."""
    station = it.station(2, given={"STATION_IDLE": "3"})
    user = User(station.ports[0], room=4096)
    user.say(context(0, 5), bind("MOC", instance("onlc", 1)), start(1))
    with station.front_end() as peer:
        for number in range(300):
            peer.sendall(f"frame 20000/{number}/0 0 41 0 {'0a' * 60_000}\n".encode())
    it.has(station, DOOR + r"\S+ ended: nothing heard for 3 s")
    it.bound(station, 1).unbind(it.name)
    user.peer.close()
    it.ends(station, "door 1 links 1", "door 2 links 1")


def an_idle_user_who_may(it):
    station = it.station(given={"STATION_IDLE": "0", "STATION_SILENCE": "1"})
    user = it.bound(station, interval=0)
    time.sleep(4)
    user.unbind(it.name)
    it.has_not(station, "nothing heard")
    for given in [{"STATION_IDLE": "x"}, {"STATION_SILENCE": "-1"}, {"STATION_SILENCE": ""}]:
        words = ["10", "1", station.path, "1", station.cltus, "2"]
        found = subprocess.run([PROVIDER, "run", *words], capture_output=True, stdin=subprocess.DEVNULL,
                               env={**os.environ, **given})
        it.check(f"environment {given}", (found.returncode, found.stdout), (2, b"usage\n"))
    it.ends(station, "door 1 links 1")


def an_hour_without_a_word(it):
    station_folder = it.place()
    shim = Shim(station_folder)
    station = Watched(station_folder, 1, shim=shim)
    user = it.bound(station, interval=0)
    shim.advance(3_500)
    time.sleep(3)
    user.say(HEARTBEAT)
    time.sleep(1)
    shim.advance(7_000)
    time.sleep(3)
    it.has_not(station, "nothing heard")
    shim.advance(7_200)
    it.closed(user.peer, 0)
    it.has(station, DOOR + r"\S+ .*nothing heard for 3600 s")
    it.ends(station, "door 1 links 1")


def eight_that_are_silent(it):
    """A door gives the first of eight that speaks."""
    station = it.station()
    silent = [User(station.ports[0]) for _ in range(7)]
    user = it.bound(station)
    user.unbind(it.name)
    last = silent[3]
    last.peer.settimeout(SOON)
    last.bound(it.name, "MOC", instance("onlc", 1))
    last.unbind(it.name)
    it.has(station, DOOR + r"\S+ connected", count=2)
    began = time.time()
    it.ends(station, "door 1 links 2")
    it.check("a stop ends the wait", time.time() - began < 10, True)


def a_stop_is_named(it):
    """The log of a stop says that it was one, and not that the user left."""
    station = it.station()
    user = it.bound(station)
    it.ends(station, "door 1 links 1")
    it.check("hears the end", user.end(), b"")
    it.has(station, DOOR + r"\S+ ended: stopped")
    it.has_not(station, "the user closed|connection broke")


def health_checks(it):
    station = it.station(1, 2)
    for _ in range(30):
        User(station.ports[0]).peer.close()
        reset(User(station.ports[0]).peer)
    for _ in range(2):
        it.bound(station).unbind(it.name)
    it.has(station, DOOR + r"\S+ connected", count=2)
    it.check("two are told", sum(" connected" in line for line in station.log()), 2)
    it.ends(station, "door 1 links 2")


def the_last_link(it):
    station = it.station(2, 1)
    it.bound(station).unbind(it.name)
    it.check("its port is closed", is_refused(station.ports[0]), True)
    it.has(station, DOOR + r".*\b(all|last)\b.*(connection|link)")
    it.bound(station, 1, number=2).unbind(it.name)
    it.ends(station, "door 1 links 1", "door 2 links 1")


PASSING = [errno.ECONNABORTED, errno.EMFILE, errno.ENFILE, errno.ENOBUFS, errno.ENOMEM, errno.ENETDOWN, errno.EPROTO]


def accepts_that_fail(it):
    """Each error of an accept that passes is tried again, at doors and at the source."""
    folder, doors = it.place(), len(PASSING)
    shim = Shim(folder)
    station = Watched(folder, doors, 1, shim=shim)
    orders = [("accept", f":{port}", 1, 3, error) for port, error in zip(station.ports, PASSING)]
    shim.order(*orders, ("accept", f":{station.feed}", 1, 3, errno.EMFILE))
    for door in range(doors):
        it.bound(station, door, number=door + 1).unbind(f"{it.name}, {errno.errorcode[PASSING[door]]}")
    for number in range(2):
        station.front_end(frame(number)).close()
        it.has(station, FEED + r".*after line 1", count=number + 1)
    it.has(station, FEED + r".*accept.*again")
    for port, error in zip(station.ports[1:], PASSING[1:]):
        it.has(station, rf"^door \S+:{port}: .*accept.*{os.strerror(error)}.*again")
        told = sum(bool(re.search(rf"^door \S+:{port}: .*accept", line)) for line in station.log())
        it.check(f"one line a minute, {errno.errorcode[error]}", told, 1)
    it.ends(station, "stored 2", *(f"door {door + 1} links 1" for door in range(doors)))


def three_on_one_port(it):
    [port] = new_ports(1)
    station = it.station(3, 1, ports=[port] * 3)
    users = [it.bound(station, door, number=door + 1) for door in range(3)]
    for place in range(1, 4):
        it.has(station, DOOR + rf"\S+ connected.*\b{place} of (the port's )?3\b")
    for user in users:
        user.unbind(it.name)
    it.check("the port is closed after its last door", is_refused(port), True)
    it.ends(station, *(f"door {door + 1} links 1" for door in range(3)))
    idle = it.station(3, ports=new_ports(1) * 3)
    began = time.time()
    it.ends(idle, *(f"door {door + 1} links 0" for door in range(3)))
    it.check("a stop wakes each", time.time() - began < 10, True)


def made_certificates(folder):
    """A root, and the station's and a user's certificates of it."""
    def openssl(*words):
        subprocess.run(["openssl", *words], check=True, capture_output=True, cwd=folder)
    new = ["-newkey", "rsa:2048", "-nodes"]
    openssl("req", "-x509", *new, "-keyout", "root.key", "-out", "root.pem", "-days", "2", "-subj", "/CN=root")
    for name in ("station", "user"):
        openssl("req", *new, "-keyout", f"{name}.key", "-out", f"{name}.csr", "-subj", f"/CN={name}")
        openssl("x509", "-req", "-in", f"{name}.csr", "-CA", "root.pem", "-CAkey", "root.key", "-CAcreateserial",
                "-out", f"{name}.pem", "-days", "2")


def doors_over_tls(it):
    """What examples/stunnel.conf says, at other places."""
    program = shutil.which("stunnel4") or shutil.which("stunnel")
    if program is None or shutil.which("openssl") is None:
        print("holding: TLS is left out, as stunnel4 or openssl isn't on the path")
        return
    station, folder = it.station(2), it.place()
    made_certificates(folder)
    ports = new_ports(2)
    with open(os.path.join(TOP, "examples", "stunnel.conf")) as file:
        text = file.read()
    for name in ("station.pem", "station.key"):
        text = text.replace(f"/etc/station/{name}", os.path.join(folder, name))
    text = text.replace("/etc/station/users.pem", os.path.join(folder, "root.pem"))
    for place in range(2):
        text = text.replace(f"0.0.0.0:610{place + 1}", f"127.0.0.1:{ports[place]}")
        text = text.replace(f"127.0.0.1:510{place + 1}", f"127.0.0.1:{station.ports[place]}")
    text = "\n".join(line for line in text.split("\n") if not line.startswith(("setuid", "setgid")))
    path = os.path.join(folder, "stunnel.conf")
    with open(path, "w") as file:
        file.write(text)
    with open(os.path.join(folder, "stunnel.log"), "w") as log:
        stunnel = subprocess.Popen([program, path], stdout=log, stderr=log, stdin=subprocess.DEVNULL)
    try:
        over_tls(it, folder, ports)
    finally:
        stunnel.terminate()
        stunnel.wait(SOON)
    it.ends(station, "door 1 links 1", "door 2 links 0")


def over_tls(it, folder, ports):
    def secured(port, with_one):
        user = User(port)
        made = ssl.create_default_context(cafile=os.path.join(folder, "root.pem"))
        made.check_hostname = False
        if with_one:
            made.load_cert_chain(os.path.join(folder, "user.pem"), os.path.join(folder, "user.key"))
        user.peer = made.wrap_socket(user.peer)
        user.peer.settimeout(SOON)
        return user
    user = secured(ports[0], True)
    user.bound(it.name, "MOC", instance("onlc", 1))
    user.unbind(it.name)
    try:
        user = secured(ports[1], False)
        user.say(context(30, 5), bind("MOC", instance("onlc", 2)))
        found = user.end()
    except (ssl.SSLError, ConnectionError):
        found = b""
    it.check("without a certificate nothing is heard", found, b"")


# ---- the source

def bad_lines(it):
    """A line that is none ends its connection, and what came before it in the same burst stays."""
    station = it.station()
    user = it.listener(station)
    fed = []
    for place, (bad, line) in enumerate([("fly\n", 3), (f"frame 20000/2/0 0 41 0 {'0a' * 70_000}", 3),
                                         ("open 1\n", 3), ("frame 20000/9999999/0 9 41 0 0a\n", 3)]):
        numbers = [2 * place, 2 * place + 1]
        with station.front_end() as peer:
            try:
                peer.sendall("".join([*map(frame, numbers), bad, frame(100)]).encode())
            except ConnectionError:
                pass
            it.hears(user, *numbers)
            it.closed(peer, 0)
        it.has(station, FEED + rf"\S+ ended.*line {line}\b.*: \S", count=place + 1)
        fed += numbers
    it.leaves(user)
    it.ends(station, f"stored {len(fed)}")
    it.check("listed", station.listed(), "".join(map(frame, fed)))


def streams_that_end(it):
    """A line cut short is told, and is no entry; a reset ends its connection alone."""
    station = it.station()
    user = it.listener(station)
    station.front_end(frame(0) + frame(1)[:-11]).close()
    it.has(station, FEED + r"\S+ ended.*line 2\b.*cut short")
    it.hears(user, 0)
    peer = station.front_end(frame(2) + frame(3)[:-11])
    it.hears(user, 2)
    reset(peer)
    it.has(station, FEED + rf"\S+ ended.*line 2\b.*{os.strerror(errno.ECONNRESET)}")
    station.front_end(frame(4)).close()
    it.hears(user, 4)
    it.has(station, FEED + r"\S+ ended after line 1$")
    it.leaves(user)
    it.ends(station, "stored 3")
    it.check("listed", station.listed(), "".join(map(frame, (0, 2, 4))))


def sources_without_a_stop(it):
    """Without a place for a stop the first connection's end is the run's."""
    for text, is_reset, count, lines in [(frame(0) + frame(1) + "fly\n" + frame(2), False, 2, ["read fault"]),
                                         (frame(0), True, 1, ["read fault"]),
                                         (frame(0) + frame(1)[:-11], False, 1, [])]:
        station = it.station(1, 1, given={"STATION_STOP": None})
        user = it.listener(station)
        peer = station.front_end(text)
        it.hears(user, *range(count))
        reset(peer) if is_reset else peer.close()
        it.leaves(user)
        it.ends(station, f"stored {count}", *lines, status=6 if lines else 0, asked=False)


def a_source_that_takes_over(it):
    station = it.station()
    user = it.listener(station)
    old = station.front_end(frame(0))
    it.hears(user, 0)
    # a second one that says nothing is closed after 10 s
    with User(station.feed).peer as silent:
        it.closed(silent, 9, 30)
    it.has(station, FEED + r"\S+ .*nothing heard for 10 s")
    # one that speaks is closed while the older one speaks too
    old.sendall((frame(1) + frame(2)[:20]).encode())
    it.hears(user, 1)
    early = station.front_end(frame(5))
    it.closed(early, 0, 9)
    it.has(station, FEED + r"\S+ closed: (?!nothing heard)")
    time.sleep(10.5)
    new = station.front_end(frame(3))
    it.hears(user, 3)
    it.has(station, FEED + r"\S+ .*takes the place of \S+")
    it.closed(old, 0)
    new.sendall(frame(4).encode())
    it.hears(user, 4)
    new.close()
    it.leaves(user)
    it.ends(station, "stored 4")
    it.check("listed", station.listed(), "".join(map(frame, (0, 1, 3, 4))))


def an_older_source_is_read_first(it):
    """What an older one sent while the station was halted comes before a newer one's lines."""
    station = it.station()
    user = it.listener(station)
    old = station.front_end(frame(0))
    it.hears(user, 0)
    station.process.send_signal(signal.SIGSTOP)
    old.sendall(frame(1).encode())
    new = station.front_end(frame(2))
    time.sleep(11)
    station.process.send_signal(signal.SIGCONT)
    it.check("the older one's frame is heard", user.frames(1)[0][2], octets_of(1))
    time.sleep(1)
    if not station.told("takes the place of"):
        new.close()
        new = None
    it.leaves(user)
    old.close()
    it.ends(station)
    listed = station.listed()
    it.check("the older one's lines first", listed in (frame(0) + frame(1), frame(0) + frame(1) + frame(2)), True)


# ---- files

def calls_that_fail(it):
    """Each call on a file that fails is told, with the system's reason."""
    rows = [("pwrite", "archive", 1, errno.EIO, r"^archive {path}: .*{why}"),
            ("pwrite", "archive", 1, errno.ENOSPC, r"^archive {path}: .*{why}"),
            ("fsync", "archive", 1, errno.EIO, r"^archive {path}: .*sync.*{why}.*(machine|volume)"),
            ("write", "cltus", 1, errno.ENOSPC, r"^CLTUs {cltus}: .*{why}"),
            ("fsync", "cltus", 1, errno.EIO, r"^CLTUs {cltus}: .*sync.*{why}.*"),
            ("write", "cltus.lines", 1, errno.EIO, r"^CLTUs {cltus}.lines: .*{why}"),
            ("fsync", "cltus.lines", 1, errno.EIO, r"^CLTUs {cltus}.lines: .*sync.*{why}")]

    def one(call, file, first, error, pattern):
        with tempfile.TemporaryDirectory() as folder:
            shim = Shim(folder)
            text = site(2).replace("complete 3 1 60", "complete 1 1 60") + f"cltu {COMMANDS} MOC 100000 100 60\n"
            station = Watched(folder, 2, configuration=text, shim=shim)
            user, commander = it.listener(station), it.commander(station, 1)
            shim.order((call, "/" + file, first, 1, error))
            with station.front_end(frame(0)):
                commander.say(transfer(0, b"telecommand"))
                it.has(station, pattern.format(path=station.path, cltus=station.cltus, why=os.strerror(error)))
            user.peer.close(), commander.peer.close()
            it.ends(station, status=8 if "archive" in file and call == "fsync" else 0)
    in_threads([lambda row=row: it_or_fault(it, one, row) for row in rows])


def it_or_fault(it, function, row):
    try:
        function(*row)
    except Exception as fault:
        it.check(f"{row[:2]}", repr(fault), None)


def an_opening_that_fails(it):
    """A call that fails while the archive is read at the start is told too."""
    folder = it.place()
    subprocess.run([PROVIDER, "init", os.path.join(folder, "archive")], check=True, stdout=subprocess.DEVNULL)
    shim = Shim(folder)
    shim.order(("pread", "/archive", 1, 99, errno.EIO))
    station = Watched(folder, shim=shim)
    it.has(station, rf"^archive {station.path}: .*{os.strerror(errno.EIO)}")
    it.ends(station, "disk fault", status=8)
    it.has_not(station, "station: began")


def an_archive_that_fills(it):
    station = it.station(configuration=f"capacity 20000\n{site(1)}")
    told, numbers = [80, 90, 95, 100], range(150)
    with station.front_end() as peer:
        for number in numbers:
            size = os.path.getsize(station.path)
            line = frame(number)
            peer.sendall(line.encode())
            end = time.time() + 3
            while os.path.getsize(station.path) == size and time.time() < end:
                time.sleep(0.005)
            if os.path.getsize(station.path) == size:
                break
        peer.sendall("".join(map(frame, range(200, 400))).encode())
        for percent in told:
            it.has(station, rf"^archive {station.path}: {percent} percent full")
    found = [int(line.split(": ")[1].split()[0]) for line in station.log() if " percent full" in line]
    it.check("each once, in order", found, told)
    it.ends(station, status=9)


def one_station_a_file(it):
    """The file of CLTUs is locked as the archive is."""
    first = it.station()
    second = it.station(cltus=first.cltus, began=False)
    it.ends(second, "disk fault", status=8, asked=False)
    it.has(second, rf"^CLTUs {first.cltus}\S*: ")
    it.has_not(second, "station: began")
    it.ends(first)


def files_that_are_the_users(it):
    """Files that the program makes are its user's alone; those that are there keep their mode."""
    folder = it.place()
    path, cltus = os.path.join(folder, "archive"), os.path.join(folder, "cltus")
    before = os.umask(0o022)
    try:
        subprocess.run([PROVIDER, "init", path], check=True, stdout=subprocess.DEVNULL)
        station = Watched(folder)
        it.ends(station)
        modes = {name: oct(stat.S_IMODE(os.stat(os.path.join(folder, name)).st_mode))
                 for name in ("archive", "cltus", "cltus.lines")}
        os.chmod(cltus, 0o640)
        station = Watched(folder)
        it.ends(station)
    finally:
        os.umask(before)
    it.check("modes of what is made", modes, dict.fromkeys(modes, oct(0o600)))
    it.check("the mode of what is there", oct(stat.S_IMODE(os.stat(cltus).st_mode)), oct(0o640))


# ---- time

def steps_of_the_clock(it):
    """A step of the wall clock neither ends sessions nor stops timers, and is told once a minute."""
    folder = it.place()
    shim = Shim(folder)
    station = Watched(folder, 1, shim=shim)
    user = it.listener(station, interval=1)
    source, told, number = station.front_end(), 0, 0
    for seconds in (0.4, 3_600, -3_600):
        shim.shift(seconds)
        beats, end = 0, time.time() + 4
        while time.time() < end or not beats and time.time() < end + SOON:
            user.say(HEARTBEAT)
            beats += user.hear() == HEARTBEAT
        it.check(f"heartbeats, {seconds} s ahead", beats > 0, True)
        source.sendall(frame(number).encode())
        it.hears(user, number)
        number += 1
        if seconds == 0.4:
            it.has_not(station, "clock")
        else:
            it.has(station, r"clock.*\b3[56]\d\d(\.\d+)? s")
    told = sum("clock" in line for line in station.log())
    it.check(f"told once each, {told}", 1 <= told <= 2, True)
    shim.advance(61)
    user.say(HEARTBEAT)
    it.has(station, "clock", count=told + 1)
    it.check("still bound", user.peer.fileno() >= 0, True)
    source.close()
    user.peer.close()
    it.ends(station, "stored 3")


# ---- the life of a station

def ports_that_are_taken(it):
    for name, given in [("door", {}), ("feed", {}), ("stop", {})]:
        folder = it.place()
        with socket.create_server(("127.0.0.1", 0)) as other:
            taken = other.getsockname()[1]
            feed, heard, first, second = new_ports(4)
            station = Taken(folder, feed=taken if name == "feed" else feed, stop=taken if name == "stop" else heard,
                            ports=[first, taken if name == "door" else second])
            told, _ = station.process.communicate(timeout=SOON)
            it.check(f"a {name}'s port", (station.process.returncode, b"read fault" in told), (6, True))
            it.has(station, rf"^{name} 127.0.0.1:{taken}: .*(in use|Address already in use)")
            it.has_not(station, "station: began")


class Taken(Watched):
    """A station at ports that are said, which may not begin."""

    def __init__(self, folder, feed, stop, ports):
        self.folder, self.path, self.cltus = folder, os.path.join(folder, "archive"), os.path.join(folder, "cltus")
        self.feed, self.stop_port, self.ports = feed, stop, ports
        self.written = os.path.join(folder, "log")
        subprocess.run([PROVIDER, "init", self.path], check=True, stdout=subprocess.DEVNULL)
        words = ["100000", "1", self.path, str(feed), self.cltus, *map(str, ports)]
        with open(self.written, "w") as log:
            self.process = subprocess.Popen([PROVIDER, "run", *words], stdin=subprocess.PIPE, stdout=subprocess.PIPE,
                                            stderr=log, env={**os.environ, "STATION_ADDRESS": "127.0.0.1",
                                                             "STATION_STOP": str(stop)})
        started_ones.append(self.process)
        try:
            self.process.stdin.write(site(2).encode())
            self.process.stdin.close()
        except BrokenPipeError:
            pass
        self.process.stdin = None


def when_it_begins(it):
    """A station says that it began once its configuration was read and its archive recovered."""
    for text, begins in [(site(1), True), ("peer MOC none sha1 60 00\n", False)]:
        station = Began(it.place())
        station.process.stdin.write(text.encode()[:40])
        station.process.stdin.flush()
        time.sleep(1.5)
        it.has_not(station, "station: began")
        station.process.stdin.write(text.encode()[40:])
        station.process.stdin.close()
        station.process.stdin = None
        if begins:
            it.has(station, "^station: began$")
            it.bound(station).unbind(it.name)
            it.ends(station)
        else:
            it.ends(station, "bad site 1 3", status=4, asked=False)
            it.has_not(station, "station: began")


class Began(Taken):
    """A station whose configuration is still to come."""

    def __init__(self, folder):
        self.folder, self.path, self.cltus = folder, os.path.join(folder, "archive"), os.path.join(folder, "cltus")
        self.feed, self.stop_port, *self.ports = new_ports(3)
        self.written = os.path.join(folder, "log")
        subprocess.run([PROVIDER, "init", self.path], check=True, stdout=subprocess.DEVNULL)
        words = ["100000", "9", self.path, str(self.feed), self.cltus, *map(str, self.ports)]
        with open(self.written, "w") as log:
            self.process = subprocess.Popen([PROVIDER, "run", *words], stdin=subprocess.PIPE, stdout=subprocess.PIPE,
                                            stderr=log, env={**os.environ, "STATION_ADDRESS": "127.0.0.1",
                                                             "STATION_STOP": str(self.stop_port)})
        started_ones.append(self.process)


def launcher(folder):
    """A program that goes the launcher's way: the part of bin/provider that runs a station."""
    path = os.path.join(folder, "launcher")
    part = os.path.join(TOP, "bin", "parts", "station.py")
    with open(path, "w") as file:
        file.write(f'#!/bin/sh\nexec {sys.executable} -BEs {part} {PROVIDER} "$@"\n')
    os.chmod(path, 0o755)
    return path


def signals(it):
    """SIGTERM and SIGINT stop a station as `stop` does, at a port and at a path."""
    for number, at_path in [(signal.SIGTERM, False), (signal.SIGINT, True), (signal.SIGTERM, True)]:
        folder = it.place()
        manager = socket.socket(socket.AF_UNIX, socket.SOCK_DGRAM)
        manager.bind(os.path.join(folder, "notify"))
        manager.settimeout(SOON)
        given = {"NOTIFY_SOCKET": os.path.join(folder, "notify")}
        if at_path:
            given["STATION_STOP"] = os.path.join(folder, "stop")
        station = Watched(folder, program=launcher(folder), given=given)
        it.check("systemd is told that it serves", manager.recv(100), b"READY=1")
        user = it.bound(station)
        station.process.send_signal(number)
        it.check("systemd is told that it stops", manager.recv(100), b"STOPPING=1")
        it.check("a user hears the end", user.end(), b"")
        it.ends(station, "door 1 links 1", asked=False)
        it.has(station, "^stop: asked for")
    # with no place for a stop SIGTERM is passed on
    folder = it.place()
    station = Watched(folder, program=launcher(folder), given={"STATION_STOP": ""})
    station.process.send_signal(signal.SIGTERM)
    it.check("passed on", station.process.wait(SOON), 128 + signal.SIGTERM)


def the_unit(it):
    """What examples/station.service says, and that systemd finds nothing in it."""
    path = os.path.join(TOP, "examples", "station.service")
    with open(path) as file:
        text = file.read()
    for line in ["Type=notify", "NotifyAccess=all", "KillMode=mixed", "NoNewPrivileges=yes", "ProtectSystem=strict",
                 "PrivateTmp=yes", "UMask=0077", "StateDirectory=station"]:
        it.check(line, f"\n{line}\n" in text, True)
    prevented = [line for line in text.split("\n") if line.startswith("RestartPreventExitStatus=")]
    it.check("no restart after 8", [" 8 " in f"{line} ".replace("=", " ") for line in prevented], [True])
    it.check("after the time is set", "After=" in text and "time-sync.target" in text, True)
    if shutil.which("systemd-analyze") is None:
        return
    copy = os.path.join(it.place(), "station.service")
    with open(copy, "w") as file:
        file.write(text.replace("/opt/buwekota/bin/provider", os.path.join(TOP, "bin", "provider"))
                   .replace("User=station", "User=root"))
    found = subprocess.run(["systemd-analyze", "verify", copy], capture_output=True, text=True)
    lines = [line for line in found.stderr.split("\n") if "station.service" in line]
    it.check("systemd-analyze verify", (found.returncode, lines), (0, []))


def unix_sockets(it):
    """A source and a stop at the paths of Unix sockets."""
    folder = it.place()
    feed, heard = os.path.join(folder, "feed"), os.path.join(folder, "stop")
    given = {"STATION_FEED": feed, "STATION_STOP": heard}
    # (nobody answers at these any more)
    for path in (feed, heard):
        with socket.socket(socket.AF_UNIX) as stale:
            stale.bind(path)
    station = Watched(folder, given=given)
    it.has(station, "^station: began$")
    it.check("the word FEED is unused", is_refused(station.feed, 1), True)
    for path in (feed, heard):
        # (who may not write to it can't connect)
        it.check(f"mode of {path}", stat.S_IMODE(os.stat(path).st_mode) & 0o022, 0)
    user = it.listener(station)
    for numbers in [(0, 1), (2,)]:
        with socket.socket(socket.AF_UNIX) as peer:
            peer.connect(feed)
            peer.sendall("".join(map(frame, numbers)).encode())
            it.hears(user, *numbers)
        it.has(station, rf"^feed {feed}: .*ended after line {len(numbers)}")
    # another station finds that it answers, and leaves it
    folder = it.place()
    second = Watched(folder, given=given, began=False)
    it.ends(second, "read fault", status=6, asked=False)
    it.has(second, rf"^(feed {feed}|stop {heard}): .*in use")
    it.leaves(user)
    part = [sys.executable, "-BEs", os.path.join(TOP, "bin", "parts", "station.py")]
    found = subprocess.run(part, capture_output=True, env={**os.environ, "STATION_STOP": heard})
    it.check("bin/provider stop", (found.returncode, found.stdout), (0, b"stopped\n"))
    it.ends(station, "stored 3", asked=False)
    found = subprocess.run(part, capture_output=True, env={**os.environ, "STATION_STOP": heard})
    it.check("bin/provider stop, once more", (found.returncode, found.stdout), (1, b""))
    # a file that is no socket is left as it is
    folder = it.place()
    path = os.path.join(folder, "plain")
    with open(path, "w") as file:
        file.write("mine")
    third = Watched(folder, given={"STATION_FEED": path}, began=False)
    it.ends(third, "read fault", status=6, asked=False)
    with open(path) as file:
        it.check("a plain file", file.read(), "mine")


# ---- what a stop, a halt and a full buffer leave

def a_stop_that_is_not_read(it):
    """A stop while bound users read nothing, and a buffer, a heartbeat and a return wait for them: it
    takes seconds, and not their dead timer; and each door is rung once, not at each reading."""
    folder = it.place()
    shim = Shim(folder, "ring")
    station = Watched(folder, 4, shim=shim)
    users = []
    for door, interval in enumerate((60, 2, 60)):
        user = User(station.ports[door], room=4096)
        user.say(context(interval, 100), bind("MOC", instance("onlc", door + 1)), start(1))
        users.append(user)
    idle = it.bound(station, 3, number=4, interval=60)
    with station.front_end() as peer:
        for number in range(300):
            peer.sendall(f"frame 20000/{number}/0 0 41 0 {'0a' * 60_000}\n".encode())
        peer.shutdown(socket.SHUT_WR)
        it.has(station, FEED + r"\S+ ended after line 300")
    users[2].say(stop(2))
    time.sleep(3)
    before, began = rings_of(shim), time.time()
    station.stop(it.name)
    took = time.time() - began
    it.check(f"a stop while some don't read: {took}", took < 20, True)
    it.check("an idle user hears it", idle.end(), b"")
    it.ends(station, "stored 300")
    after = rings_of(shim)
    most = max((after[number] - before.get(number, 0) for number in after), default=0)
    it.check(f"rings of one door at a stop of {took:.1f} s: {most}", 0 < most <= 4, True)


def rings_of(shim):
    counts = {}
    for words in shim.calls():
        if words[0] == "ring":
            counts[words[1]] = counts.get(words[1], 0) + 1
    return counts


def what_is_left_at_an_unbind(it):
    """A user that reads late what came before its UNBIND, and UNBIND's return, hears each octet."""
    station = it.station()
    with station.front_end() as peer:
        for number in range(60):
            peer.sendall(f"frame 20000/{number}/0 0 41 0 {bytes([number]).hex() * 30_000}\n".encode())
        peer.sendall(b"mark 20000/100/0\n")
    it.has(station, FEED + r"\S+ ended after line 61")
    user = User(station.ports[0], room=4096)
    user.bound(it.name, "MOC", instance("offl", 1))
    user.say(start(1, cds(0), cds(100)))
    it.check("started", user.answer(), started(1))
    time.sleep(0.5)
    user.say(stop(2), UNBIND)
    time.sleep(1)
    heard, found = [], []
    while message := user.end():
        heard.append(message)
        found += [item for item in items(message[8:]) if isinstance(item, tuple)] if message[8] == 0xa8 else []
    it.check("the last messages", heard[-2:], [stopped(2), UNBOUND])
    it.check("frames in order, each whole", [item[2] == bytes([place]) * 30_000 for place, item in enumerate(found)],
             [True] * len(found))
    it.ends(station, "stored 61", "door 1 links 1")


def a_halted_station(it):
    """A station that was halted and continued, with idle users who then unbind."""
    station = it.station(3)
    users = [it.bound(station, door, number=door + 1, interval=interval) for door, interval in enumerate((0, 30, 60))]
    for _ in range(2):
        station.process.send_signal(signal.SIGSTOP)
        time.sleep(2)
        station.process.send_signal(signal.SIGCONT)
        time.sleep(0.5)
    station.front_end(frame(0)).close()
    it.has(station, FEED + r"\S+ ended after line 1")
    for user in users:
        user.unbind(it.name)
    it.ends(station, "stored 1", "door 1 links 1", "door 2 links 1", "door 3 links 1")


def telecommands_to_nowhere(it):
    """A file of telecommands that can't be synced is a fault, and no line is kept as sent."""
    folder = it.place()
    device, path = os.path.join(folder, "null"), os.path.join(folder, "cltus")
    try:
        os.mknod(device, stat.S_IFCHR | 0o666, os.makedev(1, 3))
        with open(device, "w") as file:
            file.write("x")
    except OSError:
        print("holding: a null device is left out, as none can be made here")
        return
    os.symlink(device, path)
    text = site(1) + f"cltu {COMMANDS} MOC 100000 100 60\n"
    station = Watched(folder, 2, configuration=text)
    if station.process.poll() is not None:
        # (it may refuse such a file at once)
        it.ends(station, status=8, asked=False)
    else:
        user = it.commander(station)
        user.say(transfer(0, b"telecommand"))
        user.peer.settimeout(3)
        told = []
        try:
            while True:
                told.append(user.answer()[8:])
        except (TimeoutError, EOFError):
            pass
        radiated = [pdu for pdu in told if pdu[0] == 0xac and told_at(pdu, 1)[0] == 0x80]
        it.check("it isn't told as radiated", radiated, [])
        user.peer.close()
        it.ends(station, "radiated 0")
    if os.path.exists(path + ".lines"):
        it.check("no line is kept", os.path.getsize(path + ".lines"), 0)


PASSWORD = b"secret words"


def random_numbers(it):
    """The random numbers of credentials differ from run to run, and use their whole range."""
    text = (f"password {PASSWORD.hex()}\npeer MOC bind sha1 60 {PASSWORD.hex()}\n"
            f"raf {instance('onlc', 1)} MOC complete 1 1 60\n")
    found, many = [], 24

    def one():
        with tempfile.TemporaryDirectory() as folder:
            station = Watched(folder, configuration=text)
            user = it.user(station.ports[0])
            now = (int(time.time() * 1_000_000) + 4_383 * 86_400_000_000) * 1_000_000
            seal = signed(b"MOC", PASSWORD, b"sha1", stamp_of(now), 7)
            name = identifier(instance("onlc", 1).encode())
            user.say(context(30, 5), pdu_message(bind_pdu(seal, b"MOC", b"PORT1", 0, 5, name)))
            # (a time of 8 octets, and behind it the number)
            number = re.search(rb"\x30.\x04\x08.{8}\x02(.)(.{5})", user.answer()[8:], re.DOTALL)
            found.append(int.from_bytes(number[2][:number[1][0]], "big"))
            user.peer.close()
            station.process.kill()
            station.process.communicate()
    for _ in range(many // 6):
        in_threads([lambda: it_or_fault(it, one, ())] * 6)
    it.check("all differ", len(set(found)), many)
    all_bits = 0
    for number in found:
        all_bits |= number
    it.check("their range", (hex(all_bits), min(found) >= 0), (hex(0x7fff_ffff), True))


def words_at_the_stop(it):
    """`stop` without its line end stops nothing."""
    station = it.station()
    for text, shuts in [(b"stop", True), (b"stop", False), (b"stop\r\n", True), (b"stops\n", True),
                        (b"\nstop\n", True)]:
        peer = User(station.stop_port)
        peer.say(text)
        if shuts:
            peer.peer.shutdown(socket.SHUT_WR)
            peer.peer.settimeout(SOON)
            try:
                found = peer.peer.recv(100)
            except ConnectionError:
                found = b""
            it.check(f"{text} hears nothing", found, b"")
    time.sleep(1)
    it.check("the station goes on", (station.process.poll(), station.told("stop: asked")), (None, False))
    it.bound(station).unbind(it.name)
    it.ends(station, "door 1 links 1")


def an_example(it):
    with open(os.path.join(TOP, "examples", "station.conf")) as file:
        it.check("examples/station.conf", "heartbeat 5 60 2 5\n" in file.read(), True)


USERS = [a_silent_connection, thirty_seconds_of_silence, half_a_context, an_idle_user,
         an_idle_user_who_does_not_read, an_idle_user_who_may, an_hour_without_a_word, eight_that_are_silent,
         a_stop_is_named, health_checks, the_last_link, accepts_that_fail, three_on_one_port, doors_over_tls]
SOURCES = [bad_lines, streams_that_end, sources_without_a_stop, a_source_that_takes_over,
           an_older_source_is_read_first]
FILES = [calls_that_fail, an_opening_that_fails, an_archive_that_fills, one_station_a_file, files_that_are_the_users]
LIFE = [steps_of_the_clock, ports_that_are_taken, when_it_begins, signals, the_unit, unix_sockets, an_example]
LEFT = [a_stop_that_is_not_read, what_is_left_at_an_unbind, a_halted_station, telecommands_to_nowhere,
        random_numbers, words_at_the_stop]
# Those that need the library in front of the system.
SHIMMED = [an_hour_without_a_word, accepts_that_fail, calls_that_fail, an_opening_that_fails, steps_of_the_clock,
           a_stop_that_is_not_read]


def go(part, took):
    began = time.time()
    with tempfile.TemporaryDirectory() as folder:
        it = Trial(part, folder)
        try:
            part(it)
        except Exception as error:
            it.check("no fault", repr(error), None)
            print(f"holding: {it.name}: what its stations told last:", *it.told_last(), sep="\n    ")
    took[part.__name__] = time.time() - began


def main():
    parts = [part for part in USERS + SOURCES + FILES + LIFE + LEFT
             if not sys.argv[2:] or part.__name__ in sys.argv[2:]]
    if compiler() is None:
        print("holding: what needs a C compiler is left out, as there is none on the path")
        parts = [part for part in parts if part not in SHIMMED]
    else:
        library()
    took = {}
    in_threads([lambda part=part: go(part, took) for part in parts])
    longest = max(took, key=took.get)
    print(f"holding: {len(parts)} parts; the longest, {longest.replace('_', ' ')}, took {took[longest]:.0f} s")
    return checks.end()


if __name__ == "__main__":
    sys.exit(main())
