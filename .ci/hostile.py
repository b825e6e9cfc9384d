#!/usr/bin/env python3
"""Attacks a station at all its ports, beside honest users who notice nothing of it.

usage: hostile.py PROVIDER [MESSAGES] [SEED] [PART..]

Six of eight doors are visited by strangers and by users who send what a seeded generator makes of valid
invocations: changed in a bit, an octet, a length or a tag, cut, glued, too long, empty, octet by octet;
contexts out of range; heartbeats by the thousand; BINDs of strangers, with wrong credentials, with
replayed ones; connections that are silent, reset or closed on one side. The stop's port hears other
words, the status page's port requests that are changed alike, and sources send such lines. An honest user
hears all frames meanwhile, one has telecommands radiated, and a browser reads the page. In the end the
process lives and has grown by less than 8 MiB beside what is
stored; the first user heard exactly what was stored, once and in order; each telecommand was radiated
once and in order; `list` shows what was fed; and a stop ends the run with 0. Then 10,000 connections in
turn leave the process within 1 MiB of what it was after the first hundred. The last line says how many
checks passed.
"""
import json
import os
import random
import re
import socket
import struct
import sys
import tempfile
import threading
import time

sys.dont_write_bytecode = True
from control_centre import (HEARTBEAT, PATIENCE, User, check, checks, context, elements, items, programs,
                            told_at)
from drills import line_of
from forms import identifier, moment, pdu_message
from hostility import Generator
from sessions import (bind_pdu, cltu_start_pdu, get_pdu, schedule_pdu, signed, stamp_of, start_pdu,
                      stop_pdu, throw_pdu, transfer_pdu, unbind_pdu)
from watched import Watched, in_threads, new_ports

programs.update(provider=os.path.abspath(sys.argv[1]))
MESSAGES = int(sys.argv[2]) if len(sys.argv) > 2 else 20_000
SEED = int(sys.argv[3]) if len(sys.argv) > 3 else random.SystemRandom().randrange(1_000_000)
checks.name = f"hostile: seed {SEED}"

DOORS, ATTACKED = 8, 6
# Names, levels, hash functions and passwords of the peers.
PEERS = {b"MOC": ("none", b"sha1", bytes(6)), b"HONEST": ("bind", b"sha256", b"honest password"[:16]),
         b"ORDERS": ("all", b"sha1", b"orders"), b"SIGNED": ("all", b"sha256", b"signed")}
COMMANDS = b"sagr=1.spack=P.fsl-fg=1.cltu=cltu1"
LISTENED = b"sagr=1.spack=P.rsl-fg=1.raf=onlc0"
OWNED = {b"MOC": [b"sagr=1.spack=P.rsl-fg=1.raf=onlt%d" % n for n in range(4)]
         + [b"sagr=1.spack=P.rsl-fg=1.raf=offl%d" % n for n in range(4)]
         + [b"sagr=1.spack=P.rsl-fg=1.rcf=onlc%d" % n for n in range(4)],
         b"SIGNED": [b"sagr=1.spack=P.rsl-fg=1.raf=onlc%d" % n for n in range(1, 5)]}
RAF, RCF, CLTU = 0, 2, 16
# The octets of a frame, and those of the longest line.
LONG, LONGEST_LINE = 1_000, 131_148


def configuration():
    lines = ["heartbeat 1 3600 2 100"]
    lines += [f"peer {name.decode()} {level} {hash_.decode()} 60 {word.hex()}"
              for name, (level, hash_, word) in PEERS.items()]
    lines.append(f"raf {LISTENED.decode()} HONEST complete 1 1 60")
    for owner, names in OWNED.items():
        for name in map(bytes.decode, names):
            mode = {"onlt": "timely 5 1", "onlc": "complete 5 1", "offl": "offline 5 0"}[name[-5:-1]]
            more = " 171/0/0 171/0/*" if "rcf" in name else ""
            lines.append(f"{name.split('=')[-2].split('.')[-1]} {name} {owner.decode()} {mode} 60{more}")
    lines.append(f"cltu {COMMANDS.decode()} ORDERS 1000000 1000 60")
    return "\n".join(lines) + "\n"


def now():
    """Picoseconds since 1958."""
    return (int(time.time() * 1_000_000) + 4_383 * 86_400_000_000) * 1_000_000


def credentials(name, number, level="bind", password=None):
    """Those of an invocation of this peer's, or None where it has none."""
    has, hash_, word = PEERS[name]
    if has == "none" or level == "all" and has == "bind":
        return None
    return signed(name, password or word, hash_, stamp_of(now()), number)


def bound(name, instance, service, number=1):
    return bind_pdu(credentials(name, number), name, b"PORT1", service, 5, identifier(instance))


# ---- the honest

class Honest(threading.Thread):
    def __init__(self, port, name, instance, service, begin):
        super().__init__(daemon=True)
        self.name_, self.heard, self.number, self.is_over = name, [], 1, False
        self.user, self.lock = User(port), threading.Lock()
        self.user.say(context(30, 5), pdu_message(bound(name, instance, service)))
        check(f"{name.decode()}: bound", self.user.answer()[8:10].hex(), "bf65")
        self.say(begin)
        check(f"{name.decode()}: started", self.user.answer()[8], 0xa1)
        self.start()

    def say(self, pdu_of):
        """Says what a function makes of credentials."""
        with self.lock:
            self.number += 1
            self.user.say(pdu_message(pdu_of(credentials(self.name_, self.number, "all"))))

    def run(self):
        try:
            while True:
                self.take(self.user.answer()[8:])
        except (EOFError, OSError):
            self.is_over = True

    def has(self, count, patience=PATIENCE):
        end = time.time() + patience
        while len(self.heard) < count and time.time() < end and not self.is_over:
            time.sleep(0.01)
        return len(self.heard) >= count


class Listener(Honest):
    def take(self, pdu):
        self.heard += [item for item in items(pdu) if isinstance(item, tuple)]


class Commander(Honest):
    def take(self, pdu):
        if pdu[0] == 0xac and told_at(pdu, 1)[0] == 0x80:
            [(_, number), *_] = elements(told_at(pdu, 3)[1])
            self.heard.append(int.from_bytes(number, "big"))


# ---- the others

class Attacker:
    """Visits one door until it has said its part of all messages."""

    def __init__(self, station, place):
        self.port, self.make = station.ports[place], Generator(SEED * 100 + place)
        self.choices, self.said, self.kept = self.make.choices, 0, []

    def go(self):
        while self.said < MESSAGES // ATTACKED:
            try:
                self.visit()
            except ConnectionRefusedError as error:
                check(f"a door that was attacked, after {self.said} messages", repr(error), None)
                return
            except OSError:
                # (it was closed, as it should be)
                pass

    def visit(self):
        peer = self.peer = socket.socket()
        with peer:
            peer.settimeout(PATIENCE)
            peer.setsockopt(socket.IPPROTO_TCP, socket.TCP_NODELAY, 1)
            peer.connect(("127.0.0.1", self.port))
            self.choices.choice([self.invoke] * 12 + [self.begin_badly] * 4
                                + [self.be_out_of_range, self.be_strange, self.replay, self.beat,
                                   self.be_slow, self.be_silent, self.not_read])()
            self.leave()

    def say(self, *messages):
        self.said += len(messages)
        self.peer.sendall(b"".join(messages))

    def leave(self):
        how = self.choices.randrange(4)
        if how == 0:
            self.peer.setsockopt(socket.SOL_SOCKET, socket.SO_LINGER, struct.pack("ii", 1, 0))
        elif how == 1:
            self.peer.shutdown(socket.SHUT_WR)
            self.hear(0.05)
        elif how == 2:
            self.hear(0.01)

    def hear(self, seconds):
        """Hears for so long that it has nothing to hear."""
        self.peer.settimeout(seconds)
        try:
            while self.peer.recv(1 << 16):
                pass
        except TimeoutError:
            pass
        self.peer.settimeout(PATIENCE)

    def somebody(self):
        """A peer, an instance of its own, and the instance's service."""
        name = self.choices.choice([b"MOC", b"MOC", b"SIGNED"])
        instance = self.choices.choice(OWNED[name])
        return name, instance, RCF if b"rcf" in instance else RAF

    def pdus(self, name, instance, service):
        """Valid PDUs of a user, in no order."""
        seal = [credentials(name, self.choices.randrange(1 << 31), "all") for _ in range(4)]
        wanted = (171, 0, None) if service == RCF else self.choices.randrange(3)
        span = self.choices.choice([(None, None), ((20_000, 0, 0, 2), (20_000, 86_399_999, 0, 2))])
        return [start_pdu(seal[0], 1, *span, wanted), stop_pdu(seal[1], 2), unbind_pdu(seal[2], 0),
                get_pdu(seal[3], 3, self.choices.choice([4, 6, 206, 300])), bound(name, instance, service),
                schedule_pdu(seal[0], 4, self.choices.choice(["now", "stop", 2])),
                cltu_start_pdu(seal[1], 5, 0), throw_pdu(seal[2], 6, 0, 1, b"event"),
                transfer_pdu(seal[3], 7, 0, None, None, 0, True, b"cltu" * 9), bytes.fromhex("9f680103")]

    def invoke(self):
        """A session that is bound, and then goes wrong somewhere."""
        name, instance, service = self.somebody()
        pdus = self.pdus(name, instance, service)
        first = bound(name, instance, service)
        self.kept = [*self.kept[-9:], first]
        self.say(context(30, 5), pdu_message(first if self.choices.randrange(5) else self.make.mutated(first)))
        for _ in range(self.choices.choice([0, 0, 1, 5, 20])):
            # (START, reports and parameters, STOP)
            self.say(*(pdu_message(pdus[place]) for place in (0, 3, 5, 1)))
        if self.choices.randrange(2):
            self.say(pdu_message(pdus[0]))
        for _ in range(self.choices.randrange(1, 8)):
            self.say(*(self.make.message(pdus) for _ in range(self.choices.randrange(1, 12))))

    def begin_badly(self):
        pdus = self.pdus(*self.somebody())
        if self.choices.randrange(2):
            self.say(context(30, 5))
        self.say(*(self.make.message(pdus) for _ in range(self.choices.randrange(1, 10))))

    def be_out_of_range(self):
        octets = bytearray(context(self.choices.randrange(1 << 16), self.choices.randrange(1 << 16)))
        if self.choices.randrange(2):
            octets[self.choices.randrange(20)] ^= 1 << self.choices.randrange(8)
        self.say(bytes(octets))

    def be_strange(self):
        """A BIND of nobody's, of another's instance, or with wrong credentials."""
        name, instance, service = self.somebody()
        wrong = credentials(b"SIGNED", 5, password=b"guessed")
        self.say(context(30, 5), pdu_message(self.choices.choice([
            bind_pdu(None, b"NOBODY", b"PORT1", service, 5, identifier(instance)),
            bind_pdu(wrong, b"SIGNED", b"PORT1", service, 5, identifier(OWNED[b"SIGNED"][0])),
            bind_pdu(None, b"HONEST", b"PORT1", RAF, 5, identifier(LISTENED)),
            bind_pdu(None, b"MOC", b"PORT1", CLTU, 5, identifier(COMMANDS)),
            bind_pdu(None, name, b"PORT1", service, 9, identifier(instance))])))

    def replay(self):
        if self.kept:
            self.say(context(30, 5), pdu_message(self.choices.choice(self.kept)))

    def beat(self):
        """A thousand heartbeats, which count as one message."""
        name, instance, service = self.somebody()
        self.say(context(30, 5), pdu_message(bound(name, instance, service)))
        self.say(HEARTBEAT * 1_000)

    def be_slow(self):
        octets = context(30, 5) + pdu_message(bound(*self.somebody()))
        for place in range(len(octets)):
            self.peer.sendall(octets[place:place + 1])
        self.said += 2

    def be_silent(self):
        self.hear(0.1)

    def not_read(self):
        """An offline delivery that nobody reads."""
        instance = self.choices.choice(OWNED[b"MOC"][4:8])
        self.peer.setsockopt(socket.SOL_SOCKET, socket.SO_RCVBUF, 4096)
        self.say(context(30, 5), pdu_message(bound(b"MOC", instance, RAF)),
                 pdu_message(start_pdu(None, 1, (20_000, 0, 0, 2), (20_000, 86_399_999, 0, 2), 2)))
        time.sleep(0.2)


class Source:
    """A front end that feeds frames in bursts, and others who pass for it."""

    def __init__(self, station, listener, is_attacked):
        self.station, self.listener, self.is_attacked = station, listener, is_attacked
        self.make, self.lines, self.is_over = Generator(SEED), [], False
        self.frames, self.day, self.millis = 0, 20_000, 0
        # the moments of the last frame and of the last seal
        self.last = {"frame": -1, "mark": -1}

    def line(self):
        self.millis += 1
        octets = bytes([self.millis % 251]) * LONG
        return f"frame {self.day}/{self.millis}/0 0 41 0 {octets.hex()}\n"

    def go(self):
        try:
            while not self.is_over:
                self.feed([self.line() for _ in range(10)], b"")
                if self.is_attacked:
                    self.attack()
        except Exception as error:
            check("the sources", repr(error), None)

    def feed(self, lines, more):
        """A connection of its own, which the station has read to its end when this returns."""
        octets = "".join(lines).encode() + more
        # (what comes before a line that is refused is taken, whenever the connection is closed)
        self.keep(octets)
        with User(self.station.feed).peer as peer:
            try:
                peer.sendall(octets)
                check("all that was fed is heard", self.listener.has(self.frames, 20), True)
                peer.shutdown(socket.SHUT_WR)
                peer.settimeout(20)
                while peer.recv(100):
                    pass
            except OSError:
                # (it was closed before it had said all)
                pass

    def keep(self, octets):
        """Keeps the lines that the station takes of these octets: those before the first that says no
        entry, but for frames and seals whose times fall."""
        for line in octets.split(b"\n")[:-1]:
            try:
                said = line_of(line)
            except ValueError:
                return
            if len(line) > LONGEST_LINE or said and said[0] not in ("frame", "loss", "production", "mark"):
                return
            if said and self.is_taken(*said):
                self.lines.append(line.decode().lower() + "\n")
                self.frames += said[0] == "frame"

    def is_taken(self, kind, stamp=None, *_rest):
        if kind not in self.last:
            return True
        at = moment(stamp)
        if at < self.last[kind] or kind == "frame" and at <= self.last["mark"]:
            return False
        self.last[kind] = at
        self.day, self.millis = max((self.day, self.millis), stamp[:2])
        return True

    def attack(self):
        """Lines that are valid, around what the generator makes of one; and a connection without."""
        before, behind = ([self.line() for _ in range(self.make.choices.randrange(3))] for _ in range(2))
        self.feed(before, self.make.line(self.line()) + "".join(behind).encode())
        with self.station.front_end() as other:
            if self.make.choices.randrange(2):
                other.setsockopt(socket.SOL_SOCKET, socket.SO_LINGER, struct.pack("ii", 1, 0))


def stops(station):
    """Words that ask for no stop."""
    make = Generator(SEED + 7)
    while not station.is_over:
        try:
            with socket.create_connection(("127.0.0.1", station.stop_port), timeout=5) as peer:
                peer.sendall(make.word())
                if make.choices.randrange(2):
                    peer.shutdown(socket.SHUT_WR)
        except OSError:
            pass
        time.sleep(0.02)


# ---- the status page

def has_page():
    """Whether the program serves a status page: it has the name of the variable that says where."""
    with open(programs["provider"], "rb") as file:
        return b"STATION_STATUS" in file.read()


class Page:
    """A station's status page, as a browser reads it, and as others ask for it."""

    def __init__(self, station, port):
        self.station, self.port, self.make = station, port, Generator(SEED + 11)
        # how often each status was answered to those others, and how many pages were read
        self.codes, self.read, self.lock = {}, 0, threading.Lock()

    def read_on(self):
        while not self.station.is_over:
            for resource in ("/", "/health", "/status.json", "/metrics"):
                try:
                    self.read_one(resource)
                except (OSError, ValueError) as error:
                    check(f"the page {resource}", repr(error), None)
            time.sleep(0.1)

    def asked(self, octets):
        """The head and the body of the answer to a request, after which the connection is closed."""
        with socket.create_connection(("127.0.0.1", self.port), timeout=20) as peer:
            peer.sendall(octets)
            head, _, body = b"".join(iter(lambda: peer.recv(1 << 16), b"")).partition(b"\r\n\r\n")
            return head, body

    def read_one(self, resource):
        head, body = self.asked(f"GET {resource} HTTP/1.1\r\nHost: station\r\nConnection: close\r\n\r\n".encode())
        check(f"the page {resource}", head.split(b"\r\n")[0], b"HTTP/1.1 200 OK")
        size = re.search(rb"(?i)\r\ncontent-length: (\d+)", head)
        check(f"the page {resource}, whole", size and int(size[1]), len(body))
        if resource == "/status.json":
            json.loads(body)
        self.read += 1

    def ask_on(self):
        while not self.station.is_over:
            try:
                with socket.create_connection(("127.0.0.1", self.port), timeout=20) as peer:
                    self.ask(peer)
            except OSError:
                # (it was closed, as it may be)
                pass
            time.sleep(0.01)

    def ask(self, peer):
        with self.lock:
            how, octets = self.make.choices.randrange(40), self.make.request()
        if how == 0:
            self.be_silent(peer)
            return
        for piece in [octets] if how > 3 else [octets[at:at + 1] for at in range(min(len(octets), 300))]:
            peer.sendall(piece)
        if how % 4 == 0:
            peer.setsockopt(socket.SOL_SOCKET, socket.SO_LINGER, struct.pack("ii", 1, 0))
            return
        if how % 4 == 1:
            peer.shutdown(socket.SHUT_WR)
        peer.settimeout(0.2)
        heard = peer.recv(1 << 16)
        if heard:
            found = re.match(rb"HTTP/1\.[01] ([1-5]\d\d) ", heard)
            check(f"an answer of HTTP: {heard[:60]}", bool(found), True)
        if heard and found:
            with self.lock:
                self.codes[found[1]] = self.codes.get(found[1], 0) + 1

    def be_silent(self, peer):
        """A caller who says nothing is closed, and not only once it gives up itself."""
        peer.settimeout(10)
        try:
            while peer.recv(100):
                pass
            is_closed = True
        except TimeoutError:
            is_closed = False
        check("a silent caller is closed in time", is_closed, True)

    def compare(self):
        """Each kind of answer comes, also in the end."""
        with socket.create_connection(("127.0.0.1", self.port), timeout=20) as peer:
            self.be_silent(peer)
        for code, line in [("200", b"GET /health"), ("404", b"GET /nothing"), ("405", b"POST /"), ("400", b"GET")]:
            head, _ = self.asked(line + (b" HTTP/1.1" if b" " in line else b"") + b"\r\nHost: station\r\n\r\n")
            check(f"the page, {line}", head[9:12].decode(), code)
        told = {code.decode(): count for code, count in sorted(self.codes.items())}
        print(f"hostile: the status page was read {self.read} times; others were answered {told}")
        check("the page was read, and others were answered", self.read > 0 and bool(told), True)


def resident(process):
    """The octets that a process holds in memory."""
    with open(f"/proc/{process.pid}/status") as file:
        [line] = [line for line in file if line.startswith("VmRSS:")]
    return int(line.split()[1]) * 1024


def attacked(folder, wanted):
    [page_port] = new_ports(1)
    station = Watched(folder, DOORS, 65_536, configuration(), given={"STATION_STATUS": str(page_port)})
    station.is_over = False
    page = Page(station, page_port) if "status" in wanted and has_page() else None
    if "status" in wanted and not page:
        print("hostile: the status page is left out, as this program has none")
    listener = Listener(station.ports[6], b"HONEST", LISTENED, RAF, lambda seal: start_pdu(seal, 1, None, None, 2))
    commander = Commander(station.ports[7], b"ORDERS", COMMANDS, CLTU, lambda seal: cltu_start_pdu(seal, 1, 0))
    source = Source(station, listener, "feed" in wanted)
    attackers = [Attacker(station, place) for place in range(ATTACKED)]
    sent = []

    def command():
        while not station.is_over:
            number = len(sent)
            sent.append(b"telecommand %d" % number)
            commander.say(lambda seal: transfer_pdu(seal, number, number, None, None, 0, True, sent[number]))
            time.sleep(0.05)

    def measure():
        while sum(it.said for it in attackers) < MESSAGES // 10:
            time.sleep(0.05)
        station.began_with = resident(station.process), os.path.getsize(station.path)
    others = [threading.Thread(target=work, daemon=True)
              for work in (command, measure, source.go, lambda: "stop" in wanted and stops(station),
                           *([page.read_on] + [page.ask_on] * 3 if page else []))]
    for other in others:
        other.start()
    began = time.time()
    in_threads([it.go for it in attackers])
    took = time.time() - began
    source.is_over = station.is_over = True
    for other in others:
        other.join(PATIENCE)
    if page:
        page.compare()
    compare(station, listener, commander, source, sent)
    print(f"hostile: seed {SEED}, {sum(it.said for it in attackers)} messages in {took:.0f} s;"
          f" {source.frames} frames and {len(sent)} telecommands beside them;"
          f" grown by {station.grown // 1024} KiB")


def compare(station, listener, commander, source, sent):
    check("the process lives", station.process.poll(), None)
    check("all frames are heard", listener.has(source.frames, 20), True)
    check("all telecommands are told", commander.has(len(sent), 20), True)
    size, stored = station.began_with
    station.grown = resident(station.process) - size - 2 * (os.path.getsize(station.path) - stored)
    check(f"grown by less than 8 MiB beside what is stored: {station.grown}", station.grown < 8 << 20, True)
    station.stop("attacked")
    told, _ = station.process.communicate(timeout=PATIENCE)
    check("the run", (station.process.returncode, told.split(b"\n")[:2]),
          (0, [b"stored %d" % len(source.lines), b"radiated %d" % len(sent)]))
    check("what was fed is listed", station.listed() == "".join(source.lines), True)
    heard = [octets for _, _, octets in listener.heard]
    check("what was heard is what was fed", heard == [bytes.fromhex(line.split()[5]) for line in source.lines
                                                      if line.startswith("frame")], True)
    check("telecommands, each told once and in order", commander.heard, list(range(len(sent))))
    with open(station.cltus, "rb") as file:
        check("telecommands, each radiated once and in order", file.read() == b"".join(sent), True)


def turns(folder, wanted):
    """Connections in turn, of which nothing is left: one of fifty asks for the status page."""
    [page_port] = new_ports(1)
    station = Watched(folder, DOORS, 65_536, configuration(), given={"STATION_STATUS": str(page_port)})
    count, reads = max(MESSAGES // 2, 200), "status" in wanted and has_page()

    def visit(number):
        reads_one = reads and number % 50 == 0
        with User(page_port if reads_one else station.ports[number % DOORS]).peer as peer:
            peer.sendall(b"GET / HTTP/1.1\r\nHost: station\r\n\r\n" if reads_one else [
                b"", context(30, 5), context(30, 5) + pdu_message(bound(b"MOC", OWNED[b"MOC"][0], RAF)),
                b"\4"][number // DOORS % 4])
            peer.shutdown(socket.SHUT_WR)
            while peer.recv(1 << 16):
                pass
    for number in range(100):
        visit(number)
    before, began = resident(station.process), time.time()
    in_threads([lambda place=place: [visit(number) for number in range(100 + place, count, DOORS)]
                for place in range(DOORS)])
    grown = resident(station.process) - before
    check(f"{count} connections in turn: grown by less than 1 MiB: {grown}", grown < 1 << 20, True)
    station.stop("connections in turn")
    station.process.communicate(timeout=PATIENCE)
    print(f"hostile: {count} connections in turn in {time.time() - began:.0f} s; grown by {grown // 1024} KiB")


if __name__ == "__main__":
    wanted = sys.argv[4:] or ["doors", "stop", "feed", "status", "turns"]
    for part in [attacked] * ("doors" in wanted) + [turns] * ("turns" in wanted):
        with tempfile.TemporaryDirectory() as folder:
            try:
                part(folder, wanted)
            except Exception as error:
                check("a part", repr(error), None)
    sys.exit(checks.end())
