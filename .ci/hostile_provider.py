#!/usr/bin/env python3
"""Drives the user's program against a provider that means it ill.

usage: hostile_provider.py USER [RUNS] [SEED]

The provider answers as it should for a while, and then sends what a seeded generator makes of returns,
transfer buffers, notices and reports: changed in a bit, an octet, a length or a tag, cut, glued, too
long, empty, by single octets; or it is silent, closes one side, or resets the connection. The program
ends by itself with an exit code of its own, writes lines of its own alone, and stays within its memory.
What it printed is what `show` prints of the octets that were sent, or the beginning of that, and no less
than what came before the first octet that was changed. The last line says how many checks passed.
"""
import collections
import os
import queue
import random
import re
import resource
import socket
import struct
import subprocess
import sys
import threading
import time

sys.dont_write_bytecode = True
from control_centre import (BOUND, PATIENCE, UNBOUND, UNUSED, cds, check, checks, integer, message, started,
                            stopped, tlv)
from hostility import Generator
from sessions import stream
from watched import in_threads

USER = os.path.abspath(sys.argv[1])
RUNS = int(sys.argv[2]) if len(sys.argv) > 2 else 600
SEED = int(sys.argv[3]) if len(sys.argv) > 3 else random.SystemRandom().randrange(1_000_000)
checks.name = f"hostile provider: seed {SEED}"
# How many polls of 50 ms each the program makes at most, and the octets of memory that it may have.
TURNS, MEMORY = 12, 256 << 20
# What the program says of its end, and the exit code of that.
LAST = {b"closed": 11, b"link fault": 8, b"turns spent": 10}
STATUSES = {0, 3, 5, 8, 10, 11}
LINE = re.compile(rb"(frame|loss|production|backlog|end|ok|no|parameter|notice|report|abort|invoke|bad message)"
                  rb"( [-0-9a-z/:p]+)*|closed|link fault|turns spent")
TELECOMMANDS = b"cltu 5 none none 0 0 c5c5c5c5\ncltu 6 none none 0 1 00ff\n"
WORDS = {
    "raf": ["raf", "sagr=1.spack=P.rsl-fg=1.raf=onlc1", "none", "none", "2"],
    "rcf": ["rcf", "sagr=1.spack=P.rsl-fg=1.rcf=onlc1", "none", "none", "17/0/3"],
    "cltu": ["cltu", "sagr=1.spack=P.fsl-fg=1.cltu=cltu1", "5"],
}
TIME = tlv("80", cds(1_000))


# ---- returns and invocations of a provider, after CCSDS 911.1-B, 911.2-B and 912.1-B

def buffer(service, choices):
    """A transfer buffer of a few frames and notices."""
    quality = integer(choices.randrange(3)) if service == "raf" else b""
    octets = tlv("04", choices.randbytes(choices.choice([1, 20, 1_115])))
    continuity = integer(choices.choice([-1, 0, 5]))
    frame = tlv("a0", UNUSED + TIME + tlv("81", b"A") + continuity + quality + UNUSED + octets)
    told = [tlv("a1", UNUSED + tlv("82", b"")), tlv("a1", UNUSED + tlv("81", b"\1"))]
    return tlv("a8", b"".join(choices.choice([frame] * 4 + told) for _ in range(choices.randrange(1, 6))))


def end_of_data():
    return tlv("a8", tlv("a1", UNUSED + tlv("83", b"")))


def cltu_started():
    return tlv("a1", UNUSED + integer(0) + tlv("a0", TIME + UNUSED))


def transferred(invoke, following):
    return tlv("ab", UNUSED + integer(invoke) + integer(following) + integer(1_000) + UNUSED)


def notice(number, kind="8500"):
    processed = tlv("a1", integer(number) + UNUSED + integer(0))
    radiated = tlv("a1", integer(number) + TIME)
    return tlv("ac", UNUSED + bytes.fromhex(kind) + processed + radiated + integer(0) + integer(3))


def refusals():
    """Negative returns of BIND, and of START or STOP."""
    return [tlv("bf65", UNUSED + tlv("1a", b"STATION") + tlv("81", b"\0")),
            *(tlv(tag, UNUSED + integer(invoke) + tlv("a1", tlv("81", b"\4"))) for tag, invoke in
              [("a1", 0), ("a3", 1), ("a3", 3)])]


def answers(service, choices):
    """What a provider sends once it heard each message, in PDUs."""
    if service == "cltu":
        return [[BOUND[8:]], [cltu_started()], [transferred(1, 6)], [transferred(2, 7), notice(6)],
                [stopped(3)[8:]], [UNBOUND[8:]]]
    frames = [buffer(service, choices) for _ in range(choices.randrange(6))]
    return [[BOUND[8:]], [started(0)[8:], *frames, end_of_data()], [stopped(1)[8:]], [UNBOUND[8:]]]


class Provider(threading.Thread):
    """Serves one connection, as it should at first."""

    def __init__(self, number, service):
        super().__init__(daemon=True)
        self.make = Generator(SEED * 10_000 + number)
        self.choices, self.service, self.sent, self.right = self.make.choices, service, b"", 0
        self.listener = socket.create_server(("127.0.0.1", 0))
        self.port = self.listener.getsockname()[1]
        self.start()

    def hear(self, peer):
        """A message, of which there may be none any more."""
        head = b""
        for count in (8, None):
            count = count or 8 + int.from_bytes(head[4:], "big")
            while len(head) < count:
                piece = peer.recv(count - len(head))
                if not piece:
                    raise EOFError
                head += piece

    def run(self):
        peer, _ = self.listener.accept()
        with self.listener, peer:
            peer.setsockopt(socket.IPPROTO_TCP, socket.TCP_NODELAY, 1)
            peer.settimeout(5)
            try:
                self.hear(peer)
                self.serve(peer)
            except (EOFError, OSError):
                pass

    def serve(self, peer):
        steps = answers(self.service, self.choices)
        wrong = self.choices.randrange(len(steps) + 1)
        for step, pdus in enumerate(steps):
            self.hear(peer)
            if step == wrong:
                self.go_wrong(peer, [pdu for step in steps for pdu in step], pdus)
                return
            self.say(peer, *map(message, pdus))
            self.right = len(self.sent)
        self.go_wrong(peer, [pdu for step in steps for pdu in step], [])

    def go_wrong(self, peer, pdus, next_ones):
        """Something else in place of what comes next, and an end."""
        how = self.choices.randrange(10)
        if how < 7:
            self.say(peer, *(self.make.message(pdus) for _ in range(self.choices.randrange(1, 9))))
        elif how == 7:
            for octet in message(self.make.mutated(self.choices.choice(pdus))):
                self.say(peer, bytes([octet]))
        elif how == 8:
            self.say(peer, *(message(pdu) for pdu in self.choices.choices(pdus, k=200)))
        elif how == 9:
            self.say(peer, *map(message, refusals()))
        if self.choices.randrange(3) and next_ones:
            self.say(peer, *map(message, next_ones))
        end = self.choices.randrange(4)
        if end == 0:
            peer.setsockopt(socket.SOL_SOCKET, socket.SO_LINGER, struct.pack("ii", 1, 0))
        elif end == 1:
            peer.shutdown(socket.SHUT_WR)
        if end:
            while peer.recv(1 << 16):
                pass

    def say(self, peer, *messages):
        self.sent += b"".join(messages)
        peer.sendall(b"".join(messages))


def least():
    resource.setrlimit(resource.RLIMIT_AS, (MEMORY, MEMORY))


def one(number):
    service = ["raf", "rcf", "cltu"][number % 3]
    provider = Provider(number, service)
    word, instance, *rest = WORDS[service]
    words = [word, str(provider.port), "MOC", "none", instance, *rest, str(TURNS)]
    began = time.time()
    done = subprocess.run([USER, *words], input=TELECOMMANDS if service == "cltu" else b"", capture_output=True,
                          timeout=PATIENCE, preexec_fn=least)
    took = time.time() - began
    statuses[done.returncode] += 1
    provider.join(PATIENCE)
    compare(f"run {number}, {service}", done, provider, service)
    return took


def compare(name, done, provider, service):
    lines = done.stdout.split(b"\n")
    check(f"{name}: the last line's end", lines.pop(), b"")
    check(f"{name}: an exit code of its own: {done.returncode}", done.returncode in STATUSES, True)
    check(f"{name}: a line that it hasn't", [line[:80] for line in lines if not LINE.fullmatch(line)], [])
    faulty, ends, unbound = judged(provider.sent)
    check(f"{name}: done without UNBIND's return", done.returncode == 0 and not unbound, False)
    if done.returncode == 5:
        place = int((lines or [b" -1"])[-1].split()[-1])
        check(f"{name}: a bad message begins where one ends", place in ends, True)
    if lines and lines[-1] in LAST:
        check(f"{name}: the last line", done.returncode, LAST[lines[-1]])
        check(f"{name}: octets that are no messages", lines.pop() == b"closed" and faulty, False)
    shown = shows(service, provider.sent)
    check(f"{name}: as `show` prints it", lines == shown[:len(lines)], True)
    # (a reset may outrun what was sent before it, and so may the program's turns where it has to wait)
    if done.returncode not in (LAST[b"link fault"], LAST[b"turns spent"]):
        right = shows(service, provider.sent[:provider.right])
        check(f"{name}: what came before is printed", lines[:len(right)] == right, True)


def judged(octets):
    """Whether the transport refuses octets, the places at which a message may be bad, and whether one
    before that is UNBIND's return."""
    messages, fault = stream(octets)
    ends = [0]
    for _, body in messages:
        ends.append(ends[-1] + 8 + len(body))
    return bool(fault), ends, any(body[:2] == UNBOUND[8:10] for _, body in messages)


def shows(service, octets):
    """What `show` prints of these octets."""
    done = subprocess.run([USER, "show", service], input=octets, capture_output=True, timeout=PATIENCE)
    return done.stdout.split(b"\n")[:-1]


numbers = queue.Queue()
for number in range(RUNS):
    numbers.put(number)
# How long the longest run took, and how often each exit code came.
slowest, statuses = 0.0, collections.Counter()


def go():
    global slowest
    while True:
        try:
            number = numbers.get_nowait()
        except queue.Empty:
            return
        try:
            slowest = max(slowest, one(number))
        except Exception as error:
            check(f"run {number}", repr(error), None)


began = time.time()
in_threads([go] * 6)
print(f"hostile provider: seed {SEED}; {RUNS} runs in {time.time() - began:.0f} s, the longest in {slowest:.1f} s;"
      f" exit codes {dict(sorted(statuses.items()))}")
check("each exit code comes", set(statuses), STATUSES)
sys.exit(checks.end())
