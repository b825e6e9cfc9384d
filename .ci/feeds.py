#!/usr/bin/env python3
"""Feeds a program that listens as a source of entries over TCP, as peers over the loopback do.

usage: feeds.py FEED

FEED ADDRESS PAUSES writes each answer of the source in a line, and where it listens and what fails
to standard error. A peer writes lines at once and in pieces, ends, resets its connection in the
midst of a line or between lines, comes second, or finds the port taken. The last line says how many
checks passed.
"""
import errno
import os
import re
import socket
import struct
import subprocess
import sys

sys.dont_write_bytecode = True
from checks import Checks

FEED = sys.argv[1]
# A program that hears nothing ends after so many milliseconds, and is stopped after so many
# seconds.
PAUSES, PATIENCE = b"10000", 30

FRAME = b"frame 20000/1000/0 0 41 0 0010a1\n"
LOSS, PRODUCTION, MARK = b"loss 20000/2000/0 0 1 2\n", b"production 1\n", b"mark 20000/3000/0\n"

checks = Checks("feeds")
check = checks.check


def started(address=b"127.0.0.1:0"):
    """A program that runs, and where it listens."""
    running = subprocess.Popen([FEED, address, PAUSES], bufsize=0, stdout=subprocess.PIPE,
                               stderr=subprocess.PIPE)
    place = running.stderr.readline().split()[-1].decode()
    return running, place


def peer_of(place):
    host, port = place.rsplit(":", 1)
    return socket.create_connection((host, int(port)), timeout=PATIENCE)


def reset(peer):
    """Closes a connection with a reset: what lingers is given no time."""
    peer.setsockopt(socket.SOL_SOCKET, socket.SO_LINGER, struct.pack("ii", 1, 0))
    peer.close()


def ended(name, running, place, lines, report):
    """The rest of what a program tells, and how it ends; a report has a line for each connection and
    for its end."""
    told, complaint = running.communicate(timeout=PATIENCE)
    check(name, (running.returncode, told.split(b"\n")[:-1]), (0, lines))
    expected = [f"feed {place}: {text}" for text in report]
    # (the system chooses the front end's port)
    found = re.sub(r"127\.0\.0\.1:\d+ (connected|ended|closed)", r"PEER \1", complaint.decode())
    check(f"{name}, report", found.split("\n")[:-1], expected)


def lines_and_an_end():
    for name, pieces in [("at once", [FRAME + LOSS + b"\n# a pass\n" + PRODUCTION + MARK]),
                         ("in pieces", [FRAME[:7], FRAME[7:] + LOSS[:-1], b"\n\n#", b" a pass\npro",
                                        PRODUCTION[3:], MARK[:-1]])]:
        running, place = started()
        with peer_of(place) as peer:
            for number, piece in enumerate(pieces):
                peer.sendall(piece)
                if name == "in pieces" and number == 1:
                    # the first line is whole, and the second isn't
                    check("a whole line", running.stdout.readline(), b"frame\n")
        if name == "in pieces":
            # (what has no line end is no line)
            ended(f"lines {name}", running, place, [b"loss", b"production", b"end", b"end"],
                  ["PEER connected", "PEER ended after line 5; line 6 was cut short and isn't stored"])
        else:
            ended(f"lines {name}", running, place,
                  [b"frame", b"loss", b"production", b"mark", b"end", b"end"],
                  ["PEER connected", "PEER ended after line 6"])


def resets():
    reset_by_peer = f"{os.strerror(errno.ECONNRESET)} (os error {errno.ECONNRESET:d})"
    for name, sent, line in [("in the midst of a line", FRAME + LOSS[:9], 2),
                             ("between lines", FRAME + LOSS, 3), ("before a line", b"", 1)]:
        running, place = started()
        peer = peer_of(place)
        peer.sendall(sent)
        told = [running.stdout.readline() for _ in range(sent.count(b"\n"))]
        reset(peer)
        check(f"a reset {name}, lines", told, [b"frame\n", b"loss\n"][:len(told)])
        ended(f"a reset {name}", running, place, [b"failed", b"failed"],
              ["PEER connected", f"PEER ended at line {line}: {reset_by_peer}"])


def a_second_connection():
    running, place = started()
    with peer_of(place) as first:
        first.sendall(FRAME)
        check("a first connection", running.stdout.readline(), b"frame\n")
        with peer_of(place) as second:
            second.sendall(FRAME)
            try:
                found = second.recv(1)
            except ConnectionResetError:
                # (it was closed with what it had sent unread)
                found = b""
            check("a second connection is closed", found, b"")
        first.sendall(MARK)
    ended("after a second connection", running, place, [b"mark", b"end", b"end"],
          ["PEER connected", "PEER closed: another source is heard", "PEER ended after line 2"])


def a_port_that_is_taken():
    with socket.create_server(("127.0.0.1", 0)) as other:
        place = "127.0.0.1:%d" % other.getsockname()[1]
        found = subprocess.run([FEED, place, PAUSES], capture_output=True, timeout=PATIENCE)
        check("a port that is taken", (found.returncode != 0, found.stdout), (True, b""))


lines_and_an_end()
resets()
a_second_connection()
a_port_that_is_taken()
sys.exit(checks.end())
