"""A control centre, a front end and an operator of a station, over the loopback.

The octets of messages are spelled here by hand, from the standards, and share no code with the
station.
"""
import calendar
import os
import re
import socket
import struct
import subprocess
import threading
import time

from checks import Checks

# How many seconds a user waits for anything.
PATIENCE = 60
TURNS = "100000000"

checks = Checks("station")
check = checks.check


# ---- messages, after CCSDS 913.1-B (transport), 911.1-B (RAF), 912.1-B (FCLTU) and X.690

def tlv(tag, content):
    size = len(content)
    if size < 128:
        length = bytes([size])
    else:
        octets = size.to_bytes((size.bit_length() + 7) // 8, "big")
        length = bytes([128 + len(octets)]) + octets
    return bytes.fromhex(tag) + length + content


def integer(value):
    return tlv("02", value.to_bytes(value.bit_length() // 8 + 1, "big", signed=True))


UNUSED = bytes.fromhex("8000")
ATTRIBUTES = {"sagr": 52, "spack": 53, "rsl-fg": 38, "raf": 22, "rcf": 46, "fsl-fg": 14, "cltu": 7}


def message(pdu):
    return struct.pack(">B3xI", 1, len(pdu)) + pdu


def context(interval, factor):
    return struct.pack(">B3xI", 2, 12) + b"ISP1" + struct.pack(">3xBHH", 1, interval, factor)


HEARTBEAT = struct.pack(">B3xI", 3, 0)


def identifier(text):
    names = b""
    for part in text.split("."):
        name, value = part.split("=")
        oid = tlv("06", bytes([43, 112, 4, 3, 1, 2, ATTRIBUTES[name]]))
        names += tlv("31", tlv("30", oid + tlv("1a", value.encode())))
    return tlv("30", names)


def bind(name, instance, service=0):
    return message(tlv("bf64", UNUSED + tlv("1a", name.encode()) + tlv("1a", b"PORT1")
                       + integer(service) + integer(5) + identifier(instance)))


def start(invoke, first=None, last=None, what=integer(2)):
    """A START for frames of all qualities, or for what else is said."""
    def moment(time):
        return UNUSED if time is None else tlv("a1", tlv("80", time))
    return message(tlv("a0", UNUSED + integer(invoke) + moment(first) + moment(last) + what))


def channel(spacecraft, number):
    """A virtual channel of transfer frame version 0, as a START of RCF names it."""
    return tlv("30", integer(spacecraft) + integer(0) + tlv("81", bytes([number])))


def stop(invoke):
    return message(tlv("a2", UNUSED + integer(invoke)))


def cltu_start(first):
    return message(tlv("a0", UNUSED + integer(0) + integer(first)))


def transfer(number, octets):
    """A CLTU without a window, of whose radiation its user wants to be told."""
    return message(tlv("aa", UNUSED + integer(0) + integer(number) + UNUSED + UNUSED + integer(0)
                       + integer(0) + tlv("04", octets)))


UNBIND = message(tlv("bf66", UNUSED + integer(0)))
BOUND = message(tlv("bf65", UNUSED + tlv("1a", b"STATION") + tlv("80", b"\5")))
UNBOUND = message(tlv("bf67", UNUSED + UNUSED))


def started(invoke):
    return message(tlv("a1", UNUSED + integer(invoke) + UNUSED))


def stopped(invoke):
    return message(tlv("a3", UNUSED + integer(invoke) + UNUSED))


def elements(octets):
    """The tags and contents of the elements that stand one behind the other."""
    while octets:
        size, place = octets[1], 2
        if size >= 128:
            place += size - 128
            size = int.from_bytes(octets[2:place], "big")
        yield octets[0], octets[place:place + size]
        octets = octets[place + size:]


def told_at(pdu, place):
    """The tag and content of an element of a PDU."""
    [(_, content)] = elements(pdu)
    return list(elements(content))[place]


def cds(number):
    return struct.pack(">HIH", 20000, number, 0)


def frame(number):
    """Frame number `number` of a pass, as a line of a feed."""
    return f"frame 20000/{number}/0 0 41 0 {(b'pass' + bytes([number % 256]) * 40).hex()}\n"


def items(pdu):
    """The items of a transfer buffer: of a frame its time, continuity and octets."""
    [(tag, content)] = elements(pdu)
    if tag != 0xa8:
        return [pdu]
    told = []
    for kind, item in elements(content):
        if kind == 0xa0:
            # (a frame of a channel has no quality)
            _, (_, time), _, (_, continuity), *_, (_, octets) = elements(item)
            told.append((time, int.from_bytes(continuity, "big", signed=True), octets))
        else:
            told.append(item)
    return told


def of_frames(numbers):
    return [(cds(number), 0 if place else -1, b"pass" + bytes([number % 256]) * 40)
            for place, number in enumerate(numbers)]


END_OF_DATA = [bytes.fromhex("80008300")]
BACKLOG = bytes.fromhex("80008200")


# ---- a user

class User:
    def __init__(self, port, room=None):
        """A connection; one with little room takes few octets before they are read."""
        began = time.time()
        while True:
            self.peer = socket.socket()
            self.peer.settimeout(PATIENCE)
            if room is not None:
                self.peer.setsockopt(socket.SOL_SOCKET, socket.SO_RCVBUF, room)
            try:
                self.peer.connect(("127.0.0.1", port))
                break
            except ConnectionRefusedError:
                self.peer.close()
                if time.time() > began + PATIENCE:
                    raise
                time.sleep(0.02)
        self.peer.setsockopt(socket.IPPROTO_TCP, socket.TCP_NODELAY, 1)

    def say(self, *messages, one_by_one=False):
        octets = b"".join(messages)
        for piece in [octets[k:k + 1] for k in range(len(octets))] if one_by_one else [octets]:
            self.peer.sendall(piece)

    def octets(self, count):
        heard = b""
        while len(heard) < count:
            piece = self.peer.recv(count - len(heard))
            if not piece:
                raise EOFError
            heard += piece
        return heard

    def hear(self):
        head = self.octets(8)
        return head + self.octets(int.from_bytes(head[4:], "big"))

    def answer(self):
        """The next message that is no heartbeat."""
        while True:
            heard = self.hear()
            if heard != HEARTBEAT:
                return heard

    def frames(self, count):
        """Items of buffers, until so many have come."""
        told = []
        while len(told) < count:
            told += items(self.answer()[8:])
        return told

    def end(self):
        """Nothing at the stream's end, and else what comes before it."""
        try:
            return self.answer()
        except EOFError:
            return b""

    def reset(self):
        """Closes the connection with a reset: what lingers is given no time."""
        self.peer.setsockopt(socket.SOL_SOCKET, socket.SO_LINGER, struct.pack("ii", 1, 0))
        self.peer.close()

    def bound(self, name, who, instance, interval=30, one_by_one=False, service=0):
        self.say(context(interval, 5), bind(who, instance, service), one_by_one=one_by_one)
        check(f"{name}: bound", self.answer(), BOUND)

    def unbind(self, name):
        self.say(UNBIND)
        check(f"{name}: unbound", self.answer(), UNBOUND)
        check(f"{name}: the end of the stream", self.end(), b"")
        self.peer.close()


# ---- a station

# Where the programs are that are driven.
programs = {}


def free_ports(count):
    held = [socket.create_server(("127.0.0.1", 0)) for _ in range(count)]
    ports = [one.getsockname()[1] for one in held]
    for one in held:
        one.close()
    return ports


def instance(kind, number):
    return f"sagr=1.spack=P.rsl-fg=1.raf={kind}{number}"


def site(doors):
    lines = ["heartbeat 1 3600 2 100", "peer MOC none sha1 60 000000000000"]
    for number in range(1, doors + 1):
        lines.append(f"raf {instance('onlc', number)} MOC complete 3 1 60")
    lines.append(f"raf {instance('offl', 1)} MOC offline 4 0 60")
    return "\n".join(lines) + "\n"


def log_lines(name, text):
    """The lines of a log, whose times are compared with the clock: each without its time, and without
    the ports of peers, which the system chose."""
    log = []
    for line in text.split("\n")[:-1]:
        at, _, text = line.partition(" ")
        moment = re.fullmatch(r"(\d{4}-\d\d-\d\dT\d\d:\d\d:\d\d)\.\d{3}Z", at)
        check(f"{name}: the time of {line}", moment is not None and abs(time.time() - calendar
              .timegm(time.strptime(moment[1], "%Y-%m-%dT%H:%M:%S"))) < PATIENCE, True)
        text = re.sub(r"127\.0\.0\.1:\d+ (connected|ended)", r"USER \1", text)
        log.append(re.sub(r"by 127\.0\.0\.1:\d+$", "by USER", text))
    return log


class Station:
    def __init__(self, folder, doors, links, configuration=None, turns=TURNS, made=True,
                 stops=False, given={}):
        """A station over the archive of a folder, which hears a stop if it is to."""
        self.path = os.path.join(folder, "archive")
        if made and not os.path.exists(self.path):
            subprocess.run([programs["provider"], "init", self.path], check=True, stdout=subprocess.DEVNULL)
        self.feed, self.stop_port, *self.ports = free_ports(doors + 2)
        words = [turns, str(links), self.path, str(self.feed), os.path.join(folder, "cltus")]
        env = {**os.environ, "STATION_ADDRESS": "127.0.0.1", "STATION_STOP": str(self.stop_port)}
        if not stops:
            del env["STATION_STOP"]
        self.process = subprocess.Popen([programs["provider"], "run", *words, *map(str, self.ports)],
                                        stdin=subprocess.PIPE, stdout=subprocess.PIPE,
                                        stderr=subprocess.PIPE, env={**env, **given})
        try:
            self.process.stdin.write((configuration or site(doors)).encode())
            self.process.stdin.close()
        except BrokenPipeError:
            # (it ended before it read)
            pass
        self.process.stdin = None

    def front_end(self):
        return User(self.feed).peer

    def stop(self, name):
        """Asks the station to stop, and waits until it has."""
        operator = User(self.stop_port)
        operator.say(b"stop\n")
        check(f"{name}: a stop is heard", operator.octets(9), b"stopping\n")
        check(f"{name}: the end", operator.end(), b"")

    def ended(self, name, status, lines):
        """Compares how the run ended, and answers its log but for its first and last lines: each line
        with no time, and without the ports of peers, which the system chose."""
        told, complaint = self.process.communicate(timeout=PATIENCE)
        check(name, (self.process.returncode, told.decode().split("\n")[:-1]), (status, lines))
        log = log_lines(name, complaint.decode())
        check(f"{name}: the log's end", log[-1:], [f"station: ended with exit code {status}"])
        return log[log[:1] == ["station: began"]:-1]

    def log_at(self, log, place):
        """What the log says of one door, or else of the feed."""
        port = self.feed if place is None else self.ports[place - 1]
        head = f"{'feed' if place is None else 'door'} 127.0.0.1:{port}: "
        return [line[len(head):] for line in log if line.startswith(head)]

    def listed(self):
        return subprocess.run([programs["provider"], "list", self.path],
                              capture_output=True).stdout.decode()
