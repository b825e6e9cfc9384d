#!/usr/bin/env python3
"""Drives the built user's program as a user does, against a small provider of its own.

usage: user.py PROGRAM LAUNCHER

The provider listens on the loopback, answers what it hears by a list, and stalls, cuts, resets and
answers in pieces. What the program hands over is compared with the octets of the standards' messages,
what it prints with the lines of docs/PROFILE.md, and its exit code with the table there: each code
comes once at least. The last line says how many checks passed.
"""
import fcntl
import os
import resource
import socket
import struct
import subprocess
import sys
import tempfile
import threading
import time

sys.dont_write_bytecode = True
from checks import Checks

PROGRAM, LAUNCHER = map(os.path.abspath, sys.argv[1:3])
# A run in a network of its own, where a sender's octets have little room, is told which network it
# was started from.
NETWORK = os.readlink("/proc/self/ns/net")
STALLED = sys.argv[3:] and sys.argv[3] != NETWORK
PATIENCE = 60
MOST_OCTETS = 16_777_216

checks = Checks("user")
check = checks.check


h = bytes.fromhex
CONTEXT = h("020000000000000c4953503100000001001e0005")
BIND = h("010000000000005dbf645a80001a034d4f431a05504f5254310201000201053044310e300c06072b7004030102341a0131"
         "310e300c06072b7004030102351a0150310e300c06072b7004030102261a01313112301006072b7004030102161a056f6e6c6331")
START = h("010000000000000ea00c800002010080008000020102")
STOP = h("0100000000000007a2058000020101")
UNBIND = h("0100000000000008bf66058000020100")
BR = h("0100000000000011bf650e80001a0753544154494f4e800105")
SR = h("0100000000000009a10780000201008000")
A1 = h("0100000000000020a81ea01c800080084e20000003e800008101410201ff020100800004030010a1")
EOD = h("0100000000000008a806a10480008300")
STOPPED = h("0100000000000009a30780000201018000")
UNBOUND = h("0100000000000007bf670480008000")
REFUSED = h("010000000000000ca10a8000020100a103810104")
ABORT = h("01000000000000049f68017f")
INSTANCE = "sagr=1.spack=P.rsl-fg=1.raf=onlc1"


class Provider(threading.Thread):
    """Answers one connection: for each message that it hears, the octets of a list; an answer may be
    several pieces, `close` or `reset`. A narrow one has little room, and looks away for a second
    before it reads."""

    def __init__(self, answers, slow=0.0, narrow=False):
        super().__init__(daemon=True)
        self.listener = socket.socket()
        if narrow:
            self.listener.setsockopt(socket.SOL_SOCKET, socket.SO_RCVBUF, 2048)
        self.listener.bind(("127.0.0.1", 0))
        self.listener.listen()
        self.port = self.listener.getsockname()[1]
        self.answers, self.slow, self.narrow, self.heard = answers, slow, narrow, b""
        self.start()

    def take(self, peer, count):
        octets = b""
        while len(octets) < count:
            piece = peer.recv(count - len(octets))
            if not piece:
                return octets
            octets += piece
        return octets

    def message(self, peer):
        head = self.take(peer, 8)
        if len(head) < 8:
            return head
        return head + self.take(peer, struct.unpack(">I", head[4:])[0])

    def run(self):
        peer, _ = self.listener.accept()
        peer.settimeout(PATIENCE)
        with peer:
            peer.setsockopt(socket.IPPROTO_TCP, socket.TCP_NODELAY, 1)
            try:
                self.heard += self.message(peer)
                for answer in self.answers:
                    if self.narrow:
                        time.sleep(1)
                    self.heard += self.message(peer)
                    for piece in answer if isinstance(answer, list) else [answer]:
                        time.sleep(self.slow)
                        if piece == "close":
                            peer.shutdown(socket.SHUT_WR)
                        elif piece == "reset":
                            peer.setsockopt(socket.SOL_SOCKET, socket.SO_LINGER,
                                            struct.pack("ii", 1, 0))
                            return
                        else:
                            peer.sendall(piece)
                while rest := peer.recv(65536):
                    self.heard += rest
            except OSError:
                pass


def run(words, text=b"", program=PROGRAM, **more):
    if "stdin" not in more:
        more["input"] = text
    done = subprocess.run([program, *words], stdout=subprocess.PIPE, stderr=subprocess.PIPE,
                          timeout=PATIENCE * 2, **more)
    return done.returncode, done.stdout


def raf(port, turns="100", password="none", quality="2"):
    return ["raf", str(port), "MOC", password, INSTANCE, "none", "none", quality, turns]


def talk(name, answers, status, lines, heard=None, turns="100", slow=0.0, words=raf, text=b"",
         narrow=False, **more):
    provider = Provider(answers, slow, narrow)
    found = run(words(provider.port, turns), text, **more)
    provider.join(PATIENCE)
    check(name, found, (status, lines))
    if heard is not None:
        check(name + ", what was handed over", provider.heard, heard)


# ---- messages of telecommands, whose octets are spelled here by hand, from CCSDS 912.1-B and X.690


def tlv(tag, *contents):
    content = b"".join(contents)
    size = len(content)
    length = bytes([size]) if size < 128 else bytes([0x80 + (size.bit_length() + 7) // 8]) + size.to_bytes(
        (size.bit_length() + 7) // 8, "big")
    return h(tag) + length + content


def integer(value):
    return tlv("02", value.to_bytes(value.bit_length() // 8 + 1, "big"))


def pdu(tag, *contents):
    octets = tlv(tag, UNUSED, *contents)
    return struct.pack(">B3xI", 1, len(octets)) + octets


UNUSED = h("8000")
TIME = h("80084e20000003e80000")


def part(number, value):
    return tlv("31", tlv("30", tlv("06", h("2b7004030102") + bytes([number])), tlv("1a", value)))


CLTU_BIND = pdu("bf64", tlv("1a", b"MOC"), tlv("1a", b"PORT1"), integer(16), integer(5),
                tlv("30", part(52, b"1"), part(53, b"P"), part(14, b"1"), part(7, b"cltu1")))
CLTU_START = pdu("a0", integer(0), integer(5))
CLTU_STARTED = pdu("a1", integer(0), tlv("a0", TIME, UNUSED))


def transfer(invoke, number, octets, earliest=UNUSED, latest=UNUSED, delay=0, wanted=0):
    return pdu("aa", integer(invoke), integer(number), earliest, latest, integer(delay), integer(wanted),
               tlv("04", octets))


def transferred(invoke, following, free, answer=UNUSED):
    return pdu("ab", integer(invoke), integer(following), integer(free), answer)


def notice(kind, number):
    return pdu("ac", h(kind), tlv("a1", integer(number), UNUSED, integer(0)), tlv("a1", integer(number), TIME),
               integer(0), integer(3))


def stopping(invoke):
    return pdu("a2", integer(invoke)), pdu("a3", integer(invoke), UNUSED)


RCF_BIND = pdu("bf64", tlv("1a", b"MOC"), tlv("1a", b"PORT1"), integer(2), integer(5),
               tlv("30", part(52, b"1"), part(53, b"P"), part(38, b"1"), part(46, b"onlc2")))
RCF_START = pdu("a0", integer(0), UNUSED, UNUSED, tlv("30", integer(17), integer(0), tlv("81", b"\3")))

TEXT = b"""# two telecommands, the second in a window
cltu 5 none none 0 0 c5c5c5c5

cltu 6 20000/1000/0 20001/0/0 250 1 00ff
"""
SENT = [transfer(1, 5, h("c5c5c5c5")),
        transfer(2, 6, h("00ff"), tlv("a1", TIME), tlv("a1", h("80084e21000000000000")), 250, 1)]
BOUND = [BR, CLTU_STARTED]
ENDED = CONTEXT + CLTU_BIND + CLTU_START
TOLD = b"ok 101\nok 1\n"


def rcf(port, turns="100", channel="17/0/3"):
    return ["rcf", str(port), "MOC", "none", "sagr=1.spack=P.rsl-fg=1.rcf=onlc2", "none", "none", channel, turns]


COMMANDS = "sagr=1.spack=P.fsl-fg=1.cltu=cltu1"


def cltu(port, turns="200", first="5", password="none"):
    return ["cltu", str(port), "MOC", password, COMMANDS, first, turns]


# ---- connections that stall


def narrow():
    """Gives this network's senders room for 4,096 octets, and its loopback a start."""
    with socket.socket(socket.AF_INET, socket.SOCK_DGRAM) as any_socket:
        # (SIOCGIFFLAGS, SIOCSIFFLAGS and IFF_UP of Linux)
        flags = struct.unpack("16sH", fcntl.ioctl(any_socket, 0x8913, struct.pack("16sH14x", b"lo", 0))[:18])[1]
        fcntl.ioctl(any_socket, 0x8914, struct.pack("16sH14x", b"lo", flags | 1))
    with open("/proc/sys/net/ipv4/tcp_wmem", "w") as limits:
        limits.write("4096 4096 4096")


def stalled():
    long = bytes(range(256)) * 256
    text = b"cltu 5 none none 0 0 " + long.hex().encode()
    said = ENDED + transfer(1, 5, long)
    stop, stopped = stopping(2)
    rest = [[transferred(1, 6, 0), notice("8500", 5)], stopped, UNBOUND]
    talk("a connection that stalls", [*BOUND, *rest], 0, TOLD + b"ok 11 6 0\nnotice 5\nok 3\nok 103\n",
         said + stop + UNBIND, words=cltu, text=text, narrow=True, turns="1000")
    talk("turns spent on a stall", [*BOUND, []], 10, TOLD + b"turns spent\n", said, words=cltu, text=text, narrow=True,
         turns="50")
    talk("a reset behind a stall", [*BOUND[:1], [BOUND[1], "reset"]], 8, b"ok 101\nok 1\nlink fault\n", words=cltu,
         text=text, narrow=True, slow=0.5, turns="1000")


if STALLED:
    narrow()
    stalled()
    sys.exit(checks.end())
again = subprocess.run(["unshare", "-rn", sys.executable, "-B", *sys.argv, NETWORK], stdout=subprocess.PIPE,
                       stderr=subprocess.PIPE, text=True)
*told, last = again.stdout.splitlines() or [""]
if last:
    print(*told, sep="\n", end="\n" if told else "")
    checks.add(*(int(count) for count in last.split()[::2]))
else:
    print("user: no network of its own could be made, and no connection stalled:", again.stderr.strip()[-200:])

# ---- a recorded stream

LINES = b"ok 101\nok 1\nframe 20000/1000/0 0 -1 41 0010a1\nend\nok 3\nok 103\n"
STREAM = CONTEXT + BR + SR + A1 + EOD + STOPPED + UNBOUND
check("a stream", run(["show", "raf"], STREAM), (0, LINES))
check("no stream", run(["show", "rcf"]), (0, b""))
check("a bad message", run(["show", "raf"], BR + b"\x07" + bytes(7)), (5, b"ok 101\nbad message 25\n"))
check("a cut message", run(["show", "raf"], STREAM[:-1]),
      (5, LINES[:-len(b"ok 103\n")] + b"bad message %d\n" % (len(STREAM) - len(UNBOUND))))
check("the longest stream", run(["show", "cltu"], (b"\x03" + bytes(7)) * (MOST_OCTETS // 8)), (0, b""))
check("one octet more", run(["show", "cltu"], b"\x03" + bytes(MOST_OCTETS)), (12, b"input too long\n"))
with open(os.devnull, "wb") as closed:
    check("an input that fails", run(["show", "raf"], stdin=closed), (6, b"read fault\n"))
with open("/dev/full", "wb") as full:
    done = subprocess.run([PROGRAM, "show", "raf"], input=STREAM, stdout=full, timeout=PATIENCE)
    check("an output that fails", done.returncode, 7)


def least(size):
    """Leaves a process so many octets of memory."""
    return lambda: resource.setrlimit(resource.RLIMIT_AS, (size, size))


check("an input without memory",
      run(["show", "cltu"], (b"\x03" + bytes(7)) * (MOST_OCTETS // 8), preexec_fn=least(16_000_000)), (70, b""))

# ---- words


def other(words, place, word):
    return words[:place] + [word] + words[place + 1:]


OUTSIDE = [[], [""], ["help"], ["--help"], ["-h"], ["--"], ["SHOW", "raf"], ["show"], ["show", ""], ["show", "rocf"],
           ["show", "RAF"], ["show", "raf", "raf"], ["show", "-h"], ["show", "--", "raf"], ["raf", b"\xff"],
           ["raf"], ["rcf"], ["cltu"], raf(5000)[:-1], raf(5000) + ["1"], rcf(5000)[:-1], rcf(5000) + ["1"],
           cltu(5000)[:-1], cltu(5000) + ["1"], ["show", "raf", "30"],
           *(words(5000) + [report] for words in (raf, rcf, cltu)
             for report in ["", "0", "601", "030", "+30", "-30", "30s", "none"]),
           *(words(5000) + ["30", "30"] for words in (raf, rcf, cltu))]
# what may not stand in each place
BAD = {1: ["", "0", "65536", "05000", "+5000", "-1", "5000 ", "0x1388", "port"],
       2: ["", "MO", "M" * 17, "M C", "-MOC", "M\u00fcC"],
       3: ["", "None", "file", "sha1:", "sha1:0102030405", "sha1:" + "00" * 17, "sha1:01020304050", "md5:010203040506",
           "sha256:0102030405gg", "010203040506"],
       4: ["", "sagr", "sagr=", "sagr=1.", ".sagr=1", "sagr=1=2", "color=1", "sagr=1," * 2],
       -1: ["", "0", "1099511627777", "0100", "1.5", "-100", "many"]}
for words, places in [(raf(5000), {5: ["", "20000", "20000/0", "20000/86400000/0", "65536/0/0", "now"],
                                   6: ["", "None", "20000/0/1000"], 7: ["", "3", "02", "good"]}),
                      (rcf(5000), {5: ["0"], 6: ["0"], 7: ["", "17", "17/0", "1024/0/3", "17/4/3", "17/0/64", "17/0/**", "*"]}),
                      (cltu(5000), {5: ["", "4294967296", "05", "-1", "none"]})]:
    for place, bad in [*BAD.items(), *places.items()]:
        OUTSIDE += [other(words, place, word) for word in bad]
for words in OUTSIDE:
    check(f"the words {words}", run(words), (2, b"usage\n"))

# ---- a provider

WHOLE = [BR, [SR, A1[:20], A1[20:], EOD], STOPPED, UNBOUND]
SAID = CONTEXT + BIND + START + STOP + UNBIND
talk("frames", WHOLE, 0, LINES, SAID)
talk("frames in pieces", [[BR[:3], BR[3:]], [SR + A1[:1], A1[1:] + EOD[:9], EOD[9:]], STOPPED, UNBOUND],
     0, LINES, SAID, slow=0.02)
talk("a refused START", [BR, REFUSED], 3, b"ok 101\nno 1 4\n", CONTEXT + BIND + START)
talk("a bad message", [b"\x09" + bytes(7)], 5, b"bad message 0\n", CONTEXT + BIND)
talk("an abort", [BR, ABORT], 11, b"ok 101\nabort 127\n", CONTEXT + BIND + START)
talk("a close", [[BR, "close"]], 11, b"ok 101\nclosed\n")
talk("a reset", [[BR, "reset"]], 8, b"ok 101\nlink fault\n", slow=0.2)
with tempfile.NamedTemporaryFile() as asking:
    env = {**os.environ, "USER_END": asking.name}
    talk("asked to end", [BR, [SR, A1], STOPPED, UNBOUND], 0, LINES.replace(b"end\n", b""), SAID, env=env)
    talk("asked to end before START is refused", [BR, REFUSED], 3, b"ok 101\nno 1 4\n", CONTEXT + BIND + START, env=env)
talk("not asked to end", [BR, SR], 10, b"ok 101\nok 1\nturns spent\n", CONTEXT + BIND + START, turns="8",
     env={**os.environ, "USER_END": "/no/such/file"})
talk("an address", WHOLE, 0, LINES, SAID, env={**os.environ, "USER_ADDRESS": "127.0.0.1"})
talk("turns", [BR], 10, b"ok 101\nturns spent\n", CONTEXT + BIND + START, turns="8")
with socket.create_server(("127.0.0.1", 0)) as listener:
    port = listener.getsockname()[1]
check("nobody listens", run(raf(port)), (8, b"link fault\n"))
for address, found in [("127.0.0.2", (8, b"link fault\n")), ("localhost", (2, b"usage\n")), ("", (2, b"usage\n"))]:
    env = {**os.environ, "USER_ADDRESS": address}
    check(f"the address {address}", run(raf(port), env=env), found)
done = subprocess.run([PROGRAM, *raf(port)], env={**os.environ, "USER_ADDRESS": "127.0.0.2"}, capture_output=True)
check("why nobody is reached", (b"127.0.0.2:%d: " % port in done.stderr, b"refused" in done.stderr.lower()), (True, True))
provider = Provider(WHOLE)
with open("/dev/full", "wb") as full:
    done = subprocess.run([PROGRAM, *raf(provider.port)], stdout=full, timeout=PATIENCE)
    check("an output that fails at a provider", done.returncode, 7)

# ---- telecommands

stop, stopped = stopping(3)
talk("telecommands", [*BOUND, [transferred(1, 6, 1000), notice("8000", 5), notice("8500", 5)],
                      [transferred(2, 7, 998), notice("8500", 6)], stopped, UNBOUND],
     0, TOLD + b"ok 11 6 1000\nnotice 0\nnotice 5\nok 11 7 998\nnotice 5\nok 3\nok 103\n",
     ENDED + b"".join(SENT) + stop + UNBIND, words=cltu, text=TEXT)
stop, stopped = stopping(1)
for name, text in [("no telecommand", b""), ("comments alone", b"# none today\n\n#\n")]:
    talk(name, [*BOUND, stopped, UNBOUND], 0, TOLD + b"ok 3\nok 103\n", ENDED + stop + UNBIND,
         words=cltu, text=text)
stop, stopped = stopping(2)
one = b"cltu 5 none none 0 0 c5c5c5c5"
for kind, number in [("8100", 1), ("8200", 2), ("8300", 3)]:
    talk(f"a notice of kind {number}", [*BOUND, [transferred(1, 6, 1000), notice(kind, 5)], stopped, UNBOUND],
         0, TOLD + b"ok 11 6 1000\nnotice %d\nok 3\nok 103\n" % number,
         ENDED + SENT[0] + stop + UNBIND, words=cltu, text=one)
talk("a refused telecommand", [*BOUND, transferred(1, 5, 1000, h("a103810102"))], 3,
     TOLD + b"no 11 2 5 1000\n", ENDED + SENT[0], words=cltu, text=TEXT)
talk("a connection that is cut", [*BOUND, [transferred(1, 6, 1000)[:9], "close"]], 11, TOLD + b"closed\n",
     words=cltu, text=TEXT)
for name, text, number in [
        ("no line of a telecommand", b"cltu 5 none none 0 0 c5c5\nfly\n", 2),
        ("a telecommand without octets", b"#\n\ncltu 5 none none 0 0 \n", 3),
        ("a telecommand of 65,537 octets", b"cltu 5 none none 0 0 " + b"00" * 65537, 1),
        ("an odd digit", b"cltu 5 none none 0 0 c5c\n", 1), ("a number too great", b"cltu 4294967296 none none 0 0 c5\n", 1),
        ("another word for a wish", b"cltu 5 none none 0 2 c5\n", 1), ("a carriage return", one + b"\r\n", 1),
        ("a blank too many", b"cltu 5  none none 0 0 c5\n", 1), ("no time", b"cltu 5 now none 0 0 c5\n", 1)]:
    talk(name, [], 13, b"bad line %d\n" % number, b"", words=cltu, text=text)
comment = b"#" * 4095 + b"\n"
stop, stopped = stopping(1)
talk("the longest input", [*BOUND, stopped, UNBOUND], 0, TOLD + b"ok 3\nok 103\n", ENDED + stop + UNBIND,
     words=cltu, text=comment * (MOST_OCTETS // 4096))
talk("one octet more of input", [], 12, b"input too long\n", b"", words=cltu,
     text=comment * (MOST_OCTETS // 4096) + b"f")
with open(os.devnull, "wb") as closed:
    talk("telecommands that can't be read", [], 6, b"read fault\n", b"", words=cltu, stdin=closed)
talk("telecommands without memory", [], 70, b"", b"", words=cltu, text=comment * (MOST_OCTETS // 4096),
     preexec_fn=least(16_000_000))
check("nobody listens for telecommands", run(cltu(port), b"fly\n"), (8, b"link fault\n"))
provider = Provider([])
with open("/dev/full", "wb") as full:
    done = subprocess.run([PROGRAM, *cltu(provider.port)], input=b"fly\n", stdout=full, timeout=PATIENCE)
    check("a bad line that can't be told", done.returncode, 7)

# ---- frames of a channel

talk("frames of a channel", [BR, [pdu("a1", integer(0), UNUSED), "close"]], 11, b"ok 101\nok 1\nclosed\n",
     CONTEXT + RCF_BIND + RCF_START, words=rcf)

# ---- status reports


def reported(seconds, words):
    """The words with the further one."""
    return lambda port, turns: [*words(port, turns), seconds]


def schedule(octets):
    return pdu("a4", integer(1), tlv("81", h(octets)))


SCHEDULED, REFUSED_REPORTS = pdu("a5", integer(1), UNUSED), pdu("a5", integer(1), h("a103810102"))
REPORT = pdu("a9", *(integer(each) for each in [1, 2, 0, 0, 1, 2, 0]))
CLTU_REPORT = pdu("ad", tlv("a1", integer(7), tlv("a1", TIME), integer(4)), UNUSED,
                  *(integer(each) for each in [0, 3, 1, 1, 0, 1000]))
stop, stopped = stopping(2)
FRAME_LINE = LINES.split(b"\n")[2] + b"\n"
for name, answer, lines in [("status reports", [SCHEDULED, REPORT], b"ok 5\nreport 1 2 0 0 1 2 0\n"),
                            ("status reports that are refused", [REFUSED_REPORTS], b"no 5 2\n"),
                            ("status reports whose return doesn't come", [], b"")]:
    talk(name, [BR, SR, [*answer, A1, EOD], stopped, UNBOUND], 0,
         TOLD + lines + FRAME_LINE + b"end\nok 3\nok 103\n",
         CONTEXT + BIND + START + schedule("1e") + stop + UNBIND, words=reported("30", raf))
talk("no status reports where START is refused", [BR, REFUSED], 3, b"ok 101\nno 1 4\n", CONTEXT + BIND + START,
     words=reported("30", raf))
talk("status reports of a channel", [BR, pdu("a1", integer(0), UNUSED), "close"], 11, TOLD + b"closed\n",
     CONTEXT + RCF_BIND + RCF_START + schedule("02"), words=reported("2", rcf))
stop, stopped = stopping(3)
talk("status reports beside telecommands",
     [*BOUND, [], [transferred(2, 6, 1000), SCHEDULED, CLTU_REPORT, notice("8500", 5)], stopped, UNBOUND], 0,
     TOLD + b"ok 11 6 1000\nok 5\nreport 0 3 1 1 0 1000\nnotice 5\nok 3\nok 103\n",
     ENDED + schedule("0258") + transfer(2, 5, h("c5c5c5c5")) + stop + UNBIND, words=reported("600", cltu), text=one)

# ---- the launcher

with tempfile.TemporaryDirectory() as folder:
    kept = os.path.join(folder, "pass")
    with open(kept, "w") as file:
        file.write("none\n")
    for mode, status in [(0o644, 1), (0o640, 1), (0o600, 8)]:
        os.chmod(kept, mode)
        found = run(raf(port, password="file"), program=LAUNCHER, env={**os.environ, "USER_PASS_FILE": kept})
        check(f"a file for PASS of mode {mode:o}", found[0], status)
check("no file for PASS", run(raf(port, password="file"), program=LAUNCHER)[0], 1)
check("the launcher's stream", run(["show", "raf"], STREAM, program=LAUNCHER), (0, LINES))
for words in [["--help"], ["help"], *(["help", name] for name in ["show", "raf", "rcf", "cltu"])]:
    found = run(words, program=LAUNCHER)
    check(f"the launcher's {words}", (found[0], found[1][:6]), (0, b"usage:"))

# ---- a password

with tempfile.TemporaryDirectory() as folder:
    kept = os.path.join(folder, "pass")
    with open(kept, "w") as file:
        file.write("sha256:616263646566\n")
    os.chmod(kept, 0o600)
    provider = Provider([BR, "close"])
    found = run(raf(provider.port, password="file"), env={**os.environ, "USER_PASS_FILE": kept})
    provider.join(PATIENCE)
    check("a password of a file", found[0] in (10, 11), True)
    check("credentials with a BIND", b"abcdef" not in provider.heard and len(provider.heard)
          > len(CONTEXT + BIND), True)

sys.exit(checks.end())
