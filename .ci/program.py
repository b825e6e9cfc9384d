#!/usr/bin/env python3
"""Drives the built provider as a user does: its words, scripts, streams and exit codes.

usage: program.py PROGRAM LAUNCHER

Each expected output stands here as docs/PROFILE.md has it. The last line says how many checks
passed.
"""
import fcntl
import os
import resource
import signal
import socket
import subprocess
import sys
import tempfile

sys.dont_write_bytecode = True
import associations
import channels
from checks import Checks, run as run_words
import launching
import rehearsals
import starts
import telemetry

PROGRAM, LAUNCHER = sys.argv[1:3]
MOST_OCTETS = 16_777_216

FRAMES = (b"frame 20000/1000/0 0 41 0 0010a1\nframe 20000/2000/0 0 41 0 0010a2\n"
          b"frame 20000/3000/0 0 41 0 0010a3\n")
SEAL = b"mark 20000/3000/0\n"
START = b"start 20000/0/0 20000/3000/0 0\n"
TWO = (b"sent 0 010000000000003ea83ca01c800080084e20000003e800008101410201ff020100800004030010a1"
       b"a01c800080084e20000007d00000810141020100020100800004030010a2\n")
ONE = b"sent 0 0100000000000020a81ea01c800080084e2000000bb80000810141020100020100800004030010a3\n"
END = b"sent 0 0100000000000008a806a10480008300\n"
FIRST = b"sent 0 0100000000000020a81ea01c800080084e20000003e800008101410201ff020100800004030010a1\n"

checks = Checks("program")
check = checks.check


def run(words, script=b"", **more):
    """The exit code of the program, and what was written to the two streams."""
    return run_words([PROGRAM, *words], script, **more)


def told(words, script, output):
    """The exit code of a run whose output goes there, and what it says on standard error."""
    done = subprocess.run([PROGRAM, *words], input=script, stdout=output, stderr=subprocess.PIPE,
                          timeout=60)
    return done.returncode, done.stderr


# ---- words: `drill` alone, `init` and `list` with a path, `rehearse` with a number

OUTSIDE = [
    [], [b""], [b"drill", b""], [b"", b"drill"], [b"drill", b"drill"], [b"drill", b"x"],
    [b"drills"], [b"dril"], [b"Drill"], [b"DRILL"], [b" drill"], [b"drill "], [b"drill\n"],
    [b"-drill"], [b"--", b"drill"], [b"help"], [b"--help"], [b"-h"], [b"run"],
    [b"init"], [b"list"], [b"init", b"x", b"y"], [b"list", b"x", b""], [b"x", b"init"],
    [b"Init", b"x"], [b"inits", b"x"], [b"list ", b"x"], [b"-list", b"x"], [b"list\n", b"x"],
    # words that aren't UTF-8
    [b"\xff"], [b"drill\xff"], [b"drill", b"\xff"], [b"\xff", b"drill"], [b"\xc3\x28"],
]


def words():
    check("drill, an empty script", run([b"drill"]), (0, b"", b""))
    for line in OUTSIDE:
        with tempfile.TemporaryFile() as script:
            script.write(FRAMES + SEAL + START)
            script.seek(0)
            check(f"words {line}", run(line, stdin=script), (2, b"usage\n", b""))
            # the input is left as it was
            check(f"words {line}, input", os.lseek(script.fileno(), 0, os.SEEK_CUR), 0)


# ---- statuses, each with its script, exit code and output

def statuses():
    table = [
        ("done", FRAMES + SEAL + START, 0, TWO + ONE + END),
        ("done, no last line end", (FRAMES + SEAL + START)[:-1], 0, TWO + ONE + END),
        ("done, an open stop", FRAMES + START, 0, TWO),
        ("done, end of data alone", b"mark 20000/0/0\nstart 20000/0/0 20000/0/0 2\n", 0, END),
        ("done, a stop that a later frame closes",
         FRAMES[:33] + b"frame 20000/1000/1 0 41 0 0010a2\nstart 20000/0/0 20000/1000/0 0\n", 0,
         FIRST + END),
        ("done, two frames of one moment",
         FRAMES[:33] + b"frame 20000/1000/0 0 41 0 0010a2\nmark 20000/1000/0\n"
         b"start 20000/1000/0 20000/1000/0 0\n", 0,
         TWO.replace(b"07d0", b"03e8") + END),
        ("done, an entry that goes back", FRAMES + FRAMES[:33], 0, b"backward\n"),
        ("done, a refused START", b"start 20000/2/0 20000/1/0 0\n", 0, b"refused 3\n"),
        ("bad line 1", b"fly\n", 3, b"bad line 1\n"),
        ("done, empty lines and comments",
         b"\n# fly\n" + FRAMES + b"\n#" + SEAL + SEAL + START, 0, TWO + ONE + END),
        ("done, entries of other kinds",
         b"loss 0/0/0 3 2 1\nproduction 2\nclock 65535/86399999/999999999p\n", 0, b""),
        ("done, a head with no line", b"site\nend\n", 0, b""),
        ("done, a time in picoseconds",
         b"frame 20000/1000/5p 0 41 0 0010a1\nmark 20000/1000/5p\n"
         b"start 20000/1000/0 20000/1000/5p 0\n", 0,
         b"sent 0 0100000000000022a820a01e8000810a4e20000003e800000005"
         b"8101410201ff020100800004030010a1\n" + END),
        ("done, a frame that is too long",
         b"frame 0/0/0 0 41 0 " + b"00" * 65_537 + b"\n", 0, b"too long\n"),
        ("archive full",
         b"site\ncapacity 71\nend\n" + FRAMES[:66]
         + b"mark 20000/2000/0\nstart 20000/0/0 20000/1000/0 0\n", 9, b"full 17 0\n" + FIRST + END),
        ("archive full, then a bad line",
         b"site\ncapacity 64\nend\n" + FRAMES[:66] + b"fly\n", 3, b"full 31 24\nbad line 6\n"),
        ("bad site", b"site\ncapacity 63\nend\n", 4, b"bad site 2 3\n"),
        ("bad site, an unknown word", b"site\n\n# end\nfly\nend\nfly\n", 4, b"bad site 4 1\n"),
        ("bad site, in a head that isn't ended",
         b"site\ncapacity 64\ncapacity 64", 4, b"bad site 3 4\n"),
        ("bad line, a head that isn't ended", b"site\ncapacity 64\n", 3, b"bad line 3\n"),
        ("bad line, a head of one word", b"site", 3, b"bad line 2\n"),
        ("bad line, a head that isn't first", b"\nsite\nend\n", 3, b"bad line 2\n"),
        ("bad line, behind a head", b"site\nend\nend\n", 3, b"bad line 3\n"),
        ("bad line, nothing in the air", b"uplink 2 1\ntake fail\ndone\n", 3, b"idle\nbad line 3\n"),
        ("bad line 5, after a START", FRAMES + START + b"fly\n" + FRAMES, 3, TWO + b"bad line 5\n"),
        ("bad line 4, behind what is refused",
         FRAMES[33:66] + FRAMES[:33] + b"start 20000/2/0 20000/1/0 0\nfly\n", 3,
         b"backward\nrefused 3\nbad line 4\n"),
        ("bad line 7, behind lines that say nothing",
         b"# a pass\n\nloss 20000/0/0 0 1 2\nproduction 2\nclock 20000/0/7p\nmark 0/0/0\nsite\n",
         3, b"bad line 7\n"),
        ("bad line 8, behind a head with a comment",
         b"site\n# the least\ncapacity 64\n\nend\n" + FRAMES[:66] + b"fly\n", 3,
         b"full 31 24\nbad line 8\n"),
        ("bad site, a further word", b"site\ncapacity 64 64\nend", 4, b"bad site 2 2\n"),
        ("bad line, a head that isn't ended nor its last line", b"site\ncapacity 64", 3,
         b"bad line 3\n"),
        ("done, a continuity over a frame of another quality",
         FRAMES[:33] + b"frame 20000/2000/0 1 41 3 0010a2\nframe 20000/3000/0 0 41 4 0010a3\n"
         + SEAL + START, 0,
         b"sent 0 010000000000003ea83ca01c800080084e20000003e800008101410201ff02010080000403"
         b"0010a1a01c800080084e2000000bb80000810141020107020100800004030010a3\n" + END),
        ("done, timers anew behind a power failure",
         b"open 1\nask 1 context 30 5\nstall 1 9\ncrash 0 old\nopen 1\nask 1 context 5 5\n"
         b"clock 0/5000/0\nround 1 1\n", 0, b"crash\narchive 0\nsent 1 0300000000000000\n"),
        ("bad line, a carriage return", FRAMES[:32] + b"\r\n", 3, b"bad line 1\n"),
        ("bad line, octets that aren't UTF-8", b"\xff\xfe\n", 3, b"bad line 1\n"),
    ]
    for name, script, status, output in table:
        check(name, run([b"drill"], script), (status, output, b""))


def lengths():
    frame = b"frame 0/0/0 0 41 0 " + b"00" * 65_536 + b"\n"
    script = frame * (MOST_OCTETS // len(frame))
    # the last line fills the script
    left = MOST_OCTETS - len(script) - 1
    heads = (b"frame 0/0/0 0 41 0 ", b"frame 0/0/0 0 41 10 ")
    head = next(head for head in heads if (left - len(head)) % 2 == 0)
    script += head + b"00" * ((left - len(head)) // 2) + b"\n"
    check("the longest script, length", len(script), MOST_OCTETS)
    check("the longest script", run([b"drill"], script), (0, b"", b""))
    too_long = (11, b"input too long\n", b"")
    check("one octet more", run([b"drill"], script + b"x"), too_long)
    check("a bad line, and one octet more", run([b"drill"], b"x" + script), too_long)


# ---- streams and memory that fail

def faults():
    folder = os.open("/", os.O_RDONLY)
    check("read fault", run([b"drill"], stdin=folder), (6, b"read fault\n", b""))
    with open("/dev/full", "wb") as full:
        for name, words, script, status in [
            ("write fault", [b"drill"], FRAMES + SEAL + START, 7),
            ("write fault of a bad line", [b"drill"], b"fly\n", 7),
            ("write fault of a bad site", [b"drill"], b"site\nfly\nend\n", 7),
            ("write fault of usage", [], b"", 7),
            ("write fault of a rehearsal", [b"rehearse", b"7"], b"", 7),
            ("nothing to write", [b"drill"], FRAMES, 0),
        ]:
            check(name, told(words, script, full), (status, b""))
        # a failed write leaves the statuses 6 and 11
        done = subprocess.run([PROGRAM, b"drill"], stdin=folder, stdout=full, timeout=60)
        check("read fault that can't be told", done.returncode, 6)
        check("a long input that can't be told",
              told([b"drill"], b"x" * (MOST_OCTETS + 1), full), (11, b""))
    os.close(folder)
    check("read fault behind a good read", run([b"drill"], stdin=failing_input()),
          (6, b"read fault\n", b""))
    for script, whole, left in [(FRAMES + SEAL + START, TWO + ONE + END, [0, 1, 100, 148, 275]),
                                (b"fly\n", b"bad line 1\n", [0, 4, 10])]:
        for most in left:
            check(f"an output of {most} octets", cut_short([b"drill"], most, input=script),
                  (7, whole[:most]))
    for most in [0, 5]:
        check(f"read fault, an output of {most} octets",
              cut_short([b"drill"], most, stdin=failing_input()), (6, b"read fault\n"[:most]))
    # a reader of the output that is gone
    read, write = os.pipe()
    os.close(read)
    check("nobody reads the output", told([b"drill"], FRAMES + SEAL + START, write), (7, b""))
    os.close(write)
    # no room for a script
    limit = lambda: resource.setrlimit(resource.RLIMIT_AS, (16 << 20, 16 << 20))
    check("want of memory", run([b"drill"], b"x" * MOST_OCTETS, preexec_fn=limit), (70, b"", b""))


def failing_input():
    """An input that gives a script once, and then fails: its peer left octets unread."""
    ours, theirs = socket.socketpair()
    ours.send(b"unread")
    theirs.send(FRAMES + SEAL + START)
    theirs.close()
    return ours


def cut_short(words, most, **more):
    """The exit code of a run whose output fails behind so many octets, and that output."""
    def limit():
        signal.signal(signal.SIGXFSZ, signal.SIG_IGN)
        resource.setrlimit(resource.RLIMIT_FSIZE, (most, most))

    with tempfile.TemporaryFile() as output:
        done = subprocess.run([PROGRAM, *words], stdout=output, stderr=subprocess.DEVNULL,
                              preexec_fn=limit, timeout=60, **more)
        output.seek(0)
        return done.returncode, output.read()


# ---- archive files

HEADER = bytes.fromhex("534c454100000001")
# an entry of each kind: a frame in a batch of its own, and the others in one
FRAME_BATCH = bytes.fromhex(
    "a5 00000018 0001 01 00 4e20000003e80000 00 01 41 00000000 00000003 0010a1")
OTHERS = [("02 01 4e20000003e80000000c 03 00 02", b"loss 20000/1000/12p 3 0 2\n"),
          ("03 02", b"production 2\n"), ("04 00 4e20000003e80007", b"mark 20000/1000/7\n")]
BATCH = bytes.fromhex("".join(octets for octets, _ in OTHERS))
FILE = HEADER + FRAME_BATCH + b"\xa5" + len(BATCH).to_bytes(4, "big") + b"\0\3" + BATCH + b"\0"
LINES = FRAMES[:33] + b"".join(line for _, line in OTHERS)


def files():
    with tempfile.TemporaryDirectory() as folder:
        path = os.path.join(folder, "archive")

        def written():
            with open(path, "rb") as file:
                return file.read()

        def holding(octets):
            with open(path, "wb") as file:
                file.write(octets)

        def by(word):
            """The exit code and the output of a command on the file, and the file behind it."""
            status, output, errors = run([word, path.encode()])
            check(f"{word} says nothing else", errors, b"")
            return status, output, written()

        new = HEADER + b"\0"
        check("list of no file", run([b"list", path.encode()]), (8, b"disk fault\n", b""))
        check("list makes no file", os.path.exists(path), False)
        check("init", by(b"init"), (0, b"made\n", new))
        check("init of a file that is one", by(b"init"), (5, b"archive refused 0\n", new))
        check("list of a new file", by(b"list"), (0, b"", new))
        holding(b"x")
        check("init of another file", by(b"init"), (5, b"archive refused 0\n", b"x"))
        holding(b"")
        check("init of an empty file", by(b"init"), (0, b"made\n", new))
        for octets, status, output in [
            (FILE, 0, LINES),
            # what stands behind the closed gate isn't read
            (FILE + FRAME_BATCH, 0, LINES),
            (b"", 5, b"archive refused 0\n"),
            (HEADER[:7], 5, b"archive refused 7\n"),
            (HEADER[:7] + b"\2\0", 5, b"archive refused 7\n"),
            (HEADER, 5, b"archive refused 8\n"),
            (HEADER + b"\xa5", 5, b"archive refused 9\n"),
            (FILE[:-1], 5, b"archive refused %d\n" % (len(FILE) - 1)),
            # the entry's kind, a frame's quality, and a time that goes back
            (HEADER + FRAME_BATCH[:7] + b"\5" + FRAME_BATCH[8:] + b"\0", 5,
             b"archive refused 15\n"),
            (HEADER + FRAME_BATCH[:17] + b"\3" + FRAME_BATCH[18:] + b"\0", 5,
             b"archive refused 25\n"),
            (FILE[:-1] + FRAME_BATCH + b"\0", 5, b"archive refused %d\n" % (len(FILE) - 1 + 8)),
        ]:
            holding(octets)
            check(f"list of {octets[:48].hex()}", by(b"list"), (status, output, octets))
        # a file that can't be opened, made, locked or written
        for word in [b"init", b"list"]:
            for what, place in [("a folder", folder), ("in no folder", folder + "/none/archive"),
                                ("an empty path", "")]:
                check(f"{word}, {what}", run([word, place.encode()]), (8, b"disk fault\n", b""))
        holding(FILE)
        with open(path, "rb+") as file:
            fcntl.flock(file, fcntl.LOCK_EX)
            for word in [b"init", b"list"]:
                check(f"{word}, another's file", by(word), (8, b"disk fault\n", FILE))
        with open("/dev/full", "wb") as full:
            for name, words in [("list", [b"list", path.encode()]),
                                ("init", [b"init", path.encode()]),
                                ("list of no file", [b"list", (path + "2").encode()])]:
                check(f"write fault of {name}", told(words, b"", full), (7, b""))
        check("a failed write leaves the file", written(), FILE)
        # the input is left as it was, and a path may be any word that is text
        odd = os.path.join(folder, "--help \u00e4")
        with tempfile.TemporaryFile() as script:
            script.write(FRAMES)
            script.seek(0)
            check("an odd path", run([b"init", odd.encode()], stdin=script), (0, b"made\n", b""))
            check("an odd path, input", os.lseek(script.fileno(), 0, os.SEEK_CUR), 0)
        check("a list is a script", run([b"drill"], LINES + b"start 20000/0/0 20000/1000/0 0\n"),
              (0, FIRST + END, b""))


def large_files():
    """Batches that are longer than what is read at once."""
    head = bytes.fromhex("01 00 4e20 00000000 0000 00 01 41 00000000 00010000")
    entries = 9 * (head + b"\x55" * 65_536)
    batch = b"\xa5" + len(entries).to_bytes(4, "big") + b"\0\x09" + entries
    line = b"frame 20000/0/0 0 41 0 " + b"55" * 65_536 + b"\n"
    with tempfile.TemporaryDirectory() as folder:
        path = os.path.join(folder, "archive")
        for octets, status, output in [
            (HEADER + 2 * batch + b"\0", 0, 18 * line),
            # the kind of the second batch's first entry
            (HEADER + batch + batch[:7] + b"\xfe" + batch[8:] + b"\0", 5,
             b"archive refused 590035\n"),
        ]:
            with open(path, "wb") as file:
                file.write(octets)
            check(f"list of {len(octets)} octets", run([b"list", path.encode()]),
                  (status, output, b""))


# ---- examples with their transcripts

def examples():
    folder = os.path.join(os.path.dirname(os.path.dirname(os.path.abspath(__file__))), "examples")
    for name in ["power-failure", "disk-fault", "two-users", "live-pass", "channels",
                 "commands"]:
        with open(f"{folder}/{name}.script", "rb") as script, \
                open(f"{folder}/{name}.transcript", "rb") as transcript:
            check(f"example {name}", run([b"drill"], script.read()), (0, transcript.read(), b""))
    for name, status, output in [("first-pass", 0, TWO + ONE + END),
                                 ("small-archive", 9, b"full 17 0\n" + FIRST + END)]:
        with open(f"{folder}/{name}.script", "rb") as script:
            check(f"example {name}", run([b"drill"], script.read()), (status, output, b""))


words()
rehearsals.drive(run, check)
associations.drive(run, check)
starts.drive(run, check)
telemetry.drive(run, check)
channels.drive(run, check)
statuses()
lengths()
faults()
files()
large_files()
examples()
launching.drive(LAUNCHER, run, check, OUTSIDE + rehearsals.OUTSIDE)
sys.exit(checks.end())
