#!/usr/bin/env python3
"""Types what README's first session and the help texts say, by options, and each wrong word beside it.

usage: options.py PROVIDER USER

PROVIDER and USER are the launchers. A station runs on another address of the loopback; a user receives frames into a
file by times of ISO 8601, ends in good order at a signal, and is told in words what was wrong. The last line says how
many checks passed.
"""
import fcntl
import os
import pathlib
import signal
import socket
import struct
import subprocess
import sys
import tempfile
import termios
import time

sys.dont_write_bytecode = True
from checks import Checks

TOP = pathlib.Path(__file__).resolve().parent.parent
PROVIDER, USER = (os.path.abspath(each) for each in sys.argv[1:3])
ADDRESS = "127.0.0.2"
PATIENCE = 60
OFFLINE = "sagr=1.spack=pass-1.rsl-fg=1.raf=offl1"
ONLINE = "sagr=1.spack=pass-1.rsl-fg=1.raf=onlc1"
CLTU = "sagr=1.spack=pass-1.fsl-fg=1.cltu=cltu1"
CHANNEL = "sagr=1.spack=pass-1.rsl-fg=1.rcf=onlc1"
PASS = "sha256:a1b2c3d4e5f6\n"

checks = Checks("options")
check = checks.check


def run(launcher, *words, env=None, text=None, **more):
    done = subprocess.run([launcher, *words], env={**os.environ, **(env or {})}, input=text, stdout=subprocess.PIPE,
                          stderr=subprocess.PIPE, timeout=PATIENCE, **({} if text is not None else
                                                                       {"stdin": subprocess.DEVNULL}), **more)
    return done.returncode, done.stdout, done.stderr.decode()


def says(name, found, code, *wanted):
    """An exit code, and words that standard error has."""
    check(name, found[0], code)
    for word in wanted:
        check(f"{name}: `{word}` in {found[2]!r}", word in found[2], True)


def free_ports(count):
    sockets = [socket.create_server((ADDRESS, 0)) for _ in range(count)]
    ports = [each.getsockname()[1] for each in sockets]
    for each in sockets:
        each.close()
    return ports


# ---- times

def the_times():
    for iso, fields, back in [
            ("1958-01-01T00:00:00Z", "0/0/0", "1958-01-01T00:00:00.000000Z"),
            ("2012-10-04T00:00:01Z", "20000/1000/0", "2012-10-04T00:00:01.000000Z"),
            ("2026-11-30T10:00:00.000001Z", "25170/36000000/1", "2026-11-30T10:00:00.000001Z"),
            ("2024-02-29T23:59:59.9Z", "24165/86399900/0", "2024-02-29T23:59:59.900000Z"),
            ("2137-06-06T23:59:59.999999Z", "65535/86399999/999", "2137-06-06T23:59:59.999999Z")]:
        check(f"time {iso}", run(PROVIDER, "time", iso), (0, fields.encode() + b"\n", ""))
        check(f"time {fields}", run(PROVIDER, "time", fields), (0, back.encode() + b"\n", ""))
    check("picoseconds", run(PROVIDER, "time", "0/0/5p")[1], b"1958-01-01T00:00:00.000000000005Z\n")
    for word, why in [("2016-12-31T23:59:60Z", "leap"), ("2026-02-29T00:00:00Z", "no such day"), ("now", "ISO 8601"),
                      ("2026-11-30T24:00:00Z", "23"), ("2137-06-07T00:00:00Z", "2137-06-06"), ("0/86400000/0", "86399999"),
                      ("2026-11-30T10:00:00", "ISO 8601"), ("2026-11-30T10:00:00.0000001Z", "ISO 8601"), ("01/0/0", "D/M/U")]:
        says(f"time {word}", run(PROVIDER, "time", word), 2, word, why)
    script = (TOP / "examples/first-pass.script").read_bytes()
    iso = script.replace(b"20000/1000/0", b"2012-10-04T00:00:01Z").replace(b"20000/0/0", b"2012-10-04T00:00:00Z")
    check("a script with times of both forms", iso != script, True)
    check("drill --iso", run(PROVIDER, "drill", "--iso", text=iso), run(PROVIDER, "drill", text=script))
    says("drill --iso, a bad line", run(PROVIDER, "drill", "--iso", text=b"mark 2012-10-04T00:00:60Z\n"), 3, "line 1")


# ---- wrong words

RAF = ["raf", "--to", "127.0.0.1:1", "--as", "MOC", "--instance", ONLINE]


def changed(line, place, word):
    return [*line[:place], word, *line[place + 1:]]


WRONG_USER = [
    (["rfa"], ["`rfa`", "did you mean `raf`"]),
    (["raf"], ["PORT NAME PASS INSTANCE", "options"]),
    (["raf", *"0 MOC none i none none 2 9".split()], ["PORT is `0`", "1 to 65535"]),
    (["raf", *f"1 MO none {ONLINE} none none 2 9".split()], ["NAME is `MO`", "3 to 16"]),
    (["raf", *f"1 MOC md5:00 {ONLINE} none none 2 9".split()], ["PASS is `md5:00`", "sha256:HEX"]),
    (["raf", *f"1 MOC none {ONLINE} 0/0 none 2 9".split()], ["START is `0/0`", "D/M/U"]),
    (["raf", *f"1 MOC none {ONLINE} none none 3 9".split()], ["QUALITY is `3`", "2 (all)"]),
    (["rcf", *f"1 MOC none {CHANNEL} none none 1/2 9".split()], ["CHANNEL is `1/2`", "171/0/7"]),
    (["cltu", *f"1 MOC none {CLTU} x 9".split()], ["FIRST is `x`", "4294967295"]),
    (["show", "rfa"], ["SERVICE is `rfa`", "raf, rcf or cltu"]),
    (RAF[:1] + RAF[3:], ["--to"]),
    (changed(RAF, 1, "--too"), ["`--too`", "did you mean `--to`"]),
    (changed(RAF, 2, "127.0.0.1"), ["`127.0.0.1`", "HOST:PORT"]),
    (changed(RAF, 2, "::1:5101"), ["`::1:5101`", "[2001:db8::7]:5101"]),
    (changed(RAF, 2, "127.0.0.1:65536"), ["`127.0.0.1:65536`"]),
    (changed(RAF, 4, "M C"), ["`M C`", "without blanks"]),
    (changed(RAF, 6, "sgar=1"), ["`sgar`", "did you mean `sagr`"]),
    (changed(RAF, 6, "sagr=1.raf"), ["`raf`", "attribute with a value"]),
    ([*RAF, "--from", "2026-11-30"], ["`2026-11-30`", "ISO 8601"]),
    ([*RAF, "--until", "2016-12-31T23:59:60Z"], ["leap"]),
    ([*RAF, "--quality", "godo"], ["`godo`", "did you mean `good`"]),
    ([*RAF, "--for", "1week"], ["`1week`", "10min"]),
    ([*RAF, "--report", "1"], ["`1`", "2 to 600"]),
    (["cltu", *RAF[1:], "--first", "7", "--report", "601"], ["`601`", "2 to 600"]),
    (["raf", *f"1 MOC none {ONLINE} none none 2 9 1".split()], ["REPORT is `1`", "2 to 600"]),
    (["rcf", *f"1 MOC none {CHANNEL} none none 1/2/3 9 02".split()], ["REPORT is `02`", "2 to 600"]),
    (["cltu", *f"1 MOC none {CLTU} 7 9 601".split()], ["REPORT is `601`", "2 to 600"]),
    (["show", "raf", "30"], ["SERVICE", "2 were given"]),
    ([*RAF, "--turns", "0"], ["`0`", "1099511627776"]),
    ([*RAF, "--frames", "-", "--lines"], ["--frames - and --lines"]),
    ([*RAF, "more"], ["`more`"]),
    ([*RAF, "--channel", "1/0/1"], ["`--channel`"]),
    (["rcf", *RAF[1:]], ["--channel"]),
    (["rcf", *RAF[1:], "--channel", "1024/0/1"], ["`1024/0/1`", "171/0/7"]),
    (["cltu", *RAF[1:]], ["--first"]),
    (["cltu", *RAF[1:], "--first", "-1"], ["--first"]),
    (["help", "rfa"], ["`rfa`", "did you mean `raf`"]),
]
WRONG_PROVIDER = [
    (["rnu"], ["`rnu`", "did you mean `run`"]),
    (["drill", "--isso"], ["`--isso`", "did you mean `--iso`"]),
    (["drill", "x"], ["drill", "no words"]),
    (["rehearse", "0"], ["1 to 20000"]),
    (["run", "9", "1", "a", "1", "c", "5101"], ["TURNS is `9`", "1099511627776"]),
    (["run", "10", "1", "a", "1", "c", "65536"], ["PORT is `65536`"]),
    (["run", "--config", "x", "--archive", "x", "--cltus", "x", "--door", "1", "--feed", "run/feed"], ["`run/feed`"]),
    (["run", "10"], ["TURNS LINKS ARCHIVE FEED CLTUS PORT..", "--help"]),
    (["run", "--config", "x"], ["--archive", "--feed", "--cltus", "--door"]),
    (["run", "--confg", "x"], ["`--confg`", "did you mean `--config`"]),
    (["next"], ["next", "one word"]), (["next", "a", "b"], ["one word"]), (["next", "--all"], ["`--all`", "one word"]),
    (["nxt"], ["`nxt`", "did you mean `next`"]), ([b"next", b"\xff"], ["UTF-8"]),
    (["check"], ["one word"]), (["time"], ["one word"]), (["package"], ["one word"]),
    (["test", "tests_cd"], ["`tests_cd`", "did you mean `tests_cds`"]),
    (["help", "rnu"], ["`rnu`", "did you mean `run`"]),
]


def wrong_words():
    for launcher, table in [(USER, WRONG_USER), (PROVIDER, WRONG_PROVIDER)]:
        for line, wanted in table:
            found = run(launcher, *line)
            says(f"{os.path.basename(launcher)} {line}", found, 2, *wanted)
            check(f"{line}, output", found[1], b"usage\n")
    for launcher, commands in [(USER, ["show", "raf", "rcf", "cltu"]),
                               (PROVIDER, ["drill", "rehearse", "init", "list", "next", "explain", "picture", "run",
                                           "stop", "status", "check", "time", "test", "package", "prove"])]:
        for command in commands:
            for option in "--help", "-h":
                found = run(launcher, command, option)
                check(f"{command} {option}", (found[0], found[1][:6], found[2]), (0, b"usage:", ""))
        check(f"{launcher} --version", run(launcher, "--version")[0], 0)


def sections(folder):
    config = folder / "user.conf"
    env = {"USER_CONFIG": str(config)}
    says("no configuration", run(USER, "@p", env=env), 2, str(config), "can't be read")
    config.write_text(f"[pass-1]\ncommand = raf\nto = 127.0.0.1:1\nas = MOC\ninstance = {ONLINE}\n"
                      "[bad]\ninstnace = x\n[none]\nto = 127.0.0.1:1\n")
    says("a section", run(USER, "@pass-1", env=env), 8, "127.0.0.1:1")
    says("a section, an option over it", run(USER, "@pass-1", "--to", "x:0", env=env), 2, "`x:0`")
    says("no such section", run(USER, "@pas-1", env=env), 2, "[pas-1]", "did you mean `pass-1`")
    says("a section's wrong option", run(USER, "@bad", "raf", env=env), 2, "`instnace`", "did you mean `instance`")
    says("a section without a command", run(USER, "@none", env=env), 2, "command = raf")


# ---- a station and its users

class Station:
    """A station by options, on another address, with Unix sockets for its source and its stop."""

    def __init__(self, folder):
        self.folder, [self.door] = folder, free_ports(1)
        self.feed, self.stop = str(folder / "feed"), str(folder / "stop")
        self.manager = socket.socket(socket.AF_UNIX, socket.SOCK_DGRAM)
        self.manager.bind(str(folder / "notify"))
        self.manager.settimeout(PATIENCE)
        self.archive = folder / "pass.archive"
        check("init", run(PROVIDER, "init", str(self.archive))[:2], (0, b"made\n"))
        self.log = open(folder / "log", "wb")
        self.process = subprocess.Popen(
            [PROVIDER, "run", "--config", TOP / "examples/station.conf", "--archive", self.archive, "--feed",
             self.feed, "--cltus", folder / "cltus", "--door", str(self.door), "--address", ADDRESS, "--stop",
             self.stop], stdin=subprocess.DEVNULL, stdout=subprocess.PIPE, stderr=self.log,
            env={**os.environ, "NOTIFY_SOCKET": str(folder / "notify")})
        check("systemd is told that it serves", self.manager.recv(100), b"READY=1")
        self.wait("station: began")

    def told(self):
        return (self.folder / "log").read_text()

    def wait(self, word, count=1):
        end = time.monotonic() + PATIENCE
        while self.told().count(word) < count and time.monotonic() < end:
            time.sleep(0.05)
        check(f"the log: {word}", self.told().count(word) >= count, True)

    def send(self, text):
        with socket.socket(socket.AF_UNIX) as peer:
            peer.connect(self.feed)
            peer.sendall(text)

    def end(self, sent):
        self.process.send_signal(sent)
        check("systemd is told that it stops", self.manager.recv(100), b"STOPPING=1")
        self.manager.close()
        output = self.process.communicate(timeout=PATIENCE)[0]
        self.log.close()
        return self.process.returncode, output


def options_of(station, name, instance, *more, command="raf"):
    return [command, "--to", f"{ADDRESS}:{station.door}", "--as", name, "--instance", instance, *more]


def frames_in(file):
    octets, frames = file.read_bytes(), []
    while octets:
        size = int.from_bytes(octets[:4], "big")
        frames.append(octets[4:4 + size])
        octets = octets[4 + size:]
    return frames


def the_station(folder):
    station = Station(folder)
    feed = (TOP / "examples/pass.feed").read_bytes()
    fed = [bytes.fromhex(line.split()[5]) for line in feed.decode().splitlines() if line.startswith("frame ")]
    station.send(feed)
    span = ["--from", "2012-10-04T00:00:00Z", "--until", "2012-10-04T00:00:09Z"]
    file = folder / "pass.frames"
    found = run(USER, *options_of(station, "SCIENCE", OFFLINE, *span, "--frames", str(file)))
    says("frames into a file", found, 0, f"{len(fed)} frames", "2012-10-04T00:00:09.000000Z")
    check("the file's frames", (frames_in(file), found[1]), (fed, b""))
    run(USER, *options_of(station, "SCIENCE", OFFLINE, *span, "--frames", str(file)))
    check("the file's frames, appended", frames_in(file), fed + fed)
    found = run(USER, *options_of(station, "SCIENCE", OFFLINE, *span, "--frames", "-"))
    (folder / "piped").write_bytes(found[1])
    check("frames on standard output", frames_in(folder / "piped"), fed)
    lines = run(USER, *options_of(station, "SCIENCE", OFFLINE, *span))
    words = ["raf", str(station.door), "SCIENCE", "none", OFFLINE, "20000/0/0", "20000/9000/0", "2", "100000"]
    check("lines, as today's words give them", run(USER, *words, env={"USER_ADDRESS": ADDRESS})[:2], lines[:2])
    with open("/dev/full", "wb") as full:
        done = subprocess.run([USER, *options_of(station, "SCIENCE", OFFLINE, *span)], stdout=full, stderr=subprocess.PIPE)
        check("an output that fails", (done.returncode, b"can't be written" in done.stderr), (7, True))
    says("good frames alone", run(USER, *options_of(station, "SCIENCE", OFFLINE, *span, "--quality", "good")), 0, " frames")
    refusals(station, folder)
    live(station, folder)
    check("a station at SIGTERM", station.end(signal.SIGTERM)[0], 0)
    check("its log", station.told().rstrip().endswith("station: ended with exit code 0"), True)
    check("its files' modes", [(folder / name).stat().st_mode & 0o077 for name in ["cltus"]], [0])


def session_lines():
    """The commands of README's session with a station, each with the lines that follow it."""
    text = (TOP / "README.md").read_text().split("A station runs over an archive file", 1)[1].split("\n## ", 1)[0]
    typed = []
    for line in text.split("\n"):
        if line.startswith("    $ "):
            typed.append([line[6:], []])
        elif line.startswith("    ") and typed[-1][0].endswith("\\"):
            typed[-1][0] = typed[-1][0][:-1] + line.strip()
        elif line.startswith("    "):
            typed[-1][1].append(line[4:])
    return typed


def reach(address, process):
    """Waits until somebody listens there."""
    end = time.monotonic() + PATIENCE
    while time.monotonic() < end and process.poll() is None:
        try:
            return socket.create_connection(address, 1).close()
        except OSError:
            time.sleep(0.05)
    check(f"somebody listens at {address}", False, True)


def first_session(folder):
    """README's session, as it stands there, but for its ports, and its files' folder."""
    [door] = free_ports(1)
    with socket.create_server(("127.0.0.1", 0)) as listener:
        feed = listener.getsockname()[1]

    def begin(line):
        for said, so in [("bin/provider prove && bin/user prove && ", ""), ("5101", str(door)), ("5100", str(feed)),
                         ("/tmp/", f"{folder}/"), ("bin/provider", PROVIDER), ("bin/user", USER)]:
            line = line.replace(said, so)
        return subprocess.Popen(["bash", "-c", f"exec {line}"], cwd=TOP, stdin=subprocess.DEVNULL, stdout=subprocess.PIPE,
                                stderr=subprocess.PIPE, text=True)

    def ends(name, process, code, wanted):
        output, errors = process.communicate(timeout=PATIENCE)
        check(f"{name}, exit code {errors!r}", process.returncode, code)
        for line in wanted:
            check(f"{name}: `{line}` in {output + errors!r}", line.split("…")[0] in output + errors, True)

    typed = session_lines()
    check("README's steps", [line.split()[:2] for line, _ in typed],
          [["bin/provider", "prove"], ["bin/provider", "run"], ["bin/user", "raf"], ["cat", "examples/pass.feed"],
           ["bin/user", "raf"], ["bin/user", "raf"]])
    check("README's steps, what they say", [len(said) for _, said in typed], [1, 0, 1, 0, 1, 1])
    (init, made), (station, _), (user, told), (source, _), *wrong = typed
    ends("README: init", begin(init), 0, made)
    station = begin(station)
    reach((ADDRESS, door), station)
    user = begin(user)
    ends("README: the source", begin(source), 0, [])
    ends("README: the user", user, 0, told)
    fed = [line.split()[5] for line in (TOP / "examples/pass.feed").read_text().splitlines() if line.startswith("frame ")]
    check("README: the file of frames", [frame.hex() for frame in frames_in(folder / "pass.frames")], fed)
    for (line, said), code in zip(wrong, [3, 2]):
        ends(f"README: {line[-30:]}", begin(line), code, said)
    station.terminate()
    ends("README: the station", station, 0, [])


def refusals(station, folder):
    key = folder / "pass"
    key.write_text(PASS)
    key.chmod(0o644)
    moc = ["--pass-file", str(key)]
    says("a file for PASS that others may read", run(USER, *options_of(station, "MOC", ONLINE, *moc)), 1, "chmod 600")
    key.chmod(0o600)
    says("no password", run(USER, *options_of(station, "MOC", ONLINE)), 3, "BIND", "accessDenied (0)")
    says("another name", run(USER, *options_of(station, "NOBODY", OFFLINE)), 3, "accessDenied (0)")
    says("another instance", run(USER, *options_of(station, "SCIENCE", "sagr=1.raf=x")), 3, "noSuchServiceInstance (3)")
    says("another's instance", run(USER, *options_of(station, "SCIENCE", ONLINE)), 3, "siNotAccessibleToThisInitiator (5)")
    says("no times", run(USER, *options_of(station, "SCIENCE", OFFLINE)), 3, "START", "missingTimeValue (4)")
    says("nobody listens", run(USER, "raf", "--to", f"{ADDRESS}:1", "--as", "MOC", "--instance", ONLINE), 8,
         f"{ADDRESS}:1", "refused")
    says("no such host", run(USER, "raf", "--to", "no.such.host.invalid:1", "--as", "MOC", "--instance", ONLINE), 8,
         "no.such.host.invalid")
    text = folder / "bad.cltus"
    text.write_text("# one\ncltu 7 none none 0 0 c5c5\ncltu 8 none 0/0 0 0 c5c5\n")
    bad = options_of(station, "MOC", CLTU, *moc, "--first", "7", command="cltu")
    says("a bad telecommand", run(USER, *bad, str(text)), 13, "line 3", "LATEST is `0/0`")
    says("telecommands that aren't there", run(USER, *bad, str(folder / "none")), 6, "none")
    found = run(USER, *bad, str(TOP / "examples/telecommands.cltus"))
    check("telecommands", (found[0], found[1].endswith(b"ok 103\n"), found[2]), (0, True, ""))
    says("telecommands once more", run(USER, *bad[:-1], "9", str(text)), 13)


def on_terminal(*words):
    """What a user's run shows on a terminal that is its standard error."""
    ours, theirs = os.openpty()
    fcntl.ioctl(theirs, termios.TIOCSWINSZ, struct.pack("4H", 24, 200, 0, 0))
    user = subprocess.Popen([USER, *words], stdin=subprocess.DEVNULL, stdout=subprocess.DEVNULL, stderr=theirs)
    os.close(theirs)
    shown = b""
    try:
        while piece := os.read(ours, 65536):
            shown += piece
    except OSError:
        # (so ends a terminal that nobody writes to any more)
        pass
    os.close(ours)
    check("a run on a terminal", user.wait(PATIENCE), 0)
    return shown.decode()


def live(station, folder):
    """A user who follows a pass ends in good order: at a signal, and after a while."""
    moc = ["--pass-file", str(folder / "pass")]
    for sent in signal.SIGINT, signal.SIGTERM:
        before = station.told().count("ended: unbound")
        user = subprocess.Popen([USER, *options_of(station, "MOC", ONLINE, *moc)], stdout=subprocess.PIPE,
                                stderr=subprocess.PIPE, stdin=subprocess.DEVNULL)
        check(f"{sent.name}, its first lines", [user.stdout.readline() for _ in range(2)], [b"ok 101\n", b"ok 1\n"])
        user.send_signal(sent)
        output, errors = user.communicate(timeout=PATIENCE)
        check(f"{sent.name}, its end", (user.returncode, output.endswith(b"ok 3\nok 103\n")), (0, True))
        check(f"{sent.name}, what it says", b"STOP and UNBIND" in errors, True)
        station.wait("ended: unbound", before + 1)
    found = run(USER, *options_of(station, "MOC", ONLINE, *moc, "--for", "1s"))
    check("after a second", (found[0], found[1].endswith(b"ok 3\nok 103\n")), (0, True))
    found = run(USER, *options_of(station, "MOC", CHANNEL, *moc, "--channel", "171/0/7", "--for", "1s", command="rcf"))
    check("a channel, after a second", found[0] in (0, 3), True)
    found = run(USER, *options_of(station, "MOC", ONLINE, *moc, "--report", "2", "--for", "5s"))
    check("status reports", (found[0], b"\nok 5\n" in found[1], found[1].count(b"\nreport ") >= 2), (0, True, True))
    shown = on_terminal(*options_of(station, "MOC", ONLINE, *moc, "--report", "2", "--for", "5s", "--frames",
                                    str(folder / "live.frames")))
    for word in ["0 frames", "production ", "delivered"]:
        check(f"the progress line, `{word}` in {shown!r}", word in shown, True)
    says("turns spent", run(USER, *options_of(station, "MOC", ONLINE, *moc, "--turns", "9")), 10, "turns spent", "9 times")


def retrying(folder):
    """Where nobody listens yet, a user with --retry comes again."""
    port = free_ports(1)[0]
    began = time.monotonic()
    says("--for counts over all tries", run(USER, "raf", "--to", f"{ADDRESS}:{port}", "--as", "MOC", "--instance", ONLINE,
                                             "--retry", "--for", "2s"), 8, "again in 1 s", "--for is over")
    check("it is over by then", time.monotonic() - began < 20, True)
    user = subprocess.Popen([USER, "raf", "--to", f"{ADDRESS}:{port}", "--as", "MOC", "--instance", ONLINE, "--retry"],
                            stdout=subprocess.PIPE, stderr=subprocess.PIPE, stdin=subprocess.DEVNULL)
    time.sleep(1)
    with socket.create_server((ADDRESS, port)) as listener:
        listener.settimeout(PATIENCE)
        peer, _ = listener.accept()
        with peer:
            check("a user who comes again", len(peer.recv(20)), 20)
            user.terminate()
    user.communicate(timeout=PATIENCE)
    check(f"a user who comes again, asked to end: {user.returncode}", user.returncode in (8, 11), True)


# ---- a package

def package(folder):
    """The package runs where there is no kit, and its own checkout is hidden where a namespace can be had."""
    file = folder / "buwekota.tar.gz"
    found = run(PROVIDER, "package", str(file))
    check("package", (found[0], found[1][:6]), (0, b"packed"))
    root = folder / "root"
    root.mkdir()
    subprocess.run(["tar", "-xf", str(file), "-C", str(root)], check=True)
    top = root / "buwekota"
    script = (TOP / "examples/first-pass.script").read_bytes()
    hide = ["unshare", "-rm", "sh", "-c", 'mount -t tmpfs none /opt && mount --bind "$1" /mnt && shift && exec "$@"', "-",
            str(top)]
    hidden = subprocess.run([*hide, "true"], stderr=subprocess.DEVNULL).returncode == 0
    front, place = (hide, pathlib.Path("/mnt")) if hidden else ([], top)
    path = ":".join(each for each in os.environ["PATH"].split(":") if not os.path.exists(os.path.join(each, "rt")))
    env = {"PATH": path}
    if not hidden:
        print("options: no namespace of its own could be made; the package runs beside the kit")

    def there(*words, text=None):
        first = words if front else [place / words[0], *words[1:]]
        return run(*(front + [place / words[0], *words[1:]] if front else first), env=env, text=text)

    check("a package's drill", there("bin/provider", "drill", text=script), run(PROVIDER, "drill", text=script))
    stream = (TOP / "examples/recorded.stream").read_bytes()
    check("a package's user", there("bin/user", "show", "raf", text=stream), run(USER, "show", "raf", text=stream))
    check("a package's version", there("bin/provider", "--version")[1].startswith(
        run(PROVIDER, "--version")[1]), True)
    check("a package's station", there("bin/provider", "init", str(folder / "p.archive"))[:2], (0, b"made\n"))
    says("a package's proof", there("bin/provider", "prove", "picture" if "picture_cli" not in os.listdir(top / "programs")
                                    else "capture"), 0 if "capture_cli" in os.listdir(top / "programs") else 1)
    says("a package of a package", there("bin/provider", "package", "/tmp/x.tar"), 1, "package already")
    for name in ["examples/station.service", "docs/OPERATING.md", "README", "bin/help/run.txt"]:
        check(f"a package has {name}", (top / name).exists(), True)


def main():
    the_times()
    wrong_words()
    with tempfile.TemporaryDirectory() as place:
        folder = pathlib.Path(place)
        for part in sections, first_session, the_station, retrying, package:
            sub = folder / part.__name__
            sub.mkdir()
            part(sub)
    return checks.end()


if __name__ == "__main__":
    sys.exit(main())
