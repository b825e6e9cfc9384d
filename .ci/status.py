#!/usr/bin/env python3
"""Reads what a station shows of itself, while it serves and after each trouble, and compares it with what was done.

usage: status.py PROVIDER [PART..]

A station's status page is asked over HTTP: the page, the JSON, the metrics and the health, as a browser, a
program and a monitor ask. Sixteen users are served meanwhile, and what the page counts is compared with what
the users, the front end and the antenna's file counted themselves. Each trouble is brought to a station of
its own: a disk that fails, a full archive, doors that are used up, an antenna that fails or waits, a worker
that is stuck, a clock that steps, a source that is silent, a stop. Metrics are read by a parser written after
the format's page (Prometheus, text format 0.0.4). A browser draws the page where there is one. The last line
says how many checks passed; with `status.py PROVIDER PART..` only these parts run.
"""
import errno
import fcntl
import json
import os
import re
import shutil
import socket
import subprocess
import sys
import tempfile
import threading
import time

sys.dont_write_bytecode = True
import control_centre
from control_centre import (HEARTBEAT, User, check, checks, cltu_start, context, frame, instance, programs, site, start,
                            started, stop, stopped, transfer)
from shim import Shim, compiler
from watched import Watched, in_threads, new_ports

TOP = os.path.dirname(os.path.dirname(os.path.abspath(__file__)))
PROVIDER = os.path.abspath(sys.argv[1])
programs.update(provider=PROVIDER)
checks.name = "status"
COMMANDS = "sagr=1.spack=P.fsl-fg=1.cltu=cltu1"
VERSION = "commit 0123456789ab"
CLTU_LINE = f"cltu {COMMANDS} MOC 100000 20000 60\n"
# How many seconds a part waits for what is to come soon.
SOON = 30
SERIOUS = {"recorder_ended", "disk_failing", "archive_full", "no_door", "antenna_failing", "worker_late", "stopping"}
OTHERS = {"sync_failed", "archive_almost_full", "door_failed", "door_spent", "clock_off", "no_entry"}


# ---- asking

def connected(place):
    if isinstance(place, int):
        return socket.create_connection(("127.0.0.1", place), SOON)
    peer = socket.socket(socket.AF_UNIX)
    peer.settimeout(SOON)
    peer.connect(place)
    return peer


def say(place, octets):
    """What the station answers to these octets, until it closes."""
    told = b""
    with connected(place) as peer:
        try:
            peer.sendall(octets)
            while piece := peer.recv(65_536):
                told += piece
        except ConnectionError:
            pass
    return told


def ask(place, path, method="GET", more=""):
    """The status, the fields and the content of an answer."""
    return answer_of(say(place, f"{method} {path} HTTP/1.1\r\nHost: station\r\n{more}\r\n".encode()))


def answer_of(told):
    head, _, body = told.partition(b"\r\n\r\n")
    first, *lines = head.decode().split("\r\n")
    fields = {}
    for line in lines:
        name, _, value = line.partition(":")
        fields[name.lower()] = value.strip()
    return int(first.split(" ")[1]) if first.startswith("HTTP/1.") else None, fields, body


def shown(place):
    """The status as a program reads it."""
    code, _, body = ask(place, "/status.json")
    assert code == 200, code
    return json.loads(body)


def health(place):
    """The code, and the names of the troubles, which the text and the JSON have."""
    code, _, _ = ask(place, "/health")
    return code, {trouble["name"] for trouble in shown(place)["troubles"]}


def until(read, wanted, patience=SOON):
    """What is read, once it is what is wanted, or else at the end of the patience."""
    end = time.time() + patience
    while (found := read()) != wanted and time.time() < end:
        time.sleep(0.05)
    return found


# ---- metrics, after the page of the text format: lines of HELP and TYPE, and samples

NAME = r"[a-zA-Z_:][a-zA-Z0-9_:]*"
LABEL = r'([a-zA-Z_][a-zA-Z0-9_]*)="((?:[^"\\\n]|\\[\\"n])*)"'


def metrics_of(text):
    """The samples of a text, by name and labels; it fails where the text isn't of the format."""
    assert text.endswith("\n"), "the last line has no end"
    samples, types, helps, current, seen = {}, {}, set(), None, set()
    for line in text.split("\n")[:-1]:
        if line.startswith("#"):
            _, kind, name, rest = line.split(" ", 3)
            assert kind in ("HELP", "TYPE") and re.fullmatch(NAME, name), line
            known = helps if kind == "HELP" else types
            assert name not in known, f"{kind} twice: {line}"
            assert name not in seen, f"{kind} after a sample: {line}"
            if kind == "HELP":
                helps.add(name)
                assert re.fullmatch(r"(?:[^\\]|\\[\\n])*", rest), line
            else:
                assert rest in ("counter", "gauge", "histogram", "summary", "untyped"), line
                types[name] = rest
            continue
        found = re.fullmatch(rf"({NAME})(?:\{{(.*)\}})? (-?[0-9]+(?:\.[0-9]+)?(?:e[+-]?[0-9]+)?|[+-]Inf|NaN)", line)
        assert found, line
        name, labels, value = found.groups()
        pairs = re.findall(LABEL, labels or "")
        assert ",".join(f'{key}="{held}"' for key, held in pairs) == (labels or "").rstrip(","), line
        if name != current:
            assert name not in seen, f"samples of {name} stand apart"
            seen.add(name)
            current = name
        key = (name, tuple(sorted(pairs)))
        assert key not in samples, f"twice: {line}"
        assert name in types and name in helps, f"neither HELP nor TYPE: {line}"
        assert (types[name] == "counter") == name.endswith("_total"), line
        samples[key] = float(value)
    return samples


def are_same(it, status, samples):
    """The metrics say what the JSON says."""
    for name, value in status.items():
        if isinstance(value, int) and not isinstance(value, bool):
            it.check(f"metric {name}", samples.get((f"station_{name}", ())), float(value))
    for door in status["doors"]:
        for name, value in door.items():
            if isinstance(value, int) and name != "door":
                key = (f"station_door_{name}", (("door", str(door["door"])),))
                it.check(f"metric {key}", samples.get(key), float(value))
    it.check("metric healthy", samples.get(("station_healthy", ())), float(status["healthy"]))
    troubles = {dict(labels)["name"] for (name, labels), value in samples.items()
                if name == "station_trouble" and value == 1}
    it.check("metric troubles", troubles, {trouble["name"] for trouble in status["troubles"]})


# ---- stations

class Counted(User):
    """A user who counts its octets."""

    def __init__(self, port):
        super().__init__(port)
        self.peer.settimeout(SOON)
        self.came = self.went = 0

    def say(self, *messages, one_by_one=False):
        self.went += sum(map(len, messages))
        super().say(*messages, one_by_one=one_by_one)

    def octets(self, count):
        heard = super().octets(count)
        self.came += len(heard)
        return heard


class Trial:
    def __init__(self, part, folder):
        self.name, self.folder, self.count = part.__name__.replace("_", " "), folder, 0

    def check(self, what, found, expected):
        check(f"{self.name}: {what}", found, expected)

    def place(self):
        self.count += 1
        place = os.path.join(self.folder, str(self.count))
        os.mkdir(place)
        return place

    def station(self, doors=1, links=9, configuration=None, shim=False, given={}, **more):
        """A station with a status page, whose place is `shows`."""
        place = self.place()
        made = Shim(place) if shim else None
        [port] = new_ports(1)
        given = {"STATION_STATUS": str(port), "STATION_VERSION": VERSION, **given}
        station = Watched(place, doors, links, configuration=configuration or site(doors) + CLTU_LINE, shim=made,
                          given=given, **more)
        station.shim, station.shows = made, port
        return station

    def bound(self, station, door=0, number=1, name="onlc", service=0, said=None):
        user = Counted(station.ports[door])
        user.bound(self.name, "MOC", said or instance(name, number), service=service)
        return user

    def listener(self, station, door=0, number=1):
        user = self.bound(station, door, number)
        user.say(start(1))
        self.check("started", user.answer(), started(1))
        return user

    def commander(self, station, door=0):
        user = self.bound(station, door, said=COMMANDS, service=16)
        user.say(cltu_start(0))
        self.check("started", user.answer()[8], 0xa1)
        return user

    def comes(self, station, code, *names, patience=SOON):
        """The health comes to this code, and the troubles to exactly these; each way of asking says so."""
        wanted = (code, set(names))
        self.check(f"health {names}", until(lambda: health(station.shows), wanted, patience), wanted)
        found, _, body = ask(station.shows, "/health")
        first, *lines = body.decode().split("\n")
        self.check("the health's text", (found, first), (code, "healthy" if code == 200 else "unhealthy"))
        weights = sorted(line.partition(": ")[0] for line in lines if line)
        self.check("the health's lines", weights, sorted("failure" if name in SERIOUS else "warning" for name in names))
        self.check("503 exactly at serious troubles", code == 503, bool(SERIOUS & set(names)))
        status = shown(station.shows)
        self.check("the JSON's health", status["healthy"], code == 200)
        for trouble in status["troubles"]:
            said = f"{trouble['words']}; {trouble['advice']}\n" in body.decode()
            self.check("the words of a trouble", said, True)
        page = ask(station.shows, "/")[2].decode()
        self.check("the page has each trouble", [name for trouble in status["troubles"]
                   if (name := trouble["words"]) not in plain(page)], [])
        found = launched(station.shows)
        self.check("the launcher's exit code", found.returncode, 0 if code == 200 else 3)
        self.check("the launcher's words", found.stdout.split("\n\n")[0] + "\n", body.decode())

    def ends(self, station, status=0):
        if station.process.poll() is None:
            station.stop(self.name)
        station.process.communicate(timeout=60)
        self.check("the exit code", station.process.returncode, status)


def plain(page):
    """A page's text without elements, and with its characters."""
    text = re.sub(r"<style.*?</style>|<[^>]*>", " ", page, flags=re.S)
    return re.sub(r"&#x([0-9a-f]+);", lambda found: chr(int(found[1], 16)), text)


def launched(place, *line):
    """`bin/provider status`, by the part that it hands over to."""
    part = os.path.join(TOP, "bin", "parts", "status.py")
    return subprocess.run([sys.executable, "-BEs", part, *line], capture_output=True, text=True,
                          env={**os.environ, "STATION_STATUS": str(place)})


# ---- how it answers

KINDS = {"/": "text/html; charset=utf-8", "/status.json": "application/json",
         "/metrics": "text/plain; version=0.0.4", "/health": "text/plain; charset=utf-8"}


def requests(it):
    station = it.station()
    for path, kind in KINDS.items():
        code, fields, body = ask(station.shows, path)
        it.check(f"GET {path}", (code, fields.get("content-length")), (200, str(len(body))))
        it.check(f"GET {path}: its kind", fields.get("content-type", "").lower().replace("; ", ";"),
                 kind.replace("; ", ";"))
        kept = (fields.get("connection"), fields.get("cache-control"))
        it.check(f"GET {path}: not kept", kept, ("close", "no-store"))
        same, headed, nothing = ask(station.shows, path, "HEAD")
        it.check(f"HEAD {path}", (same, nothing, headed.get("content-type")), (200, b"", fields.get("content-type")))
        it.check(f"GET {path}?x=1", ask(station.shows, f"{path}?x=1")[0], 200)
        for method in ("POST", "PUT", "DELETE", "OPTIONS", "PATCH", "get"):
            code, fields, body = ask(station.shows, path, method, "Content-Length: 0\r\n")
            it.check(f"{method} {path}", (code, fields.get("allow")), (405, "GET, HEAD"))
    for path in ("/nothing", "//", "/health/", "/Health", "/status", "/metrics%20"):
        it.check(f"GET {path}", ask(station.shows, path)[0], 404)
    code, fields, _ = answer_of(say(station.shows, b"GET /health HTTP/1.0\r\n\r\n"))
    it.check("HTTP/1.0", code, 200)
    code = ask(station.shows, "/health", more=f"X: {'a' * 5_000}\r\n")[0]
    it.check(f"a head too long: {code}", code in (431, 400, None), True)
    code = ask(station.shows, "/health", "POST", "Content-Length: 3\r\n")[0]
    it.check(f"a body: {code}", code in (400, 405, 413, None), True)
    for garbage in (b"\x16\x03\x01\x00\xa5\x01\x00\x00\xa1\x03\x03\r\n\r\n", b"\r\n\r\n\r\n", b"hello\r\n\r\n",
                    b"GET /health HTTP/9.9\r\n\r\n", b"\0" * 9_000):
        code = answer_of(say(station.shows, garbage))[0]
        it.check(f"garbage {garbage[:9]}: {code}", code in (None, 400, 414, 431, 505), True)
    told = say(station.shows, b"GET /health HTTP/1.1\r\nHost: x\r\n\r\n" * 2)
    it.check("two at once are answered once", told.count(b"HTTP/1.1 200"), 1)
    it.comes(station, 200)
    it.ends(station)


def silent_callers(it):
    """Four that say nothing are closed after 2 s, and who comes after them is answered; the run goes on."""
    station = it.station()
    user = it.listener(station)
    silent = [connected(station.shows) for _ in range(4)]
    silent[1].sendall(b"GET /hea")
    time.sleep(0.3)
    began = time.time()
    it.check("a fifth is answered", ask(station.shows, "/health")[0], 200)
    took = time.time() - began
    it.check(f"a fifth is answered soon: {took}", took < 6, True)
    for peer in silent:
        try:
            it.check("a silent one is closed", peer.recv(9)[:5] in (b"", b"HTTP/"), True)
        except ConnectionError:
            pass
        peer.close()
    began = time.time()
    slow = connected(station.shows)
    try:
        for octet in b"GET /health HTTP/1.1\r\nHost: x\r\nX: aaaaaaaaaaaaaaaaaaaaaaaaaaaaaaaaaa\r\n\r\n":
            slow.sendall(bytes([octet]))
            time.sleep(0.2)
        slow.recv(9)
    except ConnectionError:
        pass
    took = time.time() - began
    it.check(f"one that says an octet each 0.2 s is closed after 2 s: {took}", took < 8, True)
    for _ in range(50):
        connected(station.shows).close()
    with station.front_end(frame(1)):
        it.check("frames are heard", len(user.frames(1)), 1)
    it.check("and it answers", ask(station.shows, "/health")[0], 200)
    user.peer.close()
    it.ends(station)


def places(it):
    """A Unix socket, a port that is taken, none, and values out of form."""
    path = os.path.join(it.place(), "status")
    station = it.station(given={"STATION_STATUS": path})
    it.check("at a Unix socket", ask(path, "/health")[0], 200)
    found = launched(path)
    it.check("the launcher at a Unix socket", (found.returncode, found.stdout.split("\n")[0]), (0, "healthy"))
    it.ends(station)
    with socket.create_server(("127.0.0.1", 0)) as other:
        port = other.getsockname()[1]
        station = it.station(given={"STATION_STATUS": str(port)})
        told = station.logs(rf"^status 127\.0\.0\.1:{port}: .*in use.*no status page")
        it.check("a port that is taken is told", told, True)
        user = it.bound(station)
        user.unbind(it.name)
        it.ends(station)
    station = it.station(given={"STATION_STATUS": None})
    it.bound(station).unbind(it.name)
    try:
        it.check("without a place nothing listens", connected(station.shows), None)
    except OSError:
        it.check("without a place nothing listens", None, None)
    found = launched(station.shows)
    it.check("the launcher where none answers", (found.returncode, found.stdout), (1, ""))
    it.ends(station)
    for given in [{"STATION_STATUS": "0"}, {"STATION_STATUS": "x"}, {"STATION_STATUS": "65536"}, {"STATION_STATUS": ""},
                  {"STATION_EXPECT": "x"}, {"STATION_EXPECT": "-1"}, {"STATION_VERSION": "v" * 201}]:
        line = ["10", "1", station.path, "1", station.cltus, "2"]
        found = subprocess.run([PROVIDER, "run", *line], capture_output=True, stdin=subprocess.DEVNULL,
                               env={**os.environ, **given})
        it.check(f"environment {given}", (found.returncode, found.stdout), (2, b"usage\n"))
    for place in ("0", "x", ""):
        found = launched(place)
        it.check(f"the launcher at `{place}`", (found.returncode, found.stdout, found.stderr.count("\n")), (1, "", 1))


# ---- what it counts

def a_crowd(it):
    """Sixteen users are served, and the page counts what they, the source and the antenna counted."""
    lines = ["heartbeat 1 3600 2 100", "peer MOC none sha1 60 000000000000"]
    lines += [f"raf {instance('onlc', number)} MOC complete 3 1 60" for number in range(14)]
    text = "\n".join([*lines, f"raf {instance('offl', 1)} MOC offline 4 0 60", CLTU_LINE])
    station = it.station(16, 3, configuration=text)
    began = time.time()
    users = [it.listener(station, number, number) for number in range(14)]
    late = it.bound(station, 14, name="offl")
    commander = it.commander(station, 15)
    front = station.front_end("loss 20000/0/0 1 1 1\nproduction 1\nproduction 0\n# a comment\n\n")
    front.sendall("".join(map(frame, range(1, 41))).encode())
    front.sendall(b"mark 20000/41/0\n")
    commander.say(*(transfer(number, bytes([0xaa, number]) * 30) for number in range(9)))
    asked = [0]
    over = threading.Event()

    def keep_asking():
        """Somebody looks all the while."""
        while not over.is_set():
            for path in KINDS:
                it.check(f"meanwhile {path}", ask(station.shows, path)[0], 200)
                asked[0] += 1
    asking = threading.Thread(target=keep_asking)
    asking.start()
    for user in users:
        heard = 0
        while heard < 40:
            heard += sum(isinstance(item, tuple) for item in control_centre.items(user.answer()[8:]))
    tags = [commander.answer()[8] for _ in range(9 + 9 + 1)]
    it.check("returns", tags.count(0xab), 9)
    late.say(HEARTBEAT)
    over.set()
    asking.join()
    it.check(f"asked meanwhile: {asked[0]}", asked[0] >= 4, True)
    every = [*users, late, commander]

    def counts():
        status = shown(station.shows)
        return [(door["octets_in_total"], door["octets_out_total"]) for door in status["doors"]]
    wanted = [(user.went, user.came) for user in every]
    it.check("octets over each socket", until(counts, wanted), wanted)
    status = shown(station.shows)
    named = [(door["state"], door["user"], door["instance"], door["peer"]) for door in status["doors"]]
    instances = [instance("onlc", number) for number in range(14)] + [instance("offl", 1), COMMANDS]
    it.check("who is served", named, [("serving", "MOC", name, "127.0.0.1:%d" % user.peer.getsockname()[1])
                                      for name, user in zip(instances, every)])
    links = {(door["links_total"], door["links_limit"], door["serving"]) for door in status["doors"]}
    it.check("connections", links, {(1, 3, 1)})
    found = [door["address"] for door in status["doors"]]
    it.check("addresses", found, [f"127.0.0.1:{port}" for port in station.ports])
    it.check("entries by kind", [status[f"{kind}_total"] for kind in ("frames", "losses", "productions", "seals")],
             [40, 1, 2, 1])
    it.check("lines", status["source_lines_total"], 46)
    it.check("the source", (status["source_address"], status["source_peer"], status["source_connections_total"]),
             (f"127.0.0.1:{station.feed}", "127.0.0.1:%d" % front.getsockname()[1], 1))
    it.check("the archive's octets", status["archive_octets"], os.path.getsize(station.path))
    it.check("its capacity", status["archive_capacity_octets"], 268_435_456)
    with open(f"{station.cltus}.lines") as file:
        it.check("telecommands", (status["telecommands_sent_total"], status["telecommands_failed_total"]),
                 (len(file.readlines()), 0))
    it.check("the version", status["version"], VERSION)
    now = time.time()
    for name in ("time_seconds", "last_entry_time_seconds", "last_telecommand_time_seconds",
                 "archive_sync_time_seconds", "start_time_seconds"):
        it.check(f"{name} {status[name]}", began - 12 < status[name] <= now + 1, True)
    check_settled(it, station)
    page = plain(ask(station.shows, "/")[2].decode())
    for text in ("MOC", instances[3], "127.0.0.1:%d" % station.ports[2], "40"):
        it.check(f"the page has {text}", text in page, True)
    words = launched(station.shows).stdout
    for text in ("40 frames", "9 sent", f"MOC at {instances[5]}", VERSION):
        it.check(f"the launcher says {text}", text in words, True)
    it.check("the launcher's JSON", json.loads(launched(station.shows, "--json").stdout)["frames_total"], 40)
    users[0].say(stop(900))
    it.check("stopped", users[0].answer(), stopped(900))
    users[0].unbind(it.name)
    users[1].reset()

    def ends():
        doors = shown(station.shows)["doors"]
        return [(door["state"], [end["how"] for end in door["ends"]]) for door in doors[:2]]
    wanted = [("waiting", ["unbound"]), ("waiting", ["the connection broke"])]
    it.check("how servings ended", until(ends, wanted), wanted)
    it.comes(station, 200)
    front.close()
    it.check("the source is gone", until(lambda: shown(station.shows)["source_peer"], ""), "")
    for user in every[2:]:
        user.peer.close()
    it.ends(station)


def check_settled(it, station):
    """The metrics and the JSON say the same, once neither changes from one second to the next."""
    for _ in range(20):
        before = shown(station.shows)
        samples = metrics_of(ask(station.shows, "/metrics")[2].decode())
        if shown(station.shows) == before:
            break
    are_same(it, before, samples)


# ---- troubles

def a_write_that_fails_once(it):
    station = it.station(shim=True)
    user = it.listener(station)
    station.shim.order(("pwrite", "/archive", 1, 1, errno.EIO))
    with station.front_end(frame(0)):
        it.check("it is stored", len(user.frames(1)), 1)
        it.comes(station, 200)
        it.check("a fault", shown(station.shows)["archive_faults_total"], 1)
    user.peer.close()
    it.ends(station)


def a_disk_that_fails(it):
    station = it.station(shim=True)
    station.shim.order(("pwrite", "/archive", 1, 9, errno.ENOSPC))
    with station.front_end(frame(0)):
        it.comes(station, 503, "recorder_ended", "disk_failing")
        it.check("faults", shown(station.shows)["archive_faults_total"], 2)
    it.ends(station, 8)


def a_sync_that_fails(it):
    station = it.station(shim=True)
    station.shim.order(("fsync", "/archive", 1, 1, errno.EIO))
    with station.front_end(frame(0)):
        it.comes(station, 503, "recorder_ended", "disk_failing", "sync_failed")
    it.ends(station, 8)


def an_archive_that_fills(it):
    station = it.station(configuration=site(1) + CLTU_LINE + "capacity 10000\n")
    long = "frame 20000/{}/0 0 41 0 " + "0a" * 900 + "\n"
    with station.front_end("".join(long.format(number) for number in range(9))) as peer:
        it.comes(station, 200)
        peer.sendall((frame(50) * 16).encode())
        it.comes(station, 200, "archive_almost_full")
        peer.sendall(long.format(60).encode())
        it.comes(station, 503, "archive_full")
    it.ends(station, 9)


def doors_that_are_used_up(it):
    station = it.station(2, 1)
    it.bound(station).unbind(it.name)
    it.comes(station, 200, "door_spent")
    user = it.bound(station, 1, 2)
    it.comes(station, 200, "door_spent")
    user.unbind(it.name)
    it.comes(station, 503, "door_spent", "no_door")
    it.ends(station)


def an_antenna_that_fails(it):
    station = it.station(shim=True)
    user = it.commander(station)
    user.say(transfer(0, b"one"))
    it.check("one is sent", until(lambda: shown(station.shows)["telecommands_sent_total"], 1), 1)
    it.comes(station, 200)
    station.shim.order(("write", "/cltus", 1, 1, errno.ENOSPC))
    user.say(transfer(1, b"two"))
    it.comes(station, 503, "antenna_failing")
    status = shown(station.shows)
    it.check("counts", (status["telecommands_sent_total"], status["telecommands_failed_total"]), (1, 1))
    user.peer.close()
    it.ends(station)


def an_antenna_that_waits(it):
    """A sending that lasts is no trouble within its limit of 60 s, and one behind it."""
    folder = it.place()
    pipe = os.path.join(folder, "pipe")
    os.mkfifo(pipe)
    reader = os.open(pipe, os.O_RDONLY | os.O_NONBLOCK)
    fcntl.fcntl(reader, 1031, 4096)
    station = it.station(shim=True, cltus=pipe)
    user = it.commander(station)
    it.comes(station, 200)
    user.say(transfer(0, b"a" * 12_000))
    time.sleep(1)
    # (the recorder's turn comes within 5 s, and nothing else is late)
    station.shim.advance(33)
    found = until(lambda: health(station.shows), (200, set()), 15)
    it.check("a sending of 33 s", found, (200, set()))
    station.shim.advance(75)
    time.sleep(7)
    it.comes(station, 503, "worker_late")
    over = time.time() + SOON
    while until(lambda: shown(station.shows)["telecommands_failed_total"], 1, 0.1) != 1 and time.time() < over:
        try:
            os.read(reader, 65_536)
        except BlockingIOError:
            pass
    # (a pipe can't be synced, so the sending fails in the end)
    it.comes(station, 503, "antenna_failing")
    user.peer.close()
    os.close(reader)
    it.ends(station)


def a_worker_that_is_stuck(it):
    """A recorder whose disk doesn't answer."""
    station = it.station(shim=True)
    it.comes(station, 200)
    # (a call that waits for 10 s, in which the clocks go on by 40)
    station.shim.order(("fsync", "/archive", 1, 1, 20_000))
    with station.front_end(frame(0)):
        time.sleep(1)
        station.shim.advance(40)
        it.comes(station, 503, "worker_late", patience=8)
        it.comes(station, 200)
    it.ends(station)


def a_clock_that_steps(it):
    station = it.station(shim=True)
    it.comes(station, 200)
    station.shim.shift(7)
    it.comes(station, 200, "clock_off")
    ahead = shown(station.shows)["clock_ahead_milliseconds"]
    it.check(f"how far it is ahead: {ahead}", 6_900 <= ahead <= 7_100, True)
    station.shim.shift(-5)
    it.check("behind", until(lambda: shown(station.shows)["clock_ahead_milliseconds"], 0), 0)
    behind = shown(station.shows)["clock_behind_milliseconds"]
    it.check(f"how far it is behind: {behind}", 4_900 <= behind <= 5_100, True)
    station.shim.shift(0)
    it.comes(station, 200)
    it.ends(station)


def no_entry_that_is_expected(it):
    station = it.station(shim=True, given={"STATION_EXPECT": "2"})
    it.comes(station, 200)
    station.shim.advance(130)
    time.sleep(7)
    it.comes(station, 200, "no_entry")
    with station.front_end(frame(0)):
        it.comes(station, 200)
    it.ends(station)
    station = it.station(shim=True)
    station.shim.advance(90_000)
    time.sleep(7)
    it.comes(station, 200)
    it.ends(station)


def offers_that_stall(it):
    station = it.station()
    user = User(station.ports[0], room=4096)
    user.bound(it.name, "MOC", instance("onlc", 1))
    user.say(start(1))
    with station.front_end() as peer:
        for number in range(120):
            peer.sendall(f"frame 20000/{number}/0 0 41 0 {'0a' * 60_000}\n".encode())
        stalls = until(lambda: shown(station.shows)["doors"][0]["stalls_total"] > 0, True, 90)
        it.check("offers stall", stalls, True)
        it.comes(station, 200)
    user.peer.close()
    it.ends(station)


def a_stop_that_takes_time(it):
    """While a sending is waited for, the station says that it stops."""
    pipe = os.path.join(it.place(), "pipe")
    os.mkfifo(pipe)
    reader = os.open(pipe, os.O_RDONLY | os.O_NONBLOCK)
    fcntl.fcntl(reader, 1031, 4096)
    station = it.station(cltus=pipe)
    user = it.commander(station)
    user.say(transfer(0, b"a" * 12_000))
    time.sleep(1)
    with socket.create_connection(("127.0.0.1", station.stop_port)) as operator:
        operator.sendall(b"stop\n")
        # (by then the source has ended, and each door is closed)
        it.comes(station, 503, "stopping", "no_door", "recorder_ended")
        operator.settimeout(SOON)
        over = False
        while not over:
            try:
                os.read(reader, 65_536)
            except BlockingIOError:
                time.sleep(0.01)
            over = station.process.poll() is not None
    user.peer.close()
    os.close(reader)
    station.process.communicate(timeout=60)
    it.check("the exit code", station.process.returncode, 0)


# ---- a browser

def browser():
    return shutil.which("chromium") or shutil.which("chromium-browser") or shutil.which("google-chrome")


def in_a_browser(it):
    """The page fits a phone and a screen, dark and light."""
    program = browser()
    if program is None:
        print("status: the browser is left out, as there is no chromium on the path")
        return
    station = it.station(2)
    user = it.listener(station)
    with station.front_end("".join(map(frame, range(30)))):
        user.frames(30)
        page = ask(station.shows, "/")[2].decode()
        folder = it.place()
        own = f"--user-data-dir={folder}/profile"
        words = [program, "--headless", "--no-sandbox", "--disable-gpu", "--hide-scrollbars", own]
        for width in (390, 1280):
            wide = page.replace("</body>", "<script>document.title = 'W' + document.documentElement.scrollWidth"
                                           " + ' ' + window.innerWidth</script></body>")
            path = os.path.join(folder, f"{width}.html")
            frame_path = os.path.join(folder, f"frame-{width}.html")
            with open(path, "w") as file:
                file.write(wide)
            with open(frame_path, "w") as file:
                # (a window isn't made narrower than 500 px, a frame is)
                file.write(f"<iframe id=f src='{width}.html' style='width:{width}px;height:900px;border:0'></iframe>"
                           "<script>onload = () => document.title = f.contentDocument.title</script>")
            more = ["--allow-file-access-from-files", "--virtual-time-budget=2000", "--dump-dom"]
            found = subprocess.run([*words, *more, f"file://{frame_path}"], capture_output=True, text=True,
                                   timeout=120).stdout
            sizes = re.search(r"<title>W(\d+) (\d+)</title>", found)
            it.check(f"at {width} px nothing is cut off: {sizes and sizes[0]}",
                     sizes is not None and int(sizes[1]) <= int(sizes[2]) == width, True)
        shot = os.path.join(folder, "page.png")
        subprocess.run([*words, f"--screenshot={shot}", "--window-size=1280,900", f"http://127.0.0.1:{station.shows}/"],
                       capture_output=True, timeout=120)
        it.check("a picture", os.path.exists(shot) and os.path.getsize(shot) > 10_000, True)
    user.peer.close()
    it.ends(station)


PARTS = [requests, silent_callers, places, a_crowd, a_write_that_fails_once, a_disk_that_fails, a_sync_that_fails,
         an_archive_that_fills, doors_that_are_used_up, an_antenna_that_fails, an_antenna_that_waits,
         a_worker_that_is_stuck, a_clock_that_steps, no_entry_that_is_expected, offers_that_stall,
         a_stop_that_takes_time, in_a_browser]


def main():
    wanted = sys.argv[2:]
    parts = [part for part in PARTS if not wanted or part.__name__ in wanted]
    if compiler() is None:
        print("status: troubles are left out, as there is no C compiler on the path")
        parts = [part for part in parts if part in (requests, silent_callers, places, a_crowd, in_a_browser)]
    with tempfile.TemporaryDirectory() as folder:
        def run(part):
            place = os.path.join(folder, part.__name__)
            os.mkdir(place)
            it = Trial(part, place)
            try:
                part(it)
            except Exception as error:
                it.check("a fault", f"{error!r} at line {error.__traceback__.tb_lineno}", None)
        in_threads([lambda part=part: run(part) for part in parts])
    sys.exit(checks.end())


if __name__ == "__main__":
    main()
