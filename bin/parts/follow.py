"""A run of the user's program: its lines are handed on, or become frames and counts, and its end is told in words."""
import os
import re
import signal
import subprocess
import sys
import tempfile
import threading

import times
from words import say

# Return tags, and the diagnostics that a negative return of each may have (CCSDS 911.1-B, 911.2-B and 912.1-B).
COMMON = {100: "duplicateInvokeId", 127: "otherReason"}
BIND = ["accessDenied", "serviceTypeNotSupported", "versionNotSupported", "noSuchServiceInstance", "alreadyBound",
        "siNotAccessibleToThisInitiator", "inconsistentServiceType", "invalidTime", "outOfService"]
RETURN_START = ["outOfService", "unableToComply", "invalidStartTime", "invalidStopTime", "missingTimeValue",
                "invalidGvcId"]
CLTU_START = ["outOfService", "unableToComply", "productionTimeExpired", "invalidCltuId"]
TRANSFER = ["unableToProcess", "unableToStore", "outOfSequence", "inconsistentTimeRange", "invalidTime", "lateSldu",
            "invalidDelayTime", "cltuError"]
SCHEDULE = ["notSupportedInThisDeliveryMode", "alreadyStopped", "invalidReportingCycle"]
OPERATIONS = {1: "START", 3: "STOP", 5: "SCHEDULE-STATUS-REPORT", 7: "GET-PARAMETER", 11: "TRANSFER-DATA", 101: "BIND"}
ABORTS = ["accessDenied", "unexpectedResponderId", "operationalRequirement", "protocolError", "communicationsFailure",
          "encodingError", "returnTimeout", "endOfServiceProvisionPeriod", "unsolicitedInvokeId"]
# What to do about some of them.
HINTS = {
    "accessDenied": "the station doesn't know this name, or wants another password",
    "noSuchServiceInstance": "the station has no such instance: see its configuration",
    "alreadyBound": "another connection has this instance",
    "siNotAccessibleToThisInitiator": "the instance belongs to another user",
    "invalidStartTime": "the start isn't before the stop, or can't be had",
    "invalidStopTime": "the stop isn't behind the start, or can't be had",
    "missingTimeValue": "this instance wants both --from and --until",
    "invalidGvcId": "the instance doesn't permit this channel",
}


def named(table, number):
    name = table[number] if 0 <= number < len(table) else COMMON.get(number)
    return f"{name} ({number})" if name else f"diagnostic {number}"


def refusal(line, service):
    """A negative return in words: `no TAG DIAGNOSTIC ..`."""
    tag, number = map(int, line.split()[1:3])
    start = CLTU_START if service == "cltu" else RETURN_START
    table = {101: BIND, 1: start, 5: SCHEDULE, 7: ["unknownParameter"], 11: TRANSFER}.get(tag, [])
    name = named(table, number)
    hint = HINTS.get(name.split()[0])
    more = ""
    if tag == 11:
        following, free = line.split()[3:5]
        more = f"; identification {following} is expected next, and {free} octets are free"
    return f"the station refused {OPERATIONS.get(tag, f'the invocation with return {tag}')}: {name}" + (
        f": {hint}" if hint else "") + more


def end_in_words(code, last, service, turns):
    """Why a run ended with an exit code, by its last lines; none where nothing is to be said."""
    line = last[-1] if last else ""
    if code == 0:
        return None
    if code == 3:
        return refusal(next(each for each in reversed(last) if each.startswith("no ")), service)
    if code == 11 and line.startswith("abort "):
        return f"the station aborted: {named(ABORTS, int(line.split()[1]))}"
    return {
        2: "the program refuses these words",
        5: f"the octets from {line.split()[-1] if line else '?'} on (the first is 0) are no message of this service",
        6: "the input can't be read",
        7: "the output can't be written; see whether its disk is full, or its reader ended",
        8: "there is no connection to the station, or it broke",
        10: f"turns spent: the connection was polled {turns} times; give more, or end it by --for or Ctrl-C",
        11: "the station closed the connection",
        12: "the input has over 16,777,216 octets; give it in parts",
        70: "memory was refused",
    }.get(code, f"it ended with exit code {code}, which isn't one of its own")


LOCKS = ["inLock", "outOfLock", "notInUse", "unknown"]
PRODUCTION = ["running", "interrupted", "halted"]
CLTU_PRODUCTION = ["operational", "configured", "interrupted", "halted"]
UPLINK = ["uplinkStatusNotAvailable", "noRfAvailable", "noBitLock", "nominal"]
LOCKED = ["frame sync", "symbol sync", "subcarrier", "carrier"]


def word_in(table, number):
    return table[number] if number in range(len(table)) else str(number)


def report_in_words(line, service):
    """A status report: production, locks and counts; none where its numbers aren't those of the service."""
    numbers = [int(each) for each in line.split()[1:]]
    if service == "cltu" and len(numbers) == 6:
        production, uplink, received, processed, radiated, free = numbers
        return (f"production {word_in(CLTU_PRODUCTION, production)}, uplink {word_in(UPLINK, uplink)}, {received} received,"
                f" {processed} processed, {radiated} radiated, {free} octets free")
    error_free = numbers[:1] if len(numbers) == 7 else []
    if len(numbers) - len(error_free) != 6:
        return None
    delivered, *locks, production = numbers[len(error_free):]
    held = [word_in(LOCKS, each) for each in locks]
    told = ", ".join(f"{name} {each}" for name, each in zip(LOCKED, held) if each != "inLock") or "all in lock"
    good = f"{error_free[0]} error-free, " if error_free else ""
    return f"production {word_in(PRODUCTION, production)}, {told}, {good}{delivered} delivered"


class Counts:
    """What the lines of a service tell of its frames or its telecommands."""

    def __init__(self, service):
        self.service = service
        self.taken = 0
        self.place = 2 if service == "rcf" else 3
        self.frames = self.octets = self.lost = self.backlogs = 0
        self.first = self.last = self.report = None

    def take(self, line):
        """Counts a line, and answers the frame's octets where it has some."""
        if line.startswith(b"frame "):
            parts = line.split(b" ")
            octets = bytes.fromhex(parts[-1].decode())
            self.frames += 1
            self.octets += len(octets)
            self.lost += max(0, int(parts[self.place]))
            self.first = self.first or parts[1]
            self.last = parts[1]
            return octets
        if line == b"backlog":
            self.backlogs += 1
        elif line.startswith(b"report "):
            self.report = report_in_words(line.decode(), self.service)
        elif line.startswith(b"ok 11 "):
            self.taken += 1
        return None

    def progress(self, before):
        """A line for a terminal: what came, and what the last status report said."""
        at = f", last {iso(self.last)}" if self.last else ""
        came = f"{self.taken} telecommands taken" if self.service == "cltu" else (
            f"{self.frames} frames, {self.frames - before} a second{at}")
        return came + (f"; {self.report}" if self.report else "")

    def summary(self):
        span = f", from {iso(self.first)} to {iso(self.last)}" if self.frames else ""
        return (f"{self.frames} frames, {self.octets} octets{span}, {self.lost} lost before them,"
                f" {self.backlogs} notices of a backlog")


def iso(field):
    try:
        return times.iso_of(field.decode())
    except times.BadTime:
        return field.decode()


class Output:
    """Where a run's lines or frames go."""

    def __init__(self, counts, frames, lines):
        self.counts, self.frames, self.lines = counts, frames, lines
        self.rest, self.last = b"", []
        # whether the run was asked to end
        self.asked = False

    def take(self, piece):
        if self.lines:
            write_all(self.lines, piece)
        if self.counts is None:
            self.last = (self.rest + piece)[-4096:].split(b"\n")[-9:-1]
            self.rest = (self.rest + piece)[-4096:]
            return
        *whole, self.rest = (self.rest + piece).split(b"\n")
        octets = []
        for line in whole:
            frame = self.counts.take(line)
            if frame is None:
                self.last = [*self.last[-7:], line]
            elif self.frames is not None:
                octets += [len(frame).to_bytes(4, "big"), frame]
        if octets:
            write_all(self.frames, b"".join(octets))

    def last_lines(self):
        return [line.decode(errors="replace") for line in self.last if not line.startswith(b"frame ")]


def write_all(file, octets):
    while octets:
        octets = octets[os.write(file, octets):]


class Progress(threading.Thread):
    """Renews one line each second, while standard error is a terminal."""

    def __init__(self, counts):
        super().__init__(daemon=True)
        self.counts, self.over = counts, threading.Event()

    def run(self):
        before = 0
        while not self.over.wait(1):
            line = self.counts.progress(before)
            before = self.counts.frames
            # (a line that is cut at the terminal's edge can be renewed)
            sys.stderr.write(f"\r\033[K{line[:os.get_terminal_size(2).columns - 1]}")
            sys.stderr.flush()

    def end(self):
        self.over.set()
        self.join()
        sys.stderr.write("\r\033[K")


class Asking:
    """Asks the program to end: at SIGINT or SIGTERM, or once it ran so long. One that receives frames is asked by a
    file that it looks for, and ends in good order; a second signal, and each other command, ends it at once."""

    def __init__(self, follows, folder):
        self.file = os.path.join(folder, "end") if follows else None
        self.child = self.timer = self.signal = None

    def heed(self, number, frame):
        if self.child is None:
            sys.exit(128 + number)
        if self.file and not os.path.exists(self.file):
            self.ask()
            say("asked to end: STOP and UNBIND are sent; once more ends it at once")
            return
        self.signal = number
        self.child.terminate()

    def ask(self):
        if os.path.isdir(os.path.dirname(self.file)):
            open(self.file, "w").close()

    def was_asked(self):
        return self.signal is not None or bool(self.file) and os.path.exists(self.file)

    def begin(self, child, seconds):
        self.child = child
        if seconds:
            self.timer = threading.Timer(seconds, self.ask)
            self.timer.daemon = True
            self.timer.start()

    def end(self):
        if self.timer:
            self.timer.cancel()
        for each in signal.SIGINT, signal.SIGTERM:
            signal.signal(each, signal.SIG_DFL)


def run(program, line, env, output, seconds=None, stdin=None):
    """Runs the program, and answers its exit code."""
    follows = line[0] in ("raf", "rcf", "rocf")
    with tempfile.TemporaryDirectory(prefix="user-") as folder:
        asking = Asking(follows, folder)
        signals = {signal.SIGINT, signal.SIGTERM}
        # (one that comes before the program runs waits until it does)
        signal.pthread_sigmask(signal.SIG_BLOCK, signals)
        for each in signals:
            signal.signal(each, asking.heed)
        env = {**env, "USER_END": asking.file} if asking.file else env
        child = subprocess.Popen([program, *line], stdout=subprocess.PIPE, stdin=stdin, env=env, start_new_session=True,
                                 preexec_fn=lambda: signal.pthread_sigmask(signal.SIG_UNBLOCK, signals))
        asking.begin(child, seconds)
        signal.pthread_sigmask(signal.SIG_UNBLOCK, signals)
        progress = None
        if output.counts and sys.stderr.isatty():
            progress = Progress(output.counts)
            progress.start()
        failed = False
        while piece := os.read(child.stdout.fileno(), 1 << 16):
            try:
                output.take(piece)
            except OSError:
                failed = True
                break
        # (without a reader the program's next write fails, and that ends it)
        child.stdout.close()
        code = child.wait()
        output.asked = asking.was_asked()
        asking.end()
        if progress:
            progress.end()
        if failed:
            return 7
        return 128 + asking.signal if asking.signal and code < 0 else code if code >= 0 else 128 - code


CLTU = ["cltu", "ID", "EARLIEST", "LATEST", "DELAY", "NOTIFY", "HEX"]


def why_bad_cltu(line):
    """What is wrong with a line of telecommands."""
    parts = line.split(" ")
    if parts[0] != "cltu":
        return "it begins with another word than `cltu`"
    if len(parts) != len(CLTU):
        return f"it has {len(parts)} words, one blank apart, in place of {len(CLTU)}: {' '.join(CLTU)}"
    for name, word in [("ID", parts[1]), ("DELAY", parts[4])]:
        if not re.fullmatch(r"0|[1-9][0-9]*", word) or int(word) > 0xffff_ffff:
            return f"{name} is `{word}`, and a number from 0 to 4294967295 is wanted"
    for name, word in [("EARLIEST", parts[2]), ("LATEST", parts[3])]:
        try:
            word == "none" or times.check_fields(word)
        except times.BadTime as why:
            return f"{name} is `{word}`: {why}, or `none`"
    if parts[5] not in ("0", "1"):
        return f"NOTIFY is `{parts[5]}`, and 0 or 1 is wanted"
    if not re.fullmatch(r"([0-9a-fA-F]{2}){1,65536}", parts[6]):
        return "HEX isn't 1 to 65,536 octets in pairs of hexadecimal digits"
    return "it is out of form"
