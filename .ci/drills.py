"""A second program for `drill`. It follows docs/PROFILE.md and shares nothing with the first: it
works out each line from the whole archive, and knows neither bounds nor passes.
"""
from deliveries import closes, continuity, spelled_buffer
from forms import (channel, element, identifier, moment, name, number, octets, one_of, pdu_message,
                   sent, time)
from sessions import (CONTEXT_BEGINS, MOST_PIECE, Book, Session, bind_pdu, cltu_start_pdu, get_pdu,
                      schedule_pdu, start_pdu, stop_pdu, transfer_pdu, unbind_pdu)
from sites import head_of

MOST_OCTETS = 16_777_216
MOST_LOST = 16_777_215
MOST_FRAME = 65_536


# ---- lines

def words_of(form):
    """A reader of so many words, each by its own form."""
    def read(words):
        if len(words) != len(form):
            raise ValueError
        return [one(word) for one, word in zip(form, words)]
    return read


def within(most, least=0):
    return lambda word: number(word, most, least)


CONNECTION = within(16, 1)

FORMS = {
    b"frame": words_of([time, within(2), lambda word: octets(word, 16), within(MOST_LOST),
                        lambda word: octets(word, MOST_OCTETS)]),
    b"loss": words_of([time, within(3), within(3), within(3)]),
    b"production": words_of([within(2)]),
    b"mark": words_of([time]),
    b"start": words_of([time, time, within(2)]),
    b"clock": words_of([time]),
    b"crash": words_of([within(1_000), lambda word: one_of(word, (b"old", b"new", b"torn"))]),
    b"fault": words_of([within(1_000, 1)]),
    b"open": words_of([CONNECTION]),
    b"in": words_of([CONNECTION, lambda word: octets(word, MOST_PIECE)]),
    b"shut": words_of([CONNECTION]),
    b"break": words_of([CONNECTION]),
    b"round": words_of([CONNECTION, within(1_000, 1)]),
    b"stall": words_of([CONNECTION, within(1_000, 1)]),
    b"done": words_of([]),
    b"uplink": words_of([within(3), within(3)]),
}


def take(words):
    """Whether the take's send fails."""
    if words not in ([], [b"fail"]):
        raise ValueError
    return [words == [b"fail"]]


FORMS[b"take"] = take


def context_message(interval, factor):
    body = CONTEXT_BEGINS + interval.to_bytes(2, "big") + factor.to_bytes(2, "big")
    return bytes([2, 0, 0, 0, 0, 0, 0, 12]) + body


def when(word):
    """A stamp, or None."""
    return None if word == b"none" else time(word)


def wanted(word):
    """A channel of RCF, or a quality of RAF."""
    return channel(word) if b"/" in word else number(word, 2)


def report(word):
    """"now", "stop", or the seconds of a cycle."""
    return word.decode() if word in (b"now", b"stop") else number(word, 65_535)


def start(words):
    """A START of FCLTU by one word, else one of RAF or RCF."""
    return [within(2**32 - 1)(words[0])] if len(words) == 1 else words_of([when, when, wanted])(words)


def start_message(*fields):
    pdu = cltu_start_pdu if len(fields) == 1 else start_pdu
    return pdu_message(pdu(None, 0, *fields))


def is_told(word):
    return one_of(word, (b"0", b"1")) == b"0"


# what is behind `ask C`, and the message that it makes
ASKS = {
    b"context": (words_of([within(65_535), within(65_535)]), context_message),
    b"bind": (words_of([name, within(65_535), within(65_535, 1), identifier]),
              lambda *fields: pdu_message(bind_pdu(None, fields[0], b"PORT1", *fields[1:]))),
    b"unbind": (words_of([]), lambda: pdu_message(unbind_pdu(None, 0))),
    b"start": (start, start_message),
    b"cltu": (words_of([within(2**32 - 1), when, when, within(2**32 - 1), is_told,
                        lambda word: octets(word, 65_536)]),
              lambda *fields: pdu_message(transfer_pdu(None, 0, *fields))),
    b"stop": (words_of([]), lambda: pdu_message(stop_pdu(None, 0))),
    b"report": (words_of([report]), lambda kind: pdu_message(schedule_pdu(None, 0, kind))),
    b"get": (words_of([within(65_535)]), lambda name: pdu_message(get_pdu(None, 0, name))),
}


def ask(words):
    connection, kind, *fields = words
    if kind not in ASKS:
        raise ValueError
    read, message = ASKS[kind]
    return CONNECTION(connection), message(*read(fields))


def line_of(line):
    """The line's first word and what the others say; None where it says nothing, and ValueError
    where it is outside the grammar."""
    if line == b"" or line.startswith(b"#"):
        return None
    kind, *words = line.split(b" ")
    if kind == b"ask":
        return "in", *ask(words)
    if kind not in FORMS:
        raise ValueError
    return kind.decode(), *FORMS[kind](words)


# ---- messages of the desk

NULL = element(0x80, b"")


def buffer_message(items):
    return pdu_message(spelled_buffer([NULL] * len(items), items))


def said(item):
    """An item of the desk's as a user reads it."""
    return [None, item]


# ---- the archive and its STARTs

def may_follow(archive, entry):
    if entry[0] not in ("frame", "mark"):
        return True
    for earlier in archive:
        if earlier[0] == entry[0] and moment(earlier[1]) > moment(entry[1]):
            return False
        if (earlier[0], entry[0]) == ("mark", "frame") and moment(earlier[1]) >= moment(entry[1]):
            return False
    return True


def need(entry):
    """How many octets of the archive's file an entry wants, as a batch of its own."""
    stamp = 1 + 6 + entry[1][3] if entry[0] != "production" else 0
    fields = {
        "frame": lambda: 1 + 1 + len(entry[3]) + 4 + 4 + len(entry[5]),
        "loss": lambda: 3,
        "production": lambda: 1,
        "mark": lambda: 0,
    }[entry[0]]()
    return 7 + 1 + stamp + fields


def refusal(archive, capacity, entry):
    """Why an entry isn't taken: the line that says so, and whether it is Full."""
    if not may_follow(archive, entry):
        return b"backward\n", False
    if entry[0] == "frame" and len(entry[5]) > MOST_FRAME:
        return b"too long\n", False
    free = capacity - 9 - sum(map(need, archive))
    if need(entry) > free:
        return b"full %d %d\n" % (need(entry), free), True
    return b"", False


class File:
    """The archive's file, as far as a store concerns it: which entries are counted, by what is
    written and synced.

    A store writes its entry behind the gate, syncs, opens the gate and syncs. What was written and
    not synced is left by the pick of a stop: of a gate that is torn none is open. An order counts
    the calls, syncs of an opening too."""

    CALLS = "entry", "sync", "gate", "sync"

    def __init__(self):
        self.order = None

    def command(self, says):
        """A later order stands in the place of one before; True where the power fails now."""
        self.order = says if says[1] > 0 else None
        return says[1] == 0

    def call(self):
        """What the next call comes to: None where it succeeds."""
        if self.order is None:
            return None
        kind, calls, *left = self.order
        if calls > 1:
            self.order = kind, calls - 1, *left
            return None
        self.order = None
        return kind, *left

    def store(self):
        """What ended a store, and whether the file holds its entry then; None and True where
        nothing did."""
        written, synced = set(), set()
        for name in self.CALLS:
            event = self.call()
            if event == ("fault",):
                # A write that fails writes nothing, and a sync that fails leaves all as it was: a
                # further sync, which the opening makes, lets all that was written last.
                assert self.call() is None
                return event, "gate" in written
            if name != "sync":
                written.add(name)
            if event is not None:
                kept = written if event[1] == b"new" else synced
                assert self.call() is None
                return event, "gate" in kept
            if name == "sync":
                synced |= written
        return None, True


def answer(archive, start, stop, quality):
    """The buffers of a START, each a list of its items as they are told."""
    places = [place for place, entry in enumerate(archive)
              if entry[0] == "frame" and start <= moment(entry[1]) <= stop
              and quality in (2, entry[2])]
    items = [(*archive[place][1:4], continuity(archive, before, place), archive[place][5])
             for before, place in zip([None] + places, places)]
    buffers = [items[i:i + 2] for i in range(0, len(items), 2)]
    if any(closes(entry, stop) for entry in archive):
        buffers.append(["end"])
    elif len(items) % 2 == 1:
        buffers.pop()
    return buffers


# ---- a run

class Run:
    """A station and its connections, line by line: what was written, what the messages of each piece
    that was handed over say, and whether an entry was refused as Full."""

    def __init__(self, site):
        self.site, self.archive, self.file = site, [], File()
        self.clock, self.book, self.sessions = 0, Book(self.archive, site), {}
        # the run and the number of the CLTU that was sent last, while it is in the air
        self.in_air = None
        self.written, self.read, self.full = b"", [], False

    def line(self, says):
        """Does what a line says; ValueError where it stands in a wrong state."""
        kind, *fields = says
        if kind == "clock":
            self.clock = moment(fields[0])
        elif kind in ("crash", "fault"):
            if self.file.command(says):
                self.fail_power()
        elif kind == "start":
            self.start(moment(fields[0]), moment(fields[1]), fields[2])
        elif kind in ("frame", "loss", "production", "mark"):
            self.offer(says)
        elif kind == "open":
            self.open(*fields)
        elif kind == "take":
            self.take(*fields)
        elif kind == "done":
            self.done()
        elif kind == "uplink":
            self.book.moment(self.clock)
            self.book.queue.set_uplink(*fields)
        else:
            self.on_connection(kind, *fields)

    # ---- entries

    def offer(self, entry):
        why, is_full = refusal(self.archive, self.site.capacity, entry)
        self.written += why
        self.full = self.full or is_full
        if not why:
            self.store(entry)

    def store(self, entry):
        """Stores an entry; a power failure or a fault in its store is told."""
        event, holds = self.file.store()
        if holds:
            self.archive.append(entry)
        if event is not None and event[0] == "crash":
            self.fail_power()
        elif event is not None:
            self.written += b"fault\narchive %d\n" % len(self.archive)
            if not holds:
                # A lost entry is stored once more.
                assert self.file.store() == (None, True)
                self.archive.append(entry)

    def fail_power(self):
        """Connections and the book are new, and the archive is opened by what its file holds."""
        self.sessions, self.book, self.in_air = {}, Book(self.archive, self.site), None
        self.written += b"crash\narchive %d\n" % len(self.archive)

    def start(self, start, stop, quality):
        """A START of the desk."""
        if stop < start:
            self.written += b"refused 3\n"
            return
        for buffer in answer(self.archive, start, stop, quality):
            self.written += sent(0, buffer_message(buffer))
            self.read.append([[said(item) for item in buffer]])

    # ---- the antenna

    def take(self, fails):
        queue, now = self.book.queue, self.book.moment(self.clock)
        word, *found = queue.take(now)
        if word == "radiated" and fails:
            queue.interrupted(queue.run, found[0])
            word, found = "failed", found[:1]
        elif word == "radiated":
            self.in_air, found = (queue.run, found[0]), [found[0], found[1].hex()]
        self.written += " ".join([word, *map(str, found)]).encode() + b"\n"

    def done(self):
        if self.in_air is None:
            raise ValueError
        self.book.queue.done(*self.in_air, self.book.moment(self.clock))
        self.in_air = None

    # ---- connections

    def open(self, connection):
        if connection in self.sessions:
            raise ValueError
        self.sessions[connection] = Session(self.site, connection, self.clock)

    def on_connection(self, kind, connection, *fields):
        if connection not in self.sessions:
            raise ValueError
        link, rounds = self.sessions[connection].link, 1
        if kind == "in":
            link.arrive(*fields)
        elif kind == "shut":
            link.closed = True
        elif kind == "break":
            link.broken = True
        elif kind == "stall":
            (link.stalls,), rounds = fields, 0
        else:
            (rounds,) = fields
        while rounds > 0 and connection in self.sessions:
            self.round(connection)
            rounds -= 1

    def round(self, connection):
        told, end = self.sessions[connection].round(self.book, self.clock)
        for line, says in told:
            self.written += line
            if says is not None:
                self.read.append(says)
        if end is not None:
            self.written += b"ended %d %s\n" % (connection, end)
            self.book.free(connection)
            del self.sessions[connection]


def drill(script):
    """The exit code, the transcript, what the messages of each line of it say, and the script's
    site."""
    site, head, ended = head_of([])
    if len(script) > MOST_OCTETS:
        return 11, b"input too long\n", [], site
    lines = script.split(b"\n")
    if lines[-1] == b"":
        lines.pop()
    site, head, ended = head_of(lines)
    if ended is not None:
        return *ended, [], site
    run = Run(site)
    for place, line in enumerate(lines[head:], head + 1):
        try:
            says = line_of(line)
            if says is not None:
                run.line(says)
        except ValueError:
            return 3, run.written + b"bad line %d\n" % place, run.read, site
    return 9 if run.full else 0, run.written, run.read, site
