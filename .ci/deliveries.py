"""A second program for the return services: what a START is answered and hands over, and what is
reported (docs/PROFILE.md, sections 4 to 6 and 21). Each round works out anew, from the whole
archive, which entries are picked.
"""
from forms import DAY_MILLIS, PICOS, SECOND, element, integer, moment
from sites import RAF

FULL_OCTETS = 524_288
MOST_LOST = 16_777_215
BACKLOG, END = "backlog", "end"

# diagnostics of START, and of SCHEDULE-STATUS-REPORT
OUT_OF_SERVICE, INVALID_START, INVALID_STOP, MISSING_TIME, INVALID_CHANNEL = 0, 2, 3, 4, 5
NO_REPORTS_OFFLINE, STOPPED_ALREADY, INVALID_CYCLE = 0, 1, 2

HALTED = 2


# ---- times

def names_moment(stamp):
    _, millis, picos, size = stamp
    return millis < DAY_MILLIS and picos < (1_000_000_000 if size == 4 else 1_000 * PICOS)


def time_element(stamp):
    days, millis, picos, size = stamp
    rest = (picos if size == 4 else picos // PICOS).to_bytes(size, "big")
    return element(0x81 if size == 4 else 0x80,
                   days.to_bytes(2, "big") + millis.to_bytes(4, "big") + rest)


# ---- what the whole archive says

def continuity(archive, before, place):
    """Of the frame at a place, where the one before it in what is handed over stands at another."""
    if before is None:
        return -1
    since = archive[before + 1:place + 1]
    return min(MOST_LOST, sum(entry[4] for entry in since if entry[0] == "frame"))


def closes(entry, stop):
    """Whether no frame up to a time comes behind this entry any more."""
    return (entry[0] in ("frame", "mark") and moment(entry[1]) > stop
            or entry[0] == "mark" and moment(entry[1]) == stop)


def production_of(archive):
    return next((entry[1] for entry in reversed(archive) if entry[0] == "production"), 0)


def locks_of(archive):
    """Frame sync, symbol, subcarrier and carrier."""
    for kind, *fields in reversed(archive):
        if kind == "frame":
            return 0, 0, 0, 0
        if kind == "loss":
            _, carrier, subcarrier, symbol = fields
            return 1, symbol, subcarrier, carrier
    return 3, 3, 3, 3


def channel_of(frame):
    """Spacecraft, version and virtual channel by a frame's first octets, or None."""
    if len(frame) < 2:
        return None
    head = int.from_bytes(frame[:2], "big")
    if head >> 14 == 0:
        return head >> 4 & 1_023, 0, head >> 1 & 7
    return (head >> 6 & 255, 1, head & 63) if head >> 14 == 1 else None


def is_within(channel, wider):
    """Whether a channel is this one, or one of this master channel."""
    return channel is not None and channel[:2] == wider[:2] and wider[2] in (None, channel[2])


class Selection:
    """What a START asks for, with its times as moments or None: of RAF a quality, of RCF a channel."""

    def __init__(self, start, stop, wanted, first, is_online):
        self.start, self.stop, self.wanted = start, stop, wanted
        self.first, self.is_online = first, is_online

    def is_closed(self, archive):
        return self.stop is not None and any(closes(entry, self.stop) for entry in archive)

    def takes_frame(self, frame):
        _, stamp, quality, _, _, octets = frame
        is_wanted = self.wanted in (2, quality) if isinstance(self.wanted, int) \
            else quality == 0 and is_within(channel_of(octets), self.wanted)
        return is_wanted and (self.start is None or self.start <= moment(stamp)) and \
            (self.stop is None or moment(stamp) <= self.stop)

    def takes_notice(self, archive, place):
        before = archive[:place]
        has_begun = self.start is None or any(
            entry[0] == "frame" and moment(entry[1]) >= self.start for entry in before)
        return self.is_online and has_begun and not self.is_closed(before)

    def picked(self, archive):
        """The places of the entries that it takes."""
        return [place for place, entry in enumerate(archive) if place >= self.first
                and (entry[0] == "frame" and self.takes_frame(entry)
                     or entry[0] in ("loss", "production") and self.takes_notice(archive, place))]


# ---- an instance that is bound

class Reports:
    """When a bound instance's status reports are due."""

    def __init__(self, is_online):
        self.is_online = is_online
        # the seconds of a cycle of reports, when the last one was given, and whether one is asked for
        self.cycle, self.reported, self.owes_report = None, None, False

    def schedule(self, kind):
        """Why a SCHEDULE-STATUS-REPORT for "now", "stop" or seconds is refused, or None."""
        if not self.is_online:
            return NO_REPORTS_OFFLINE
        if kind == "stop":
            if self.cycle is None:
                return STOPPED_ALREADY
            self.cycle, self.owes_report = None, False
            return None
        if kind != "now":
            if not 2 <= kind <= 600:
                return INVALID_CYCLE
            self.cycle = kind
        self.owes_report = True
        return None

    def is_due(self, now):
        """Whether a report is given now."""
        if not self.owes_report and (
                self.cycle is None or now - self.reported < self.cycle * SECOND):
            return False
        self.reported, self.owes_report = now, False
        return True


class Returning(Reports):
    """A bound instance of a return service: stopped, or with a START whose picked entries are settled
    one buffer after the other. A buffer's items are BACKLOG, END, and places of the archive."""

    def __init__(self, instance):
        super().__init__(instance.mode != b"offline")
        self.service, self.mode, self.size = instance.service, instance.mode, instance.size
        self.latency, self.timeout = instance.latency, instance.timeout
        self.permitted = instance.channels
        self.asked = None
        # what the last START asked for: all frames of RAF, and no channel yet of RCF
        self.wanted = 2 if self.service == RAF else None
        self.error_free = self.delivered = 0

    def refusal(self, archive, start, stop, wanted):
        """Why a START is refused, or None. Its times are stamps or None."""
        if self.is_online and production_of(archive) == HALTED:
            return OUT_OF_SERVICE
        for stamp, fault in [(start, INVALID_START), (stop, INVALID_STOP)]:
            if stamp is not None and not names_moment(stamp):
                return fault
        if not self.is_online and None in (start, stop):
            return MISSING_TIME
        if None not in (start, stop) and moment(stop) < moment(start):
            return INVALID_STOP
        if self.service != RAF and not any(is_within(wanted, each) for each in self.permitted):
            return INVALID_CHANNEL
        return None

    def start(self, archive, start, stop, wanted):
        self.wanted = wanted
        start, stop = (None if stamp is None else moment(stamp) for stamp in (start, stop))
        first = 0 if self.mode != b"timely" and start is not None else len(archive)
        self.asked = Selection(start, stop, wanted, first, self.is_online)
        self.settled, self.before = 0, None
        self.items, self.fixed, self.since = [], False, None
        self.owes, self.has_ended = False, False

    def stop(self):
        self.asked = None

    # ---- a round's step

    def step(self, archive, now):
        """Fills the buffer; whether it was fixed in this round."""
        if self.asked is None or self.has_ended or self.fixed:
            return False
        places, is_closed = self.asked.picked(archive), self.asked.is_closed(archive)
        if not self.items and self.owes:
            self.put(BACKLOG, now)
        for place in places[self.settled + len(self.places()):]:
            if self.is_full(archive) or self.holds_notice(archive):
                break
            self.put(place, now)
        has_all = self.settled + len(self.places()) == len(places)
        if not self.items and is_closed and has_all:
            self.put(END, now)
        self.fixed = bool(self.items) and (
            self.is_full(archive) or self.holds_notice(archive)
            or any(item in (BACKLOG, END) for item in self.items)
            or self.is_online and now - self.since >= self.latency * SECOND or is_closed and has_all)
        return self.fixed

    def put(self, item, now):
        if not self.items:
            self.since = now
        self.items.append(item)

    def places(self):
        return [item for item in self.items if item not in (BACKLOG, END)]

    def is_full(self, archive):
        frames = [archive[place] for place in self.places() if archive[place][0] == "frame"]
        return len(self.items) >= self.size or sum(len(each[5]) for each in frames) >= FULL_OCTETS

    def holds_notice(self, archive):
        return any(archive[place][0] != "frame" for place in self.places())

    # ---- what a buffer tells, and what becomes of it

    def told(self, archive):
        """Its items as a user reads them."""
        told, before = [], self.before
        for item in self.items:
            if item in (BACKLOG, END):
                told.append(item)
            elif archive[item][0] == "frame":
                _, ert, quality, antenna, _, frame = archive[item]
                quality = quality if self.service == RAF else None
                told.append((ert, quality, antenna, continuity(archive, before, item), frame))
                before = item
            else:
                told.append(archive[item])
        return told

    def taken(self, archive):
        """The link took the buffer whole."""
        self.owes = self.owes and BACKLOG not in self.items
        self.has_ended = END in self.items
        for place in self.places():
            if archive[place][0] == "frame":
                self.before = place
                self.delivered += 1
                self.error_free += archive[place][2] == 0
        self.settle()

    def stalled(self):
        """The link stalled: how many items are discarded, or None where the buffer is kept."""
        if self.mode != b"timely" or not self.places():
            return None
        discarded = len(self.places())
        self.owes = True
        self.settle()
        return discarded

    def settle(self):
        self.settled += len(self.places())
        self.items, self.fixed = [], False


    # ---- reports and parameters

    def report(self, archive, now):
        """The numbers of the report that is due, or None."""
        if not self.is_due(now):
            return None
        counts = [self.error_free, self.delivered] if self.service == RAF else [self.delivered]
        return [*counts, *locks_of(archive), production_of(archive)]

    def parameter(self, name):
        """The tag and the value of a parameter, or None where there is none of this name."""
        mode = [b"timely", b"complete", b"offline"].index(self.mode)
        return {
            4: (0, self.size), 6: (1, mode), 15: (2, self.latency if self.is_online else None),
            26: (3, self.cycle), 27 if self.service == RAF else 28: (4, self.wanted),
            29: (5, self.timeout),
        }.get(name)


# ---- its octets (CCSDS 911.1-B, annex A)

def spelled_item(credentials, item):
    """An item as it is told, behind its credentials."""
    if item in (BACKLOG, END):
        return element(0xA1, credentials + element(0x82 if item == BACKLOG else 0x83, b""))
    if item[0] == "production":
        return element(0xA1, credentials + integer(item[1], 0x81))
    if item[0] == "loss":
        fields = time_element(item[1]) + b"".join(map(integer, item[2:]))
        return element(0xA1, credentials + element(0xA0, fields))
    ert, quality, antenna, gap, frame = item
    received = b"" if quality is None else integer(quality)
    return element(0xA0, credentials + time_element(ert) + element(0x81, antenna) + integer(gap)
                   + received + element(0x80, b"") + element(0x04, frame))


def spelled_buffer(credentials, items):
    return element(0xA8, b"".join(map(spelled_item, credentials, items)))


def channel_fields(channel):
    spacecraft, version, virtual = channel
    return integer(spacecraft) + integer(version) + (
        element(0x80, b"") if virtual is None else integer(virtual, 0x81))


def spelled_parameter(name, tag, value):
    """A parameter's name and value; the limit, the cycle and the channel may be none."""
    if value is None:
        told = element(0x81 if tag == 2 else 0x80, b"")
    elif tag in (2, 3):
        told = integer(value, 0x80 if tag == 2 else 0x81)
    else:
        told = integer(value) if isinstance(value, int) else element(0xA1, channel_fields(value))
    return element(0xA0 + tag, integer(name) + told)
