"""A second program for the forward service: the queue of CLTUs, and what a bound instance is
answered and told (docs/PROFILE.md, section 13). It keeps each CLTU as its user sent it.
"""
from deliveries import Reports, names_moment, time_element
from forms import DAY_MILLIS, MILLI, PICOS, element, integer, moment

LAST_ID = 4_294_967_295
MANY_NOTICES = 1_000
LONGEST_DELAY = 600_000_000

# production
OPERATIONAL, INTERRUPTED, HALTED = 0, 2, 3
# diagnostics of START and of TRANSFER-DATA
OUT_OF_SERVICE, UNABLE_TO_COMPLY = 0, 1
UNABLE_TO_PROCESS, UNABLE_TO_STORE, OUT_OF_SEQUENCE, INCONSISTENT_RANGE = 0, 1, 2, 3
INVALID_TIME, LATE, INVALID_DELAY, CLTU_ERROR = 4, 5, 6, 7
# what became of a CLTU, and notices
RADIATED, EXPIRED, BROKEN_OFF, STARTED = 0, 1, 2, 4
TOLD_RADIATED, TOLD_EXPIRED, TOLD_EMPTY = 0, 1, 5
OF_PRODUCTION = {INTERRUPTED: 2, HALTED: 3, OPERATIONAL: 4}


def stamp_at(now):
    """The stamp of a moment, in microseconds, rounded down."""
    millis, picos = divmod(now, MILLI)
    return *divmod(millis, DAY_MILLIS), picos // PICOS * PICOS, 2


class Queue:
    """The CLTUs of a station, each its identification, two stamps or None, a delay, whether a notice is
    wanted, and its octets."""

    def __init__(self, room, longest):
        self.room, self.longest = room, longest
        self.run, self.is_started, self.is_blocked, self.next = 0, False, False, None
        self.waiting, self.in_air, self.rests_until = [], None, 0
        self.processed = self.ok = None
        self.received = self.taken = self.radiated = 0
        self.notices, self.production, self.uplink = [], OPERATIONAL, 3

    def free(self):
        return self.room - sum(len(each[5]) for each in self.waiting)

    def told_next(self):
        return LAST_ID if self.next is None else self.next

    def notify(self, kind):
        self.notices.append((kind, self.processed, self.ok, self.production, self.uplink))

    def discard(self):
        self.waiting, self.is_blocked = [], True

    def start(self, first):
        """Why a START is refused, or None."""
        if self.production in (HALTED, INTERRUPTED):
            return OUT_OF_SERVICE if self.production == HALTED else UNABLE_TO_COMPLY
        self.run, self.is_started, self.is_blocked, self.next = self.run + 1, True, False, first
        self.waiting, self.processed, self.ok = [], None, None
        self.received = self.taken = self.radiated = 0
        return None

    def stop(self):
        self.is_started, self.waiting, self.notices = False, [], []

    def transfer(self, cltu, now):
        """Why a TRANSFER-DATA is refused, or None."""
        number, earliest, latest, delay, _, octets = cltu
        if self.is_blocked:
            return UNABLE_TO_PROCESS
        if self.next is None or number != self.next:
            return OUT_OF_SEQUENCE
        if not all(stamp is None or names_moment(stamp) for stamp in (earliest, latest)):
            return INVALID_TIME
        if None not in (earliest, latest) and moment(earliest) > moment(latest):
            return INCONSISTENT_RANGE
        if latest is not None and moment(latest) < now:
            return LATE
        if delay > LONGEST_DELAY:
            return INVALID_DELAY
        if len(octets) > self.longest:
            return CLTU_ERROR
        if len(octets) > self.free():
            return UNABLE_TO_STORE
        self.waiting.append(cltu)
        self.received += 1
        self.next = None if number == LAST_ID else number + 1
        return None

    def take(self, now):
        """What a take finds: a word, and the CLTU's number, and its octets where it radiates."""
        if not self.waiting or self.is_blocked or self.in_air is not None \
                or self.production != OPERATIONAL or len(self.notices) >= MANY_NOTICES:
            return "idle",
        number, earliest, latest, delay, wanted, octets = self.waiting[0]
        if latest is not None and moment(latest) < now:
            self.discard()
            self.processed = number, None, EXPIRED
            self.taken += 1
            self.notify(TOLD_EXPIRED)
            return "expired", number
        if max(0 if earliest is None else moment(earliest), self.rests_until) > now:
            return "waits",
        del self.waiting[0]
        self.in_air = self.run, number, stamp_at(now), delay, wanted
        self.processed = number, stamp_at(now), STARTED
        self.taken += 1
        return "radiated", number, octets

    def landed(self, run, number):
        """What was in the air where this CLTU was, and None once it left unless its run goes on."""
        if self.in_air is None or self.in_air[:2] != (run, number):
            return None
        was, self.in_air = self.in_air, None
        return was if self.is_started and run == self.run else None

    def done(self, run, number, now):
        was = self.landed(run, number)
        if was is None:
            return
        _, _, began, delay, wanted = was
        self.processed, self.ok = (number, began, RADIATED), (number, stamp_at(now))
        self.rests_until = now + delay * PICOS
        self.radiated += 1
        if wanted:
            self.notify(TOLD_RADIATED)
        if not self.waiting:
            self.notify(TOLD_EMPTY)

    def interrupted(self, run, number):
        was = self.landed(run, number)
        if was is None:
            return
        self.discard()
        self.production, self.processed = INTERRUPTED, (number, was[2], BROKEN_OFF)
        self.notify(OF_PRODUCTION[INTERRUPTED])

    def set_uplink(self, production, uplink):
        changed = production != self.production
        self.production, self.uplink = production, uplink
        if not self.is_started or not changed:
            return
        if production in (INTERRUPTED, HALTED):
            self.discard()
        if production in OF_PRODUCTION:
            if self.notices and self.notices[-1][0] in OF_PRODUCTION.values():
                self.notices.pop()
            self.notify(OF_PRODUCTION[production])


class Commanding(Reports):
    """A bound instance of the forward service."""

    def __init__(self, instance):
        super().__init__(True)
        self.timeout = instance.timeout

    def parameter(self, name):
        """The tag and the value of a parameter, or None where there is none of this name."""
        return {6: (1, 3), 26: (3, self.cycle), 29: (5, self.timeout)}.get(name)


# ---- octets (CCSDS 912.1-B, annex A)

def spelled_conditional(stamp):
    return element(0x80, b"") if stamp is None else element(0xA1, time_element(stamp))


def spelled_processed(processed):
    if processed is None:
        return element(0x80, b"")
    number, began, status = processed
    return element(0xA1, integer(number) + spelled_conditional(began) + integer(status))


def spelled_ok(ok):
    if ok is None:
        return element(0x80, b"")
    number, ended = ok
    return element(0xA1, integer(number) + time_element(ended))


def spelled_notice(notice):
    kind, processed, ok, production, uplink = notice
    return (element(0x80 + kind, b"") + spelled_processed(processed) + spelled_ok(ok)
            + integer(production) + integer(uplink))


def spelled_report(numbers):
    processed, ok, *counts = numbers
    return spelled_processed(processed) + spelled_ok(ok) + b"".join(map(integer, counts))


def report_of(queue):
    """The numbers of a status report."""
    return (queue.processed, queue.ok, queue.production, queue.uplink, queue.received, queue.taken,
            queue.radiated, queue.free())
