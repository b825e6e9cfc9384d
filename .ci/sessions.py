"""A second program for associations: CCSDS 913.1-B (transport and credentials), 911.1-B (BIND,
UNBIND, PEER-ABORT), and the rounds of a session by docs/PROFILE.md.

Each round reads the octets that a connection holds anew, from their front.
"""
import hashlib

from commands import (Commanding, Queue, report_of, spelled_conditional, spelled_notice,
                      spelled_report, stamp_at)
from deliveries import Returning, channel_fields, spelled_buffer, spelled_parameter, time_element
from forms import (ATTRIBUTES, DAY_MILLIS, MILLI, PICOS, SECOND, Elements, element, integer,
                   moment, pdu_message, sent)
from sites import CLTU, RAF, RCF

# the kinds of transport messages
PDU, CONTEXT, HEARTBEAT = 1, 2, 3
CONTEXT_BEGINS = b"ISP1\0\0\0\1"
MOST_PDU = 1_048_576
MOST_HELD = 8 + MOST_PDU
MOST_PIECE = 65_536
HEARTBEAT_MESSAGE = bytes([3, 0, 0, 0, 0, 0, 0, 0])

# outer tags
BIND, BIND_RETURN = b"\xbf\x64", b"\xbf\x65"
UNBIND, UNBIND_RETURN = b"\xbf\x66", b"\xbf\x67"
PEER_ABORT = b"\x9f\x68"
START, START_RETURN, STOP, STOP_RETURN = b"\xa0", b"\xa1", b"\xa2", b"\xa3"
SCHEDULE, SCHEDULE_RETURN, GET, GET_RETURN = b"\xa4", b"\xa5", b"\xa6", b"\xa7"
REPORT = b"\xa9"
# of the forward service
THROW, THROW_RETURN, TRANSFER, TRANSFER_RETURN = b"\xa8", b"\xa9", b"\xaa", b"\xab"
NOTICE, CLTU_REPORT = b"\xac", b"\xad"

# inner tags
SEQUENCE, SET, INTEGER, VISIBLE = b"\x30", b"\x31", b"\x02", b"\x1a"
OCTETS, OBJECT, TAG_0, TAG_1, TAG_2 = b"\x04", b"\x06", b"\x80", b"\x81", b"\x82"
MEMBERS_0, MEMBERS_1 = b"\xa0", b"\xa1"
ATTRIBUTE_ARC = bytes.fromhex("2b7004030102")

# diagnostics of BIND, and of an abort
ACCESS_DENIED, NO_SERVICE, NO_VERSION, NO_INSTANCE = 0, 1, 2, 3
BOUND_ALREADY, OF_ANOTHER, OTHER_SERVICE = 4, 5, 6
ABORT_DENIED, PROTOCOL_ERROR, COMMUNICATIONS_FAILURE, ENCODING_ERROR = 0, 3, 4, 5
# of GET-PARAMETER, and of THROW-EVENT
UNKNOWN_PARAMETER = 0
NOT_SUPPORTED = 0


# ---- the stream of transport messages

def fault_of(octets):
    """The number of the fault that octets in a message's place show as far as they came, or 0."""
    kind, length = octets[:1], octets[4:8]
    if kind and kind[0] not in (PDU, CONTEXT, HEARTBEAT):
        return 1
    if any(octets[1:4]):
        return 2
    if len(length) < 4:
        return 0
    size = int.from_bytes(length, "big")
    if kind[0] == PDU:
        return 4 if size > MOST_PDU else 0
    if size != (12 if kind[0] == CONTEXT else 0):
        return 3
    return 5 if kind[0] == CONTEXT and not CONTEXT_BEGINS.startswith(octets[8:16]) else 0


def stream(octets):
    """The whole messages at the front, each its kind and body, and the fault behind them, or 0."""
    messages = []
    while True:
        fault = fault_of(octets)
        end = 8 + int.from_bytes(octets[4:8], "big")
        if fault or len(octets) < 8 or len(octets) < end:
            return messages, fault
        messages.append((octets[0], octets[8:end]))
        octets = octets[end:]


# ---- credentials

def stamp_of(now):
    millis, picos = divmod(now, MILLI)
    days, millis = divmod(millis, DAY_MILLIS)
    return days.to_bytes(2, "big") + millis.to_bytes(4, "big") + (picos // PICOS).to_bytes(2, "big")


def digest(name, password, hash, stamp, number):
    covered = element(0x30, element(0x04, stamp) + integer(number) + element(0x1A, name)
                      + element(0x04, password))
    return hashlib.new(hash.decode(), covered).digest()


def signed(name, password, hash, stamp, number):
    """The octets of used credentials."""
    return element(0x30, element(0x04, stamp) + integer(number)
                   + element(0x04, digest(name, password, hash, stamp, number)))


def authentic(peer, credentials, now):
    """Whether used credentials, or None, are a peer's at this moment."""
    if credentials is None:
        return False
    try:
        whole = Elements(credentials)
        fields = whole.members(SEQUENCE)
        stamp, number = fields.content(OCTETS), fields.integer(INTEGER, 0, 2**31 - 1)
        protected = fields.content(OCTETS)
        fields.end()
        whole.end()
        if len(stamp) != 8:
            return False
    except ValueError:
        return False
    days, millis, micros = (int.from_bytes(part, "big")
                            for part in (stamp[:2], stamp[2:6], stamp[6:]))
    if millis >= DAY_MILLIS or micros >= 1_000:
        return False
    if abs(now - moment((days, millis, micros * PICOS, 2))) > peer.delay * SECOND:
        return False
    return protected == digest(peer.name, peer.password, peer.hash, stamp, number)


# ---- a user's PDUs

def identifier_of(octets):
    """The identifier octets at the front of a PDU, or None where none stand there whole."""
    if not octets or octets[0] & 31 != 31:
        return octets[:1] or None
    if not octets[1:] or octets[1] < 31 or octets[1] == 128:
        return None
    last = next((place for place, octet in enumerate(octets[1:], 1) if octet < 128), None)
    return None if last is None else octets[:last + 1]


def read_credentials(fields):
    tag, content = fields.one_of(TAG_0, TAG_1)
    if tag == TAG_0 and not content:
        return None
    if tag == TAG_1 and 8 <= len(content) <= 256:
        return content
    raise ValueError("credentials")


def read_attribute(fields):
    outer = fields.members(SET)
    pair = outer.members(SEQUENCE)
    outer.end()
    name, value = pair.content(OBJECT), pair.visible(VISIBLE, 1, 256)
    pair.end()
    for attribute, number in ATTRIBUTES.items():
        if name == ATTRIBUTE_ARC + bytes([number]):
            if any(octet in b" .=" for octet in value):
                raise ValueError("value")
            return attribute, value
    raise ValueError("attribute")


def read_identifier(fields):
    inner, attributes = fields.members(SEQUENCE), []
    while inner.rest:
        attributes.append(read_attribute(inner))
    if not 1 <= len(attributes) <= 8:
        raise ValueError("identifier")
    return tuple(attributes)


def decoded(tag, read, octets):
    """What a PDU of this tag says, or None where it doesn't decode."""
    try:
        whole = Elements(octets)
        fields = whole.members(tag)
        value = read(fields)
        fields.end()
        whole.end()
        return value
    except ValueError:
        return None


def bind_fields(fields):
    credentials, initiator = read_credentials(fields), fields.visible(VISIBLE, 3, 16)
    fields.visible(VISIBLE, 1, 128)
    service, version = fields.integer(INTEGER, 0, 65_535), fields.integer(INTEGER, 1, 65_535)
    return credentials, initiator, service, version, read_identifier(fields)


def unbind_fields(fields):
    credentials = read_credentials(fields)
    fields.integer(INTEGER, 0, 127)
    return (credentials,)


def read_time(tag, content):
    """A stamp, which may name no moment."""
    size = len(content) - 6
    if (tag, size) not in ((TAG_0, 2), (TAG_1, 4)):
        raise ValueError("time")
    days, millis, rest = (int.from_bytes(part, "big")
                          for part in (content[:2], content[2:6], content[6:]))
    return days, millis, rest * PICOS if size == 2 else rest, size


def read_conditional(fields):
    """A stamp, or None."""
    tag, content = fields.one_of(TAG_0, MEMBERS_1)
    if tag == TAG_0:
        if content:
            raise ValueError("undefined")
        return None
    inner = Elements(content)
    stamp = read_time(*inner.one_of(TAG_0, TAG_1))
    inner.end()
    return stamp


def read_empty(content):
    if content:
        raise ValueError("no NULL")


def read_number(content, most):
    """An INTEGER by its content alone."""
    return Elements(element(INTEGER, content)).integer(INTEGER, 0, most)


def read_channel(fields):
    spacecraft, version = fields.integer(INTEGER, 0, 1_023), fields.integer(INTEGER, 0, 3)
    tag, content = fields.one_of(TAG_0, TAG_1)
    virtual = read_empty(content) if tag == TAG_0 else read_number(content, 63)
    fields.end()
    return spacecraft, version, virtual


# what a START of each return service asks for: a quality or a channel
WANTED = {
    RAF: lambda fields: fields.integer(INTEGER, 0, 2),
    RCF: lambda fields: read_channel(fields.members(SEQUENCE)),
}


def start_fields(service):
    def read(fields):
        credentials, invoke = read_credentials(fields), fields.integer(INTEGER, 0, 65_535)
        start, stop = read_conditional(fields), read_conditional(fields)
        return credentials, invoke, start, stop, WANTED[service](fields)
    return read


def stop_fields(fields):
    return read_credentials(fields), fields.integer(INTEGER, 0, 65_535)


def schedule_fields(fields):
    """With "now", "stop", or the seconds of a cycle."""
    credentials, invoke = stop_fields(fields)
    tag, content = fields.one_of(TAG_0, TAG_1, TAG_2)
    if tag == TAG_1:
        return credentials, invoke, read_number(content, 65_535)
    read_empty(content)
    return credentials, invoke, "now" if tag == TAG_0 else "stop"


def get_fields(fields):
    return *stop_fields(fields), fields.integer(INTEGER, 0, 65_535)


def cltu_start_fields(fields):
    return *stop_fields(fields), fields.integer(INTEGER, 0, 2**32 - 1)


def throw_fields(fields):
    read = *stop_fields(fields), fields.integer(INTEGER, 0, 2**32 - 1)
    fields.integer(INTEGER, 0, 65_535)
    if len(fields.content(OCTETS)) > 1_024:
        raise ValueError("qualifier")
    return read


def transfer_fields(fields):
    """With the CLTU as the queue has it."""
    credentials, invoke = stop_fields(fields)
    number = fields.integer(INTEGER, 0, 2**32 - 1)
    earliest, latest = read_conditional(fields), read_conditional(fields)
    delay = fields.integer(INTEGER, 0, 2**32 - 1)
    wanted = fields.integer(INTEGER, 0, 1) == 0
    octets = fields.content(OCTETS)
    if not 1 <= len(octets) <= 65_536:
        raise ValueError("CLTU")
    return credentials, invoke, (number, earliest, latest, delay, wanted, octets)


def abort_fields(octets):
    """The diagnostic of a PEER-ABORT, or None where it doesn't decode."""
    try:
        whole = Elements(octets)
        diagnostic = whole.integer(PEER_ABORT, 0, 127)
        whole.end()
        return (diagnostic,)
    except ValueError:
        return None


def peer_abort(diagnostic, book, now):
    return b"peer-aborted %d" % diagnostic


# ---- the same, written

def spelled_credentials(octets):
    return element(TAG_0, b"") if octets is None else element(TAG_1, octets)


def spelled_identifier(identifier):
    pairs = [element(OBJECT, ATTRIBUTE_ARC + bytes([ATTRIBUTES[name]])) + element(VISIBLE, value)
             for name, value in identifier]
    return element(SEQUENCE, b"".join(element(SET, element(SEQUENCE, pair)) for pair in pairs))


def bind_pdu(credentials, initiator, port, service, version, identifier):
    return element(BIND, spelled_credentials(credentials) + element(VISIBLE, initiator)
                   + element(VISIBLE, port) + integer(service) + integer(version)
                   + spelled_identifier(identifier))


def unbind_pdu(credentials, reason):
    return element(UNBIND, spelled_credentials(credentials) + integer(reason))


def start_pdu(credentials, invoke, start, stop, wanted):
    """Of RAF with a quality, of RCF with a channel."""
    asked = integer(wanted) if isinstance(wanted, int) else element(SEQUENCE, channel_fields(wanted))
    return element(START, spelled_credentials(credentials) + integer(invoke)
                   + spelled_conditional(start) + spelled_conditional(stop) + asked)


def cltu_start_pdu(credentials, invoke, first):
    return element(START, spelled_credentials(credentials) + integer(invoke) + integer(first))


def throw_pdu(credentials, invoke, number, event, qualifier):
    return element(THROW, spelled_credentials(credentials) + integer(invoke) + integer(number)
                   + integer(event) + element(OCTETS, qualifier))


def transfer_pdu(credentials, invoke, number, earliest, latest, delay, wanted, octets):
    return element(TRANSFER, spelled_credentials(credentials) + integer(invoke) + integer(number)
                   + spelled_conditional(earliest) + spelled_conditional(latest) + integer(delay)
                   + integer(0 if wanted else 1) + element(OCTETS, octets))


def stop_pdu(credentials, invoke):
    return element(STOP, spelled_credentials(credentials) + integer(invoke))


def schedule_pdu(credentials, invoke, kind):
    asked = {"now": element(TAG_0, b""), "stop": element(TAG_2, b"")}
    return element(SCHEDULE, spelled_credentials(credentials) + integer(invoke)
                   + (asked[kind] if kind in asked else integer(kind, TAG_1)))


def get_pdu(credentials, invoke, name):
    return element(GET, spelled_credentials(credentials) + integer(invoke) + integer(name))


# ---- a connection

class Link:
    """What waits on a connection, oldest first, and what its user ordered."""

    def __init__(self):
        self.pieces, self.closed, self.broken, self.stalls = [], False, False, 0

    def arrive(self, piece):
        # what comes behind the close is never read
        if not self.closed:
            self.pieces.append(piece)

    def poll(self, most):
        """Octets, or why there are none."""
        if self.broken:
            return "failed"
        if not self.pieces:
            return "closed" if self.closed else "nothing"
        octets, left = self.pieces[0][:most], self.pieces[0][most:]
        self.pieces[:1] = [left] if left else []
        return octets


class Book:
    """What is published, which door has an instance, the queue of CLTUs, and the latest moment."""

    def __init__(self, archive, site):
        self.archive, self.doors, self.latest = archive, {}, 0
        forward = site.forward()
        self.forward = None if forward is None else forward.identifier
        self.queue = Queue(forward.room, forward.longest) if forward is not None else Queue(0, 0)

    def moment(self, reading):
        self.latest = max(self.latest, reading)
        return self.latest

    def bind(self, identifier, door):
        """Whether the door has the instance then."""
        return self.doors.setdefault(identifier, door) == door

    def free(self, door):
        if self.forward is not None and self.doors.get(self.forward) == door:
            self.queue.stop()
        self.doors = {instance: owner for instance, owner in self.doors.items() if owner != door}


class Session:
    """A session at a door: opening until its context came, unbound, or bound to a peer, with its
    instance where that is one of RAF or RCF. Its block is messages, each with what it says, and its
    buffer one, or None until it is fixed."""

    def __init__(self, site, door, entered):
        self.site, self.door, self.link = site, door, Link()
        self.held, self.block, self.buffer = b"", [], None
        self.is_opening, self.peer, self.closing = True, None, None
        self.service, self.commands, self.is_active = None, None, False
        self.interval = self.factor = 0
        self.sent = self.heard = entered
        self.number = (1 + door) % 2**31

    def round(self, book, reading):
        """One round: the lines that it tells, each with what its messages say, and the word with
        which it ends, or None."""
        told, blocked, relieved = [], False, False
        if self.block:
            blocked = not self.offer(told)
            relieved = not blocked
        heard = "nothing"
        if not blocked and self.closing is None and not stream(self.held)[0]:
            heard = self.link.poll(min(MOST_PIECE, MOST_HELD - len(self.held)))
        now = book.moment(reading)
        if relieved:
            self.sent = now
        if isinstance(heard, bytes):
            self.heard, self.held = now, self.held + heard
        was_active = self.is_active
        end = self.act(heard, blocked, book, now)
        if end is None and not blocked:
            if self.closing is None and self.commands is not None:
                self.tell(book.queue, now)
            elif self.closing is None and self.service is not None:
                self.report(book.archive, now)
                if was_active and self.is_active and self.service.step(book.archive, now):
                    self.fix(book.archive, now)
            end = self.speak(told, book.archive, now)
        return told, end

    def offer(self, told):
        """Offers the block. Whether it was taken."""
        if self.link.stalls:
            self.link.stalls -= 1
            told.append((b"stalled %d\n" % self.door, None))
            return False
        told.append((sent(self.door, b"".join(message for _, message in self.block)),
                     [says for says, _ in self.block]))
        self.block = []
        return True

    def act(self, heard, blocked, book, now):
        """What came is handled, one message at most, and then the dead timer judged."""
        end = None
        if heard == "failed":
            return b"fault"
        if not blocked and self.closing is None:
            messages, fault = stream(self.held)
            if fault:
                return b"broken %d" % fault
            if heard == "closed":
                return b"closed"
            if messages:
                kind, body = messages[0]
                self.held = self.held[8 + len(body):]
                end = self.handle(kind, body, book, now)
        if end is None and self.has_passed(now, self.heard, self.interval * self.factor):
            end = b"aborted %d" % COMMUNICATIONS_FAILURE
        return end

    def has_passed(self, now, since, seconds):
        return self.interval > 0 and now - since >= seconds * SECOND

    def report(self, archive, now):
        """A status report that is due, behind the return."""
        numbers = self.service.report(archive, now)
        if numbers is not None:
            own = self.own_at_all(now)
            pdu = element(REPORT, own_credentials(own) + b"".join(map(integer, numbers)))
            self.block.append((("report", own, *numbers), pdu_message(pdu)))

    def tell(self, queue, now):
        """A report that is due, and then the next notice of a started run."""
        if self.commands.is_due(now):
            own, numbers = self.own_at_all(now), report_of(queue)
            pdu = element(CLTU_REPORT, own_credentials(own) + spelled_report(numbers))
            self.block.append((("commands", own, *numbers), pdu_message(pdu)))
        if queue.is_started and queue.notices:
            own, notice = self.own_at_all(now), queue.notices.pop(0)
            pdu = element(NOTICE, own_credentials(own) + spelled_notice(notice))
            self.block.append((("notice", own, *notice), pdu_message(pdu)))

    def fix(self, archive, now):
        """The buffer that is due, with credentials for each of its items where the peer wants them."""
        items = self.service.told(archive)
        own = [self.own_at_all(now) for _ in items]
        says = [list(pair) for pair in zip(own, items)]
        self.buffer = says, pdu_message(spelled_buffer(map(own_credentials, own), items))

    def speak(self, told, archive, now):
        if not self.block and self.has_passed(now, self.sent, self.interval):
            self.block.append((("heartbeat",), HEARTBEAT_MESSAGE))
        if self.block and self.offer(told):
            self.sent = now
        if not self.block and self.buffer and self.offer_buffer(told, archive):
            self.sent = now
        return None if self.block else self.closing

    def offer_buffer(self, told, archive):
        """Offers the buffer. Whether it was taken."""
        if self.link.stalls:
            self.link.stalls -= 1
            told.append((b"stalled %d\n" % self.door, None))
            discarded = self.service.stalled()
            if discarded is not None:
                told.append((b"discarded %d %d\n" % (self.door, discarded), None))
                self.buffer = None
            return False
        says, message = self.buffer
        told.append((sent(self.door, message), [says]))
        self.service.taken(archive)
        self.buffer = None
        return True

    # ---- messages: each gives the word with which the session ends, or None

    def handle(self, kind, body, book, now):
        if self.is_opening:
            return self.context(body) if kind == CONTEXT else b"aborted %d" % PROTOCOL_ERROR
        if kind == HEARTBEAT:
            return None
        if kind == CONTEXT:
            return b"aborted %d" % PROTOCOL_ERROR
        return self.pdu(body, book, now)

    def context(self, body):
        interval, factor = (int.from_bytes(part, "big") for part in (body[8:10], body[10:12]))
        least, most, least_factor, most_factor = self.site.heartbeat
        if interval and not least <= interval <= most or not least_factor <= factor <= most_factor:
            return b"range"
        self.is_opening, self.interval, self.factor = False, interval, factor
        return None

    def pdu(self, octets, book, now):
        tag, bound = identifier_of(octets), self.peer is not None
        if tag == PEER_ABORT:
            said, in_place, answer = abort_fields(octets), True, peer_abort
        elif tag == BIND:
            said, in_place, answer = decoded(BIND, bind_fields, octets), not bound, self.bind
        elif bound:
            said, in_place, answer = self.bound_pdu(octets)
        else:
            said, in_place, answer = tag, False, None
        if said is None:
            return b"aborted %d" % ENCODING_ERROR
        return answer(*said, book, now) if in_place else b"aborted %d" % PROTOCOL_ERROR

    def bound_pdu(self, octets):
        """What a bound user's PDU says, whether it is in place, and what answers it."""
        known = [(UNBIND, unbind_fields, not self.is_active, self.unbind)]
        if self.service is not None:
            known += [(START, start_fields(self.service.service), not self.is_active, self.start),
                      (STOP, stop_fields, self.is_active, self.stop),
                      (SCHEDULE, schedule_fields, True, self.schedule),
                      (GET, get_fields, True, self.parameter)]
        if self.commands is not None:
            known += [(START, cltu_start_fields, not self.is_active, self.start_run),
                      (STOP, stop_fields, self.is_active, self.stop_run),
                      (TRANSFER, transfer_fields, self.is_active, self.transfer),
                      (THROW, throw_fields, True, self.throw),
                      (SCHEDULE, schedule_fields, True, self.schedule),
                      (GET, get_fields, True, self.parameter)]
        for tag, read, in_place, answer in known:
            said = decoded(tag, read, octets)
            if said is not None:
                return said, in_place, answer
        return None, False, None

    def bind(self, credentials, initiator, service, version, identifier, book, now):
        peer, instance = self.site.peer(initiator), self.site.instance(identifier)
        if peer is None or peer.level != b"none" and not authentic(peer, credentials, now):
            self.closing = b"denied"
            return self.answer_bind(None, "refused", ACCESS_DENIED)
        faults = [
            (NO_SERVICE, service not in (RAF, RCF, CLTU)),
            (NO_VERSION, version not in self.site.versions),
            (NO_INSTANCE, instance is None),
            (OF_ANOTHER, instance is not None and instance.owner != peer.name),
            (OTHER_SERVICE, instance is not None and instance.service != service),
        ]
        diagnostic = next((fault for fault, holds in faults if holds), None)
        if diagnostic is None and not book.bind(identifier, self.door):
            diagnostic = BOUND_ALREADY
        own = self.credentials(peer, now) if peer.level != b"none" else None
        if diagnostic is not None:
            return self.answer_bind(own, "refused", diagnostic)
        self.peer = peer
        if service == CLTU:
            self.commands = Commanding(instance)
        else:
            self.service = Returning(instance)
        return self.answer_bind(own, "bound", version)

    def answer_bind(self, own, word, result):
        fields = own_credentials(own) + element(VISIBLE, self.site.provider)
        pdu = element(BIND_RETURN, fields + integer(result, TAG_0 if word == "bound" else TAG_1))
        self.block = [((word, own, self.site.provider, result), pdu_message(pdu))]

    def unbind(self, credentials, book, now):
        if self.is_false(credentials, now):
            return b"aborted %d" % ABORT_DENIED
        own = self.own_at_all(now)
        book.free(self.door)
        self.closing = b"unbound"
        pdu = element(UNBIND_RETURN, own_credentials(own) + element(TAG_0, b""))
        self.block = [(("unbound", own), pdu_message(pdu))]
        return None

    def start(self, credentials, invoke, start, stop, wanted, book, now):
        if self.is_false(credentials, now):
            return b"aborted %d" % ABORT_DENIED
        refusal = self.service.refusal(book.archive, start, stop, wanted)
        if refusal is None:
            self.service.start(book.archive, start, stop, wanted)
            self.is_active = True
        return self.answer("start", START_RETURN, invoke, refusal, now)

    def stop(self, credentials, invoke, book, now):
        if self.is_false(credentials, now):
            return b"aborted %d" % ABORT_DENIED
        self.service.stop()
        self.is_active, self.buffer = False, None
        return self.answer("stop", STOP_RETURN, invoke, None, now)

    def schedule(self, credentials, invoke, kind, book, now):
        if self.is_false(credentials, now):
            return b"aborted %d" % ABORT_DENIED
        refusal = (self.service or self.commands).schedule(kind)
        return self.answer("schedule", SCHEDULE_RETURN, invoke, refusal, now)

    def parameter(self, credentials, invoke, name, book, now):
        if self.is_false(credentials, now):
            return b"aborted %d" % ABORT_DENIED
        found = (self.service or self.commands).parameter(name)
        if found is None:
            return self.answer("get", GET_RETURN, invoke, UNKNOWN_PARAMETER, now)
        told = element(MEMBERS_0, spelled_parameter(name, *found))
        return self.answer("get", GET_RETURN, invoke, None, now, told, name, *found)

    # ---- the forward service's

    def start_run(self, credentials, invoke, first, book, now):
        if self.is_false(credentials, now):
            return b"aborted %d" % ABORT_DENIED
        refusal, stamp = book.queue.start(first), stamp_at(now)
        self.is_active = refusal is None
        told = element(MEMBERS_0, time_element(stamp) + spelled_conditional(None))
        return self.answer("start", START_RETURN, invoke, refusal, now, told, stamp)

    def stop_run(self, credentials, invoke, book, now):
        if self.is_false(credentials, now):
            return b"aborted %d" % ABORT_DENIED
        book.queue.stop()
        self.is_active = False
        return self.answer("stop", STOP_RETURN, invoke, None, now)

    def transfer(self, credentials, invoke, cltu, book, now):
        if self.is_false(credentials, now):
            return b"aborted %d" % ABORT_DENIED
        refusal = book.queue.transfer(cltu, now)
        return self.answer_with("transfer", TRANSFER_RETURN, invoke,
                                (book.queue.told_next(), book.queue.free()), refusal, now)

    def throw(self, credentials, invoke, number, book, now):
        if self.is_false(credentials, now):
            return b"aborted %d" % ABORT_DENIED
        return self.answer_with("throw", THROW_RETURN, invoke, (number,), NOT_SUPPORTED, now)

    def answer_with(self, word, tag, invoke, numbers, refusal, now):
        """A return with numbers before what became of it."""
        own = self.own_at_all(now)
        told = element(TAG_0, b"") if refusal is None else element(MEMBERS_1, integer(refusal, TAG_1))
        pdu = element(tag, own_credentials(own) + integer(invoke)
                      + b"".join(map(integer, numbers)) + told)
        self.block = [((word, own, invoke, *numbers, refusal), pdu_message(pdu))]
        return None

    def answer(self, word, tag, invoke, refusal, now, told=element(TAG_0, b""), *value):
        """A return: what was asked is done, and told so, or why it is refused."""
        own = self.own_at_all(now)
        if refusal is not None:
            word, value, told = word + " refused", [refusal], \
                element(MEMBERS_1, integer(refusal, TAG_1))
        pdu = element(tag, own_credentials(own) + integer(invoke) + told)
        self.block = [((word, own, invoke, *value), pdu_message(pdu))]
        return None

    def is_false(self, credentials, now):
        """Whether the credentials of a bound user's PDU are wanted and aren't his."""
        return self.peer.level == b"all" and not authentic(self.peer, credentials, now)

    def own_at_all(self, now):
        """What the next credentials are made of, where each PDU of the provider's has some."""
        return self.credentials(self.peer, now) if self.peer.level == b"all" else None

    def credentials(self, peer, now):
        """What the provider's next credentials are made of."""
        self.number = (1_103_515_245 * self.number + 12_345) % 2**31
        return self.site.provider, self.site.password, peer.hash, stamp_of(now), self.number


def own_credentials(own):
    return spelled_credentials(None if own is None else signed(*own))
