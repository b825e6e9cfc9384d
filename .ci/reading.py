"""A user's decoder of the messages that a connection was handed (CCSDS 911.1-B, annex A).

Each message is told as what it says; ValueError where it isn't one that the provider sends.
"""
from forms import PICOS, Elements, element
from sessions import (BIND_RETURN, CLTU_REPORT, GET_RETURN, INTEGER, MEMBERS_0, MEMBERS_1, NOTICE,
                      OCTETS, REPORT, SCHEDULE_RETURN, SEQUENCE, START_RETURN, STOP_RETURN, TAG_0,
                      TAG_1, TRANSFER_RETURN, UNBIND_RETURN, VISIBLE, digest)

BUFFER, FRAME, NOTIFICATION = b"\xa8", b"\xa0", b"\xa1"
LOSS, PRODUCTION, BACKLOG, END = b"\xa0", b"\x81", b"\x82", b"\x83"


def read_stamp(form, stamp):
    size = 4 if form == TAG_1 else 2
    if len(stamp) != 6 + size:
        raise ValueError("a time of another form")
    parts = stamp[:2], stamp[2:6], stamp[6:]
    days, millis, rest = (int.from_bytes(part, "big") for part in parts)
    return days, millis, rest if size == 4 else rest * PICOS, size


def read_frame(fields):
    (form, stamp), antenna = fields.one_of(TAG_0, TAG_1), fields.content(TAG_1)
    gap = fields.integer(INTEGER, -1, 16_777_215)
    quality = fields.integer(INTEGER, 0, 2) if fields.rest.startswith(INTEGER) else None
    fields.null(TAG_0)
    return read_stamp(form, stamp), quality, antenna, gap, fields.content(OCTETS)


def read_notification(fields):
    tag, content = fields.one_of(LOSS, PRODUCTION, BACKLOG, END)
    inner = Elements(content)
    if tag == PRODUCTION:
        return "production", integer_of(content, 2)
    if tag == LOSS:
        stamp = read_stamp(*inner.one_of(TAG_0, TAG_1))
        locks = [inner.integer(INTEGER, 0, 3) for _ in range(3)]
        inner.end()
        return "loss", stamp, *locks
    inner.end()
    return "backlog" if tag == BACKLOG else "end"


def integer_of(content, most):
    """An INTEGER by its content alone."""
    return Elements(element(INTEGER, content)).integer(INTEGER, 0, most)


def read_buffer(buffer, site):
    """Each item with what its credentials are made of."""
    items = []
    while buffer.rest:
        tag, content = buffer.one_of(FRAME, NOTIFICATION)
        fields = Elements(content)
        own = read_own(fields, site)
        items.append([own, (read_frame if tag == FRAME else read_notification)(fields)])
        fields.end()
    return items


def read_own(fields, site):
    """Which hash and number the provider's credentials were made with, where they are used."""
    tag, content = fields.one_of(TAG_0, TAG_1)
    if tag == TAG_0:
        return None
    whole = Elements(content)
    inner = whole.members(SEQUENCE)
    stamp, number = inner.content(OCTETS), inner.integer(INTEGER, 0, 2**31 - 1)
    protected = inner.content(OCTETS)
    inner.end()
    whole.end()
    for hash in (b"sha1", b"sha256"):
        if protected == digest(site.provider, site.password, hash, stamp, number):
            return site.provider, site.password, hash, stamp, number
    raise ValueError("another digest")


def read_bind_return(fields, site):
    own, responder = read_own(fields, site), fields.visible(VISIBLE, 3, 16)
    tag = TAG_0 if fields.rest[:1] == TAG_0 else TAG_1
    return "bound" if tag == TAG_0 else "refused", own, responder, fields.integer(tag, 0, 127)


def read_unbind_return(fields, site):
    own = read_own(fields, site)
    fields.null(TAG_0)
    return "unbound", own


def returning(word, done=lambda fields: fields.null(TAG_0)):
    """A reader of a return: what was asked is done, with what its own reader says, or why not."""
    def read(fields, site):
        own, invoke = read_own(fields, site), fields.integer(INTEGER, 0, 65_535)
        if not fields.rest.startswith(MEMBERS_1):
            return word, own, invoke, *(done(fields) or [])
        inner = fields.members(MEMBERS_1)
        diagnostic = inner.integer(TAG_1, 0, 127)
        inner.end()
        return word + " refused", own, invoke, diagnostic
    return read


def read_channel(fields):
    spacecraft, version = fields.integer(INTEGER, 0, 1_023), fields.integer(INTEGER, 0, 3)
    tag, content = fields.one_of(TAG_0, TAG_1)
    return spacecraft, version, None if tag == TAG_0 else integer_of(content, 63)


def read_parameter(fields):
    """Its name, its tag, and its value, which may be none."""
    outer = fields.members(MEMBERS_0)
    tag, content = outer.one_of(*(bytes([0xA0 + tag]) for tag in range(6)))
    outer.end()
    inner, tag = Elements(content), tag[0] - 0xA0
    name = inner.integer(INTEGER, 0, 65_535)
    kind, content = inner.one_of(INTEGER, TAG_0, TAG_1, MEMBERS_1)
    inner.end()
    if kind == MEMBERS_1:
        channel = Elements(content)
        value = read_channel(channel)
        channel.end()
        return name, tag, value
    return name, tag, integer_of(content, 2**32) if content else None


def read_start(fields):
    """The time from which CLTUs radiate, of a START of the forward service."""
    if fields.rest.startswith(TAG_0):
        fields.null(TAG_0)
        return None
    inner = fields.members(MEMBERS_0)
    stamp = read_stamp(*inner.one_of(TAG_0, TAG_1))
    inner.null(TAG_0)
    inner.end()
    return [stamp]


def read_numbers(fields):
    numbers = []
    while fields.rest.startswith(INTEGER):
        numbers.append(fields.integer(INTEGER, 0, 2**32 - 1))
    return numbers


def read_report(fields, site):
    """Of a return service; the return of THROW-EVENT has the same tag, and a choice at its end."""
    own, numbers = read_own(fields, site), read_numbers(fields)
    if fields.rest:
        return "throw", own, *numbers, read_refusal(fields)
    return "report", own, *numbers


def read_refusal(fields):
    """A diagnostic, or None."""
    tag, content = fields.one_of(TAG_0, MEMBERS_1)
    if tag == TAG_0:
        return None
    inner = Elements(content)
    diagnostic = inner.integer(TAG_1, 0, 127)
    inner.end()
    return diagnostic


def read_transfer(fields, site):
    return "transfer", read_own(fields, site), *read_numbers(fields), read_refusal(fields)


def read_processed(fields):
    """The last CLTU processed: its number, when it began, and what became of it."""
    tag, content = fields.one_of(TAG_0, MEMBERS_1)
    if tag == TAG_0:
        return None
    inner, began = Elements(content), None
    number = inner.integer(INTEGER, 0, 2**32 - 1)
    tag, content = inner.one_of(TAG_0, MEMBERS_1)
    if tag == MEMBERS_1:
        began = read_stamp(*Elements(content).one_of(TAG_0, TAG_1))
    status = inner.integer(INTEGER, 0, 4)
    inner.end()
    return number, began, status


def read_ok(fields):
    """The last CLTU radiated: its number, and when it ended."""
    tag, content = fields.one_of(TAG_0, MEMBERS_1)
    if tag == TAG_0:
        return None
    inner = Elements(content)
    number = inner.integer(INTEGER, 0, 2**32 - 1)
    ended = read_stamp(*inner.one_of(TAG_0, TAG_1))
    inner.end()
    return number, ended


def read_notice(fields, site):
    own = read_own(fields, site)
    tag, content = fields.one_of(*(bytes([0x80 + kind]) for kind in range(6)))
    if content:
        raise ValueError("content")
    return "notice", own, tag[0] - 0x80, read_processed(fields), read_ok(fields), *read_numbers(fields)


def read_commands(fields, site):
    """A report of the forward service."""
    own = read_own(fields, site)
    return "commands", own, read_processed(fields), read_ok(fields), *read_numbers(fields)


PDUS = [(BUFFER, read_buffer), (BIND_RETURN, read_bind_return), (UNBIND_RETURN, read_unbind_return),
        (START_RETURN, returning("start", read_start)), (STOP_RETURN, returning("stop")),
        (SCHEDULE_RETURN, returning("schedule")), (GET_RETURN, returning("get", read_parameter)),
        (REPORT, read_report), (TRANSFER_RETURN, read_transfer), (NOTICE, read_notice),
        (CLTU_REPORT, read_commands)]


def read_message(octets, site):
    """What the message at the front says."""
    head = octets.take(4)
    body = octets.take(int.from_bytes(octets.take(4), "big"))
    if head == bytes([3, 0, 0, 0]) and not body:
        return ("heartbeat",)
    if head != bytes([1, 0, 0, 0]):
        raise ValueError("no PDU")
    pdu = Elements(body)
    for tag, read in PDUS:
        if pdu.rest.startswith(tag):
            fields = pdu.members(tag)
            pdu.end()
            said = read(fields, site)
            fields.end()
            return said
    raise ValueError("another PDU")


def read_sent(line, site):
    """What the messages of a line say."""
    _, _, digits = line.split(b" ")
    octets, said = Elements(bytes.fromhex(digits.decode())), []
    while octets.rest:
        said.append(read_message(octets, site))
    return said
