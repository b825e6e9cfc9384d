"""Words of texts, and elements of messages, as docs/PROFILE.md has them (sections 7 and 15).

A reader of words raises ValueError where they are malformed or out of their range.
"""
import re

PICOS = 1_000_000
# picoseconds of a millisecond, and of a second
MILLI = 1_000_000_000
SECOND = 1_000_000_000_000
DAY_MILLIS = 86_400_000


# ---- words

def number(word, most, least=0):
    if re.fullmatch(rb"0|[1-9][0-9]*", word) and least <= int(word) <= most:
        return int(word)
    raise ValueError


def one_of(word, words):
    if word in words:
        return word
    raise ValueError


def name(word):
    if not re.fullmatch(rb"[!-~]{3,16}", word):
        raise ValueError
    return word


def octets(word, most, least=1):
    if re.fullmatch(rb"([0-9A-Fa-f]{2})+", word) and 2 * least <= len(word) <= 2 * most:
        return bytes.fromhex(word.decode())
    raise ValueError


def time(word):
    """Days, milliseconds, picoseconds of the millisecond, and how many octets tell the last."""
    days, millis, rest = word.split(b"/")
    if rest.endswith(b"p"):
        picos, size = number(rest[:-1], 999_999_999), 4
    else:
        picos, size = number(rest, 999) * PICOS, 2
    return number(days, 65_535), number(millis, DAY_MILLIS - 1), picos, size


def moment(stamp):
    """The picoseconds since 1958-01-01."""
    days, millis, picos, _ = stamp
    return (days * DAY_MILLIS + millis) * MILLI + picos


ATTRIBUTES = {
    b"sagr": 52, b"spack": 53, b"rsl-fg": 38, b"fsl-fg": 14, b"raf": 22, b"rcf": 46, b"rocf": 49,
    b"cltu": 7,
}
VALUE = rb"[!-\-/-<>-~]{1,256}"


def identifier(word):
    """The attributes of a service instance identifier, with their values."""
    parts = [part.split(b"=") for part in word.split(b".")]
    if not 1 <= len(parts) <= 8:
        raise ValueError
    for attribute, value in parts:
        if attribute not in ATTRIBUTES or not re.fullmatch(VALUE, value):
            raise ValueError
    return tuple((attribute, value) for attribute, value in parts)


def channel(word):
    spacecraft, version, virtual = word.split(b"/")
    return (number(spacecraft, 1_023), number(version, 3),
            None if virtual == b"*" else number(virtual, 63))


# ---- elements (X.690), in their shortest form

def element(tag, content):
    """An element; the tag is a number of one octet, or its octets."""
    size = len(content)
    digits = size.to_bytes((size.bit_length() + 7) // 8, "big")
    length = bytes([size]) if size < 128 else bytes([128 + len(digits)]) + digits
    return (bytes([tag]) if isinstance(tag, int) else tag) + length + content


def integer(value, tag=0x02):
    size = 1
    while not -(1 << 8 * size - 1) <= value < 1 << 8 * size - 1:
        size += 1
    return element(tag, value.to_bytes(size, "big", signed=True))


def pdu_message(pdu):
    """The transport message of a PDU (CCSDS 913.1-B)."""
    return bytes([1, 0, 0, 0]) + len(pdu).to_bytes(4, "big") + pdu


def sent(connection, message):
    """The line that says that a connection was handed a message."""
    return b"sent %d %s\n" % (connection, message.hex().encode())


# ---- reading elements

class Elements:
    """Elements one behind the other, read from the front, in any definite form."""

    def __init__(self, octets):
        self.rest = octets

    def take(self, count):
        if count > len(self.rest):
            raise ValueError("cut")
        taken, self.rest = self.rest[:count], self.rest[count:]
        return taken

    def length(self):
        (first,) = self.take(1)
        if first < 128:
            return first
        if not 1 <= first - 128 <= 8:
            raise ValueError("length")
        return int.from_bytes(self.take(first - 128), "big")

    def one_of(self, *tags):
        """The tag that stands next, one of these, and its content."""
        for tag in tags:
            if self.rest.startswith(tag):
                self.take(len(tag))
                return tag, self.take(self.length())
        raise ValueError("tag")

    def content(self, tag):
        return self.one_of(tag)[1]

    def members(self, tag):
        return Elements(self.content(tag))

    def null(self, tag):
        if self.content(tag):
            raise ValueError("content")

    def integer(self, tag, least, most):
        content = self.content(tag)
        value = int.from_bytes(content, "big", signed=True)
        if not content or not least <= value <= most or len(content) != len(integer(value)) - 2:
            raise ValueError("content")
        return value

    def visible(self, tag, least, most):
        content = self.content(tag)
        if not least <= len(content) <= most or not all(0x20 <= octet < 0x7F for octet in content):
            raise ValueError("content")
        return content

    def end(self):
        if self.rest:
            raise ValueError("surplus octets")
