"""Octets that no friend sends, from a seed: a module of the other scripts.

What is mutated are the messages of SLE services over ISP1, which are spelled by the other modules,
lines of entries, the word of a stop, and requests of HTTP for a station's page.
"""
import random

MOST_PDU = 1_048_576
METHODS = [b"GET"] * 6 + [b"HEAD", b"POST", b"PUT", b"OPTIONS", b"get", b"", b"GET" * 3_000]
RESOURCES = [b"/", b"/health", b"/status.json", b"/metrics"] * 3 + [
    b"/health?x=<script>", b"/../../etc/passwd", b"/%00", b"/%", b"*", b"", b"http://station/health", b"/" * 5_000]
FIELDS = [b"Host: station", b"Connection: keep-alive", b"Content-Length: 9", b"Content-Length: -1",
          b"Content-Length: " + b"9" * 40, b"Transfer-Encoding: chunked", b"Expect: 100-continue", b"Upgrade: h2c",
          b": ", b"X" * 5_000 + b": x", b"X: " + b"x" * 5_000, b" folded", b"Host"]


def places(octets, first=0, last=None):
    """Where the tag and the length of each element are, at each depth."""
    found, at, last = [], first, len(octets) if last is None else last
    while at + 2 <= last:
        tag, at = at, at + 1
        if octets[tag] & 0x1f == 0x1f:
            while at < last and octets[at] & 0x80:
                at += 1
            at += 1
        if at >= last:
            break
        length, size, at = at, octets[at], at + 1
        if size > 128:
            at, size = at + size - 128, int.from_bytes(octets[at:at + size - 128], "big")
        end = min(at + size, last)
        found.append((tag, length))
        if octets[tag] & 0x20:
            found += places(octets, at, end)
        at = end
    return found


def wrapped(pdu, kind=1, size=None):
    """A PDU as a message of the transport, or what looks like one."""
    return bytes([kind, 0, 0, 0]) + (len(pdu) if size is None else size).to_bytes(4, "big") + pdu


class Generator:
    def __init__(self, seed):
        self.choices = random.Random(seed)

    def put(self, octets, at, new, over=1):
        return octets[:at] + new + octets[at + over:]

    def octet(self):
        return bytes([self.choices.choice([0, 1, 0x7f, 0x80, 0x81, 0x84, 0xff, self.choices.randrange(256)])])

    # ---- PDUs

    def flipped(self, pdu):
        at = self.choices.randrange(len(pdu))
        return self.put(pdu, at, bytes([pdu[at] ^ 1 << self.choices.randrange(8)]))

    def replaced(self, pdu):
        return self.put(pdu, self.choices.randrange(len(pdu)), self.octet())

    def inserted(self, pdu):
        return self.put(pdu, self.choices.randrange(len(pdu) + 1), self.octet(), 0)

    def removed(self, pdu):
        return self.put(pdu, self.choices.randrange(len(pdu)), b"")

    def other_length(self, pdu):
        _, at = self.choices.choice(places(pdu) or [(0, 1)])
        change = self.choices.choice([b"\x00", b"\x80", b"\xff", b"\x84\xff\xff\xff\xff", b"\x83\x00\x00\x01",
                                      b"\x88" + b"\xff" * 8, bytes([(pdu[at] + 1) % 256]),
                                      bytes([(pdu[at] - 1) % 256])])
        return self.put(pdu, at, change)

    def other_tag(self, pdu):
        at, _ = self.choices.choice(places(pdu) or [(0, 1)])
        return self.put(pdu, at, self.octet())

    def cut(self, pdu):
        return pdu[:self.choices.randrange(len(pdu) + 1)]

    def longer(self, pdu):
        return pdu + bytes(self.choices.choice([1, 2, 100, 70_000]))

    def deep(self, _pdu):
        return b"\x30\x80" * self.choices.choice([10, 1000, 20_000])

    def noise(self, _pdu):
        return self.choices.randbytes(self.choices.choice([1, 2, 8, 100, 5_000]))

    def mutated(self, pdu):
        """A PDU that was changed in one way or another."""
        change = self.choices.choice([self.flipped] * 3 + [self.replaced] * 3 + [self.inserted, self.removed] * 2
                                     + [self.other_length, self.other_tag] * 3
                                     + [self.cut, self.longer, self.deep, self.noise])
        return change(pdu)

    # ---- messages

    def message(self, pdus):
        """One message of the transport, or what its reader may take for one: mostly a mutated PDU."""
        pdu = self.choices.choice(pdus)
        return self.choices.choice([self.in_order] * 30 + [self.half, self.glued, self.too_long, self.empty,
                                                           self.of_no_kind, self.with_more])(pdu, pdus)

    def in_order(self, pdu, _pdus):
        return wrapped(self.mutated(pdu)) if self.choices.randrange(4) else wrapped(pdu)

    def half(self, pdu, _pdus):
        octets = wrapped(pdu)
        return octets[:self.choices.randrange(len(octets))]

    def glued(self, pdu, pdus):
        return self.half(pdu, pdus) + wrapped(self.choices.choice(pdus))

    def too_long(self, pdu, _pdus):
        return wrapped(pdu, size=self.choices.choice([MOST_PDU + 1, 1 << 31, (1 << 32) - 1, MOST_PDU]))

    def empty(self, _pdu, _pdus):
        return wrapped(b"")

    def of_no_kind(self, pdu, _pdus):
        return wrapped(pdu, kind=self.choices.choice([0, 2, 3, 4, 255]))

    def with_more(self, pdu, _pdus):
        return b"\1" + self.choices.randbytes(3) + wrapped(pdu)[4:]

    # ---- what a stop's port and a page's hear

    def word(self):
        """What asks for no stop: mostly that word, changed."""
        octets = self.choices.choice([lambda: self.mutated(b"stop\n")] * 8 + [
            lambda: b"", lambda: b"stop", lambda: b"\nstop\n", lambda: bytes(100_000)])()
        return b"" if octets.startswith(b"stop\n") else octets

    def request(self):
        """A request of HTTP for a page, mostly one that is none or a changed one; at times two."""
        if self.choices.randrange(4) == 0:
            return (b"%b %b HTTP/1.1\r\nHost: station\r\n\r\n"
                    % (self.choices.choice(METHODS[5:9]), self.choices.choice([*RESOURCES[:4], b"/nothing"])))
        fields = self.choices.sample(FIELDS, self.choices.randrange(4)) * self.choices.choice([1, 1, 1, 50])
        head = b" ".join([self.choices.choice(METHODS), self.choices.choice(RESOURCES),
                          self.choices.choice([b"HTTP/1.1"] * 5 + [b"HTTP/1.0", b"HTTP/2.0", b"HTTP/1.1 ", b""])])
        octets = b"\r\n".join([head, *fields, b"", b""])
        return self.choices.choice([lambda: octets] * 3 + [lambda: self.mutated(octets)] * 4 + [
            lambda: self.cut(octets), lambda: octets + octets, lambda: octets + bytes(70_000), lambda: b""])()

    # ---- lines

    def line(self, valid):
        """A line's octets, of a valid line, or none; its end is mostly there."""
        line = valid.encode()
        at = self.choices.randrange(len(line))
        return self.choices.choice([
            lambda: self.put(line, at, self.octet()), lambda: self.put(line, at, b""),
            lambda: self.put(line, at, b" ", 0), lambda: line[:at], lambda: line[:-1] + line,
            lambda: line[:-1] + b"00" * 80_000 + b"\n", lambda: b"\n" * 5, lambda: b"# a comment\n",
            lambda: self.choices.randbytes(200), lambda: b"start 1\n", lambda: line.upper(), lambda: b"\0\n"])()
