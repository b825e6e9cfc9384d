"""Random scripts for `drill`: entries, STARTs, faults and power failures, and users who bind, most
of them rightly. The same seed gives the same script.
"""
import random

from drills import Run, context_message, line_of, when
from forms import (DAY_MILLIS, MILLI, PICOS, SECOND, element, identifier, integer, moment,
                   pdu_message)
from sessions import (BIND, GET, HEARTBEAT_MESSAGE, PEER_ABORT, RCF, SCHEDULE, START, STOP, UNBIND,
                      bind_pdu, get_pdu, schedule_pdu, signed, stamp_of, start_pdu, stop_pdu,
                      unbind_pdu)
from sites import head_of

SIZES = [1, 2, 3, 100, 126, 127, 128, 129, 200, 255, 256, 1_115, 32_767, 65_535, 65_536, 65_537]
# what frames begin with: 1/0/0, 1/0/1, 1/1/63, 1/1/0 and 7/0/7, and one of another version
CHANNELS = [b"\x00\x10", b"\x00\x12", b"\x40\x7f", b"\x40\x7f", b"\x40\x40", b"\x00\x7e", b"\x80\x10"]
LOSSES = [0, 0, 0, 1, 127, 128, 255, 256, 32_767, 32_768, 70_000, 8_388_607, 8_388_608, 16_777_214,
          16_777_215]
BAD_LINES = [
    b" ", b" # no comment", b"frame", b"Mark 0/0/0", b"site", b"end", b"capacity 64",
    b"crash 0", b"crash 1 half", b"crash 1001 old", b"crash 1 old ",
    b"fault 0", b"fault 1001", b"fault", b"fault 01", b"done", b"done 1", b"take no", b"take fail 1",
    b"uplink 0", b"uplink 4 0", b"uplink 0 4", b"uplink 0 0 0",
    b"clock 0/0", b"clock 0/0/0 0/0/0", b"production 3", b"production 00",
    b"loss 0/0/0 0 0", b"loss 0/0/0 0 4 0", b"mark 0/0/01p", b"mark 0/0/1000000000p",
    b"mark 0/0/1P", b"mark 1/2", b"mark 1/2/3/4", b"mark 0/86400000/0", b"mark 0/0/1000",
    b"mark 65536/0/0", b"mark 00/0/0", b"mark +0/0/0", b"mark 0/0/0 ", b"mark 0/0/0\r",
    b"mark 0/0/p", b"start 0/0/0  0/0/0 0", b"start 0/0/0 0/0/0 3", b"start 0/0/0 0/0/0",
    b"frame 0/0/0 3 41 0 00", b"frame 0/0/0 0 4 0 00", b"frame 0/0/0 0 41 0 0",
    b"frame 0/0/0 0 41 0 0g", b"frame 0/0/0 0  0 00", b"frame 0/0/0 0 41 16777216 00",
    b"frame 0/0/0 0 41 0 00 00", b"frame 0/0/0 0 " + b"41" * 17 + b" 0 00", b"\xff\x00",
    b"open", b"open 0", b"open 17", b"open 01", b"open 1 1", b"shut 0", b"break", b"round 1 0",
    b"round 1 1001", b"round 1", b"stall 1 0", b"stall 1 1001", b"in 1", b"in 1 0", b"in 1 0g",
    b"in 1 " + b"00" * 65_537, b"ask 1", b"ask 1 stop 0", b"ask 1 report", b"ask 1 get 65536",
    b"ask 1 report 65536", b"ask 1 report Now", b"ask 1 report now now", b"ask 1 get",
    b"ask 1 start none none", b"ask 1 start none none 3", b"ask 1 start none 0/0/1000 0",
    b"ask 1 start none  0", b"ask 1 start 4294967296", b"ask 1 start none none 1/1/64",
    b"ask 1 cltu 1 none none 0 2 00", b"ask 1 cltu 1 none none 0 0", b"ask 1 cltu 1 none 0/0/0 0 0 0",
    b"ask 1 start none none 1/1", b"ask 1 start none none 1024/0/*", b"ask 1 start none none 1/4/*",
    b"ask 1 context 5", b"ask 1 context 65536 2", b"ask 1 context 5 65536", b"ask 1 unbind 0",
    b"ask 1 bind MO 0 5 raf=1", b"ask 1 bind MOC 65536 5 raf=1", b"ask 1 bind MOC 0 0 raf=1",
    b"ask 1 bind MOC 0 5 raf", b"ask 1 bind MOC 0 5 raf=", b"ask 1 bind MOC 0 5 ray=1",
    b"ask 1 bind " + b"M" * 17 + b" 0 5 raf=1", b"ask 1 bind MOC 0 5 " + b".".join([b"raf=1"] * 9),
]
HEAD_LINES = [
    b"", b"# a station", b"provider STATION1", b"password 000000000000", b"heartbeat 5 5 2 100",
    b"versions 4 5 4", b"capacity 268435456",
]
BAD_HEAD_LINES = [
    b"fly", b" ", b"site", b"capacity", b"capacity 63", b"capacity 268435457", b"capacity 64 64",
    b"capacity 064", b"provider AB", b"password 0000000000", b"heartbeat 6 5 2 2",
    b"heartbeat 5 6 2", b"versions", b"versions 4 5 6 7 8", b"versions 3", b"frame 0/0/0 0 41 0 00",
    b"peer MOC none sha1 60 000000000000", b"peer NEW none sha1 0 000000000000",
    b"peer NEW none sha1 60 0000000000", b"peer NEW none sha2 60 000000000000",
    b"peer NEW some sha1 60 000000000000", b"peer NEW none sha1 60",
    b"peer NE none sha1 60 000000000000",
    b"raf raf=9 NOBODY complete 1 5 60", b"raf raf=1 MOC complete 1 5 60",
    b"raf raf=9 MOC complete 0 5 60", b"raf raf=9 MOC complete 1 0 60",
    b"raf raf=9 MOC offline 1 5 60", b"raf raf=9 MOC complete 1 5 601",
    b"raf raf=9 MOC complete 1 5",
    b"rcf rcf=9 MOC complete 1 5 60", b"rcf rcf=9 MOC complete 1 5 60 1024/0/0",
    b"rcf rcf=9 MOC complete 1 5 60" + b" 1/0/*" * 9, b"cltu cltu=9 MOC 0 1 60",
    b"cltu cltu=9 MOC 1 65537 60",
]

# peers, and the instances of a site's users
PEERS = [
    b"peer MOC none sha1 60 000000000000", b"peer OTHER none sha256 60 0000000000ff",
    b"peer SEC bind sha1 60 0102030405060708", b"peer SEC2 bind sha256 1 ffffffffffff",
    b"peer ALL all sha256 86400 00112233445566778899aabbccddeeff",
    b"peer ALL1 all sha1 2 616263646566",
]
INSTANCES = [
    b"raf raf=1 MOC complete 1 5 60", b"raf sagr=1.spack=P.rsl-fg=1.raf=onlt1 SEC timely 10 1 60",
    b"raf sagr=1.raf=1 ALL offline 2 0 60", b"raf raf=1.sagr=1 ALL1 complete 1000 3600 600",
    b"rcf rcf=1 MOC complete 1 5 60 1/1/63",
    b"rcf rocf=a-b.rcf=1 SEC2 offline 1 0 1 0/0/* 1023/3/0",
    b"cltu fsl-fg=1.cltu=1 ALL 1000 100 60", b"raf raf=2 MOC timely 1 1 1",
]
OTHER_NAMES = [b"NOBODY", b"MO C", b"moc", b"MOC" * 5, b"STATION"]
HEARTBEATS = [b"heartbeat 1 60 2 10", b"heartbeat 5 3600 3 100", b"heartbeat 1 1 2 2"]
VERSIONS = [b"versions 4", b"versions 5 9", b"versions 4 5 6 7"]


def random_head(pick):
    """A head of settings alone, or none."""
    if pick.random() < 0.5:
        return []
    lines = pick.sample(HEAD_LINES[:6], pick.randrange(4))
    if pick.random() < 0.7:
        lines.append(b"capacity %d" % pick.choice([64, 71, 100, 300, 2_000, 70_000]))
    if pick.random() < 0.1:
        lines.append(pick.choice(HEAD_LINES))
    if pick.random() < 0.1:
        lines.append(pick.choice(BAD_HEAD_LINES))
    pick.shuffle(lines)
    return [b"site", *lines] + ([b"end"] if pick.random() < 0.96 else [])


def users_head(pick):
    """A head with peers and instances; a few lines of it are bad."""
    lines = pick.sample(HEAD_LINES[2:4], pick.randrange(3))
    if pick.random() < 0.3:
        lines.append(pick.choice(HEARTBEATS))
    if pick.random() < 0.2:
        lines.append(pick.choice(VERSIONS))
    if pick.random() < 0.1:
        lines.append(b"capacity %d" % pick.choice([64, 71, 300]))
    peers, instances = PEERS[:], INSTANCES[:]
    if pick.random() < 0.2:
        peers = pick.sample(PEERS, 3)
        names = [peer.split(b" ")[1] for peer in peers]
        instances = [each for each in INSTANCES if each.split(b" ")[2] in names]
    lines += peers + instances
    if pick.random() < 0.03:
        lines.insert(pick.randrange(len(lines) + 1), pick.choice(BAD_HEAD_LINES))
    return [b"site", *lines, b"end"]


def wanted_word(wanted):
    """A quality or a channel, as a script has it."""
    if isinstance(wanted, int):
        return b"%d" % wanted
    spacecraft, version, virtual = wanted
    return b"%d/%d/%s" % (spacecraft, version, b"*" if virtual is None else b"%d" % virtual)


class Entries:
    """Lines of entries, STARTs and orders for the disk."""

    def __init__(self, pick):
        self.pick, self.at = pick, 0
        self.spread(12)
        self.is_near = False

    def spread(self, many):
        """Has so many times, in order; an entry that goes off them isn't far ahead."""
        pick, self.is_near = self.pick, True
        self.stamps = sorted((pick.choice([0, 20_000, 65_535]), pick.randrange(DAY_MILLIS),
                              pick.choice([0, 1, 999, 999.5])) for _ in range(many))

    def stamp(self, at):
        days, millis, micros = self.stamps[at]
        if micros == 999.5 or self.pick.random() < 0.1:
            return b"%d/%d/%dp" % (days, millis, int(micros * PICOS))
        return b"%d/%d/%d" % (days, millis, micros)

    def line(self):
        pick, kind = self.pick, self.pick.random()
        # Most entries come in order; some go back.
        many = min(self.at + 2, len(self.stamps)) if self.is_near else len(self.stamps)
        place = self.at if pick.random() < 0.9 else pick.randrange(many)
        if kind < 0.6:
            return self.frame(place)
        if kind < 0.66:
            return b"mark " + self.stamp(place)
        if kind < 0.7:
            return b"loss %s %d %d %d" % (self.stamp(place), *(pick.randrange(4) for _ in range(3)))
        if kind < 0.73:
            return b"production %d" % pick.randrange(3)
        if kind < 0.76:
            stamp = self.stamp(place)
            return pick.choice([b"", b"#", b"# " + stamp, b"#fly\xff", b"clock " + stamp])
        if kind < 0.81:
            return self.order()
        if kind < 0.985:
            many = len(self.stamps)
            start, stop = pick.choice([(0, self.at), (0, self.at),
                                       (pick.randrange(many), pick.randrange(many))])
            return b"start %s %s %d" % (self.stamp(start), self.stamp(stop),
                                        pick.choice([0, 0, 1, 2]))
        return pick.choice(BAD_LINES)

    def frame(self, place):
        pick = self.pick
        octets = pick.randbytes(pick.choice(SIZES[:12] if pick.random() < 0.98 else SIZES))
        if pick.random() < 0.7:
            octets = (pick.choice(CHANNELS) + octets)[:max(len(octets), 2)]
        digits = octets.hex()
        return b"frame %s %d %s %d %s" % (
            self.stamp(place), pick.choice([0, 0, 0, 1, 2]),
            pick.randbytes(pick.choice([1, 2, 16])).hex().encode(), pick.choice(LOSSES),
            (digits.upper() if pick.random() < 0.2 else digits).encode())

    def order(self):
        pick = self.pick
        call = pick.choice([0, 1, 1, 2, 3, 3, 4, 4, 5, 7, 8, 12, 100, 1_000])
        left = pick.choice([b"old", b"new", b"torn"])
        return pick.choice([b"fault %d" % max(call, 1), b"crash %d %s" % (call, left)])


class Users:
    """Lines of connections. A run of the script so far tells which are open, and how they stand."""

    def __init__(self, pick, run, entries):
        self.pick, self.run, self.entries = pick, run, entries
        # what is to arrive on a connection, piece by piece
        self.coming = {}

    def lines(self):
        pick, run = self.pick, self.run
        connection = pick.choice([1, 1, 1, 2, 2, 3, pick.randrange(1, 17)])
        session = run.sessions.get(connection)
        if pick.random() < 0.15:
            return [self.clock()]
        if session is None:
            self.coming.pop(connection, None)
            return [b"open %d" % connection if pick.random() < 0.995 else b"shut %d" % connection]
        if self.coming.get(connection):
            return [b"in %d %s" % (connection, self.coming[connection].pop(0).hex().encode())]
        kind = pick.random() if not session.is_active else 0.5 * pick.random()
        if kind < 0.1:
            return [b"round %d %d" % (connection, pick.choice([1, 1, 2, 3, 10, 1_000]))]
        if kind < 0.2:
            return [b"stall %d %d" % (connection, pick.choice([1, 1, 2, 3, 1_000]))]
        if kind < 0.23:
            return [pick.choice([b"shut %d", b"break %d"]) % connection]
        return self.messages(connection, session)

    def clock(self):
        """The clock goes on, mostly by what a timer is about; sometimes back."""
        pick, now = self.pick, self.run.clock
        waits = [each.interval for each in self.run.sessions.values()] or [5]
        dies = [each.interval * each.factor for each in self.run.sessions.values()] or [5]
        on = pick.choice([pick.choice(waits), pick.choice(waits), pick.choice(dies), 1, 0]) * SECOND
        on += pick.choice([0, 0, -PICOS, PICOS, -1, 1])
        then = max(0, now + (on if pick.random() < 0.95 else -on))
        millis, picos = divmod(then, MILLI)
        days, millis = divmod(min(millis, 65_536 * DAY_MILLIS - 1), DAY_MILLIS)
        if picos % PICOS:
            return b"clock %d/%d/%dp" % (days, millis, picos)
        return b"clock %d/%d/%d" % (days, millis, picos // PICOS)

    def messages(self, connection, session):
        """A message as an `ask`, or as octets that come at once or in pieces."""
        pick = self.pick
        asked, octets = self.message(session)
        if asked is not None and pick.random() < 0.6:
            return [b"ask %d %s" % (connection, asked)]
        while pick.random() < 0.15:
            octets += self.message(session)[1]
        if pick.random() < 0.04:
            octets = bytearray(octets)
            octets[pick.randrange(len(octets))] = pick.choice([0, 1, 128, 255, pick.randrange(256)])
            octets = bytes(octets)
        if pick.random() < 0.02:
            octets = octets[:pick.randrange(1, len(octets) + 1)]
        many = min(len(octets) - 1, pick.choice([0, 0, 0, 1, 3]))
        cuts = sorted(pick.sample(range(1, len(octets)), many))
        pieces = [octets[begin:end] for begin, end in zip([0, *cuts], [*cuts, len(octets)])]
        self.coming[connection] = pieces[1:]
        return [b"in %d %s" % (connection, pieces[0].hex().encode())]

    def message(self, session):
        """What stands behind `ask C`, where that makes it, and the message's octets."""
        pick, kind = self.pick, self.pick.random()
        if session.is_opening and 0.02 < kind < 0.98:
            return self.context()
        if session.service is not None and 0.2 < kind < 0.35:
            return self.schedule(session) if pick.random() < 0.5 else self.parameter(session)
        if session.service is not None and 0.2 < kind < 0.9:
            is_other = pick.random() < 0.03
            if session.is_active and kind < 0.6 and not is_other:
                return None, HEARTBEAT_MESSAGE
            return self.stop(session) if session.is_active != is_other else self.start(session)
        if kind < 0.02:
            tag = pick.choice([PEER_ABORT, PEER_ABORT, b"\xbf\x68"])
            return None, pdu_message(integer(pick.randrange(-2, 130), tag))
        if kind < 0.04:
            return None, pdu_message(self.odd_pdu())
        if kind < 0.1 or session.peer is not None and kind < 0.5:
            return None, HEARTBEAT_MESSAGE
        if kind > 0.995:
            return self.context()
        if session.peer is None and kind < 0.97 or kind > 0.99:
            return self.bind()
        return self.unbind(session)

    def context(self):
        pick, (least, most, least_factor, most_factor) = self.pick, self.run.site.heartbeat
        interval = pick.choice([0, least, least, most, min(most, 30)])
        factor = pick.choice([least_factor, least_factor, most_factor])
        if pick.random() < 0.06:
            interval, factor = pick.choice([
                (least - 1, factor), (most + 1, factor), (interval, least_factor - 1),
                (interval, most_factor + 1), (0, 0)])
        return b"context %d %d" % (interval, factor), context_message(interval, factor)

    def odd_pdu(self):
        pick = self.pick
        return pick.choice([
            b"", b"\xbf", b"\xbf\xe4", b"\xbf\x80\x64", b"\xbf\x1e\x00", b"\x9f\x64\x00",
            b"\xa2\x00", element(0xA0, integer(0)), b"\xbf\x65\x00", b"\xbf\x66\x00",
            b"\xbf\x64\x80", pick.randbytes(3),
        ])

    def credentials(self, peer):
        """A peer's own, or some that fail; or none."""
        pick, now = self.pick, max(self.run.clock, self.run.book.latest)
        if peer is None or pick.random() < (0.1 if peer.level != b"none" else 0.7):
            return None
        delay = peer.delay
        off = pick.choice([0, 0, 0, 0, delay, delay, 86_401, pick.randrange(delay + 1)]) * SECOND
        off += pick.choice([0, 0, -PICOS, PICOS])
        then = now + off if pick.random() < 0.5 else now - off
        then = min(max(then, 0), (65_536 * DAY_MILLIS - 1) * MILLI)
        password = peer.password if pick.random() < 0.95 else peer.password + b"\0"
        hash = peer.hash if pick.random() < 0.97 else pick.choice([b"sha1", b"sha256"])
        octets = signed(peer.name, password, hash, stamp_of(then), pick.choice([0, 1, 2**31 - 1]))
        if pick.random() < 0.03:
            late = octets[:10] + b"\xff" + octets[11:]
            octets = pick.choice([octets[:-1], octets + b"\0", bytes(8), late])
        return octets

    def bind(self):
        pick, site = self.pick, self.run.site
        peer = pick.choice(site.peers) if site.peers and pick.random() < 0.97 else None
        initiator = peer.name if peer is not None else pick.choice(OTHER_NAMES)
        own = [each for each in site.instances if each.owner == initiator]
        near = own if own and pick.random() < 0.85 else site.instances
        instance = pick.choice(near) if near else None
        which = instance.identifier if instance is not None else identifier(b"raf=3")
        if pick.random() < 0.05:
            others = b"raf=1", b"raf=3", b"raf=1.raf=1", b"raf=" + b"1" * 256
            which = identifier(pick.choice(others))
        service = instance.service if instance is not None else 0
        if pick.random() < 0.08:
            service = pick.choice([0, 1, 2, 3, 16, 65_535])
        version = pick.choice(site.versions)
        if pick.random() < 0.07:
            version = pick.choice([1, 3, 9, 65_535])
        credentials, port = self.credentials(peer), pick.choice([b"PORT1", b" ", b"P" * 128])
        pdu = bind_pdu(credentials, initiator, port, service, version, which)
        asked = None
        if credentials is None and b" " not in initiator:
            text = b".".join(b"%s=%s" % part for part in which)
            asked = b"bind %s %d %d %s" % (initiator, service, version, text)
        return asked, pdu_message(self.respelled(BIND, pdu))

    def unbind(self, session):
        credentials = self.credentials(session.peer)
        pdu = self.respelled(UNBIND, unbind_pdu(credentials, self.pick.choice([0, 0, 1, 127])))
        return b"unbind" if credentials is None else None, pdu_message(pdu)

    def start(self, session):
        pick, many = self.pick, len(self.entries.stamps)
        near = [0, self.entries.at, pick.randrange(many)]
        words = [self.entries.stamp(pick.choice(near)) if pick.random() < wanted else b"none"
                 for wanted in (0.5, 0.4)]
        stamps = [when(word) for word in words]
        if None not in stamps and moment(stamps[1]) < moment(stamps[0]) and pick.random() < 0.8:
            words, stamps = words[::-1], stamps[::-1]
        wanted, invoke = self.wanted(session), pick.choice([0, 0, 0, 0, 1, 65_535])
        is_asked = invoke == 0
        if pick.random() < 0.06:
            # a time that names no moment
            stamps[pick.randrange(2)] = pick.choice([
                (0, DAY_MILLIS, 0, 2), (65_535, 2**32 - 1, 0, 4), (1, 0, 1_000 * PICOS, 2),
                (1, 0, 1_000_000_000, 4), (20_000, DAY_MILLIS - 1, 65_535 * PICOS, 2)])
            is_asked = False
        credentials = self.credentials(session.peer)
        pdu = self.respelled(START, start_pdu(credentials, invoke, *stamps, wanted))
        asked = b"start %s %s %s" % (*words, wanted_word(wanted))
        return asked if is_asked and credentials is None else None, pdu_message(pdu)

    def wanted(self, session):
        """A quality, or a channel, mostly one that is permitted; now and then the other service's."""
        pick = self.pick
        if (session.service.service == RCF) == (pick.random() < 0.04):
            return pick.choice([0, 0, 1, 2, 2, 2])
        permitted = session.service.permitted
        if not permitted or pick.random() < 0.15:
            return pick.choice([(1, 1, 62), (1, 1, None), (1, 0, 0), (7, 0, 7), (0, 0, None)])
        spacecraft, version, virtual = pick.choice(permitted)
        if virtual is None:
            virtual = pick.choice([None, None, 0, 1, 63])
        return spacecraft, version, virtual

    def schedule(self, session):
        pick = self.pick
        kind = pick.choice(["now", "now", "stop", 2, 2, 3, 5, 60, 600, 600, 0, 1, 601, 65_535])
        credentials, invoke = self.credentials(session.peer), pick.choice([0, 0, 0, 0, 3, 65_535])
        pdu = self.respelled(SCHEDULE, schedule_pdu(credentials, invoke, kind))
        asked = b"report %s" % (kind.encode() if isinstance(kind, str) else b"%d" % kind)
        return asked if credentials is None and invoke == 0 else None, pdu_message(pdu)

    def parameter(self, session):
        pick = self.pick
        name = pick.choice([4, 6, 15, 26, 26, 27, 27, 28, 28, 29, 0, 9, 16, 65_535])
        credentials, invoke = self.credentials(session.peer), pick.choice([0, 0, 0, 0, 4, 65_535])
        pdu = self.respelled(GET, get_pdu(credentials, invoke, name))
        asked = b"get %d" % name
        return asked if credentials is None and invoke == 0 else None, pdu_message(pdu)

    def stop(self, session):
        credentials, invoke = self.credentials(session.peer), self.pick.choice([0, 0, 0, 2, 65_535])
        pdu = self.respelled(STOP, stop_pdu(credentials, invoke))
        return b"stop" if credentials is None and invoke == 0 else None, pdu_message(pdu)

    def respelled(self, tag, pdu):
        """The same PDU, with a longer length where one may have it; or with octets behind it."""
        pick, kind = self.pick, self.pick.random()
        content = pdu[len(tag):]
        head = 1 if content[0] < 128 else 1 + content[0] - 128
        length = int.from_bytes(content[1:head], "big") if head > 1 else content[0]
        if kind < 0.9:
            return pdu
        if kind < 0.97:
            digits = pick.choice([2, 3, 8, 8, 9])
            return tag + bytes([128 + digits]) + length.to_bytes(digits, "big") + content[head:]
        return pdu + b"\0"


class Lines:
    """The lines of a script, whose head these are, and a run of them so far."""

    def __init__(self, pick, head):
        self.pick, self.lines = pick, head
        self.run = Run(head_of(head)[0])
        self.entries = Entries(pick)
        self.users = Users(pick, self.run, self.entries)

    def add(self, *lines):
        """Whether the script goes on behind these lines."""
        for line in lines:
            self.lines.append(line)
            try:
                says = line_of(line)
                if says is not None:
                    self.run.line(says)
            except ValueError:
                return False
        return True

    def in_line(self, connection, octets):
        return b"in %d %s" % (connection, octets.hex().encode())


def entries_script(pick):
    entries, lines = Entries(pick), random_head(pick)
    for entries.at in range(pick.randrange(2, len(entries.stamps))):
        lines += [entries.line() for _ in range(pick.randrange(1, 5))]
    return lines


def users_script(pick):
    lines = users_head(pick)
    entries, run = Entries(pick), Run(head_of(lines)[0])
    users = Users(pick, run, entries)
    for _ in range(pick.randrange(5, 90)):
        kind, has_started = pick.random(), any(each.is_active for each in run.sessions.values())
        if kind < (0.2 if has_started else 0.03):
            entries.at = min(entries.at + 1, len(entries.stamps) - 1)
        new = users.lines() if kind < (0.55 if has_started else 0.93) else [entries.line()]
        if kind > 0.995:
            new = [pick.choice(BAD_LINES)]
        lines += new
        try:
            for line in new:
                says = line_of(line)
                if says is not None:
                    run.line(says)
        except ValueError:
            # the script ends at such a line
            break
    return lines
