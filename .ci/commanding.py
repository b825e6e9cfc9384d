"""Random scripts of commands: users who bind the forward service, hand over CLTUs and ask for reports,
while an antenna takes them and ends them, production changes, and the power fails.
"""
from drills import context_message
from forms import DAY_MILLIS, MILLI, PICOS, pdu_message
from scripts import PEERS, Lines
from sessions import (CLTU, GET, HEARTBEAT_MESSAGE, SCHEDULE, START, STOP, THROW, TRANSFER, bind_pdu,
                      cltu_start_pdu, get_pdu, schedule_pdu, stop_pdu, throw_pdu, transfer_pdu,
                      unbind_pdu)

LAST = 4_294_967_295
FIRSTS = [0, 1, 7, 127, 128, 65_535, LAST - 2, LAST - 1, LAST]
DELAYS = [0, 0, 0, 1, 999, 1_000, 1_001, 5_000, 1_000_000, 600_000_000, 600_000_001, LAST]


class Commands(Lines):
    """The lines of a script of commands."""

    def __init__(self, pick):
        owners = [peer.split(b" ")[1] for peer in PEERS]
        self.room, self.longest = pick.choice([1, 5, 20, 1_000]), pick.choice([1, 3, 8, 300])
        super().__init__(pick, [
            b"site", *PEERS, b"raf raf=1 MOC complete 1 5 60", b"cltu fsl-fg=7.cltu=1 %s %d %d %d" % (
                pick.choice(owners), self.room, self.longest, pick.choice([1, 60, 600])), b"end"])

    def signed(self, peer):
        """A peer's credentials, now and then wrong ones."""
        made = self.users.credentials(peer)
        while made is None and peer.level != b"none" and self.pick.random() < 0.95:
            made = self.users.credentials(peer)
        return made

    def bind(self, connection):
        pick, site = self.pick, self.run.site
        instance = site.forward() if pick.random() < 0.95 else pick.choice(site.instances)
        peer = site.peer(instance.owner)
        pdu = bind_pdu(self.signed(peer), peer.name, b"PORT1", instance.service, 5, instance.identifier)
        interval = pick.choice([0, 0, 30, 600])
        return [b"open %d" % connection, self.in_line(
            connection, context_message(interval, 5) + pdu_message(pdu)), b"round %d 1" % connection]

    # ---- what a user asks

    def asked(self, connection, session, words, tag, pdu, *fields):
        """As an `ask`, where its words say all, or as octets."""
        pick, credentials = self.pick, self.signed(session.peer)
        invoke = pick.choice([0, 0, 0, 0, 1, 65_535])
        octets = pdu_message(self.users.respelled(tag, pdu(credentials, invoke, *fields)))
        if words is None or credentials is not None or invoke or pick.random() < 0.3:
            return self.in_line(connection, octets)
        return b"ask %d %s" % (connection, words)

    def start(self, connection, session):
        first = self.pick.choice(FIRSTS)
        return self.asked(connection, session, b"start %d" % first, START, cltu_start_pdu, first)

    def stop(self, connection, session):
        return self.asked(connection, session, b"stop", STOP, stop_pdu)

    def report(self, connection, session):
        kind = self.pick.choice(["now", "now", "stop", 2, 2, 3, 60, 600, 601, 1])
        words = b"report %s" % (kind.encode() if isinstance(kind, str) else b"%d" % kind)
        return self.asked(connection, session, words, SCHEDULE, schedule_pdu, kind)

    def get(self, connection, session):
        name = self.pick.choice([6, 6, 26, 26, 29, 4, 15, 27, 28, 0, 65_535])
        return self.asked(connection, session, b"get %d" % name, GET, get_pdu, name)

    def throw(self, connection, session):
        pick = self.pick
        fields = pick.choice([0, 1, LAST]), pick.choice([0, 65_535]), bytes(pick.choice([0, 3, 1_024]))
        return self.asked(connection, session, None, THROW, throw_pdu, *fields)

    def stamp(self, chance):
        """A time near the clock's, and its word, or none."""
        pick = self.pick
        if pick.random() >= chance:
            return None, b"none"
        at = max(0, self.run.clock + pick.choice([-2, -1, 0, 0, 1, 1, 2, 5]) * MILLI
                 + pick.choice([0, 0, 0, PICOS, -PICOS, 1]))
        days, millis = divmod(at // MILLI, DAY_MILLIS)
        picos = at % MILLI
        if picos % PICOS:
            return (days, millis, picos, 4), b"%d/%d/%dp" % (days, millis, picos)
        return (days, millis, picos, 2), b"%d/%d/%d" % (days, millis, picos // PICOS)

    def transfer(self, connection, session):
        pick, queue = self.pick, self.run.book.queue
        near = 0 if queue.next is None else queue.next
        number = near if pick.random() < 0.93 else pick.choice([0, 1, max(near - 1, 0), LAST])
        (earliest, first), (latest, last) = self.stamp(0.3), self.stamp(0.4)
        delay, wanted = pick.choice(DELAYS), pick.random() < 0.6
        most = min(self.longest, self.room)
        octets = pick.randbytes(pick.choice([1, 1, 2, most, self.longest + 1, self.room + 1])
                                if pick.random() < 0.3 else pick.randrange(1, most + 1))
        words = b"cltu %d %s %s %d %d %s" % (number, first, last, delay, 0 if wanted else 1,
                                            octets.hex().encode())
        if pick.random() < 0.03:
            # a time that names no moment
            earliest, words = (1, DAY_MILLIS, 0, 2), None
        return self.asked(connection, session, words, TRANSFER, transfer_pdu, number, earliest, latest,
                          delay, wanted, octets)

    def asks(self, connection, session):
        pick, kind = self.pick, self.pick.random()
        if kind < 0.1:
            return self.report(connection, session)
        if kind < 0.15:
            return self.get(connection, session)
        if kind < 0.17:
            return self.throw(connection, session)
        if kind < 0.19:
            return self.in_line(connection, HEARTBEAT_MESSAGE)
        if session.is_active == (pick.random() < 0.995):
            return self.stop(connection, session) if kind < 0.25 else self.transfer(connection, session)
        if kind < 0.9:
            return self.start(connection, session)
        pdu = unbind_pdu(self.signed(session.peer), 0)
        return self.in_line(connection, pdu_message(pdu))

    # ---- what happens to the station

    def clock(self):
        pick = self.pick
        rests = max(self.run.book.queue.rests_until - self.run.clock, 0)
        on = pick.choice([PICOS, MILLI, MILLI, 2 * MILLI, 5 * MILLI, 2_000 * MILLI, rests, rests])
        then = max(0, self.run.clock + (on if pick.random() < 0.95 else -on))
        days, millis = divmod(then // MILLI, DAY_MILLIS)
        return b"clock %d/%d/%d" % (min(days, 65_535), millis, then % MILLI // PICOS)

    def antenna(self):
        pick, kind, queue = self.pick, self.pick.random(), self.run.book.queue
        if self.run.in_air is not None and kind < 0.6 or kind > 0.999:
            return b"done"
        if queue.production != 0 and kind < 0.8:
            return b"uplink 0 %d" % pick.randrange(4)
        if kind < 0.93:
            return b"take fail" if pick.random() < 0.12 else b"take"
        return b"uplink %d %d" % (pick.randrange(4), pick.randrange(4))

    def next(self):
        pick, connection = self.pick, self.pick.choice([1, 1, 1, 1, 1, 2])
        session, kind = self.run.sessions.get(connection), pick.random()
        if kind < (0.3 if self.run.book.queue.waiting else 0.04):
            return [self.antenna()]
        if kind < 0.4:
            return [self.clock()]
        if kind < 0.42:
            return [pick.choice([self.users.entries.line(), b"crash 0 old", b"uplink 0 0"])]
        if session is None:
            return self.bind(connection)
        if session.commands is None:
            return self.users.lines()
        if kind < 0.46:
            return [b"stall %d %d" % (connection, pick.choice([1, 1, 2, 3]))]
        if kind < 0.62:
            return [b"round %d %d" % (connection, pick.choice([1, 1, 2, 5]))]
        if kind < 0.625:
            return [pick.choice([b"shut %d", b"break %d"]) % connection]
        return [self.asks(connection, session)]


def commands_script(pick):
    made = Commands(pick)
    for _ in range(pick.randrange(20, 150)):
        if not made.add(*made.next()):
            break
    return made.lines
