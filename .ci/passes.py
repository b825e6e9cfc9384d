"""Random scripts of passes: users who bind instances of RAF and RCF, start them and ask for reports,
while entries come, the clock goes on and links stall. Some are long, and some strike the store of one
entry in the midst of a pass, at each of its calls.
"""
import random

from commanding import Commands, commands_script
from drills import context_message, line_of
from forms import DAY_MILLIS, MILLI, SECOND, pdu_message
from scripts import INSTANCES, PEERS, Lines, entries_script, users_script
from sessions import CLTU, HEARTBEAT_MESSAGE, bind_pdu, unbind_pdu

MODES = [b"timely", b"timely", b"complete", b"complete", b"offline"]
PERMITTED = [b"1/1/63", b"1/1/*", b"1/0/*", b"1/0/1 7/0/7 1/1/0"]


class Pass(Lines):
    """The lines of a script of a pass."""

    def __init__(self, pick):
        lines = [b"site", *PEERS]
        for which, peer in enumerate(PEERS):
            mode, service = pick.choice(MODES), pick.choice([b"raf", b"rcf"])
            channels = [pick.choice(PERMITTED)] if service == b"rcf" else []
            lines.append(b" ".join([b"%s %s=%d.sagr=7 %s %s %d %d 60" % (
                service, service, which, peer.split(b" ")[1], mode, pick.choice([1, 1, 2, 3, 10]),
                0 if mode == b"offline" else pick.choice([1, 2, 5, 60])), *channels]))
        super().__init__(pick, [*lines, pick.choice(INSTANCES[4:7]), b"end"])

    def bind(self, connection):
        """A user comes and binds an instance of his own."""
        pick, site = self.pick, self.run.site
        instance = pick.choice([each for each in site.instances if each.service != CLTU])
        peer = site.peer(instance.owner)
        service = instance.service
        pdu = bind_pdu(self.signed(peer), peer.name, b"PORT1", service, 5, instance.identifier)
        interval = pick.choice([0, 30, 600])
        return [b"open %d" % connection, self.in_line(
            connection, context_message(interval, 5) + pdu_message(pdu)), b"round %d 2" % connection]

    def signed(self, peer):
        """A peer's credentials, now and then wrong ones."""
        made = self.users.credentials(peer)
        while made is None and peer.level != b"none" and self.pick.random() < 0.9:
            made = self.users.credentials(peer)
        return made

    def asks(self, connection, session):
        """A START, now and then a STOP and an UNBIND, and reports and parameters."""
        users, kind = self.users, self.pick.random()
        if self.pick.random() < 0.25:
            asked, octets = users.schedule(session)
        elif self.pick.random() < 0.1:
            asked, octets = users.parameter(session)
        elif session.is_active == (kind < 0.9):
            asked, octets = users.stop(session)
        elif kind < 0.8:
            asked, octets = users.start(session)
        else:
            asked, octets = None, pdu_message(unbind_pdu(self.signed(session.peer), 0))
        if asked is None or self.pick.random() < 0.5:
            return self.in_line(connection, octets)
        return b"ask %d %s" % (connection, asked)

    def clock(self):
        waits = [instance.latency for instance in self.run.site.instances] + [1, 30]
        waits += 4 * [each.service.cycle for each in self.run.sessions.values()
                      if each.service is not None and each.service.cycle is not None]
        then = self.run.clock + self.pick.choice(waits) * SECOND + self.pick.choice([0, -1, 1]) * MILLI
        days, millis = divmod(max(then, 0) // MILLI, DAY_MILLIS)
        return b"clock %d/%d/0" % (min(days, 65_535), millis)

    def next(self):
        """The next lines: those of a connection, an entry, or the clock."""
        pick, connection = self.pick, self.pick.choice([1, 1, 1, 2, 3])
        session, kind = self.run.sessions.get(connection), pick.random()
        if kind < 0.12:
            self.entries.at = min(self.entries.at + 1, len(self.entries.stamps) - 1)
        if kind < 0.35:
            return [self.entries.line()]
        if kind < 0.43:
            return [self.clock()]
        if session is None:
            return self.bind(connection)
        if session.service is None or kind > 0.985:
            return self.users.lines()
        if not session.is_active and kind < 0.8 or kind < 0.49:
            return [self.asks(connection, session)]
        if kind < 0.58:
            return [b"stall %d %d" % (connection, pick.choice([1, 1, 2, 3, 1_000]))]
        if kind < 0.63:
            return [self.in_line(connection, HEARTBEAT_MESSAGE)]
        return [b"round %d %d" % (connection, pick.choice([1, 1, 1, 2, 3, 20]))]


def pass_script(pick):
    made = Pass(pick)
    for _ in range(pick.randrange(20, 120)):
        if not made.add(*made.next()):
            break
    return made.lines


def kept_lines(made, many):
    """So many lines, without those at which the script would end."""
    while len(made.lines) < many:
        for line in made.next():
            try:
                says = line_of(line)
                if says is not None:
                    made.run.line(says)
            except ValueError:
                continue
            made.lines.append(line)
    return made.lines


def long_script(seed, many=2_000):
    """Lines of users who follow a pass, or send telecommands, whose entries go on to the end."""
    pick = random.Random(f"long {seed}")
    made = Pass(pick) if seed % 2 else Commands(pick)
    entries = made.entries if seed % 2 else made.users.entries
    entries.spread(many)
    return b"\n".join(kept_lines(made, many)) + b"\n"


# the calls of two stores of one entry, and of a reopen between them
CALLS = range(1, 13)
ORDERS = [b"fault %d", b"crash %d old", b"crash %d new", b"crash %d torn"]


def struck_scripts():
    """Of one pass: at a place in it a power failure, or a fault, at each call of a store."""
    for order in ORDERS:
        for call in CALLS:
            made = Pass(random.Random("struck"))
            made.entries.spread(400)
            kept_lines(made, 80)
            made.add(order % call)
            for _ in range(3):
                made.entries.at += 1
                made.add(made.entries.frame(made.entries.at))
            yield b"\n".join(kept_lines(made, 160)) + b"\n"


def random_script(seed):
    pick = random.Random(seed)
    kind = pick.random()
    lines = pass_script(pick) if kind < 0.3 else commands_script(pick) if kind < 0.55 \
        else users_script(pick) if kind < 0.8 else entries_script(pick)
    return b"\n".join(lines) + (b"\n" if pick.random() < 0.8 else b"")
