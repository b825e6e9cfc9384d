"""How the built program is driven with connections, and what it then writes.

The messages are written down here, octet for octet; credentials are made by hashlib after
CCSDS 913.1-B.
"""
import hashlib

from forms import element, integer

SITE = b"""site
peer MOC none sha1 60 000000000000
peer OTHER none sha1 60 000000000000
peer SEC bind sha1 60 000000000000
raf sagr=1.spack=P.rsl-fg=1.raf=onlt1 MOC timely 1 5 60
raf sagr=1.spack=P.rsl-fg=1.raf=onlc1 MOC complete 1 5 60
raf sagr=1.spack=P.rsl-fg=1.raf=offl1 MOC offline 2 0 60
raf sagr=1.spack=P.rsl-fg=1.raf=onlc2 MOC complete 10 5 60
rcf sagr=1.spack=P.rsl-fg=1.rcf=onlc1 MOC complete 1 5 60 1/1/63
cltu sagr=1.spack=P.fsl-fg=1.cltu=cltu1 MOC 1000 100 60
end
"""
ONLC1 = b"sagr=1.spack=P.rsl-fg=1.raf=onlc1"
OTHERS = {
    b"sagr=1.spack=P.rsl-fg=1.raf=onlt1": 0, b"sagr=1.spack=P.rsl-fg=1.raf=offl1": 0,
    b"sagr=1.spack=P.rsl-fg=1.raf=onlc2": 0, b"sagr=1.spack=P.rsl-fg=1.rcf=onlc1": 2,
    b"sagr=1.spack=P.fsl-fg=1.cltu=cltu1": 16,
}
CONTEXT = b"020000000000000c4953503100000001001e0005"
HEARTBEAT = b"0300000000000000"
PEER_ABORT = b"01000000000000049f68017f"
UNBIND = b"0100000000000008bf66058000020100"
BIND = (b"010000000000005dbf645a80001a034d4f431a05504f52543102010002010530443"
        b"10e300c06072b7004030102341a0131310e300c06072b7004030102351a0150"
        b"310e300c06072b7004030102261a01313112301006072b7004030102161a056f6e6c6331")
BIND_LINE = b"ask %d bind MOC 0 5 " + ONLC1 + b"\n"
LOGIN = b"open %d\nask %d context 30 5\n" + BIND_LINE


def login(connection):
    return LOGIN % (connection, connection, connection)


def sent(connection, digits):
    return b"sent %d %s\n" % (connection, digits)


def bound(connection, version=5):
    return sent(connection, b"0100000000000011bf650e80001a0753544154494f4e8001%02x" % version)


def refused(connection, diagnostic):
    return sent(connection, b"0100000000000011bf650e80001a0753544154494f4e8101%02x" % diagnostic)


UNBOUND = b"0100000000000007bf670480008000"


# ---- rows

def rows():
    """Each what it shows, the script behind the site, and the transcript."""
    opened = b"open 1\nask 1 context 30 5\n"
    yield "a BIND", login(1), bound(1)
    octets = [BIND[at:at + 2] for at in range(0, len(BIND), 2)]
    yield "a BIND in pieces of one octet", opened + b"".join(
        b"in 1 %s\n" % octet for octet in octets), bound(1)
    yield "a BIND in one piece", opened + b"in 1 %s\n" % BIND, bound(1)
    yield "each front of a BIND, and a close", b"".join(
        opened + b"in 1 %s\nshut 1\n" % BIND[:2 * count] for count in range(1, 101)), \
        b"ended 1 closed\n" * 100
    yield "a context with an octet too many", \
        b"open 1\nin 1 020000000000000c495350310000000001001e0005\n", b"ended 1 broken 5\n"
    yield "the diagnostics of a BIND", login(1) + b"open 2\nask 2 context 30 5\n" + b"".join(
        b"ask 2 bind %s\n" % words for words in [
            b"MOC 0 5 " + ONLC1, b"MOC 2 5 " + ONLC1, b"OTHER 0 5 " + ONLC1,
            b"MOC 0 5 sagr=9.raf=x", b"MOC 0 3 " + ONLC1, b"MOC 4 5 " + ONLC1,
            b"SEC 0 5 " + ONLC1]), \
        bound(1) + b"".join(refused(2, fault) for fault in [4, 6, 5, 3, 2, 1, 0]) \
        + b"ended 2 denied\n"
    yield "a BIND of nobody", opened + b"ask 1 bind NOBODY 0 5 %s\n" % ONLC1, \
        refused(1, 0) + b"ended 1 denied\n"
    for which, service in OTHERS.items():
        yield f"a BIND of another instance, {which}", \
            opened + b"ask 1 bind MOC %d 4 %s\n" % (service, which), bound(1, 4)
    yield "an UNBIND, and the instance is free", \
        login(1) + b"ask 1 unbind\n" + login(2), \
        bound(1) + sent(1, UNBOUND) + b"ended 1 unbound\n" + bound(2)
    yield from endings(opened)
    yield from timers(opened)
    yield from links(opened)
    yield from failures(opened)
    yield "sixteen connections", b"".join(
        b"open %d\nask %d context 30 5\n" % (c, c) for c in range(1, 17)) + b"".join(
        BIND_LINE % c for c in range(16, 0, -1)), \
        bound(16) + b"".join(refused(c, 4) for c in range(15, 0, -1))


def endings(opened):
    yield "a context out of the range", b"open 1\nask 1 context 1 5\n", b"ended 1 range\n"
    for name, line, end in [
        ("a heartbeat with a body", b"in 1 030000000000000100", b"broken 3"),
        ("a PDU that is too long", b"in 1 0100000000100001", b"broken 4"),
        ("no message", b"in 1 04", b"broken 1"),
        ("octets that aren't zero", b"in 1 010001", b"broken 2"),
        ("a STOP before a BIND", b"in 1 0100000000000007a2058000020100", b"aborted 3"),
        ("a context again", b"ask 1 context 30 5", b"aborted 3"),
        ("an UNBIND before a BIND", b"ask 1 unbind", b"aborted 3"),
        ("a BIND that doesn't decode", b"in 1 0100000000000003bf6400", b"aborted 5"),
        ("a PDU without a tag", b"in 1 0100000000000001bf", b"aborted 5"),
        ("a PEER-ABORT", b"in 1 " + PEER_ABORT, b"peer-aborted 127"),
        ("a close", b"shut 1", b"closed"),
        ("a broken link", b"break 1", b"fault"),
        ("a peer that is dead", b"clock 0/150000/0\nround 1 1", b"aborted 4"),
    ]:
        yield name, opened + line + b"\n", b"ended 1 " + end + b"\n"
    yield "a BIND before the context", b"open 1\n" + BIND_LINE % 1, b"ended 1 aborted 3\n"
    yield "a PEER-ABORT before the context", b"open 1\nin 1 %s\n" % PEER_ABORT, \
        b"ended 1 aborted 3\n"
    yield "a BIND while bound", login(1) + BIND_LINE % 1, bound(1) + b"ended 1 aborted 3\n"
    yield "a PDU of no service", login(1) + b"in 1 0100000000000002a200\n", \
        bound(1) + b"ended 1 aborted 5\n"
    yield "an end frees the instance", login(1) + b"break 1\n" + login(1), \
        bound(1) + b"ended 1 fault\n" + bound(1)
    yield "an end is told once", opened + b"in 1 04%s\nopen 1\nround 1 1000\n" % (b"00" * 9), \
        b"ended 1 broken 1\n"


def timers(opened):
    yield "a heartbeat, once", \
        opened + b"clock 0/29999/999\nround 1 1\nclock 0/30000/0\nround 1 2\n", sent(1, HEARTBEAT)
    yield "a peer that is nearly dead", opened + b"clock 0/149999/999999999p\nround 1 1\n", \
        sent(1, HEARTBEAT)
    yield "a heartbeat with a late context", \
        b"open 1\nclock 0/30000/0\nask 1 context 30 5\nround 1 1\n", sent(1, HEARTBEAT)
    yield "no timers", b"open 1\nask 1 context 0 5\nclock 65535/0/0\nround 1 3\n", b""
    yield "a heard heartbeat", opened + b"clock 0/149000/0\nin 1 %s\nclock 0/298000/0\n" \
        b"round 1 1\n" % HEARTBEAT, sent(1, HEARTBEAT) * 2
    yield "a moment is never before an earlier one", \
        opened + b"clock 0/30000/0\nround 1 1\nclock 0/0/0\nopen 2\nask 2 context 30 5\n", \
        sent(1, HEARTBEAT) + sent(2, HEARTBEAT)


def links(opened):
    yield "a stalled BIND return", opened + b"stall 1 2\n" + BIND_LINE % 1 + b"round 1 3\n", \
        b"stalled 1\n" * 2 + bound(1)
    yield "a later stall replaces one", \
        opened + b"stall 1 1000\nstall 1 1\n" + BIND_LINE % 1 + b"round 1 1\n", \
        b"stalled 1\n" + bound(1)
    yield "a blocked round judges the dead timer", \
        opened + b"stall 1 1000\n" + BIND_LINE % 1 + b"clock 0/150000/0\nround 1 1000\n", \
        b"stalled 1\n" * 2 + b"ended 1 aborted 4\n"
    yield "a piece a poll", \
        b"open 1\nin 1 %s\nin 1 %s\nin 1 04\nround 1 1\n" % (CONTEXT + HEARTBEAT, BIND), \
        bound(1) + b"ended 1 broken 1\n"
    yield "a message a round", b"open 1\nin 1 %s\n" % (CONTEXT + HEARTBEAT + BIND + UNBIND) \
        + b"round 1 1\nround 1 1\nclock 0/149000/0\nround 1 1\n", \
        bound(1) + sent(1, UNBOUND) + b"ended 1 unbound\n"
    yield "a fault before the messages of its piece", b"open 1\nin 1 %s\n" % (CONTEXT + b"04"), \
        b"ended 1 broken 1\n"
    yield "a broken poll though a piece waits", \
        b"open 1\nin 1 %s\nin 1 %s\nbreak 1\n" % (CONTEXT + HEARTBEAT, HEARTBEAT), \
        b"ended 1 fault\n"
    yield "what comes behind a close isn't read", opened + b"stall 1 3\n" + BIND_LINE % 1 \
        + b"shut 1\nin 1 %s\nround 1 1000\n" % PEER_ABORT, \
        b"stalled 1\n" * 3 + bound(1) + b"ended 1 closed\n"
    yield "a close behind the pieces that came", opened + b"stall 1 2\n" + BIND_LINE % 1 \
        + b"ask 1 unbind\nshut 1\n", \
        b"stalled 1\n" * 2 + bound(1) + sent(1, UNBOUND) + b"ended 1 unbound\n"


def failures(opened):
    frame = b"frame 20000/1000/0 0 41 0 0010a1\n"
    yield "a stall over a power failure", \
        opened + b"stall 1 1000\ncrash 0 old\n" + login(1), b"crash\narchive 0\n" + bound(1)
    yield "pieces, a close and a break over a power failure", \
        login(1) + b"stall 1 9\nclock 0/30000/0\nround 1 1\nin 1 %s\nshut 1\n" % PEER_ABORT \
        + b"break 1\ncrash 2 new\n" + frame + b"clock 0/0/0\n" + login(1), \
        bound(1) + b"stalled 1\n" * 4 + b"crash\narchive 0\n" + bound(1)
    yield "a store that fails leaves the connections", \
        login(1) + b"fault 3\n" + frame + b"ask 1 unbind\n", \
        bound(1) + b"fault\narchive 0\n" + sent(1, UNBOUND) + b"ended 1 unbound\n"


def wrong_states():
    """Scripts whose last line is in a wrong state, and what they write before it."""
    yield b"open 1\nopen 1\n", b""
    yield b"open 17\n", b""
    for line in [b"in 1 00", b"ask 1 context 30 5", b"shut 1", b"break 1", b"round 1 1",
                 b"stall 1 1"]:
        yield line + b"\n", b""
        yield b"open 2\n" + line + b"\n", b""
        yield b"open 1\nbreak 1\n" + line + b"\n", b"ended 1 fault\n"
        yield b"open 1\ncrash 0 old\n" + line + b"\n", b"crash\narchive 0\n"


# ---- what a site says

def signed(name, password, hash, seconds, number=1):
    """Credentials of that many seconds of the day 20000."""
    stamp = (20_000).to_bytes(2, "big") + (1_000 * seconds).to_bytes(4, "big") + bytes(2)
    fields = element(0x04, stamp) + integer(number)
    covered = element(0x30, fields + element(0x1A, name) + element(0x04, password))
    return element(0x30, fields + element(0x04, hashlib.new(hash, covered).digest()))


# the first two numbers of the session at door 1
NUMBERS = [(1_103_515_245 * 2 + 12_345) % 2**31]
NUMBERS.append((1_103_515_245 * NUMBERS[0] + 12_345) % 2**31)


def message(tag, credentials, *fields):
    """A PDU with these credentials, or none, in its message."""
    own = element(0x80, b"") if credentials is None else element(0x81, credentials)
    pdu = element(tag, own + b"".join(fields))
    return (b"\1\0\0\0" + len(pdu).to_bytes(4, "big") + pdu).hex().encode()


def bind(credentials):
    """A BIND of SEC for ONLC1, by version 5."""
    fields = bytes.fromhex(BIND.decode())[8 + 3 + 2 + 5:]
    return b"in 1 %s\n" % message(b"\xbf\x64", credentials, element(0x1A, b"SEC"), fields)


def unbind(credentials):
    return b"in 1 %s\n" % message(b"\xbf\x66", credentials, integer(0))


def bind_return(credentials, provider, result=b"\x80\x01\x05"):
    return sent(1, message(b"\xbf\x65", credentials, element(0x1A, provider), result))


def unbind_return(credentials):
    return sent(1, message(b"\xbf\x67", credentials, element(0x80, b"")))


DENIED = b"\x81\x01\x00"
PASSWORD = b"\1\2\3\4\5\6\7\x08"


def station(setting, level, hash):
    """A site with a setting and a peer, and a connection at 100 seconds of the day 20000."""
    words = setting, level, hash.encode(), ONLC1
    return b"site\n%s\npeer SEC %s %s 60 0102030405060708\nraf %s SEC complete 1 5 60\nend\n" \
        b"clock 20000/100000/0\nopen 1\nask 1 context 30 5\n" % words


def settings():
    """Scripts whose sites say something of a connection, and their transcripts."""
    yield from signatures()
    for setting, good, bad in [
        (b"", [(5, 2), (3_600, 100), (0, 2)], [(4, 2), (3_601, 2), (5, 1), (5, 101), (0, 1)]),
        (b"heartbeat 1 7 3 9", [(1, 3), (7, 9), (0, 9)], [(8, 3), (1, 2), (1, 10)]),
    ]:
        for which, end in [(good, b""), (bad, b"ended 1 range\n")]:
            for words in which:
                yield b"site\n%s\nend\nopen 1\nask 1 context %d %d\n" % (setting, *words), end
    for setting, good, bad in [(b"", [4, 5], [3, 6]), (b"versions 6 9", [6, 9], [5, 7, 65_535])]:
        for version in good + bad:
            asked = b"ask 1 bind SEC 0 %d %s\n" % (version, ONLC1)
            answer = bound(1, version) if version in good else refused(1, 2)
            yield station(setting, b"none", "sha1") + asked, answer


def signatures():
    for setting, name, password in [
        (b"", b"STATION", bytes(6)), (b"provider GROUND", b"GROUND", bytes(6)),
        (b"password 112233445566778899", b"STATION", bytes.fromhex("112233445566778899")),
    ]:
        for hash in ["sha1", "sha256"]:
            asks, own = signed(b"SEC", PASSWORD, hash, 100), [
                signed(name, password, hash, 100, number) for number in NUMBERS]
            yield station(setting, b"bind", hash) + bind(asks) + unbind(None), \
                bind_return(own[0], name) + unbind_return(None) + b"ended 1 unbound\n"
            yield station(setting, b"all", hash) + bind(asks) + unbind(asks), \
                bind_return(own[0], name) + unbind_return(own[1]) + b"ended 1 unbound\n"
            yield station(setting, b"all", hash) + bind(asks) + unbind(None), \
                bind_return(own[0], name) + b"ended 1 aborted 0\n"
            yield station(setting, b"none", hash) + bind(None) + unbind(None), \
                bind_return(None, name) + unbind_return(None) + b"ended 1 unbound\n"
    own = signed(b"STATION", bytes(6), "sha1", 100, NUMBERS[0])
    for asks, is_good in [
        (signed(b"SEC", PASSWORD, "sha1", 40), True), (signed(b"SEC", PASSWORD, "sha1", 160), True),
        (signed(b"SEC", PASSWORD, "sha1", 39), False),
        (signed(b"SEC", PASSWORD, "sha1", 161), False),
        (signed(b"SEC", PASSWORD[:-1], "sha1", 100), False),
        (signed(b"MOC", PASSWORD, "sha1", 100), False),
        (signed(b"SEC", PASSWORD, "sha256", 100), False), (None, False), (bytes(8), False),
    ]:
        yield station(b"", b"bind", "sha1") + bind(asks), bind_return(own, b"STATION") if is_good \
            else bind_return(None, b"STATION", DENIED) + b"ended 1 denied\n"


def drive(run, check):
    for name, script, transcript in rows():
        check(name, run([b"drill"], SITE + script), (0, transcript, b""))
    for script, transcript in wrong_states():
        line = script.count(b"\n")
        check(f"a wrong state, {script}", run([b"drill"], script),
              (3, transcript + b"bad line %d\n" % line, b""))
    for script, transcript in settings():
        check(f"a site, {script}", run([b"drill"], script), (0, transcript, b""))
