"""How the built program is driven with users of RAF, and what it then writes.

The messages are written down here, octet for octet.
"""
from associations import SITE, UNBOUND, bound, sent

ONLT1, ONLC1, OFFL1, ONLC2 = b"onlt1", b"onlc1", b"offl1", b"onlc2"
FRAMES = [b"frame 20000/%d/0 0 41 0 0010a%d\n" % (1_000 * n, n) for n in (1, 2, 3)]
START = b"ask %d start none none 2\n"

STARTED = b"0100000000000009a10780000201008000"
REFUSED = b"010000000000000ca10a8000020100a10381010%d"
STOPPED = b"0100000000000009a30780000201008000"
HEARTBEAT = b"0300000000000000"
BACKLOG = b"0100000000000008a806a10480008200"
END = b"0100000000000008a806a10480008300"


def login(connection, name):
    which = b"sagr=1.spack=P.rsl-fg=1.raf=" + name
    return b"open %d\nask %d context 30 5\nask %d bind MOC 0 5 %s\n" % (
        connection, connection, connection, which)


def frame_buffer(number, is_first):
    """A buffer of one of the frames: the first one of a START, or one behind the frame before."""
    stamp, gap = {1: b"03e8", 2: b"07d0", 3: b"0bb8"}[number], b"ff" if is_first else b"00"
    return b"0100000000000020a81ea01c800080084e200000%s00008101410201%s020100800004030010a%d" % (
        stamp, gap, number)


def begun(connection, name):
    """The lines of a user who binds and starts, and what they write."""
    return login(connection, name) + START % connection, \
        bound(connection) + sent(connection, STARTED)


def rows():
    """Each what it shows, the script behind the site, and the transcript."""
    one, two, three = FRAMES
    for name in (ONLT1, ONLC1, ONLC2):
        yield f"a START of {name}", *begun(1, name)
    lines, said = begun(1, ONLC1)
    yield "frames behind a START without a start time", one + lines + two + b"round 1 1\n", \
        said + sent(1, frame_buffer(2, True))
    yield "a START of all that came", one + login(1, ONLC1) \
        + b"ask 1 start 20000/0/0 none 2\nround 1 1\n" + two + b"round 1 2\n", \
        said + sent(1, frame_buffer(1, True)) + sent(1, frame_buffer(2, False))
    yield "a message a buffer, in each round", lines + one + two + three + b"round 1 9\n", said \
        + b"".join(sent(1, frame_buffer(number, number == 1)) for number in (1, 2, 3))
    yield "no end of data before the stop is closed, and then one", login(1, ONLC1) \
        + b"ask 1 start none 20000/1000/0 2\n" + one + b"round 1 3\n" + two + b"round 1 3\n", \
        said + sent(1, frame_buffer(1, True)) + sent(1, END)
    yield "refused STARTs of an offline instance", login(1, OFFL1) + START % 1 \
        + b"ask 1 start 20000/0/0 none 2\nask 1 start 20000/2/0 20000/1/0 2\n", \
        bound(1) + sent(1, REFUSED % 4) * 2 + sent(1, REFUSED % 3)
    yield "no START while production is halted, but of what is stored", b"production 2\n" \
        + login(1, ONLC1) + START % 1 + login(2, OFFL1) + b"mark 20000/0/0\n" \
        + b"ask 2 start 20000/0/0 20000/0/0 2\nround 2 2\n", \
        bound(1) + sent(1, REFUSED % 0) + bound(2) + sent(2, STARTED) + sent(2, END)
    yield from places(lines, said)
    yield from timely()
    yield from stalls(lines, said)
    yield from latency()
    yield from failures(one)


def places(lines, said):
    """What is in place, and what isn't."""
    for line in [START % 1, b"ask 1 unbind\n"]:
        yield f"out of place while active, {line}", lines + line, said + b"ended 1 aborted 3\n"
    yield "a STOP in ready", login(1, ONLC1) + b"ask 1 stop\n", bound(1) + b"ended 1 aborted 3\n"
    yield "a STOP, and an UNBIND behind it", lines + b"ask 1 stop\nask 1 unbind\n", \
        said + sent(1, STOPPED) + sent(1, UNBOUND) + b"ended 1 unbound\n"
    yield "a START after a STOP begins anew", lines + FRAMES[0] + b"ask 1 stop\n" + START % 1 \
        + FRAMES[1] + b"round 1 2\n", \
        said + sent(1, STOPPED) + sent(1, STARTED) + sent(1, frame_buffer(2, True))


def timely():
    lines, said = begun(1, ONLT1)
    one, two, three = FRAMES
    yield "a discard, and the backlog that tells it", \
        lines + one + b"stall 1 2\nround 1 2\n" + two + b"round 1 2\n", \
        said + b"stalled 1\ndiscarded 1 1\nstalled 1\n" + sent(1, BACKLOG) \
        + sent(1, frame_buffer(2, True))
    yield "discards one after the other are told once", \
        lines + one + two + b"stall 1 1\nround 1 1\nround 1 1\nstall 1 1\n" + three \
        + b"round 1 2\n", \
        said + b"stalled 1\ndiscarded 1 1\n" + sent(1, BACKLOG) + b"stalled 1\ndiscarded 1 1\n" \
        + sent(1, BACKLOG)
    yield "only what comes behind the START", one + lines + b"round 1 2\n" + two + b"round 1 1\n", \
        said + sent(1, frame_buffer(2, True))


def stalls(lines, said):
    one, two, _ = FRAMES
    yield "a complete delivery keeps what stalls", \
        lines + one + two + b"stall 1 1000\nround 1 1000\nround 1 2\n", \
        said + b"stalled 1\n" * 1_000 + sent(1, frame_buffer(1, True)) \
        + sent(1, frame_buffer(2, False))
    other, others = begun(2, ONLC2)
    yield "one that stalls for a thousand rounds beside one that doesn't", \
        lines + other + b"stall 1 1000\n" + one + b"round 1 500\nround 2 1\nclock 0/5000/0\nround 2 1\n" \
        + b"round 1 501\n", \
        said + others + b"stalled 1\n" * 500 + sent(2, frame_buffer(1, True)) \
        + b"stalled 1\n" * 500 + sent(1, frame_buffer(1, True))
    yield "a stalled block is offered before the buffer", \
        login(1, ONLC1) + b"stall 1 2\n" + START % 1 + one + b"round 1 3\n", \
        bound(1) + b"stalled 1\n" * 2 + sent(1, STARTED) + sent(1, frame_buffer(1, True))
    yield "a STOP drops what stalled", \
        lines + one + b"stall 1 1\nround 1 1\nask 1 stop\n" + START % 1 + b"round 1 3\n", \
        said + b"stalled 1\n" + sent(1, STOPPED) + sent(1, STARTED)


def latency():
    lines, said = begun(1, ONLC2)
    at_start = b"clock 20000/0/0\n"
    yield "a buffer is due once its latency passed", at_start + lines + FRAMES[0] \
        + b"round 1 1\nclock 20000/4999/999\nround 1 1\nclock 20000/5000/0\nround 1 1\n", \
        said + sent(1, frame_buffer(1, True))
    script = at_start + lines
    for k in range(20):
        digits = b"0010" + b"55" * 1_113
        script += b"clock 20000/%d/0\nframe 20000/%d/0 0 41 0 %s\nround 1 1\n" % (
            400 * k, 400 * k, digits)
    buffers = [full_buffer(first) for first in (0, 10)]
    yield "full buffers, and a heartbeat thirty seconds behind the second", \
        script + b"clock 20000/37600/0\nround 1 1\n", \
        said + b"".join(sent(1, each) for each in buffers) + sent(1, HEARTBEAT)


def full_buffer(first):
    items = b"".join(b"a0820476800080084e20%08x00008101410201%s02010080000482045b0010%s" % (
        400 * k, b"ff" if k == 0 else b"00", b"55" * 1_113) for k in range(first, first + 10))
    return b"0100000000002cc8a8822cc4" + items


def failures(one):
    asked = b"ask 1 start 20000/0/0 none 2\nround 1 1\n"
    said = bound(1) + sent(1, STARTED) + sent(1, frame_buffer(1, True))
    yield "a power failure, and a START behind it", \
        one + (login(1, ONLC1) + asked) + b"crash 0 old\n" + (login(1, ONLC1) + asked), \
        said + b"crash\narchive 1\n" + said
    yield "a power failure between two buffers", one + FRAMES[1] + login(1, ONLC1) + asked \
        + b"crash 0 old\n" + login(1, ONLC1) + asked + b"round 1 1\n", \
        said + b"crash\narchive 2\n" + said + sent(1, frame_buffer(2, False))
    yield "an end of data that no later frame makes false, over a power failure", one \
        + login(1, ONLC1) + b"ask 1 start 20000/0/0 20000/1000/0 2\nround 1 1\n" \
        + b"mark 20000/1000/0\nround 1 1\ncrash 0 torn\nframe 20000/1000/0 0 41 0 0010a2\n", \
        bound(1) + sent(1, STARTED) + sent(1, frame_buffer(1, True)) + sent(1, END) \
        + b"crash\narchive 2\nbackward\n"
    yield "a break ends a delivery", one + login(1, ONLC1) + asked + b"break 1\n" \
        + login(1, ONLC1) + asked, said + b"ended 1 fault\n" + said


def drive(run, check):
    for name, script, transcript in rows():
        check(name, run([b"drill"], SITE + script), (0, transcript, b""))
