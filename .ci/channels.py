"""How the built program is driven with users of RCF, status reports and parameters, and what it then
writes.

The messages are written down here, octet for octet.
"""
from associations import SITE, bound, sent
from telemetry import (FRAMES, OFFL1, ONLC1, ONLC2, ONLT1, REFUSED, START, STARTED, STOPPED, begun,
                       frame_buffer, login)

AT_START = b"clock 20000/0/0\n"
CHANNEL = b"sagr=1.spack=P.rsl-fg=1.rcf=onlc1"
CHANNEL_LOGIN = b"open %d\nask %d context 30 5\nask %d bind MOC 2 5 " + CHANNEL + b"\n"
CHANNEL_START = b"ask %d start none none 1/1/63\n"
GOOD = [b"frame 20000/%d/0 0 41 0 407fa%d\n" % (1_000 * n, n) for n in (1, 2)]

SCHEDULED = b"0100000000000009a50780000201008000"
REPORT_REFUSED = b"010000000000000ca50a8000020100a10381010%d"
PARAMETER_REFUSED = b"010000000000000ca70a8000020100a103810100"
# a report of nothing that was received: RAF's with two counts, and RCF's with one
NOTHING = b"0100000000000019a9178000020100020100020103020103020103020103020100"
NOTHING_OF_RCF = b"0100000000000016a9148000020100020103020103020103020103020100"


def report(error_free, delivered):
    """RAF's, with all locks on a frame."""
    return b"0100000000000019a91780000201%02x0201%02x" % (error_free, delivered) \
        + b"020100" * 5


def parameter(digits):
    """The return with a parameter's element."""
    whole = b"8000020100a0%02x" % (len(digits) // 2) + digits
    size = len(whole) // 2
    return b"01000000000000%02xa7%02x" % (size + 2, size) + whole


def channel_frame(number, is_first):
    return b"010000000000001da81ba019800080084e200000%s00008101410201%s80000403407fa%d" % (
        {1: b"03e8", 2: b"07d0"}[number], b"ff" if is_first else b"00", number)


def rows():
    """Each what it shows, the script behind the site, and the transcript."""
    yield from selections()
    yield from schedules()
    yield from cycles()
    yield from counts()
    yield from parameters()


def selections():
    lines, said = CHANNEL_LOGIN % (1, 1, 1), bound(1)
    yield "a channel that isn't permitted, and one that is", lines \
        + b"ask 1 start none none 1/1/62\nask 1 start 20000/0/0 none 1/1/63\n" \
        + b"frame 20000/500/0 0 41 0 007ea0\n" + GOOD[0] \
        + b"frame 20000/1500/0 1 41 0 407fa2\nround 1 3\n", \
        said + sent(1, REFUSED % 5) + sent(1, STARTED) + sent(1, channel_frame(1, True))
    for channel in [b"1/1/62", b"1/1/*", b"1/0/63", b"2/1/63"]:
        yield f"no START of {channel}", lines + b"ask 1 start none none %s\n" % channel, \
            said + sent(1, REFUSED % 5)
    yield "times are judged before the channel", \
        lines + b"ask 1 start 20000/2/0 20000/1/0 1/1/62\n", said + sent(1, REFUSED % 3)
    yield "a START of RAF's doesn't decode, nor one of RCF's for RAF", \
        lines + START % 1 + login(1, ONLC1) + CHANNEL_START % 1, \
        said + b"ended 1 aborted 5\n" + bound(1) + b"ended 1 aborted 5\n"
    yield "frames of a channel behind its START", GOOD[0] + lines + CHANNEL_START % 1 + GOOD[1] \
        + b"round 1 2\n", said + sent(1, STARTED) + sent(1, channel_frame(2, True))
    yield "a STOP, and a START that begins anew", lines + CHANNEL_START % 1 + GOOD[0] \
        + b"ask 1 stop\n" + CHANNEL_START % 1 + GOOD[1] + b"round 1 2\n", \
        said + sent(1, STARTED) + sent(1, STOPPED) + sent(1, STARTED) \
        + sent(1, channel_frame(2, True))


def schedules():
    yield "a report at once", login(1, ONLC1) + b"ask 1 report now\nround 1 3\n", \
        bound(1) + sent(1, SCHEDULED + NOTHING)
    yield "a report of RCF at once", CHANNEL_LOGIN % (1, 1, 1) + b"ask 1 report now\n", \
        bound(1) + sent(1, SCHEDULED + NOTHING_OF_RCF)
    yield "no reports offline, of any kind", login(1, OFFL1) \
        + b"ask 1 report now\nask 1 report stop\nask 1 report 1\nask 1 report 5\n", \
        bound(1) + sent(1, REPORT_REFUSED % 0) * 4
    yield "nothing to stop, and cycles out of range", login(1, ONLC1) \
        + b"ask 1 report stop\nask 1 report 1\nask 1 report 601\nask 1 report 0\n", \
        bound(1) + sent(1, REPORT_REFUSED % 1) + sent(1, REPORT_REFUSED % 2) * 3
    yield "the shortest cycle and the longest", login(1, ONLC1) \
        + b"ask 1 report 2\nask 1 report 600\n", bound(1) + sent(1, SCHEDULED + NOTHING) * 2
    yield "a cycle is stopped once", login(1, ONLT1) + AT_START \
        + b"ask 1 report 2\nask 1 report stop\nask 1 report stop\nclock 20000/9000/0\nround 1 1\n", \
        bound(1) + sent(1, SCHEDULED + NOTHING) + sent(1, SCHEDULED) + sent(1, REPORT_REFUSED % 1)


def cycles():
    at, lines = AT_START, login(1, ONLC1) + b"ask 1 report 2\n"
    said = bound(1) + sent(1, SCHEDULED + NOTHING)
    yield "a report in the round in which the cycle has passed, and no earlier", at + lines \
        + b"clock 20000/1999/999\nround 1 1\nclock 20000/2000/0\nround 1 2\n", \
        said + sent(1, NOTHING)
    yield "a cycle counts from the last report that was given", at + lines \
        + b"clock 20000/3000/0\nround 1 1\nclock 20000/4999/999\nround 1 1\n" \
        + b"clock 20000/5000/0\nround 1 1\n", said + sent(1, NOTHING) * 2
    yield "a report at once moves the next one", at + lines \
        + b"clock 20000/1500/0\nask 1 report now\nclock 20000/3499/999\nround 1 1\n" \
        + b"clock 20000/3500/0\nround 1 1\n", \
        said + sent(1, SCHEDULED + NOTHING) + sent(1, NOTHING)
    yield "a request that is refused leaves the cycle", at + lines \
        + b"ask 1 report 1\nclock 20000/2000/0\nround 1 1\n", \
        said + sent(1, REPORT_REFUSED % 2) + sent(1, NOTHING)
    yield "a cycle goes on over START and STOP", at + lines + START % 1 \
        + b"clock 20000/2000/0\nask 1 stop\nclock 20000/4000/0\nround 1 1\n", \
        said + sent(1, STARTED) + sent(1, STOPPED + NOTHING) + sent(1, NOTHING)
    yield "a cycle ends with its binding", at + lines + b"clock 20000/2000/0\nask 1 unbind\n" \
        + login(1, ONLC1) + b"clock 20000/9000/0\nround 1 1\n", \
        said + sent(1, b"0100000000000007bf670480008000") + b"ended 1 unbound\n" + bound(1)
    yield "a round that is blocked reports nothing, the next one does", at + lines \
        + b"stall 1 2\nask 1 get 9\nclock 20000/2000/0\nround 1 3\n", \
        said + b"stalled 1\n" * 2 + sent(1, PARAMETER_REFUSED) + sent(1, NOTHING)
    yield "the reports of one user aren't told to another", \
        at + lines + login(2, ONLC2) + b"clock 20000/2000/0\nround 2 1\nround 1 1\n", \
        said + bound(2) + sent(1, NOTHING)


def counts():
    lines, said = begun(1, ONLC1)
    one, two, three = FRAMES
    yield "frames count once their buffer was taken", lines + one + b"stall 1 1\nround 1 1\n" \
        + b"ask 1 report now\nask 1 report now\n", \
        said + b"stalled 1\n" + sent(1, SCHEDULED + report(0, 0)) + sent(1, frame_buffer(1, True)) \
        + sent(1, SCHEDULED + report(1, 1))
    yield "counts are since the BIND, over START and STOP", lines + one + b"round 1 1\nask 1 stop\n" \
        + START % 1 + two + b"round 1 1\n" + b"ask 1 report now\n", \
        said + sent(1, frame_buffer(1, True)) + sent(1, STOPPED) + sent(1, STARTED) \
        + sent(1, frame_buffer(2, True)) + sent(1, SCHEDULED + report(2, 2))
    yield "counts begin with each BIND", lines + one + b"round 1 1\nask 1 stop\nask 1 unbind\n" \
        + login(1, ONLC1) + b"ask 1 report now\n", \
        said + sent(1, frame_buffer(1, True)) + sent(1, STOPPED) \
        + sent(1, b"0100000000000007bf670480008000") + b"ended 1 unbound\n" + bound(1) \
        + sent(1, SCHEDULED + report(0, 0))
    timely, begins = begun(1, ONLT1)
    yield "what is discarded isn't counted", timely + one + b"stall 1 1\nround 1 1\n" \
        + b"ask 1 report now\n", begins + b"stalled 1\ndiscarded 1 1\n" \
        + sent(1, SCHEDULED + report(0, 0)) + sent(1, b"0100000000000008a806a10480008200")
    yield "locks and production of the whole archive", one + b"loss 20000/1500/0 1 2 3\n" \
        b"production 1\n" + login(1, ONLC1) + b"ask 1 report now\n" + three + b"ask 1 report now\n", \
        bound(1) + sent(1, SCHEDULED + b"0100000000000019a917800002010002010002010102010302010202"
                        b"0101020101") + sent(1, SCHEDULED + b"0100000000000019a9178000020100020100"
                                              + b"020100" * 4 + b"020101")


def parameters():
    said = b"a008a006"
    yield "a parameter, and one that isn't there", \
        login(1, ONLC2) + b"ask 1 get 4\nask 1 get 9\nask 1 unbind\n", \
        bound(1) + sent(1, b"0100000000000011a70f8000020100" + said + b"02010402010a") \
        + sent(1, PARAMETER_REFUSED) + sent(1, b"0100000000000007bf670480008000") \
        + b"ended 1 unbound\n"
    yield "each parameter of RAF", login(1, ONLC2) + b"ask 1 report 600\n" \
        + b"".join(b"ask 1 get %d\n" % name for name in (6, 15, 26, 27, 28, 29)) \
        + b"ask 1 start none none 0\nask 1 get 27\n", \
        bound(1) + sent(1, SCHEDULED + NOTHING) + b"".join(sent(1, parameter(each)) for each in [
            b"a106020106020101", b"a20602010f800105", b"a30702011a81020258",
            b"a40602011b020102"]) + sent(1, PARAMETER_REFUSED) \
        + sent(1, parameter(b"a50602011d02013c")) + sent(1, STARTED) \
        + sent(1, parameter(b"a40602011b020100"))
    yield "what isn't there offline", login(1, OFFL1) + b"ask 1 get 15\nask 1 get 26\n", \
        bound(1) + sent(1, parameter(b"a20502010f8100")) + sent(1, parameter(b"a30502011a8000"))
    yield "the channel of RCF", CHANNEL_LOGIN % (1, 1, 1) + b"ask 1 get 28\n" \
        + b"ask 1 start none none 1/1/62\nask 1 get 28\n" + CHANNEL_START % 1 \
        + b"ask 1 get 28\nask 1 get 27\n", \
        bound(1) + sent(1, parameter(b"a40502011c8000")) + sent(1, REFUSED % 5) \
        + sent(1, parameter(b"a40502011c8000")) + sent(1, STARTED) \
        + sent(1, parameter(b"a40e02011ca10902010102010181013f")) + sent(1, PARAMETER_REFUSED)


def drive(run, check):
    for name, script, transcript in rows():
        check(name, run([b"drill"], SITE + script), (0, transcript, b""))
