"""STARTs of the desk whose answers lie at a bound, and how the built program is driven with them.

The expected transcript is that of the second program (drills.py); how many lines it has stands
here, so that a mistake of both that leaves some out shows.
"""
from drills import drill


def frame(seconds, octets, lost=0, quality=0, antenna=b"41"):
    """A frame so many seconds into the day 20000."""
    return b"frame 20000/%d/0 %d %s %d %s\n" % (1_000 * seconds, quality, antenna, lost, octets)


def mark(seconds):
    return b"mark 20000/%d/0\n" % (1_000 * seconds)


def start(start, stop, quality):
    """A START between two times in milliseconds of the day 20000."""
    return b"start 20000/%d/0 20000/%d/0 %d\n" % (start, stop, quality)


ONE = frame(1, b"0010a1")
LONG = bytes(range(128)).hex().encode()

# what is shown, the script, and how many lines the STARTs write
ROWS = [
    ("no entry, and a seal alone", start(0, 1, 2) + mark(1) + start(0, 1, 2), 1),
    ("one frame, with an open stop and with a closed one",
     frame(1, b"0010a1", 9) + start(0, 1_000, 0) + start(0, 999, 0) + mark(1) + start(0, 1_000, 0),
     3),
    ("two frames fill a buffer, behind which nothing is held",
     ONE + frame(2, b"0010a2", 6) + start(0, 2_000, 0) + mark(2) + start(0, 2_000, 0), 3),
    ("five frames and then six, with an open stop",
     b"".join(frame(i, b"0010a%d" % i, i) for i in range(1, 6)) + start(0, 5_000, 0)
     + frame(6, b"0010a6", 6) + start(0, 6_000, 0), 5),
    ("seven frames, closed by an eighth above the stop",
     ONE + frame(2, b"0010a2", 1, antenna=b"4142") + frame(3, b"0010a3")
     + frame(4, b"0010a4", 200, antenna=b"414243") + frame(5, b"0010a5")
     + frame(6, b"0010a6", 70_000) + frame(7, b"0010a7") + frame(8, b"0010a8")
     + start(1_000, 7_000, 0), 5),
    ("each quality, with frames of others between",
     frame(1, b"0010a1", 5, 1) + frame(2, b"0010a2", 3) + b"mark 20000/2500/0\n"
     + frame(3, b"0010a3", 4, 1) + frame(4, b"0010a4", 11, 2) + frame(5, b"0010a5", 2) + mark(5)
     + frame(6, b"0010a6", 1) + b"".join(start(0, 5_000, quality) for quality in range(3)), 8),
    ("more frames lost than a continuity tells",
     b"".join(frame(i, b"0010a%d" % i, 1 if i == 4 else 16_777_215, int(i in (2, 3)))
              for i in range(1, 6)) + mark(5) + start(0, 5_000, 0), 3),
    ("a START past the end, with an open stop and with a closed one",
     ONE + b"start 20001/0/0 20001/1000/0 2\nmark 20001/1000/0\nstart 20001/0/0 20001/1000/0 2\n",
     1),
    ("refused STARTs, and one at a single time",
     ONE + mark(1) + b"start 20000/1000/1 20000/1000/0 2\n" + start(1_000, 1_000, 2)
     + b"start 20001/0/0 20000/1000/0 0\n", 4),
    ("frames of equal times",
     ONE + frame(1, b"0010a2", 8) + frame(1, b"0010a3", 1, 2) + frame(1, b"0010a4")
     + start(1_000, 1_000, 2) + mark(1) + start(1_000, 1_000, 0) + start(0, 999, 0), 6),
    ("an archive that grows, also by long frames",
     frame(1, b"00", antenna=b"41424344454647484950515253545556") + start(0, 9_000, 0)
     + frame(2, LONG, 127) + start(0, 9_000, 0) + frame(3, LONG, 128) + mark(3)
     + start(1_001, 3_000, 0), 3),
]


def drive(run, check):
    for name, script, lines in ROWS:
        status, transcript, _, _ = drill(script)
        check(f"{name}, lines", (status, transcript.count(b"\n")), (0, lines))
        check(name, run([b"drill"], script), (0, transcript, b""))
