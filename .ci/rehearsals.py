"""What `rehearse` writes, by a program of its own, and how the built program is driven with it.

It follows X.690, CCSDS 911.1-B (annex A) and CCSDS 913.1-B, and takes SHA-1 from Python.
"""
import hashlib
import os
import tempfile

# words outside the grammar: no number, two, another word, and numbers of another form or range
NUMBERS = [
    b"", b"0", b"00", b"07", b"007", b"20001", b"020000", b"100000", b"4294967303",
    b"18446744073709551623", b"9" * 40, b"-7", b"+7", b"7 ", b" 7", b"7\n", b"7.0", b"7e0", b"0x7",
    b"7x", b"x", b"seven", b"--", b"\xef\xbc\x97", b"\xff",
]
OUTSIDE = [
    [b"rehearse"], [b"rehearse", b"7", b""], [b"rehearse", b"7", b"7"], [b"7", b"rehearse"],
    [b"Rehearse", b"7"], [b"rehearses", b"7"], [b"rehearse ", b"7"],
    *([b"rehearse", number] for number in NUMBERS),
]

# written down once, so that a change of both programs shows
KNOWN = {
    1: "36d19d797274cc6ea18a20161c3f71b64699c1fe",
    7: "6e4ec72498d9782ad6be7857493b6f2ac80b9590",
    20_000: "838f8b9dca07b6a4e043a33cd58cf05cfa4df33e",
}


def element(tag, content):
    size = len(content)
    octets = size.to_bytes((size.bit_length() + 7) // 8, "big")
    length = bytes([size]) if size < 128 else bytes([0x80 + len(octets)]) + octets
    return bytes([tag]) + length + content


def frame(i):
    return bytes([0x02, 0xA0 + 2 * (i % 8)] + [(i + k) % 256 for k in range(2, 1115)])


def item(i, is_first):
    time = (20000).to_bytes(2, "big") + (10 * i).to_bytes(4, "big") + b"\0\0"
    continuity = b"\xff" if is_first else b"\0"
    fields = [(0x80, b""), (0x80, time), (0x81, b"\x41"), (2, continuity), (2, b"\0"), (0x80, b""),
              (4, frame(i))]
    return element(0xA0, b"".join(element(tag, content) for tag, content in fields))


def rehearsal(n):
    """The text of a rehearsal of n frames, and the messages of its START."""
    good = [i for i in range(n) if i % 7 != 3]
    items = [item(i, i == good[0]) for i in good]
    buffers = [b"".join(items[place:place + 2]) for place in range(0, len(items), 2)]
    end = element(0xA1, element(0x80, b"") + element(0x83, b""))
    bodies = [element(0xA8, members) for members in [*buffers, end]]
    messages = [b"\1\0\0\0" + len(body).to_bytes(4, "big") + body for body in bodies]
    digest = hashlib.sha1(b"".join(messages)).hexdigest()
    lines = [f"stored {n}", f"sent {len(good)}", f"buffers {len(buffers)}", "ends 1"]
    return "".join(line + "\n" for line in [*lines, f"digest {digest}"]).encode(), messages


def script_of(n):
    """The script of the same frames, as `drill` takes it."""
    lines = [f"frame 20000/{10 * i}/0 {int(i % 7 == 3)} 41 0 {frame(i).hex()}" for i in range(n)]
    last = f"20000/{10 * (n - 1)}/0"
    ends = [f"mark {last}", f"start 20000/0/0 {last} 0"]
    return "".join(line + "\n" for line in lines + ends).encode()


def drive(run, check):
    for words in OUTSIDE:
        check(f"words {words}", run(words), (2, b"usage\n", b""))
    for n, digest in KNOWN.items():
        check(f"the digest of {n} frames", rehearsal(n)[0][-41:-1], digest.encode())
    for n in [*range(1, 31), 255, 256, 257, 300, 2000, 19_999, 20_000]:
        check(f"rehearse {n}", run([b"rehearse", b"%d" % n]), (0, rehearsal(n)[0], b""))
    # the messages are those of a script of the same frames
    for n in [1, 2, 3, 4, 7, 8, 300]:
        sent = b"".join(b"sent 0 %s\n" % octets.hex().encode() for octets in rehearsal(n)[1])
        check(f"the script of {n} frames", run([b"drill"], script_of(n)), (0, sent, b""))
    # the input is left as it was
    with tempfile.TemporaryFile() as script:
        script.write(script_of(1))
        script.seek(0)
        check("rehearse 1", run([b"rehearse", b"1"], stdin=script), (0, rehearsal(1)[0], b""))
        check("rehearse 1, input", os.lseek(script.fileno(), 0, os.SEEK_CUR), 0)
