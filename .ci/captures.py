#!/usr/bin/env python3
"""Reads the capture files of transcripts as other programs do.

    .ci/captures.py PROVIDER CAPTURE LAUNCHER

PROVIDER runs scripts, CAPTURE makes a capture file of a transcript, LAUNCHER is `bin/provider`. A
capture file is read octet by octet: its messages are those of the transcript, and its checksums and
sequence numbers are right. Where there is a tshark, it reads each capture; else that is said. The last
line is `N passed, M failed`.
"""
import pathlib
import shutil
import struct
import subprocess
import sys
import tempfile

sys.dont_write_bytecode = True
from checks import Checks, run as run_words

TOP = pathlib.Path(__file__).resolve().parent.parent

checks = Checks("captures")
check = checks.check


def run(program, words, text=b""):
    """The exit code, and what was written to standard output."""
    return run_words([program, *words], text, 600)[:2]


def sum_of(octets):
    """The sum of 16-bit words, with its carries added in: FFFF where a checksum is right."""
    octets += b"\0" * (len(octets) % 2)
    total = sum(struct.unpack(f">{len(octets) // 2}H", octets))
    while total >> 16:
        total = (total & 0xFFFF) + (total >> 16)
    return total


def packets_of(name, octets):
    """The time, the connection, the sequence number and the octets of each segment."""
    head = struct.unpack(">IHHIIII", octets[:24])
    check(f"{name}, its head", head, (0xA1B2C3D4, 2, 4, 0, 0, 262144, 1))
    place, packets = 24, []
    while place < len(octets):
        seconds, micros, length, whole = struct.unpack(">IIII", octets[place:place + 16])
        packet = octets[place + 16:place + 16 + length]
        place += 16 + length
        ip, tcp = packet[14:34], packet[34:]
        check(f"{name}, a packet's heads",
              (whole, packet[12:14], ip[0], ip[6:10], ip[12:16], tcp[12:16], tcp[8:12]),
              (length, b"\x08\0", 0x45, b"\x40\0\x40\x06", bytes([10, 0, 0, 100]),
               b"\x50\x18\xff\xff", b"\0\0\0\1"))
        check(f"{name}, a packet's length", struct.unpack(">H", ip[2:4])[0], length - 14)
        check(f"{name}, the sum of IP", sum_of(ip), 0xFFFF)
        check(f"{name}, the sum of TCP",
              sum_of(ip[12:20] + bytes([0, 6]) + struct.pack(">H", len(tcp)) + tcp), 0xFFFF)
        ports = struct.unpack(">HH", tcp[:4])
        check(f"{name}, its ends", (ports, ip[16:19]), ((5100, 40000 + ip[19]), bytes([10, 0, 0])))
        packets.append((seconds, micros, ip[19], struct.unpack(">I", tcp[4:8])[0], tcp[20:]))
    return packets


def messages_of(octets):
    """The transport messages of octets, and what is left behind them."""
    place = 0
    while place + 8 <= len(octets):
        end = place + 8 + int.from_bytes(octets[place + 4:place + 8], "big")
        if end > len(octets):
            break
        yield octets[place:end]
        place = end
    if place < len(octets):
        yield octets[place:]


def captured(name, program, transcript, reader):
    status, octets = run(program, ["capture"], transcript)
    check(f"{name}, status", status, 0)
    wanted, nexts = [], {}
    for number, line in enumerate(transcript.split(b"\n")):
        words = line.split(b" ")
        if words[0] != b"sent":
            continue
        c, micros = int(words[1]), 0
        for message in messages_of(bytes.fromhex(words[2].decode())):
            for place in range(0, len(message), 65495):
                segment = message[place:place + 65495]
                sequence = nexts.get(c, 1)
                wanted.append((number + 1, micros, c, sequence, segment))
                nexts[c] = sequence + len(segment)
                micros += 1
    check(f"{name}, packets", packets_of(name, octets), wanted)
    if reader:
        with tempfile.TemporaryDirectory() as folder:
            path = pathlib.Path(folder) / "pass.pcap"
            path.write_bytes(octets)
            analysed(name, path, wanted, reader)


def analysed(name, path, wanted, reader):
    """An analyser reads the capture, with the dissector of the transport's header."""
    done = subprocess.run(
        [reader, "-X", f"lua_script:{TOP}/examples/isp1.lua", "-r", path, "-o", "tcp.check_checksum:TRUE",
         "-o", "ip.check_checksum:TRUE", "-T", "fields", "-E", "separator=;", "-e", "ip.checksum.status",
         "-e", "tcp.checksum.status", "-e", "tcp.dstport", "-e", "tcp.payload", "-e", "isp1.type",
         "-e", "isp1.length", "-e", "tcp.analysis.flags"],
        stdout=subprocess.PIPE, stderr=subprocess.PIPE, timeout=300)
    check(f"{name}, analysed", done.returncode, 0)
    rows = [row.split(";") for row in done.stdout.decode().splitlines()]
    check(f"{name}, its segments", [(row[2], bytes.fromhex(row[3].replace(":", ""))) for row in rows],
          [(str(40000 + packet[2]), packet[4]) for packet in wanted])
    check(f"{name}, its checksums", {(row[0], row[1]) for row in rows}, {("1", "1")} if rows else set())
    check(f"{name}, lost or doubled", [row for row in rows if row[6]], [])
    if all(len(packet[4]) < 60000 for packet in wanted):
        check(f"{name}, headers", [(int(row[4]), int(row[5])) for row in rows],
              [(packet[4][0], len(packet[4]) - 8) for packet in wanted])


def captures(program, provider, reader):
    for file in sorted((TOP / "examples").glob("*.script")):
        captured(file.name, program, run(provider, ["drill"], file.read_bytes())[1], reader)
    captured("nothing", program, b"", None)
    long_one = b"\1\0\0\0" + (100_000).to_bytes(4, "big") + bytes(100_000)
    both = b"\3" + bytes(7) + long_one + b"\3\0"
    captured("a long message", program, b"ended 2 closed\nsent 16 " + both.hex().encode() + b"\n", reader)
    for words in [[], ["capture", "x"], ["explain"]]:
        check(f"capture, words {words}", run(program, words), (2, b"usage\n"))


def launched(launcher, capture):
    transcript = (TOP / "examples/live-pass.transcript").read_bytes()
    with tempfile.TemporaryDirectory() as folder:
        path = pathlib.Path(folder) / "pass.pcap"
        check("launched", run(launcher, ["explain", "--pcap", path], transcript), (0, b""))
        check("launched, its file", path.read_bytes(), run(capture, ["capture"], transcript)[1])
        absent = run(launcher, ["explain", "--pcap", path / "x"], transcript)
        check("launched, no file", absent, (1, b""))
    for words in [["explain", "--pcap"], ["explain", "--pcap", "x", "y"]]:
        check(f"launched, {words}", run(launcher, words), (2, b"usage\n"))


def main(*programs):
    provider, capture, launcher = (str(pathlib.Path(each).resolve()) for each in programs)
    reader = shutil.which("tshark")
    found = f"captures are read by {reader}" if reader else "no tshark is here to read them"
    print(f"captures: {found}")
    captures(capture, provider, reader)
    launched(launcher, capture)
    return checks.end()


if __name__ == "__main__":
    if len(sys.argv) != 4:
        sys.exit(__doc__)
    sys.exit(main(*sys.argv[1:]))
