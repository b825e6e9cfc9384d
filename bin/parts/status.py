"""`bin/provider status`: what the station that runs on this machine shows of itself, in words or as JSON."""
import json
import os
import socket
import sys
import time

import words
from station import status_place
from words import refuse

words.LAUNCHER = "provider"
# How long the station may take for an answer, in seconds.
PATIENCE = 10
# The exit code where the station's health is 503.
UNHEALTHY = 3


def ask(place, resource):
    """The status code and the body of a resource."""
    if isinstance(place, int):
        peer = socket.create_connection(("127.0.0.1", place), PATIENCE)
    else:
        peer = socket.socket(socket.AF_UNIX)
        peer.settimeout(PATIENCE)
        peer.connect(place)
    with peer:
        peer.sendall(f"GET {resource} HTTP/1.1\r\nHost: station\r\nConnection: close\r\n\r\n".encode())
        answer = b""
        while piece := peer.recv(65_536):
            answer += piece
    head, end, body = answer.partition(b"\r\n\r\n")
    line = head.split(b"\r\n")[0].split(b" ")
    if not end or len(line) < 2 or not line[0].startswith(b"HTTP/1.") or not line[1].isdigit():
        raise OSError("no answer of HTTP")
    return int(line[1]), body


def lasted(seconds):
    """How long that is, in its two greatest units."""
    parts = []
    for name, size in [("d", 86_400), ("h", 3_600), ("min", 60), ("s", 1)]:
        count, seconds = divmod(seconds, size)
        if count or name == "s" and not parts:
            parts.append(f"{count} {name}")
    return " ".join(parts[:2])


def octets(count):
    for name, size in [("GB", 10 ** 9), ("MB", 10 ** 6), ("kB", 10 ** 3)]:
        if count >= size:
            return f"{count / size:.1f} {name}"
    return f"{count} octets"


def shown(text):
    """A text of the station's without characters that would steer a terminal."""
    return "".join(each if each.isprintable() else repr(each)[1:-1] for each in text)


def ago(now, moment, never):
    return f"{lasted(max(0, now - moment))} ago" if moment else never


def station_lines(it):
    now = it["time_seconds"]
    clock = it["clock_ahead_milliseconds"] - it["clock_behind_milliseconds"]
    at = time.strftime("%Y-%m-%d %H:%M:%S UTC", time.gmtime(now))
    yield "station", f"{at}, up {lasted(max(0, now - it['start_time_seconds']))}"
    if it["version"]:
        yield "version", shown(it["version"])
    yield "clock", f"the machine's is {abs(clock)} ms {'ahead of' if clock >= 0 else 'behind'} the station's time"
    peer = f"connected from {shown(it['source_peer'])}" if it["source_peer"] else "not connected"
    yield "source", f"{shown(it['source_address'])}, {peer}; last entry {ago(now, it['last_entry_time_seconds'], 'never')}"
    yield "entries", (f"{it['frames_total']} frames, {it['losses_total']} losses, {it['productions_total']} production"
                      f" changes, {it['seals_total']} seals; {it['source_lines_total']} lines")
    size, most = it["archive_octets"], it["archive_capacity_octets"]
    room = f" of {octets(most)} ({100 * size // most} percent)" if most else ""
    failed = it["archive_faults_total"] + it["archive_failed_syncs_total"]
    yield "archive", (f"{octets(size)}{room}, synced {ago(now, it['archive_sync_time_seconds'], 'never')};"
                      f" {failed} failed calls, {it['archive_failed_syncs_total']} of them syncs")
    yield "telecommands", (f"{it['telecommands_sent_total']} sent, {it['telecommands_failed_total']} failed;"
                           f" last {ago(now, it['last_telecommand_time_seconds'], 'never')}")


def door_lines(now, door):
    name = f"door {door['door']}"
    links = f"{door['links_total']} of {door['links_limit']} connections"
    counts = (f"{octets(door['octets_in_total'])} in, {octets(door['octets_out_total'])} out,"
              f" {door['stalls_total']} stalls")
    yield name, f"{shown(door['address'])}, {door['state']}; {links}; {counts}"
    if door["state"] == "serving":
        who = f"{shown(door['user'])} at {shown(door['instance'])}" if door["user"] else "not bound"
        yield "", (f"{who}, from {shown(door['peer'])} since {lasted(max(0, now - door['since_time_seconds']))},"
                   f" heard {ago(now, door['heard_time_seconds'], 'never')}")
    for end in door["ends"][:1]:
        yield "", f"last end {ago(now, end['time_seconds'], 'never')}: {shown(end['peer'])} {shown(end['how'])}"


def put_words(code, it):
    print("healthy" if code == 200 else "unhealthy")
    for trouble in it["troubles"]:
        weight = "failure" if trouble["serious"] else "warning"
        print(f"{weight}: {shown(trouble['words'])}; {shown(trouble['advice'])}")
    print()
    lines = list(station_lines(it))
    for door in it["doors"]:
        lines += door_lines(it["time_seconds"], door)
    for name, text in lines:
        print(f"{name:<14}{text}".rstrip())


def status(as_json):
    try:
        place = status_place()
    except ValueError:
        refuse("STATION_STATUS is no port, from 1 to 65535, and no path of a Unix socket, which begins with `/`")
    if place is None:
        refuse("STATION_STATUS is empty: the station serves no status page")
    try:
        code, _ = ask(place, "/health")
        found, body = ask(place, "/status.json")
        told = json.loads(body)
        if found != 200 or not isinstance(told, dict) or code not in (200, 503):
            raise ValueError
    except (OSError, ValueError):
        at = f"port {place}" if isinstance(place, int) else place
        refuse(f"no station shows its status at {at}; STATION_STATUS names the port or the socket of one")
    try:
        if as_json:
            sys.stdout.write(body.decode() + "\n")
        else:
            put_words(code, told)
        sys.stdout.flush()
    except KeyError as name:
        refuse(f"the station's status has no {name}: it is of another version than this launcher")
    except OSError:
        os._exit(7)
    return 0 if code == 200 else UNHEALTHY


if __name__ == "__main__":
    sys.exit(status(sys.argv[1:] == ["--json"]))
