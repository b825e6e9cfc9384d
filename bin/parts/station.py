"""A running station: starts its program in a session of its own, and asks it to stop.

SIGTERM, SIGINT and SIGHUP to the launcher stop the station as `bin/provider stop` does; without a place at which
it hears a stop, and a second time, SIGTERM is passed on. Readiness is told to systemd, where that asks for it.
"""
import os
import re
import signal
import socket
import subprocess
import sys
import threading

import words
from programs import TOP
from words import refuse, say

words.LAUNCHER = "provider"


def stop_place():
    """The port at which the station hears a stop, or the path of a Unix socket; none where it hears none."""
    return place_of("STATION_STOP", "5199")


def status_place():
    """The port at which the station shows its status, or the path of a Unix socket; none where it shows none."""
    return place_of("STATION_STATUS", "5198")


def place_of(name, usual):
    place = os.environ.get(name, usual)
    if place == "":
        return None
    if place.startswith("/"):
        return place
    if not re.fullmatch(r"[1-9][0-9]{0,4}", place) or int(place) > 65_535:
        raise ValueError
    return int(place)


def connected(place):
    """A connection to a port of the loopback, or to the Unix socket at a path."""
    if isinstance(place, int):
        return socket.create_connection(("127.0.0.1", place), 10)
    peer = socket.socket(socket.AF_UNIX)
    peer.settimeout(10)
    peer.connect(place)
    return peer


def ask(place):
    """Asks the station there to stop: the connection that is closed once it has ended."""
    peer = connected(place)
    peer.sendall(b"stop\n")
    peer.settimeout(None)
    return peer


def stop():
    """Asks the station that runs to stop, and waits until it has ended."""
    try:
        place = stop_place()
    except ValueError:
        refuse("STATION_STOP is no port, from 1 to 65535, and no path of a Unix socket, which begins with `/`")
    if place is None:
        refuse("STATION_STOP is empty: a station that hears no stop is ended by SIGTERM")
    told = b""
    try:
        with ask(place) as peer:
            while piece := peer.recv(4096):
                told += piece
    except OSError:
        pass
    if told != b"stopping\n":
        at = f"port {place}" if isinstance(place, int) else place
        refuse(f"no station hears at {at}; STATION_STOP names the port or the socket of one")
    print("stopped")


def notify(state):
    """Tells systemd what the station is at, where it asks."""
    place = os.environ.get("NOTIFY_SOCKET")
    if not place:
        return
    try:
        with socket.socket(socket.AF_UNIX, socket.SOCK_DGRAM) as peer:
            peer.sendto(state.encode(), "\0" + place[1:] if place.startswith("@") else place)
    except OSError as why:
        say(f"systemd can't be told `{state}`: {why.strerror}")


def hand_on(log):
    """Hands the station's log on, and tells systemd once it began."""
    for line in log:
        sys.stderr.buffer.write(line)
        sys.stderr.buffer.flush()
        if line.rstrip().endswith(b"station: began"):
            notify("READY=1")


class Stopping:
    """What the launcher does at a signal."""

    def __init__(self, place):
        self.place, self.child, self.peer, self.asked = place, None, None, False

    def heed(self, number, frame):
        if self.child is None:
            sys.exit(128 + number)
        first, self.asked = not self.asked, True
        notify("STOPPING=1")
        if first and self.place is not None:
            try:
                self.peer = ask(self.place)
                return
            except OSError:
                pass
        self.child.terminate()


def put_place(env, name, place_of_it):
    """Has the program find a place in the environment, and answers it; one out of form is the program's to refuse."""
    try:
        place = place_of_it()
    except ValueError:
        return None
    if place is None:
        env.pop(name, None)
    else:
        env[name] = str(place)
    return place


def version():
    """The commit of the sources, or else the kit's line; nothing where neither is known."""
    try:
        told = subprocess.run([os.path.join(TOP, "bin/provider"), "--version"], stdout=subprocess.PIPE,
                              stderr=subprocess.DEVNULL, text=True, timeout=20).stdout.split("\n")
    except (OSError, subprocess.TimeoutExpired):
        return ""
    commits = [line for line in told if line.startswith("commit ")]
    return (commits or told)[0][:200]


def run(program, line):
    """Runs the station, and answers its exit code."""
    os.umask(0o077)
    env = dict(os.environ)
    place = put_place(env, "STATION_STOP", stop_place)
    if put_place(env, "STATION_STATUS", status_place) is not None:
        env.setdefault("STATION_VERSION", version())
    stopping = Stopping(place)
    signals = {signal.SIGTERM, signal.SIGINT, signal.SIGHUP}
    # (one that comes before the program runs waits until it does)
    signal.pthread_sigmask(signal.SIG_BLOCK, signals)
    for each in signals:
        signal.signal(each, stopping.heed)
    told = subprocess.PIPE if os.environ.get("NOTIFY_SOCKET") else None
    child = subprocess.Popen([program, *line], env=env, start_new_session=True, stderr=told,
                             preexec_fn=lambda: signal.pthread_sigmask(signal.SIG_UNBLOCK, signals))
    stopping.child = child
    signal.pthread_sigmask(signal.SIG_UNBLOCK, signals)
    handing = threading.Thread(target=hand_on, args=(child.stderr,), daemon=True) if told else None
    if handing:
        handing.start()
    code = child.wait()
    if handing:
        handing.join(10)
    if code < 0:
        say(f"the station was ended by signal {-code}")
    return code if code >= 0 else 128 - code


if __name__ == "__main__":
    # with a program and its words a station is run, and without it is stopped
    sys.exit(run(sys.argv[1], sys.argv[2:]) if sys.argv[1:] else stop())
