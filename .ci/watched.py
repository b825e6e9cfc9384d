"""A station whose log is read while it runs, with what troubles it: a module of the other scripts."""
import atexit
import os
import random
import re
import signal
import subprocess
import threading
import time

from control_centre import PATIENCE, TURNS, Station, User, check, log_lines, programs, site

# The ports that were handed out, so that stations which are made at once have others.
handed, handing = set(), threading.Lock()


def least_of_the_system():
    """The least port that the system chooses for a connection, which it may do at any time."""
    try:
        with open("/proc/sys/net/ipv4/ip_local_port_range") as file:
            return max(12_000, min(int(file.read().split()[0]), 60_000))
    except (OSError, ValueError):
        return 32_768


def taken_ports():
    """The ports that are taken. (None is tried: a child that starts meanwhile would hold it for a while.)"""
    taken = set()
    for name in ("/proc/net/tcp", "/proc/net/tcp6"):
        if os.path.exists(name):
            with open(name) as file:
                taken.update(int(line.split()[1].rsplit(":", 1)[1], 16) for line in file.readlines()[1:])
    return taken


def new_ports(count):
    ports, most = [], least_of_the_system()
    with handing:
        taken = taken_ports()
        while len(ports) < count:
            port = random.randrange(10_000, most)
            if port not in handed and port not in taken:
                handed.add(port)
                ports.append(port)
    return ports


# The stations that were started.
started_ones = []


@atexit.register
def end_all():
    """A trial that failed leaves no station."""
    for process in started_ones:
        if process.poll() is None:
            process.send_signal(signal.SIGTERM)
            try:
                process.wait(5)
            except subprocess.TimeoutExpired:
                process.kill()


class Watched(Station):
    """A station that hears a stop, whose log goes to a file, with a shim in front of the system."""

    def __init__(self, folder, doors=1, links=9, configuration=None, shim=None, given={}, ports=None,
                 cltus=None, program=None, began=True):
        self.folder = folder
        self.path = os.path.join(folder, "archive")
        if not os.path.exists(self.path):
            subprocess.run([programs["provider"], "init", self.path], check=True, stdout=subprocess.DEVNULL)
        self.feed, self.stop_port, *self.ports = new_ports(doors + 2)
        self.ports = ports or self.ports
        self.cltus = cltus or os.path.join(folder, "cltus")
        self.written = os.path.join(folder, "log")
        words = [TURNS, str(links), self.path, str(self.feed), self.cltus, *map(str, self.ports)]
        env = {**os.environ, "STATION_ADDRESS": "127.0.0.1", "STATION_STOP": str(self.stop_port),
               **(shim.environment if shim else {}), **given}
        text = os.path.join(folder, "site")
        with open(text, "w") as file:
            file.write(configuration or site(doors))
        with open(text) as file, open(self.written, "w") as log:
            self.process = subprocess.Popen([program or programs["provider"], "run", *words], stdin=file,
                                            stdout=subprocess.PIPE, stderr=log,
                                            env={name: value for name, value in env.items() if value is not None})
        started_ones.append(self.process)
        if began:
            self.logs("station: began")

    def log(self):
        """The lines so far, each without its time."""
        with open(self.written) as file:
            return [line.partition(" ")[2] for line in file.read().split("\n")[:-1]]

    def logs(self, pattern, count=1, patience=PATIENCE):
        """Waits until so many lines have what a pattern says, and answers whether they came."""
        end = time.time() + patience
        while sum(bool(re.search(pattern, line)) for line in self.log()) < count:
            if time.time() > end or self.process.poll() is not None and not self.told(pattern, count):
                return False
            time.sleep(0.02)
        return True

    def told(self, pattern, count=1):
        return sum(bool(re.search(pattern, line)) for line in self.log()) >= count

    def tell(self, name, *patterns):
        """Compares the log with patterns, each of which a line has to have."""
        for pattern in patterns:
            check(f"{name}: the log has: {pattern}", self.logs(pattern, patience=5) or self.log(), True)

    def ended(self, name, status, lines):
        told, _ = self.process.communicate(timeout=PATIENCE)
        check(name, (self.process.returncode, told.decode().split("\n")[:-1]), (status, lines))
        with open(self.written) as file:
            log = log_lines(name, file.read())
        check(f"{name}: the log's end", log[-1:], [f"station: ended with exit code {status}"])
        return log

    def front_end(self, text=""):
        """A source that has sent these lines."""
        peer = User(self.feed).peer
        peer.sendall(text.encode())
        return peer


def seconds_to_close(peer, most):
    """How long the station takes to close a connection, in seconds; None where it is longer than so
    many."""
    began = time.time()
    peer.settimeout(most)
    try:
        while peer.recv(1 << 16):
            pass
    except ConnectionError:
        pass
    except TimeoutError:
        return None
    return time.time() - began


def closes(name, peer, least, most):
    """A connection is closed between so many and so many seconds from now."""
    took = seconds_to_close(peer, most)
    check(f"{name}: closed in {least} to {most} s, and not {took}", took is not None and took >= least,
          True)


def in_threads(functions):
    """Runs them at once, each on a thread of its own, and waits until all have ended."""
    threads = [threading.Thread(target=it) for it in functions]
    for it in threads:
        it.start()
    for it in threads:
        it.join()
