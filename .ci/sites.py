"""The head of a script: the configuration of its station (docs/PROFILE.md, sections 1 and 17)."""
from dataclasses import dataclass, field

from forms import channel, identifier, name, number, octets, one_of

MOST_CAPACITY = 268_435_456
LEVELS = b"none", b"bind", b"all"
HASHES = b"sha1", b"sha256"
# the service types of a BIND
RAF, RCF, CLTU = 0, 2, 16


@dataclass
class Peer:
    name: bytes
    level: bytes
    hash: bytes
    delay: int
    password: bytes


@dataclass
class Instance:
    identifier: tuple
    owner: bytes
    service: int
    # of a return service, with the latency limit and the return timeout in seconds, and of RCF the
    # channels that a START may ask for
    mode: bytes = b""
    size: int = 0
    latency: int = 0
    timeout: int = 0
    channels: list = field(default_factory=list)
    # of the forward service, the octets that may wait and those of the longest CLTU
    room: int = 0
    longest: int = 0


@dataclass
class Site:
    provider: bytes = b"STATION"
    password: bytes = bytes(6)
    capacity: int = MOST_CAPACITY
    heartbeat: tuple = (5, 3_600, 2, 100)
    versions: tuple = (4, 5)
    peers: list = field(default_factory=list)
    instances: list = field(default_factory=list)

    def peer(self, name):
        return next((peer for peer in self.peers if peer.name == name), None)

    def instance(self, identifier):
        return next((each for each in self.instances if each.identifier == identifier), None)

    def forward(self):
        """The instance of the forward service, or None."""
        return next((each for each in self.instances if each.service == CLTU), None)


# ---- what the words behind a line's first one say

def heartbeat(words):
    a, b, c, d = words
    interval = number(a, 3_600, 1), number(b, 3_600, 1)
    factor = number(c, 100, 2), number(d, 100, 2)
    if interval[0] > interval[1] or factor[0] > factor[1]:
        raise ValueError
    return interval + factor


def peer(words):
    whose, level, hash, delay, password = words
    return Peer(name(whose), one_of(level, LEVELS), one_of(hash, HASHES), number(delay, 86_400, 1),
                octets(password, 16, 6))


def owner(word):
    if not word or not all(0x21 <= octet <= 0x7E for octet in word):
        raise ValueError
    return word


def returning(service):
    def instance(words):
        which, whose, mode, size, latency, timeout, *channels = words
        offline = one_of(mode, (b"timely", b"complete", b"offline")) == b"offline"
        return Instance(identifier(which), owner(whose), service, mode, number(size, 1_000, 1),
                        number(latency, 0 if offline else 3_600, 0 if offline else 1),
                        number(timeout, 600, 1), [channel(word) for word in channels])
    return instance


def forward(words):
    which, whose, room, longest, timeout = words
    return Instance(identifier(which), owner(whose), CLTU, room=number(room, 16_777_216, 1),
                    longest=number(longest, 65_536, 1), timeout=number(timeout, 600, 1))


# how many words stand behind the first one, and what they say
LINES = {
    b"provider": (1, 1, lambda words: name(words[0])),
    b"password": (1, 1, lambda words: octets(words[0], 16, 6)),
    b"capacity": (1, 1, lambda words: number(words[0], MOST_CAPACITY, 64)),
    b"heartbeat": (4, 4, heartbeat),
    b"versions": (1, 4, lambda words: tuple(number(word, 9, 4) for word in words)),
    b"peer": (5, 5, peer),
    b"raf": (6, 6, returning(RAF)),
    b"rcf": (7, 14, returning(RCF)),
    b"cltu": (5, 5, forward),
}


def refusal(site, given, line):
    """Why a line is refused, by the number of its first cause; 0 where the site has it then."""
    word, *words = line.split(b" ")
    if word not in LINES:
        return 1
    least, most, read = LINES[word]
    if not least <= len(words) <= most:
        return 2
    try:
        value = read(words)
    except ValueError:
        return 3
    if isinstance(value, Peer):
        return add_peer(site, value)
    if isinstance(value, Instance):
        return add_instance(site, value)
    if word in given:
        return 4
    given.add(word)
    setattr(site, word.decode(), value)
    return 0


def add_peer(site, peer):
    if site.peer(peer.name) is not None:
        return 4
    if len(site.peers) == 32:
        return 6
    site.peers.append(peer)
    return 0


def add_instance(site, instance):
    if site.instance(instance.identifier) is not None:
        return 4
    if site.peer(instance.owner) is None:
        return 5
    is_second = instance.service == CLTU and any(each.service == CLTU for each in site.instances)
    if len(site.instances) == 32 or is_second:
        return 6
    site.instances.append(instance)
    return 0


def head_of(lines):
    """The site, how many lines its head has, and what ends the script there, if anything does."""
    site, given = Site(), set()
    if lines[:1] != [b"site"]:
        return site, 0, None
    for place, line in enumerate(lines[1:], 2):
        if line == b"end":
            return site, place, None
        if line == b"" or line.startswith(b"#"):
            continue
        cause = refusal(site, given, line)
        if cause:
            return site, place, (4, b"bad site %d %d\n" % (place, cause))
    return site, len(lines), (3, b"bad line %d\n" % (len(lines) + 1))
