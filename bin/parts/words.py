"""What both launchers do with words: options, values and what is said of wrong ones."""
import argparse
import os
import re
import socket
import sys

import times

LAUNCHER = "user"


def say(*words):
    """Writes one line to standard error; a character that can't be shown stands by its escape."""
    line = "".join(each if each.isprintable() else repr(each)[1:-1] for each in " ".join(words))
    print(f"{LAUNCHER}: {line}", file=sys.stderr, flush=True)


def refuse(*words, code=1):
    say(*words)
    sys.exit(code)


def usage(*words):
    """Ends with `usage` and, on standard error, what is wrong and what would be right."""
    try:
        print("usage", flush=True)
    except OSError:
        os._exit(7)
    refuse(*words, code=2)


def distance(a, b):
    """How many letters must be put in, left out, changed or swapped with the next one to make a word another."""
    rows = [list(range(len(b) + 1))]
    for i, x in enumerate(a, 1):
        row = [i]
        for j, y in enumerate(b, 1):
            least = min(rows[-1][j] + 1, row[-1] + 1, rows[-1][j - 1] + (x != y))
            if i > 1 and j > 1 and x == b[j - 2] and y == a[i - 2]:
                least = min(least, rows[-2][j - 2] + 1)
            row.append(least)
        rows.append(row)
    return rows[-1][-1]


def meant(word, known):
    """`; did you mean ..` where a known word is near, or nothing."""
    near = min(known, key=lambda name: distance(word.lower(), name), default="")
    return f"; did you mean `{near}`?" if near and distance(word.lower(), near) <= 1 + len(near) // 5 else ""


class Parser(argparse.ArgumentParser):
    """Options of one command; a wrong one is named, with what would be right."""

    def __init__(self, command):
        super().__init__(prog=f"bin/{LAUNCHER} {command}", add_help=False, allow_abbrev=False)
        self.command = command

    def error(self, message):
        usage(f"{message[0].lower()}{message[1:]}; `bin/{LAUNCHER} {self.command} --help` has the options")

    def options(self):
        return [name for action in self._actions for name in action.option_strings]

    def read(self, words):
        """What the words say."""
        for word in words:
            name = word.split("=")[0]
            if word.startswith("--") and name not in self.options():
                self.error(f"there is no option `{name}`{meant(name, self.options())}")
        said, rest = self.parse_known_args(words)
        if rest:
            self.error(f"`{rest[0]}` is a word too many")
        return said


def value(reads, says):
    """A type of argparse: what `reads` makes of a word, or what would be right."""
    def read(word):
        try:
            return reads(word)
        except times.BadTime as why:
            raise argparse.ArgumentTypeError(f"`{word}`: {why}")
        except ValueError:
            raise argparse.ArgumentTypeError(f"`{word}`: {says}")
    return read


def number(least, most):
    def read(word):
        if not re.fullmatch(r"0|[1-9][0-9]*", word) or not least <= int(word) <= most:
            raise ValueError
        return int(word)
    return value(read, f"a number from {least} to {most} is wanted, without sign and leading zeros")


def matching(form, says):
    def read(word):
        if not re.fullmatch(form, word):
            raise ValueError
        return word
    return value(read, says)


UNITS = {"": 1, "s": 1, "min": 60, "h": 3600, "d": 86_400}


def duration(word):
    found = re.fullmatch(r"([0-9]+(?:\.[0-9]+)?)(s|min|h|d|)", word)
    if not found or not 0 < float(found[1]) * UNITS[found[2]] < 1e9:
        raise ValueError
    return float(found[1]) * UNITS[found[2]]


def place(word):
    """HOST:PORT, [IPV6]:PORT or PORT: a host, none where it isn't named, and a port."""
    found = re.fullmatch(r"(?:\[([0-9A-Fa-f:.%a-z]+)\]:|([^\[\]:]*):|)([0-9]+)", word)
    if not found or not re.fullmatch(r"[1-9][0-9]*", found[3]) or int(found[3]) > 65_535:
        raise ValueError
    return found[1] or found[2] or None, int(found[3])


def address_of(host):
    """A numeric address of a host."""
    try:
        return socket.getaddrinfo(host, None, type=socket.SOCK_STREAM)[0][4][0]
    except (OSError, UnicodeError) as why:
        refuse(f"{host} is no host that is known here: {getattr(why, 'strerror', None) or why}; give an address or"
               " the name of one", code=8)


TIME = value(times.fields_of, times.FORMS)
DURATION = value(duration, "how long is said as 90, 90s, 10min or 2h")
PLACE = value(place, "HOST:PORT is wanted, as station.example:5101, 192.0.2.7:5101 or [2001:db8::7]:5101")
