"""`bin/provider` with options: they become today's words, and wrong words are named, with what would be right."""
import os
import re
import sys

import packing
import rotating
import testing
import times
import words
from programs import TOP
from words import Parser, number, refuse, usage, value

words.LAUNCHER = "provider"
HELP = os.path.join(TOP, "bin/help")
COMMANDS = ["drill", "rehearse", "init", "list", "next", "explain", "picture", "run", "stop", "status", "check",
            "time", "test", "package", "prove", "help"]
MOST_TURNS = 1_099_511_627_776
# More than a script may have, whose times become no longer by becoming fields.
MOST_OCTETS = 1 << 25


# ---- `run`

PORT = number(1, 65_535)
# What stands for the word FEED where the source of entries is at a Unix socket.
UNUSED = 1


def place_of(word):
    """A port, or the path of a Unix socket."""
    if word.startswith("/"):
        return word
    if not re.fullmatch(r"[1-9][0-9]{0,4}", word) or int(word) > 65_535:
        raise ValueError
    return int(word)


PLACE = value(place_of, "a port from 1 to 65535 is wanted, or the path of a Unix socket, which begins with `/`")
RUN = [("TURNS", number(10, MOST_TURNS)), ("LINKS", number(1, 65_536)), ("ARCHIVE", str), ("FEED", PORT),
       ("CLTUS", str)]


def run_parser():
    parser = Parser("run")
    add = parser.add_argument
    add("--config", required=True, metavar="FILE")
    add("--archive", required=True, metavar="FILE")
    add("--feed", required=True, type=PLACE, metavar="PORT")
    add("--cltus", required=True, metavar="FILE")
    add("--door", required=True, type=PORT, nargs="+", action="extend", metavar="PORT")
    add("--turns", type=RUN[0][1], default=MOST_TURNS)
    add("--links", type=RUN[1][1], default=65_536)
    add("--address", metavar="ADDRESS")
    add("--stop", metavar="PORT")
    add("--status", metavar="PORT")
    return parser


def run_options(given):
    """The words of today, and the configuration as standard input."""
    said = run_parser().read(given)
    if len(said.door) > 16:
        usage(f"--door: {len(said.door)} ports are given, and 16 at most are read")
    feed = said.feed if isinstance(said.feed, str) else None
    for name, held in [("STATION_ADDRESS", said.address), ("STATION_STOP", said.stop), ("STATION_FEED", feed),
                       ("STATION_STATUS", said.status)]:
        if held is not None:
            os.environ[name] = held
    try:
        os.dup2(os.open(said.config, os.O_RDONLY), 0)
    except OSError as why:
        refuse(f"{said.config} can't be read: {why.strerror}; it is a configuration, as examples/station.conf is",
               code=6)
    port = str(UNUSED if feed else said.feed)
    return ["run", str(said.turns), str(said.links), said.archive, port, said.cltus, *map(str, said.door)]


def check_run(given):
    """Ends with usage where today's words of `run` are wrong."""
    names = "TURNS LINKS ARCHIVE FEED CLTUS PORT.."
    if not 6 <= len(given) <= 21:
        usage(f"run has the words {names}, 6 to 21 of them, and {len(given)} were given; or options:"
              " `bin/provider run --help` has them")
    table = RUN + [("PORT", PORT)] * (len(given) - len(RUN))
    for (name, reads), word in zip(table, given):
        check_word(name, reads, word)


def check_word(name, reads, word):
    try:
        reads(word)
    except words.argparse.ArgumentTypeError as why:
        usage(f"{name} is {why}")


# ---- the others

def with_iso(command, given):
    """Times of ISO 8601 in the script become fields, and the command runs over that."""
    if given != ["--iso"]:
        wrong_words(command, given)
    text = times.script_of_iso(sys.stdin.buffer.read(MOST_OCTETS))
    script = os.memfd_create("script")
    with open(script, "wb", closefd=False) as file:
        file.write(text)
    os.lseek(script, 0, os.SEEK_SET)
    os.dup2(script, 0)
    return [command]


def is_text(word):
    """True where the word is UTF-8, as the program wants a path."""
    try:
        os.fsencode(word).decode()
    except UnicodeDecodeError:
        return False
    return True


def turn_time(given):
    if len(given) != 1:
        usage(f"time has one word, a time, and {len(given)} were given; {times.FORMS}")
    try:
        print(times.other_form(given[0]))
    except times.BadTime as why:
        usage(f"`{given[0]}`: {why}")
    sys.exit(0)


FORMS = {
    "drill": "drill reads a script on its input and has no words, but for --iso",
    "picture": "picture reads a script on its input and has no words, but for --iso",
    "rehearse": "rehearse has one word, how many frames the pass has: 1 to 20000, without sign and leading zeros",
    "init": "init has one word, the path of a new archive file, in UTF-8",
    "list": "list has one word, the path of an archive file, in UTF-8",
    "next": "next has one word, the path of an archive file, in UTF-8",
    "explain": "explain has no words, the word raf, rcf or cltu, or `--pcap FILE`",
    "stop": "stop has no words: the environment's STATION_STOP names the station's port or Unix socket",
    "status": "status has no words, or `--json`: STATION_STATUS names the station's port or Unix socket",
    "check": "check has one word, the file of a configuration",
    "prove": "prove has no words, or the word explain, capture or picture",
    "package": "package has one word, the file that it writes",
    "help": "help has one word, a command's",
    "--version": "--version has no further words",
}


def wrong_words(command, given):
    options = {"drill": ["--iso", "--help"], "picture": ["--iso", "--help"], "explain": ["--pcap"],
               "status": ["--json", "--help"]}.get(command, [])
    for word in given:
        if word.startswith("--") and word not in options:
            usage(f"{command} has no option `{word}`{words.meant(word, options)}; {FORMS[command]}")
    usage(f"{FORMS[command]}; `bin/provider help {command}` says more" if command in COMMANDS else FORMS[command])


def wrong_command(line):
    if not line:
        usage("no command has these words; bin/provider --help lists the commands")
    command = line[0]
    if command in FORMS:
        if command == "help" and len(line) == 2:
            near = words.meant(line[1], COMMANDS)
            usage(f"there is no help for `{line[1]}`{near}; bin/provider --help lists the commands")
        wrong_words(command, line[1:])
    usage(f"there is no command `{command}`{words.meant(command, COMMANDS)}; bin/provider --help lists them")


def show_help(command):
    with open(os.path.join(HELP, f"{command}.txt")) as file:
        sys.stdout.write(file.read())
    sys.exit(0)


def line_of(line):
    """The words of today that these come to; what has none is done here."""
    command, given = (line[0], line[1:]) if line else ("", [])
    if command in COMMANDS and given in (["--help"], ["-h"]):
        show_help("commands" if command == "help" else command)
    if command == "help" and len(given) == 1 and given[0] in COMMANDS[:-1]:
        show_help(given[0])
    if command == "time":
        turn_time(given)
    if command == "test":
        sys.exit(testing.run(given))
    if command == "package" and len(given) == 1:
        sys.exit(packing.run(given[0]))
    if command == "next" and len(given) == 1 and is_text(given[0]) and not given[0].startswith("--"):
        sys.exit(rotating.run(given[0]))
    if command == "run":
        if any(word.startswith("--") for word in given):
            return run_options(given)
        check_run(given)
    if command in ("drill", "picture") and "--iso" in given:
        return with_iso(command, given)
    return wrong_command(line)


if __name__ == "__main__":
    if os.environ.get("WORDS_ARE_READ"):
        wrong_command(sys.argv[1:])
    try:
        line = line_of(sys.argv[1:])
    except BrokenPipeError:
        os._exit(7)
    os.environ["WORDS_ARE_READ"] = "yes"
    os.execv(os.path.join(TOP, "bin/provider"), ["provider", *line])
