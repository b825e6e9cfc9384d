"""`bin/user`: runs the user's proved program by today's words or by options, and says in words how it ended."""
import configparser
import os
import re
import stat
import sys
import time

import follow
import times
import unproved
import words
from programs import TOP, is_package, proved
from words import DURATION, PLACE, TIME, Parser, matching, number, refuse, say, usage, value

COMMANDS = ["show", "raf", "rcf", "cltu", "prove", "help"]
TALKS = ["raf", "rcf", "cltu"]
MOST_TURNS = 1_099_511_627_776
QUALITIES = {"good": "0", "erred": "1", "all": "2"}
ATTRIBUTES = ["sagr", "spack", "rsl-fg", "fsl-fg", "raf", "rcf", "rocf", "cltu"]


# ---- values

def instance(word):
    """A service instance identifier."""
    parts = word.split(".")
    if len(parts) > 8:
        raise words.argparse.ArgumentTypeError(f"`{word}`: it has {len(parts)} attributes, and 8 at most are read")
    for part in parts:
        name, equals, held = part.partition("=")
        if name not in ATTRIBUTES:
            raise words.argparse.ArgumentTypeError(
                f"`{word}`: `{name}` is no attribute of a service instance: those are {', '.join(ATTRIBUTES)}"
                f"{words.meant(name, ATTRIBUTES)}")
        if not equals or not re.fullmatch(r"[!-~]{1,256}", held) or "=" in held:
            raise words.argparse.ArgumentTypeError(
                f"`{word}`: `{part}` isn't an attribute with a value, as in sagr=1.spack=P.rsl-fg=1.raf=onlc1")
    return word


NAME = matching(r"[!-,.-~][!-~]{2,15}", "a name has 3 to 16 characters without blanks, the first of them no hyphen")
PASS = matching(r"none|sha1:([0-9a-fA-F]{2}){6,16}|sha256:([0-9a-fA-F]{2}){6,16}|file",
                "`none`, sha1:HEX or sha256:HEX with 6 to 16 octets, or `file` is wanted")
WHEN = value(lambda word: "none" if word == "none" else times.check_fields(word), f"D/M/U or `none` is wanted")
TURNS = number(1, MOST_TURNS)


def channel(word):
    found = re.fullmatch(r"(0|[1-9]\d{0,3})/([0-3])/(\*|0|[1-9]\d?)", word, re.ASCII)
    if not found or int(found[1]) > 1023 or found[3] != "*" and int(found[3]) > 63:
        raise ValueError
    return word


CHANNEL = value(channel, "SPACECRAFT/VERSION/CHANNEL is wanted, as 171/0/7, or 171/0/* for the master channel")
QUALITY = matching("[012]", "0 (good), 1 (erred) or 2 (all) is wanted")
PORT = number(1, 65_535)
FIRST = number(0, 0xffff_ffff)
CYCLE = number(2, 600)
# Today's words behind each command, and what reads them.
FRONT = [("PORT", PORT), ("NAME", NAME), ("PASS", PASS), ("INSTANCE", instance)]
WORDS = {
    "raf": [*FRONT, ("START", WHEN), ("STOP", WHEN), ("QUALITY", QUALITY), ("TURNS", TURNS)],
    "rcf": [*FRONT, ("START", WHEN), ("STOP", WHEN), ("CHANNEL", CHANNEL), ("TURNS", TURNS)],
    "cltu": [*FRONT, ("FIRST", FIRST), ("TURNS", TURNS)],
    "show": [("SERVICE", matching("raf|rcf|cltu", "raf, rcf or cltu is wanted"))],
}
# The word that may follow these of raf, rcf and cltu.
FURTHER = ("REPORT", CYCLE)


def check_words(command, given):
    """Ends with usage where today's words are wrong."""
    table, more = WORDS[command], [] if command == "show" else [FURTHER]
    names = " ".join([name for name, _ in table] + [f"[{name}]" for name, _ in more])
    if len(given) not in range(len(table), len(table + more) + 1):
        options = "" if command == "show" else f", or options: `bin/user {command} --help` has them"
        usage(f"{command} has the words {names}, and {len(given)} were given{options}")
    for (name, reads), word in zip(table + more, given):
        try:
            reads(word)
        except words.argparse.ArgumentTypeError as why:
            usage(f"{name} is {why}; the words are {command} {names}")


# ---- options

def parser_of(command):
    parser = Parser(command)
    add = parser.add_argument
    add("--to", type=PLACE, required=True)
    add("--as", dest="name", type=NAME, required=True)
    add("--instance", type=value(instance, ""), required=True)
    add("--pass-file")
    add("--turns", type=TURNS, default=MOST_TURNS)
    add("--report", type=CYCLE)
    add("--retry", action="store_true")
    if command == "cltu":
        add("--first", type=FIRST, required=True)
        add("file", nargs="?", metavar="FILE")
        return parser
    add("--from", dest="start", type=TIME)
    add("--until", dest="stop", type=TIME)
    add("--for", dest="seconds", type=DURATION)
    add("--frames", metavar="FILE")
    add("--lines", action="store_true")
    if command == "raf":
        add("--quality", type=quality, default="all")
    else:
        add("--channel", type=CHANNEL, required=True)
    return parser


def quality(word):
    if word not in QUALITIES:
        raise words.argparse.ArgumentTypeError(f"`{word}`: good, erred or all is wanted{words.meant(word, QUALITIES)}")
    return QUALITIES[word]


# What a section of the configuration may hold: the options' names, and the command.
KEYS = ["command", "to", "as", "instance", "pass-file", "turns", "retry", "first", "file", "from", "until", "for",
        "frames", "lines", "quality", "channel", "report"]
FLAGS = ["retry", "lines"]


def section_words(name):
    """The command that a section names, if it does, and its options as words."""
    path = os.environ.get("USER_CONFIG") or os.path.expanduser("~/.config/buwekota/user.conf")
    config = configparser.ConfigParser(interpolation=None, delimiters=("=",), comment_prefixes=("#",))
    try:
        with open(path) as file:
            config.read_file(file)
    except (OSError, UnicodeError, configparser.Error) as why:
        usage(f"@{name} takes the section [{name}] of {path}, which can't be read:"
              f" {getattr(why, 'strerror', None) or str(why).splitlines()[0]}")
    if not config.has_section(name):
        usage(f"{path} has no section [{name}]{words.meant(name, config.sections())}; it has"
              f" {', '.join(config.sections()) or 'none'}")
    given = dict(config[name])
    for key in given:
        if key not in KEYS:
            usage(f"section [{name}] of {path}: there is no option `{key}`{words.meant(key, KEYS)}")
    return given.pop("command", None), given


def with_section(command, given):
    """The options of a section that the command has, as words."""
    options = {name.lstrip("-") for name in parser_of(command).options()}
    line = []
    for key, held in given.items():
        if key in FLAGS and key in options:
            if held not in ("yes", "no"):
                usage(f"`{key} = {held}`: yes or no is wanted")
            line += [f"--{key}"] if held == "yes" else []
        elif key in options:
            line.append(f"--{key}={os.path.expanduser(held) if 'file' in key else held}")
    return line, given.get("file") if command == "cltu" else None


# ---- the program

def need_program():
    """The path of the proved program."""
    return proved("user_cli") or refuse(
        "the program isn't built of the present sources; `bin/user prove` proves and builds it")


def check_pass(path):
    """Refuses a file for PASS that isn't there, that others may read, or that has no such word."""
    if not path:
        refuse("PASS is `file`, and USER_PASS_FILE names no file")
    try:
        mode = os.stat(path).st_mode
        if not stat.S_ISREG(mode):
            refuse(f"{path} is no file")
        if mode & 0o077:
            refuse(f"others may read {path}; `chmod 600` makes it yours alone")
        with open(path, encoding="utf-8", errors="replace") as file:
            first = file.readline().rstrip("\n")
    except OSError as why:
        refuse(f"{path} can't be read ({why.strerror}); write the word for PASS into it, as sha256:HEX")
    if not re.fullmatch(r"none|(sha1|sha256):([0-9a-fA-F]{2}){6,16}", first):
        refuse(f"the first line of {path} isn't `none`, sha1:HEX or sha256:HEX with 6 to 16 octets")


def tell_end(code, output, line):
    """Says why a run ended, where it didn't end well, and answers its exit code."""
    if code >= 128:
        return code
    last = output.last_lines()
    if code == 13:
        say(bad_line_in_words(last[-1] if last else ""))
        return code
    shows = line[0] == "show"
    why = follow.end_in_words(code, last, line[1] if shows else line[0], None if shows else line[len(WORDS[line[0]])])
    if why:
        say(why)
    return code


def bad_line_in_words(last):
    """Which line of the telecommands is bad, and why where the input can be read once more."""
    number_of = last.split()[-1] if last else "?"
    try:
        with open(f"/proc/self/fd/0", "rb") as file:
            text = file.read().split(b"\n")[int(number_of) - 1] if os.path.isfile("/proc/self/fd/0") else None
    except (OSError, ValueError, IndexError):
        text = None
    if text is None:
        return f"line {number_of} of the telecommands is bad, and none was sent; `bin/user help cltu` has their form"
    shown = text.decode(errors="replace")
    return (f"line {number_of} of the telecommands is bad, and none was sent: {follow.why_bad_cltu(shown)}"
            f" (`{shown[:60]}`)")


def show_unproved(line):
    """`show` by a small program that is compiled with checks in place of proofs."""
    how = "`bin/user prove` proves and builds the program"
    say(f"this run is NOT PROVED: no proved program was built of these sources; {how}")
    say("compiling with checks in place of proofs, half a minute or more; output comes at the end")
    code, output, why = unproved.run("show_cli", line)
    os.write(1, output) if output else None
    if code is None:
        refuse(f"no answer: {why}; {how}")
    found = follow.Output(None, None, None)
    found.take(output)
    tell_end(code, found, line)
    say(f"that run was NOT PROVED; {how}")
    return code


def run_words(line):
    """Today's words: the program's lines as they come, and on standard error how it ended, if not well."""
    env = dict(os.environ)
    if line[0] != "show" and line[3] == "file":
        check_pass(env.get("USER_PASS_FILE"))
    if line[0] == "show" and not is_package() and not proved("user_cli"):
        return show_unproved(line)
    output = follow.Output(None, None, 1)
    return tell_end(follow.run(need_program(), line, env, output), output, line)


def run_options(command, given, named):
    """Options: they are turned into today's words, and the lines go where they say."""
    section, file = with_section(command, named)
    said = parser_of(command).read([*section, *given])
    env = dict(os.environ)
    host, port = said.to
    if host:
        env["USER_ADDRESS"] = words.address_of(host)
    if said.pass_file:
        check_pass(said.pass_file)
        env["USER_PASS_FILE"] = said.pass_file
    more = [str(said.report)] if said.report else []
    front = [command, str(port), said.name, "file" if said.pass_file else "none", said.instance]
    if command == "cltu":
        line = [*front, str(said.first), str(said.turns), *more]
        return send(line, env, said.file or file, said.retry)
    last = said.quality if command == "raf" else said.channel
    line = [*front, said.start or "none", said.stop or "none", last, str(said.turns), *more]
    return receive(line, env, said)


def send(line, env, file, retry):
    if file:
        try:
            os.dup2(os.open(file, os.O_RDONLY), 0)
        except OSError as why:
            refuse(f"{file} can't be read: {why.strerror}", code=6)
    program = need_program()
    for pause in pauses(retry):
        output = follow.Output(follow.Counts(line[0]), None, 1)
        code = follow.run(program, line, env, output)
        if not again(code, output, pause):
            return tell_end(code, output, line)


def receive(line, env, said):
    frames = None
    if said.frames == "-":
        if said.lines:
            usage("--frames - and --lines both write to standard output; give --frames a file")
        frames = 1
    elif said.frames:
        try:
            frames = os.open(said.frames, os.O_WRONLY | os.O_CREAT | os.O_APPEND, 0o666)
        except OSError as why:
            refuse(f"{said.frames} can't be written: {why.strerror}", code=7)
    lines = 1 if said.lines or frames is None else None
    program = need_program()
    # --for counts from here on, over all tries and the pauses between them
    until = time.monotonic() + said.seconds if said.seconds else None
    for pause in pauses(said.retry):
        output = follow.Output(follow.Counts(line[0]), frames, lines)
        code = follow.run(program, line, env, output, left_until(until))
        if output.counts.frames or not again(code, output, pause, until):
            tell_end(code, output, line)
            if code != 8 or output.counts.frames:
                say(output.counts.summary())
            return code


def pauses(retry):
    """How long to wait before a further try, in seconds: none where no further one is wanted."""
    if not retry:
        yield None
        return
    pause = 1
    while True:
        yield pause
        pause = min(60, pause * 2)


def left_until(until):
    """The seconds until a time, where one is set."""
    return None if until is None else max(0.001, until - time.monotonic())


def again(code, output, pause, until=None):
    """Whether a connection that couldn't be made, or broke, is tried again: not once the run was asked to end, nor
    where its time is over before the next try."""
    if pause is None or output.asked or code not in (8, 11):
        return False
    why = follow.end_in_words(code, output.last_lines(), "", "")
    if until is not None and until - time.monotonic() <= pause:
        say(f"{why}; the time of --for is over before the next try")
        return False
    say(f"{why}; again in {pause} s")
    time.sleep(pause)
    return True


# ---- all of it

def show_help(name):
    try:
        with open(os.path.join(TOP, "bin/help", f"user{'-' + name if name else ''}.txt")) as file:
            sys.stdout.write(file.read())
    except OSError:
        usage(f"there is no help for `{name}`{words.meant(name, COMMANDS)}; `bin/user --help` lists the commands")


def main(line):
    named = {}
    if line and re.fullmatch(r"@.+", line[0]):
        command, named = section_words(line[0][1:])
        line = line[1:]
        if not line or line[0] not in COMMANDS:
            if not command:
                usage("the section has no `command = raf`, rcf or cltu; give one behind its name")
            line = [command, *line]
        if line[0] not in TALKS:
            usage(f"a section is for raf, rcf and cltu, and not for `{line[0]}`")
    if not line:
        return show_help("")
    command, given = line[0], line[1:]
    if command in ("-h", "--help") or line == ["help"]:
        return show_help("")
    if command == "--version":
        os.execv(os.path.join(TOP, "bin/provider"), ["provider", "--version"])
    if command == "help":
        return show_help(given[0]) if len(given) == 1 else usage("help has one word, the command's")
    if command not in COMMANDS:
        usage(f"there is no command `{command}`{words.meant(command, COMMANDS)}; `bin/user --help` lists them")
    if "--help" in given or "-h" in given:
        return show_help(command)
    if command == "prove":
        usage("prove has no further words")
    if command in TALKS and (named or any(re.match(r"-[-a-z]", word) for word in given)):
        return run_options(command, given, named)
    check_words(command, given)
    return run_words(line)


if __name__ == "__main__":
    try:
        sys.exit(main(sys.argv[1:]))
    except KeyboardInterrupt:
        sys.exit(130)
    except BrokenPipeError:
        os._exit(7)
