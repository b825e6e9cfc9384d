"""How the launchers are driven: their words, a run before any proof, and `prove`.

Most cases take a copy of the tree without what was built in it, and a small stand-in for `rt`; one
takes the real `rt try`.
"""
import os
import shutil
import signal
import socket
import subprocess
import tempfile
import time
from contextlib import contextmanager
from pathlib import Path

TOP = Path(__file__).resolve().parent.parent
USAGE = 2, b"usage\n", True
PROGRAM = "crates/provider_cli/out/provider_cli"
ENDED = "run=ended status=0 runners=1 races=unchecked proved=no"

# What the stand-in does is said by its environment, also how the programs begin that it builds. It
# notes its words, folder, input and processes in the folder NOTES.
RT = r"""#!/bin/sh
echo "$PWD $*" >>"$NOTES/words"
case $1 in
    version) echo 'kit of the stand-in' && exit ;;
    try) cat >"$NOTES/input" ;;
    ci)
        find . -type f >"$NOTES/files"
        cp crates.txt "$NOTES/crates.txt"
        ;;
esac
echo "$TMPDIR" >"$NOTES/place"
if [ -n "$SLOW" ]; then
    (trap "$STUBBORN" TERM && while :; do date >"$TMPDIR/prover-was-here"; done) &
    echo "$$ $!" >"$NOTES/processes"
    wait
fi
case $1 in
    try) printf '%s' "$OUTPUT" && printf '%s\n' "$SAYS" >&2 ;;
    ci)
        [ -z "$CHANGES" ] || echo >>"$CHANGES"
        sed 's/[ :].*/ proved/; s/^/rt: /; s/cds_time proved/cds_time is kept: so/' crates.txt
        for main in provider_cli explain_cli capture_cli picture_cli check_cli user_cli; do
            mkdir -p crates/$main/out
            printf '#!/bin/sh\n%s\necho "proved program: $*"\n' "$ECHOES" >crates/$main/out/$main
            chmod +x crates/$main/out/$main
        done
        ;;
esac
exit "${STATUS:-0}"
"""


class Copy:
    """A copy of the tree without what was built in it, its stand-in for `rt`, and a folder for
    temporary files."""

    def __init__(self, folder):
        folder = Path(folder).resolve()
        self.top, self.notes = folder / "top", folder / "notes"
        self.tools, self.scratch = folder / "tools", folder / "scratch"
        for each in self.top, self.notes, self.tools, self.scratch:
            each.mkdir()
        for name in "bin", "crates", "examples":
            shutil.copytree(TOP / name, self.top / name, ignore=shutil.ignore_patterns("out"))
        for name in "crates.txt", "HANDLES":
            shutil.copy(TOP / name, self.top / name)
        (self.tools / "rt").write_text(RT)
        (self.tools / "rt").chmod(0o755)

    def start(self, words, given={}, launcher="bin/provider", **more):
        """Starts the launcher; the stand-in's environment has what is given."""
        path = f"{self.tools}:{os.environ['PATH']}"
        env = {**os.environ, "PATH": path, "NOTES": str(self.notes), "TMPDIR": str(self.scratch)}
        return subprocess.Popen([self.top / launcher, *words], env={**env, **given},
                                stdout=more.pop("stdout", subprocess.PIPE), stderr=subprocess.PIPE,
                                **more)

    def run(self, words, script=b"", given={}, **more):
        """The exit code, and what was written to the two streams."""
        if "stdin" not in more:
            more["stdin"] = subprocess.PIPE
        else:
            script = None
        running = self.start(words, given, **more)
        output, errors = running.communicate(script, timeout=60)
        return running.returncode, output, errors

    def refused(self, words, **more):
        """The same, and of standard error whether it is one line of the launcher."""
        status, output, errors = self.run(words, **more)
        launcher = more.get("launcher", "bin/provider").split("/")[1].encode()
        return status, output, errors.startswith(launcher + b": ") and errors.count(b"\n") == 1

    def noted(self, name):
        file = self.notes / name
        return file.read_bytes() if file.exists() else None

    def forget(self):
        for file in self.notes.iterdir():
            file.unlink()
        shutil.rmtree((self.top / PROGRAM).parent, ignore_errors=True)

    def left(self):
        """What a run left in the folder for temporary files."""
        return sorted(each.name for each in self.scratch.iterdir())


# ---- words

OWN = [[b"help"], [b"--help"], [b"-h"], [b"--version"], [b"prove"]]
COMMANDS = [b"drill", b"rehearse", b"init", b"list", b"next", b"explain", b"picture", b"run", b"stop", b"status",
            b"check", b"prove"]
# words outside the launcher's own grammar, which the program refuses too
OUTSIDE = [
    *([*words, more] for words in OWN[1:] for more in [b"", b"x", b"drill"]),
    *([b"help", word] for word in [b"", b"x", b"help", b"Drill", b"drill ", b"../help/drill", b"*",
                                   b"commands", b"\xff"]),
    [b"help", b"drill", b"drill"], [b"Help"], [b"--Help"], [b"-help"], [b"version"], [b"--"],
    [b"prove "], [b"Prove"], [b"-v"], [b"drill 1"], [b"drill", b"1"], [b"init x", b"2"],
]
# paths that are text and that aren't, at the bounds of each form
PATHS = [
    b"", b" ", b"a", b"-", b"--help", b"*", b"\\xff", b"\\0377", b"$(x)`x`'\"", b"%s%n", b"a\nb",
    b"a\n", b"\n", b"\x01", b"\x7f", b"\x80", b"\xbf", b"\xc0\x80", b"\xc1\xbf", b"\xc2\x80",
    b"\xc2\x7f", b"\xc2\xc0", b"\xdf\xbf", b"\xdf", b"\xe0\x9f\xbf", b"\xe0\xa0\x80",
    b"\xe0\xbf\xbf", b"\xe1\x7f\x80", b"\xe1\x80\x80", b"\xe1\x80", b"\xe1\x80\xc0",
    b"\xec\xbf\xbf", b"\xed\x80\x80", b"\xed\x9f\xbf", b"\xed\xa0\x80", b"\xed\xbf\xbf",
    b"\xee\x80\x80", b"\xef\xbf\xbf", b"\xf0\x8f\xbf\xbf", b"\xf0\x90\x80\x80",
    b"\xf0\xbf\xbf\xbf", b"\xf1\x80\x80\x80", b"\xf1\x80\x80", b"\xf1\x80\x80a",
    b"\xf3\xbf\xbf\xbf", b"\xf4\x80\x80\x80", b"\xf4\x8f\xbf\xbf", b"\xf4\x90\x80\x80",
    b"\xf5\x80\x80\x80", b"\xf8\x88\x80\x80\x80", b"\xfe", b"\xff", b"a\xff", b"\xffa",
    b"a\n\xff\nb", b"\xc3\xa4\xe2\x82\xac\xf0\x9f\x98\x80", b"\xc3\xa4\xe2\x82\xac\xf0\x9f\x98",
]


def words(copy, run, check, outside):
    """Gives words to the program and to the launcher, which has no proved program."""
    table = [*outside, *OUTSIDE, *([b"list", path] for path in PATHS), [b"drill"],
             *([b"rehearse", b"%d" % n] for n in [1, 9, 10, 19_999, 20_000])]
    says = {"SAYS": ENDED}
    for line in table:
        if line in OWN:
            continue
        is_refused = run(line)[0] == 2
        found = copy.refused(line, given=says)
        check(f"launcher, words {line}", (found == USAGE, found[0] == 2), (is_refused,) * 2)
    check("words, an unproved `init` of no path", copy.run([b"init", b""])[0], 1)
    for line in [[], [b"init"], [b"init", b"x", b"y"], [b"init", b"\xff"], [b"rehearse", b"0"]]:
        copy.forget()
        check(f"launcher, refused {line}", copy.refused(line), USAGE)
        check(f"launcher, refused {line}, rt", copy.noted("words"), None)
    with open("/dev/full", "wb") as full:
        check("usage that can't be written", copy.run([], stdout=full)[0], 7)


def own_words(copy, check):
    first = b"usage: bin/provider "
    for line in [*OWN[:3], *([b"help", command] for command in COMMANDS)]:
        status, output, errors = copy.run(line)
        is_screen = output.startswith(first) and output.count(b"\n") <= 40
        check(f"launcher {line}", (status, is_screen, errors), (0, True, b""))
    check("launcher --version, no checkout", copy.run([b"--version"]),
          (0, b"kit of the stand-in\n", b""))
    git = ["git", "-C", copy.top, "-c", "user.name=x", "-c", "user.email=x@localhost"]
    for more in [["init", "-q"], ["add", "HANDLES"], ["commit", "-qm", "One"]]:
        subprocess.run([*git, *more], check=True)
    commit = subprocess.run([*git, "rev-parse", "HEAD"], capture_output=True).stdout.strip()
    for change, tail in [("", b""), ("\n", b", with changes")]:
        with open(copy.top / "HANDLES", "a") as file:
            file.write(change)
        check("launcher --version", copy.run([b"--version"]),
              (0, b"kit of the stand-in\ncommit %s%s\n" % (commit, tail), b""))
    subprocess.run([*git, "checkout", "-q", "HANDLES"], check=True)
    shutil.rmtree(copy.top / ".git")


# ---- runs before any proof

def is_told(errors):
    """Whether standard error says before and after that a run is not proved, and how to prove."""
    lines = errors.splitlines()
    return all(b"NOT PROVED" in line and b"bin/provider prove" in line
               for line in [lines[0], lines[-1]])


def unproved(copy, check):
    given = {"SAYS": ENDED, "OUTPUT": "a\nb"}
    for status in [b"0", b"2", b"3", b"4", b"6", b"9", b"11", b"70", b"255"]:
        given["SAYS"] = "checked: ended\n" + ENDED.replace("0", status.decode())
        found = copy.run([b"drill"], b"script", {**given, "STATUS": "5"})
        check(f"unproved, status {status}", (*found[:2], is_told(found[2])),
              (int(status), b"a\nb", True))
    check("unproved, input", copy.noted("input"), b"script")
    for what, says in [
        ("nothing", ""), ("no end", "run=fault proved=no"), ("another end", "| " + ENDED),
        ("an end before the last line", ENDED + "\nrun=none proved=no"),
        ("a proof", ENDED.replace("no", "yes")), ("a front", ENDED[:-3]),
        ("too much", "checked: no-answer: the program wrote more\nrun=no-answer proved=no"),
    ]:
        status, output, errors = copy.run([b"drill"], given={**given, "SAYS": says})
        check(f"unproved, {what}", (status, output), (1, b""))
    check("unproved, too much", b"no answer: the program wrote more" in errors, True)
    given["SAYS"] = ENDED
    copy.forget()
    with open(copy.top / "HANDLES", "rb") as file:
        found = copy.run([b"rehearse", b"7"], stdin=file, given=given)
        check("unproved rehearse", found[:2], (0, b"a\nb"))
        check("unproved rehearse, input", (file.tell(), copy.noted("input")), (0, b""))
    where = f"{copy.top}/crates/drill_cli try --seconds 600 -- rehearse 7\n"
    check("unproved rehearse, words", copy.noted("words"), where.encode())
    with open("/dev/full", "wb") as full:
        check("unproved, write fault", copy.run([b"drill"], given=given, stdout=full)[0], 1)
    check("unproved, files", copy.left(), [])


def inputs(copy, check):
    """The script is handed on whole, however it comes, but for what no run reads."""
    given = {"SAYS": ENDED}
    running = copy.start([b"drill"], given, stdin=subprocess.PIPE)
    running.stdin.write(b"one\n")
    running.stdin.flush()
    time.sleep(2.5)
    running.communicate(b"two\n", timeout=60)
    check("unproved, a slow input", copy.noted("input"), b"one\ntwo\n")
    copy.run([b"drill"], b"x" * 16_777_300, given)
    check("unproved, a long input", len(copy.noted("input")), 16_777_217)
    copy.forget()
    folder = os.open("/", os.O_RDONLY)
    check("unproved, a read fault", copy.run([b"drill"], stdin=folder, given=given)[:2], (1, b""))
    os.close(folder)
    for word in [b"init", b"list", b"next"]:
        path = copy.scratch / "archive"
        status, output, errors = copy.run([word, bytes(path)])
        check(f"unproved {word}", (status, output, b"bin/provider prove" in errors, path.exists()),
              (1, b"", True, False))
    check("unproved, rt", copy.noted("words"), None)


# ---- prove

def needed(copy):
    """The names of the crates that the program stands on, and its own, as crates.txt has them."""
    below = {}
    for line in (copy.top / "crates.txt").read_text().splitlines():
        if line and not line.startswith("#"):
            name, others = line.split(":")
            below[name.split()[0]] = others.split()
    wanted, left = set(), ["provider_cli"]
    while left:
        name = left.pop()
        if name in below and name not in wanted:
            wanted.add(name)
            left += below[name]
    return [name for name in below if name in wanted]


def prove(copy, check):
    copy.forget()
    path = f"{copy.top}/{PROGRAM}\n".encode()
    status, output, errors = copy.run([b"prove"])
    check("prove", (status, output), (0, path))
    names = needed(copy)
    for place, (name, line) in enumerate(zip(names, errors.decode().splitlines()[1:]), 1):
        told = f"provider: proved {name}, {place} of {len(names)}, after 0 min "
        check(f"prove, {place}", (line[:len(told)], len(names) > 20), (told, True))
    check("prove, its lines", errors.count(b"\n"), 1 + len(names))
    lines = copy.noted("crates.txt").decode().splitlines()
    check("prove, its crates.txt", [line.split(":")[0].split()[0] for line in lines], names)
    files = copy.noted("files").decode().split()
    folders = {file.split("/")[2] for file in files if file.startswith("./crates/")}
    check("prove, its crates", folders, set(names))
    check("prove, no edits", [file for file in files if "must-fail" in file], [])
    check("prove, files", copy.left(), [])
    check("prove again", copy.run([b"prove"]), (0, path, b""))
    for line in [[b"drill"], [b"list", b"x y"], [b"rehearse", b"7"]]:
        said = b"proved program: " + b" ".join(line) + b"\n"
        check(f"proved {line}", copy.run(line), (0, said, b""))
    check("proved, words", copy.refused([b"rehearse", b"0"]), USAGE)


def explaining(copy, check):
    """`explain` is a program of its own, which `prove explain` proves."""
    says = {"SAYS": ENDED, "OUTPUT": "a\nb"}
    copy.forget()
    found = copy.run([b"explain", b"raf"], b"lines", says)
    check("unproved explain", (*found[:2], is_told(found[2])), (0, b"a\nb", True))
    check("unproved explain, how", found[2].count(b"`bin/provider prove explain`"), 2)
    check("unproved explain, input", copy.noted("input"), b"lines")
    where = f"{copy.top}/crates/explain_cli try --seconds 600 -- explain raf\n"
    check("unproved explain, words", copy.noted("words"), where.encode())
    copy.run([b"explain"], b"x" * 67_108_900, says)
    check("unproved explain, a long input", len(copy.noted("input")), 67_108_865)
    path = f"{copy.top}/{PROGRAM}".replace("provider_cli", "explain_cli")
    check("prove explain", copy.run([b"prove", b"explain"])[:2], (0, path.encode() + b"\n"))
    for line in [[b"explain"], [b"explain", b"cltu"]]:
        said = b"proved program: " + b" ".join(line) + b"\n"
        check(f"proved {line}", copy.run(line), (0, said, b""))
    check("proved explain alone", (copy.top / PROGRAM).exists(), False)
    shutil.rmtree(Path(path).parent)
    for line in [[b"explain", b"x"], [b"explain", b"raf", b"raf"], [b"prove", b"x"],
                 [b"prove", b"explain", b"x"]]:
        check(f"launcher, refused {line}", copy.refused(line), USAGE)


def capturing(copy, check):
    """`explain --pcap` is a program of its own, too."""
    says = {"SAYS": ENDED, "OUTPUT": "a\nb"}
    copy.forget()
    file = copy.top / "a b.pcap"
    found = copy.run([b"explain", b"--pcap", bytes(file)], b"lines", says)
    check("unproved capture", (*found[:2], is_told(found[2])), (0, b"", True))
    check("unproved capture, its file", file.read_bytes(), b"a\nb")
    check("unproved capture, how", found[2].count(b"`bin/provider prove capture`"), 2)
    where = f"{copy.top}/crates/capture_cli try --seconds 600 -- capture\n"
    check("unproved capture, words", copy.noted("words"), where.encode())
    path = copy.top / PROGRAM.replace("provider_cli", "capture_cli")
    check("prove capture", copy.run([b"prove", b"capture"])[:2], (0, bytes(path) + b"\n"))
    status, output, _ = copy.run([b"explain", b"--pcap", bytes(file)])
    written = output, file.read_bytes()
    check("proved capture", (status, *written), (0, b"", b"proved program: capture\n"))
    shutil.rmtree(path.parent)
    file.unlink()
    for line in [[b"explain", b"--pcap"], [b"explain", b"--pcap", b"x", b"y"], [b"capture"]]:
        check(f"launcher, refused {line}", copy.refused(line), USAGE)


# What stands in front of each line of a script that is run for a picture.
MARK = b"start 0/1/0 0/0/0 0\n"


def drawing(copy, check):
    """`picture` runs `drill` with marks, and then a program of its own over what that writes."""
    says = {"SAYS": ENDED, "OUTPUT": "a\nb"}
    copy.forget()
    found = copy.run([b"picture"], b"x\n\ny", says)
    check("unproved picture", (*found[:2], is_told(found[2])), (0, b"a\nb", True))
    for how, times in [(b"`bin/provider prove`", 2), (b"`bin/provider prove picture`", 2)]:
        check(f"unproved picture, {how}", found[2].count(how), times)
    where = "".join(f"{copy.top}/crates/{name}_cli try --seconds 600 -- {word}\n"
                    for name, word in [("drill", "drill"), ("picture", "picture")])
    check("unproved picture, words", copy.noted("words"), where.encode())
    check("unproved picture, input", copy.noted("input"), b"4\nx\n\nya\nb")
    path = copy.top / PROGRAM.replace("provider_cli", "picture_cli")
    # both programs write what they are given
    says = {"ECHOES": "cat && [ $1 != drill ] || exit ${ENDS:-0} && exit"}
    found = copy.run([b"prove", b"picture"], given=says)
    check("prove picture", found[:2], (0, bytes(path) + b"\n"))
    copy.run([b"prove"], given=says)
    for script, marked in [
        (b"", b""), (b"x", MARK + b"x"), (b"x\n\n#\n", MARK + b"x\n" + MARK + b"\n" + MARK + b"#\n"),
        (b"site\na\nend\nx\nend\n", b"site\na\nend\n" + MARK + b"x\n" + MARK + b"end\n"),
        (b"site", b"site"), (b"site\nend \n", b"site\nend \n"), (b"site\nend", b"site\nend"),
        (b"site \nend\n", MARK + b"site \n" + MARK + b"end\n"),
        (b"s\0ite\n\xff\0\r\n", MARK + b"s\0ite\n" + MARK + b"\xff\0\r\n"),
    ]:
        framed = b"%d\n" % len(script) + script + marked
        check(f"proved picture of {script}", copy.run([b"picture"], script), (0, framed, b""))
    for code in [3, 4, 9]:
        end = b"provider: the script ended with exit code %d, and the page shows where\n" % code
        found = copy.run([b"picture"], b"x", {"ENDS": str(code)})
        check(f"a picture, status {code}", found, (0, b"1\nx" + MARK + b"x", end))
    for code in [6, 7, 11, 70]:
        status, output, errors = copy.run([b"picture"], b"x", {"ENDS": str(code)})
        check(f"no picture, status {code}", (status, output, errors.count(b"\n")), (code, b"", 1))
    folder = os.open("/", os.O_RDONLY)
    check("no picture, a read fault", copy.run([b"picture"], stdin=folder)[:2], (6, b""))
    os.close(folder)
    check("pictures, files", copy.left(), [])
    copy.forget()
    shutil.rmtree(path.parent)
    for line in [[b"picture", b"x"], [b"picture", b""], [b"prove", b"picture", b"x"], [b"Picture"]]:
        check(f"launcher, refused {line}", copy.refused(line), USAGE)


def running(copy, check):
    """`run` is a command of the provider's program, and wants a proof."""
    words = [b"run", b"10", b"1", b"a b", b"1", b"", b"65535", b"5101"]
    copy.forget()
    status, output, errors = copy.run(words)
    check("unproved run", (status, output, errors.count(b"`bin/provider prove`")), (1, b"", 1))
    check("unproved run, rt", copy.noted("words"), None)
    copy.run([b"prove"])
    said = b"proved program: " + b" ".join(words) + b"\n"
    check("proved run", copy.run(words), (0, said, b""))
    copy.forget()
    for place, word in [(1, b"9"), (1, b"1099511627777"), (2, b"0"), (2, b"65537"), (4, b"0"),
                        (4, b"65536"), (6, b"01"), (7, b"+1"), (7, b"")]:
        line = [*words[:place], word, *words[place + 1:]]
        check(f"launcher, refused {line}", copy.refused(line), USAGE)
    for line in [words[:6], [*words, *[b"1"] * 15], [b"prove", b"run"]]:
        check(f"launcher, refused {line}", copy.refused(line), USAGE)


def raf_words():
    return b"raf 1 MOC none sagr=1 none none 2 9".split()


def receiving(copy, check):
    """`bin/user` has a program of its own, and wants a proof, which goes the same way."""
    def user(*words, **more):
        return copy.run([*words], launcher="bin/user", **more)

    copy.forget()
    words = raf_words()
    status, output, errors = user(*words)
    check("unproved user", (status, output, errors.count(b"`bin/user prove`")), (1, b"", 1))
    check("unproved user, rt", copy.noted("words"), None)
    says = {"SAYS": ENDED, "OUTPUT": "a\nb"}
    status, output, errors = user(b"show", b"raf", given=says, script=b"x\n")
    told = [b"NOT PROVED" in line and b"bin/user prove" in line for line in (errors.splitlines()[0], errors.splitlines()[-1])]
    check("unproved show", (status, output, told), (0, b"a\nb", [True] * 2))
    where = f"{copy.top}/crates/show_cli try --seconds 600 -- show raf\n"
    check("unproved show, words", (copy.noted("words"), copy.noted("input")), (where.encode(), b"x\n"))
    given = {"SAYS": ENDED.replace("0", "5"), "OUTPUT": "bad message 7\n"}
    status, output, errors = user(b"show", b"raf", given=given)
    check("unproved show, a bad message", (status, output, b"from 7 on" in errors), (5, b"bad message 7\n", True))
    given = {"SAYS": "checked: no-answer: the program wrote more\nrun=no-answer proved=no"}
    status, output, errors = user(b"show", b"raf", given=given)
    check("unproved show, no answer", (status, output, b"the program wrote more" in errors), (1, b"", True))
    copy.forget()
    path = copy.top / PROGRAM.replace("provider_cli", "user_cli")
    status, output, errors = user(b"prove")
    check("prove user", (status, output), (0, bytes(path) + b"\n"))
    check("prove user, its lines", errors.count(b"user: proved "), errors.count(b"\n") - 1)
    copy.forget()
    check("prove user again", user(b"prove"), (0, bytes(path) + b"\n", b""))
    check("prove user again, rt", copy.noted("words"), None)
    words = [b"show", b"raf"]
    check(f"proved user {words}", user(*words), (0, b"proved program: " + b" ".join(words) + b"\n", b""))
    for words in [[b"prove", b"x"], [b"help", b"x"], [b"sho", b"raf"]]:
        check(f"proved user {words}", copy.refused(words, launcher="bin/user"), USAGE)
    with changed(copy.top / "crates/user_line/src/lib.rt", b"\n"):
        check("a user of other sources", user(*raf_words())[:2], (1, b""))
    with changed(copy.top / "crates/station_run/src/lib.rt", b"\n"):
        check("a user beside other sources", user(b"show", b"raf")[0], 0)
    shutil.rmtree(path.parent)
    check("a user's help", user(b"help", b"raf")[0], 0)


def operating(copy, check):
    """What an operator has besides `run`: where a station hears a stop, `stop`, and `check`."""
    copy.forget()
    shows = {"ECHOES": 'echo "[${STATION_STOP-none}]"; echo "[${STATION_STATUS-none}]"'}
    copy.run([b"prove"], given=shows)
    words = [b"run", b"10", b"1", b"a", b"1", b"c", b"5101"]
    for given, told in [({}, b"5199"), ({"STATION_STOP": "7"}, b"7"), ({"STATION_STOP": ""}, b"none")]:
        output = copy.run(words, given=given)[1]
        check(f"a run with {given}", output.split(b"\n")[0], b"[" + told + b"]")
    for given, told in [({}, b"5198"), ({"STATION_STATUS": "7"}, b"7"), ({"STATION_STATUS": ""}, b"none"),
                        ({"STATION_STATUS": "/run/status"}, b"/run/status"), ({"STATION_STATUS": "x"}, b"x")]:
        output = copy.run(words, given=given)[1]
        check(f"a run with {given}", output.split(b"\n")[1], b"[" + told + b"]")
    copy.forget()
    with socket.create_server(("127.0.0.1", 0)) as station:
        port = {"STATION_STOP": str(station.getsockname()[1])}
        stopping(copy, check, station, port)
    for given in [port, {"STATION_STOP": "x"}, {"STATION_STOP": "/run/stop"}, {"STATION_STOP": ""}]:
        status, output, errors = copy.run([b"stop"], given=given)
        check(f"stop, {given}", (status, output, errors.count(b"\n")), (1, b"", 1))
    for given in [{"STATION_STATUS": name} for name in ("1", "x", "/run/status", "")]:
        for more in [[], [b"--json"]]:
            status, output, errors = copy.run([b"status", *more], given=given)
            check(f"status, {given}", (status, output, errors.count(b"\n")), (1, b"", 1))
    checking(copy, check)
    for line in [[b"stop", b"x"], [b"stop", b""], [b"status", b"x"], [b"status", b"--json", b"x"], [b"check"],
                 [b"check", b"x", b"y"], [b"Stop"]]:
        check(f"launcher, refused {line}", copy.refused(line), USAGE)
    check("operating, files", copy.left(), [])


def stopping(copy, check, station, place):
    """How `stop` asks a station."""
    operator = copy.start([b"stop"], place)
    peer, _ = station.accept()
    check(f"stop, what is asked at {place}", peer.recv(9), b"stop\n")
    peer.sendall(b"stopping\n")
    time.sleep(0.2)
    check(f"stop, until the end, at {place}", operator.poll(), None)
    peer.close()
    check(f"stop at {place}", (*operator.communicate(timeout=60), operator.returncode), (b"stopped\n", b"", 0))
    operator = copy.start([b"stop"], place)
    station.accept()[0].close()
    told = operator.communicate(timeout=60)
    check(f"stop, no answer at {place}", (told[0], b"no station" in told[1], operator.returncode), (b"", True, 1))


def checking(copy, check):
    """`check` is a program of its own; where the provider alone is proved, `drill` reads the head of a script."""
    file = copy.top / "a b.conf"
    echoes = {"ECHOES": 'cat >"$NOTES/script"; [ -z "$SITE" ] || echo "$SITE"; exit ${ENDS:-0}'}
    path = copy.top / PROGRAM.replace("provider_cli", "check_cli")
    copy.forget()
    copy.run([b"prove"], given=echoes)
    for text, script in [(b"", b""), (b"x\ny\n", b"x\ny\n"), (b"x\n\ny", b"x\n\ny\n"),
                         (b"x\nend\ny\n", b"x\nend \ny\n"), (b"\xff end\n", b"\xff end\n")]:
        file.write_bytes(text)
        check(f"check by drill, {text}", copy.run([b"check", bytes(file)])[:2], (0, b"valid\n"))
        check(f"check by drill, {text}, script", copy.noted("script"), b"site\n" + script + b"end\n")
    checked(copy, check, file, "check by drill", 1)
    check("prove check", copy.run([b"prove", b"check"], given=echoes)[:2], (0, bytes(path) + b"\n"))
    for text in [b"", b"x\nend\ny", b"\xff end\n"]:
        file.write_bytes(text)
        check(f"check {text}", copy.run([b"check", bytes(file)])[:2], (0, b"valid\n"))
        check(f"check {text}, input", copy.noted("script"), text)
    checked(copy, check, file, "check", 0)
    file.write_bytes(b"capacity 64000000\n")
    errors = copy.run([b"check", bytes(file)])[2]
    check("check, the memory for a capacity", b"about 82 MiB with frames of 1,115 octets" in errors, True)
    copy.forget()
    shutil.rmtree(path.parent)
    says = {"SAYS": ENDED, "OUTPUT": "valid\n"}
    status, output, errors = copy.run([b"check", bytes(file)], given=says)
    check("unproved check", (status, output, b"NOT PROVED" in errors), (0, b"valid\n", True))
    where = f"{copy.top}/crates/check_cli try --seconds 600 -- check\n"
    check("unproved check, words", (copy.noted("words"), copy.noted("input")), (where.encode(), file.read_bytes()))
    file.unlink()
    status, output, errors = copy.run([b"check", bytes(file)])
    check("check, no file", (status, output, errors.count(b"can't be read")), (1, b"", 1))
    copy.forget()


def checked(copy, check, file, name, before):
    """How a check ends, by a program that counts so many lines before the file's."""
    file.write_bytes(b"\nprovider\n")
    bad = {"SITE": f"bad site {2 + before} 2", "ENDS": "4"}
    status, output, errors = copy.run([b"check", bytes(file)], given=bad)
    check(f"{name}, a bad line", (status, output), (4, b"bad site 2 2\n"))
    check(f"{name}, its words", (errors.count(b"\n"), b"line 2 of %s has too few" % bytes(file) in errors), (1, True))
    for code in [11, 70]:
        status, output, errors = copy.run([b"check", bytes(file)], given={"ENDS": str(code)})
        check(f"{name}, status {code}", (status, output, errors.count(b"\n")), (code, b"", 1))


def is_proved(copy):
    given = {"SAYS": ENDED, "OUTPUT": "unproved"}
    output = copy.run([b"drill"], given=given)[1]
    return {b"proved program: drill\n": True, b"unproved": False}.get(output, output)


@contextmanager
def changed(file, text, keeps_time=False):
    """A file with another text at its end for a while, maybe with the time it had."""
    before = file.read_bytes() if file.exists() else None
    time_before = file.stat().st_mtime_ns if before is not None else 0
    file.parent.mkdir(exist_ok=True)
    file.write_bytes((before or b"") + text)
    if keeps_time:
        os.utime(file, ns=(time_before, time_before))
    yield
    if before is None:
        file.unlink()
    else:
        file.write_bytes(before)


def sameness(copy, check):
    """The program is taken for as long as the contents of what it was built of are the same."""
    crates = copy.top / "crates"
    for what, file, text, is_same in [
        ("a source", "octet_core/src/lib.rt", b"\n", False),
        ("a source, its time kept", "octet_core/src/lib.rt", b"\n", False),
        ("a source's time", "octet_core/src/lib.rt", b"", True),
        ("a definition", "station_law/specs/Lib.antt", b"\n", False),
        ("a proof", "provider_cli/proofs/Lib.antt", b"\n", False),
        ("a new source", "provider_cli/src/new.rt", b"", False),
        ("the program", "provider_cli/out/provider_cli", b"\n", False),
        ("what is allowed", "../HANDLES", b"\n", False),
        ("a line of a crate", "../crates.txt", b"cds_time: octet_core\n", False),
        ("a line of another crate", "../crates.txt", b"other:\n", True),
        ("an edit", "provider_cli/must-fail/new.edit", b"\n", True),
        ("another crate", "sample_codec/src/lib.rt", b"\n", True),
        ("a page", "../README.md", b"\n", True),
    ]:
        with changed(crates / file, text, what.endswith("kept")):
            check(f"a change of {what}", is_proved(copy), is_same)
        check(f"a change of {what}, undone", is_proved(copy), True)
    gone = crates / "cds_time/src"
    gone.rename(crates / "cds_time_src")
    check("a folder that is gone", is_proved(copy), False)
    (crates / "cds_time_src").rename(gone)
    check("a folder that is back", is_proved(copy), True)
    moved = copy.top.parent / "moved"
    copy.top.rename(moved)
    copy.top = moved
    check("a tree that moved", is_proved(copy), True)


def failing_proofs(copy, check):
    copy.forget()
    status, output, errors = copy.run([b"prove"], given={"STATUS": "1"})
    check("a proof that fails", (status, output, b"prove.log" in errors), (1, b"", True))
    check("a proof that fails, program", (copy.top / PROGRAM).exists(), False)
    source = copy.top / "crates/octet_core/src/lib.rt"
    before = source.read_bytes()
    status, output, _ = copy.run([b"prove"], given={"CHANGES": str(source)})
    check("a change within a proof", (status, output, is_proved(copy)), (1, b"", False))
    source.write_bytes(before)
    check("a change within a proof, undone", is_proved(copy), True)
    check("failing proofs, files", copy.left(), [])


def gate(copy, check):
    """A program that `rt ci` left has no note: times say whether it is of these sources."""
    copy.forget()
    names = needed(copy)
    program, source = copy.top / PROGRAM, copy.top / "crates/octet_core/src/lib.rt"

    def build():
        for name in names:
            shutil.rmtree(copy.top / "crates" / name / "out", ignore_errors=True)
            (copy.top / "crates" / name / "out").mkdir()
        time.sleep(0.02)
        program.write_text("#!/bin/sh\necho \"proved program: $*\"\n")
        program.chmod(0o755)

    build()
    check("the gate's program", is_proved(copy), True)
    build()
    with changed(source, b"\n", keeps_time=True):
        check("the gate's program, a change", is_proved(copy), False)
    check("the gate's program, a change undone", is_proved(copy), False)
    time.sleep(0.02)
    build()
    os.utime(program, ns=(0, 0))
    check("an older program", is_proved(copy), False)
    build()
    shutil.rmtree(copy.top / "crates/cds_time/out")
    check("a crate that wasn't built", is_proved(copy), False)
    (copy.top / "crates/cds_time/out").mkdir()
    check("a crate that was built later", is_proved(copy), False)
    for name in names:
        shutil.rmtree(copy.top / "crates" / name / "out")


# ---- signals

def is_running(process):
    try:
        with open(f"/proc/{process}/stat") as file:
            return file.read().rsplit(")", 1)[1].split()[0] != "Z"
    except FileNotFoundError:
        return False


def signals(copy, check):
    group = [signal.SIGTERM, signal.SIGINT, signal.SIGHUP]

    def heeded():
        # (a caller may have them ignored)
        for each in group:
            signal.signal(each, signal.SIG_DFL)

    def case(words, sent, end, more={}):
        copy.forget()
        running = copy.start(words, {"SLOW": "yes", "STUBBORN": "-", **more}, preexec_fn=heeded,
                             stdin=subprocess.DEVNULL, start_new_session=True)
        begun = time.monotonic()
        while not copy.noted("processes") and time.monotonic() < begun + 100:
            time.sleep(0.02)
        end(running.pid, sent)
        running.communicate(timeout=60)
        name = f"{words[0].decode()}, {sent.name} by {end.__name__}"
        check(name, (running.returncode, copy.left()), (128 + sent, []))
        check(f"{name}, place", copy.noted("place").startswith(bytes(copy.scratch)), True)
        processes = copy.noted("processes").split()
        check(f"{name}, processes", [is_running(each.decode()) for each in processes], [False] * 2)

    for words in [[b"prove"], [b"drill"]]:
        case(words, signal.SIGTERM, os.kill)
        for sent in group:
            case(words, sent, os.killpg)
    case([b"prove"], signal.SIGTERM, os.killpg, {"STUBBORN": ""})


# ---- all of it

def drive(launcher, run, check, outside):
    """Words outside the program's grammar are given, each with the program's run."""
    with tempfile.TemporaryDirectory() as place, tempfile.TemporaryDirectory() as other:
        real, copy = Copy(place), Copy(other)
        # the real rt takes half a minute, while the stand-in is driven
        shutil.rmtree(real.tools)
        with open(real.top / "examples/first-pass.script", "rb") as script:
            first = real.start([b"drill"], stdin=script)
        words(copy, run, check, outside)
        own_words(copy, check)
        for part in (unproved, inputs, explaining, capturing, drawing, running, receiving, operating,
                     prove, sameness, failing_proofs, gate, signals):
            part(copy, check)
        output, errors = first.communicate(timeout=600)
        expected = run([b"drill"], (TOP / "examples/first-pass.script").read_bytes())[1]
        check("a first run", (first.returncode, output, is_told(errors)), (0, expected, True))
        check("a first run, files", real.left(), [])
    # the program that the gate left is the launcher's
    for line in [[b"drill"], [b"rehearse", b"7"], [b"list", b""]]:
        done = subprocess.run([launcher, *line], stdin=subprocess.DEVNULL, capture_output=True)
        check(f"launcher {line}", (done.returncode, done.stdout), run(line)[:2])
        check(f"launcher {line}, words", bool(done.stderr), done.returncode != 0)
