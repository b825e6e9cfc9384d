#!/usr/bin/env python3
"""Reads the pages of scripts by Python's own parser of HTML.

    .ci/page.py PROVIDER PICTURE LAUNCHER

PROVIDER runs scripts, PICTURE makes a page of a script and of what it led to, LAUNCHER is
`bin/provider`. Of each page each tag has its end in its place, nothing is named that stands elsewhere,
the lanes and their marks are those that the script and its transcript have, and the table has each
line of both. Where there is a headless Chromium, it loads pages without an error; else that is said.
The last line is `N passed, M failed`.
"""
import os
import pathlib
import re
import shutil
import subprocess
import sys
import tempfile
from html.parser import HTMLParser

sys.dont_write_bytecode = True
from checks import Checks, run as run_words
from passes import random_script

TOP = pathlib.Path(__file__).resolve().parent.parent
MARK = b"start 0/1/0 0/0/0 0\n"
ABOVE = ["line", "time"]
QUALITIES = {b"0": ("good", "good"), b"1": ("erred", "erred"), b"2": ("unknown", "undetermined")}

checks = Checks("page", 600)
check = checks.check


def run(program, words, text=b"", **more):
    """The exit code, and what was written to standard output."""
    return run_words([program, *words], text, 900, **more)[:2]


# ---- a page as it is read

class Element:
    def __init__(self, tag, attributes):
        self.tag, self.attributes, self.within = tag, dict(attributes), []

    def named(self, tag, class_=None):
        """The elements in it with a tag and a class, in their order."""
        found = []
        for each in self.within:
            if isinstance(each, Element):
                if each.tag == tag and class_ in (None, each.attributes.get("class")):
                    found.append(each)
                found += each.named(tag, class_)
        return found

    def text(self):
        return "".join(each if isinstance(each, str) else each.text() for each in self.within)


class Reader(HTMLParser):
    """Reads a page into elements, and notes each tag that is out of its place."""

    def __init__(self, text):
        super().__init__(convert_charrefs=True)
        self.root, self.faults, self.begins = Element("", []), [], []
        self.open = [self.root]
        self.feed(text)
        self.close()
        self.faults += [f"no end of {each.tag}" for each in self.open[1:]]

    def handle_decl(self, decl):
        self.begins.append(decl)

    def handle_starttag(self, tag, attributes):
        element = Element(tag, attributes)
        if len(element.attributes) != len(attributes):
            self.faults.append(f"{tag} has an attribute twice")
        self.open[-1].within.append(element)
        self.open.append(element)

    def handle_endtag(self, tag):
        if self.open[-1].tag == tag:
            self.open.pop()
        else:
            self.faults.append(f"{tag} ends in {self.open[-1].tag}")

    def handle_data(self, data):
        self.open[-1].within.append(data)

    def handle_comment(self, data):
        self.faults.append(f"a comment {data}")

    def unknown_decl(self, data):
        self.faults.append(f"a declaration {data}")

    def handle_pi(self, data):
        self.faults.append(f"an instruction {data}")


def octets_of(text):
    """The octets that a text of a page stands for."""
    return re.sub(rb"\\x(..)", lambda found: bytes([int(found[1], 16)]), text.encode())


TAGS = {"html", "head", "title", "style", "body", "h1", "h2", "p", "div", "span", "table", "tr", "th",
        "td", "a", "svg", "g", "rect", "circle", "path", "text"}
ATTRIBUTES = {"class", "id", "lang", "href", "role", "viewbox", "x", "y", "width", "height", "cx", "cy",
              "r", "d"}


def whole(name, page):
    """The page's elements, once it is seen to be whole and of its own."""
    reader = Reader(page.decode("ascii"))
    check(f"{name}, its tags", (reader.begins, reader.faults), (["DOCTYPE html"], []))
    everything = reader.root.named("html")[0]
    elements = [each for tag in TAGS for each in reader.root.named(tag)]
    check(f"{name}, other tags", len(elements), page.count(b"</"))
    names = {each for element in elements for each in element.attributes}
    check(f"{name}, other attributes", names - ATTRIBUTES, set())
    places = [element.attributes.get("href", "#") for element in elements]
    check(f"{name}, other places", [each for each in places if each[0] != "#"], [])
    style = everything.named("style")[0].text()
    check(f"{name}, its style", re.findall(r"url|@import|@font-face|expression", style), [])
    return everything


# ---- what is expected of a script

def is_bad(lines):
    return any(line.startswith((b"bad line ", b"bad site ")) for line in lines)


class Ran:
    """A script's lines, each with the lines of the transcript that it led to."""

    def __init__(self, provider, script):
        self.script = script
        lines = script[:-1] if script.endswith(b"\n") else script
        self.lines = lines.split(b"\n") if script else []
        self.head = 0
        if self.lines[:1] == [b"site"]:
            ends = [place for place, line in enumerate(self.lines, 1) if line == b"end"]
            self.head = ends[0] if ends else len(self.lines)
        behind = self.lines[self.head:]
        marked = b"".join(line + b"\n" for line in self.lines[:self.head])
        marked += b"".join(MARK + line + b"\n" for line in behind)
        self.status, self.marked = run(provider, ["drill"], marked)
        self.transcript = run(provider, ["drill"], script)[1]
        # the text of the lines so far tells where each line's own begins
        self.said, said = {}, self.marked.splitlines()
        before = said.index(b"refused 3") if b"refused 3" in said else len(said)
        self.refusal, said = said[:before], said[before:]
        for number, line in enumerate(behind, self.head + 1):
            if not said:
                break
            end = 2 if is_backward(line) else 1
            while end < len(said) and said[end] != b"refused 3":
                end += 1
            self.said[number] = said[1:end]
            said = said[end:]
        check("a script's marks", said, [])

    def framed(self):
        return b"%d\n" % len(self.script) + self.script + self.marked

    def columns(self):
        """The numbers, lines and transcripts of the lines that have columns."""
        for number, said in self.said.items():
            line = self.lines[number - 1]
            if line and line[:1] != b"#":
                yield number, line, said


def moment(time):
    day, milli, rest = time.split(b"/")
    picos = int(rest[:-1]) if rest[-1:] == b"p" else int(rest) * 10 ** 6
    return (int(day) * 86_400_000 + int(milli)) * 10 ** 9 + picos


def is_backward(line):
    """Whether it is a START at the desk whose stop lies before its start."""
    words = line.split(b" ")
    return words[0] == b"start" and len(words) == 4 and moment(words[2]) < moment(words[1])


def channel_of(digits):
    octets = bytes.fromhex(digits.decode())
    if len(octets) < 2 or octets[0] > 127:
        return "frames of no channel"
    both = octets[0] << 8 | octets[1]
    if octets[0] < 64:
        return f"channel {both >> 4 & 0x3ff}/0/{both >> 1 & 7}"
    return f"channel {both >> 6 & 0xff}/1/{both & 63}"


def refusal(said):
    for line in said:
        if line in (b"backward", b"too long") or line.startswith(b"full "):
            return line.decode() if line[:4] != b"full" else "full"
    return None


class Expected:
    """The marks of lanes, as a list of pairs of a class and a text for each."""

    def __init__(self, ran):
        self.lanes, self.entries, self.lost = {}, 0, False
        for number, line, said in ran.columns():
            self.put("line", "number", str(number))
            if is_bad(said):
                self.put("failures", "refused", "bad line")
                continue
            word, *words = line.split(b" ")
            self.line(word.decode(), words, said)
            for each in said:
                self.told(*each.split(b" "))

    def put(self, lane, look, text):
        self.lanes.setdefault(lane, []).append((look, text))

    def line(self, word, words, said):
        if word in ("frame", "loss", "production", "mark"):
            self.entry(word, words, said)
        elif word == "crash" and words[0] != b"0" or word == "fault":
            self.put("failures", "ordered", f"{word} at {words[0].decode()}")

    def entry(self, word, words, said):
        why, found = refusal(said), [line for line in said if line.startswith(b"archive ")]
        before = self.entries
        if why is None:
            crashed = b"crash" in said
            self.entries = int(found[0][8:]) if crashed else before + 1
        look, text = None, None
        if why is not None:
            look, text = "refused", why
        elif self.entries <= before:
            look, text = "failed", "not kept"
        if word == "frame":
            self.frame(words, look, text)
        elif word == "mark":
            self.put("seals", look or "seal", text or "sealed")
        elif word == "loss" and look is None:
            self.lost = True

    def frame(self, words, look, text):
        lane = channel_of(words[4])
        if look is None and words[3] != b"0":
            self.put(lane, "gap", f"{words[3].decode()} lost")
        good = QUALITIES[words[1]]
        self.put(lane, look or good[0], text or good[1])

    def told(self, word, *words):
        if word == b"fault":
            self.put("failures", "failed", "disk fault")
        elif word == b"crash":
            self.put("failures", "failed", "power off")
        elif word == b"archive":
            self.put("failures", "ended", f"archive {words[0].decode()}")


def lanes_of(page):
    """The name and the marks of each lane, a mark with its class, its text and what it tells."""
    names = [each.text() for each in page.named("svg", "names")[0].named("text")]
    lanes = page.named("svg", "lanes")[0].named("g", "lane")
    marks = [[(each.attributes["class"], each.named("text")[0].text() if each.named("text") else "",
               each.named("title")[0].text()) for each in lane.named("g")] for lane in lanes]
    check("a page's lanes and names", len(marks), len(names))
    return dict(zip(names, marks))


def connections(name, ran, lanes):
    """What was asked, sent, stalled, discarded and ended, lane by lane."""
    asked, told = {}, {}
    for _, line, said in ran.columns():
        words = line.split(b" ")
        if is_bad(said):
            continue
        if words[0] in (b"start", b"ask"):
            lane = "desk" if words[0] == b"start" else "connection " + words[1].decode()
            asked[lane] = asked.get(lane, 0) + 1
        for each in said:
            kind, *more = each.split(b" ")
            if kind in (b"stalled", b"discarded", b"ended", b"sent"):
                lane = "desk" if more[0] == b"0" else "connection " + more[0].decode()
                told.setdefault(lane, []).append((kind, more[1:]))
    for lane in lanes:
        if lane != "desk" and not lane.startswith("connection "):
            continue
        marks = [(look, text) for look, text, _ in lanes[lane]]
        check(f"{name}, {lane}, asked", sum(look == "asked" for look, _ in marks),
              asked.get(lane, 0))
        # (a picture shows eight marks of a line)
        if ("offered", "and more") in marks or ("late", "and more") in marks:
            continue
        kinds = told.get(lane, [])
        late = [text for look, text in marks if look == "late"]
        expected = ["stalled" if kind == b"stalled" else f"discards {more[0].decode()}"
                    for kind, more in kinds if kind in (b"stalled", b"discarded")]
        check(f"{name}, {lane}, late", late, expected)
        check(f"{name}, {lane}, ends", sum(look == "ended" for look, _ in marks),
              sum(kind == b"ended" for kind, _ in kinds))
        sent = sum(look == "offered" for look, _ in marks)
        check(f"{name}, {lane}, sent", sent >= sum(kind == b"sent" for kind, _ in kinds), True)
    missing = set(asked) | set(told)
    check(f"{name}, lanes of connections", missing - set(lanes), set())


def lanes_are_right(name, ran, lanes):
    expected = Expected(ran).lanes
    for lane, marks in expected.items():
        found = [(look, text) for look, text, _ in lanes.get(lane, [])]
        check(f"{name}, lane {lane}", found, marks)
    frames = [lane for lane in lanes if lane.startswith(("channel ", "frames "))]
    check(f"{name}, channels", frames,
          [lane for lane in expected if lane.startswith(("channel ", "frames "))])
    others = {"line", "seals", "failures"}
    check(f"{name}, other lanes", others & set(lanes), others & set(expected))
    check(f"{name}, untold marks", [mark for marks in lanes.values() for mark in marks
                                    if mark[0] != "number" and not mark[2]], [])


def table_is_right(name, ran, page):
    rows = page.named("table", "lines")[0].named("tr")[1:]
    check(f"{name}, rows", [row.attributes["id"] for row in rows],
          [str(number) for number in range(1, len(ran.lines) + 1)])
    cells = [[cell.text() for cell in row.named("td")] for row in rows]
    check(f"{name}, numbers", [cell[0] for cell in cells], [row.attributes["id"] for row in rows])
    check(f"{name}, lines", [octets_of(cell[1]) for cell in cells], ran.lines)
    said = [octets_of(cell[2]) for cell in cells]
    check(f"{name}, transcript", b"".join(each if each.endswith(b"\n") or not each else each + b"\n"
                                          for each in said), ran.transcript)
    check(f"{name}, silent", [number for number, (each, cell) in enumerate(zip(said, cells), 1)
                              if each and not cell[3]], [])


# ---- the pages

def odd():
    """Scripts at the edges, by their names."""
    frame = b"frame 20000/%d/0 %d 41 %d 001%x%s\n"
    many = [frame % (1000 + 100 * n, n % 7 == 3, 3 * (n % 11 == 0), n % 3 * 2, b"ab" * 40)
            for n in range(2000)]
    return {
        "nothing": b"",
        "one line": b"frame 20000/1000/0 0 41 0 0010a1",
        "2,000 lines": b"".join(many),
        "a bad line": many[0] + b"\n# <b>&\"'\\x41\n" + b"mark 1/1/1\nopen 1\nshut 2\n" + many[1],
        "odd octets": b"# " + bytes(each for each in range(256) if each != 10) + b"\n\xff<td>\n",
        "a bad configuration": b"site\ncapacity x\nend\nmark 1/1/1\n",
        "a configuration without an end": b"site\ncapacity 100\n",
        "a site alone": b"site",
        "desk": b"start 1/0/0 0/0/0 0\nstart 0/0/0 1/0/0 2\nstart 0/0/1p 0/0/0 2\nclock 65535/1/1p\n",
        "orders": b"fault 2\n" + many[0] + b"crash 3 new\n" + many[1] + b"crash 3 old\n" + many[2]
                  + b"open 16\ncrash 0 torn\nproduction 2\nopen 16\n"
                  + b"loss 20000/9999/9 0 2 3\nin 16 0300000000000000\nloss 1/1/1 0 0 0\n",
        "a wide line": b"frame 1/1/1 2 41 16777215 c0" + b"5a" * 60_000 + b"\n",
    }


def page_of(name, provider, picture, script):
    ran = Ran(provider, script)
    status, page = run(picture, ["picture"], ran.framed())
    check(f"{name}, status", status, 0)
    element = whole(name, page)
    if ran.said and any(ran.columns()):
        lanes = lanes_of(element)
        lanes_are_right(name, ran, lanes)
        connections(name, ran, lanes)
    table_is_right(name, ran, element)
    return page


def examples():
    return {file.name: file.read_bytes() for file in sorted((TOP / "examples").glob("*.script"))}


def statuses(picture):
    for words, text in [([], b""), (["picture", "x"], b"0\n"), ([""], b"0\n")]:
        check(f"words {words}", run(picture, words, text), (2, b"usage\n"))
    for text in [b"", b"1", b"x\n", b"1\n", b"01\na", b"-1\n", b"99999999999\n", b"\n"]:
        check(f"no frame {text}", run(picture, ["picture"], text), (2, b""))
    check("too long", run(picture, ["picture"], b"0\n" + b"\n" * 16_777_215), (11, b""))
    folder = os.open("/", os.O_RDONLY)
    check("a read fault", run(picture, ["picture"], stdin=folder), (6, b""))
    os.close(folder)
    with open("/dev/full", "wb") as full:
        check("a write fault", run(picture, ["picture"], b"0\n", stdout=full)[0], 7)


def loads(pages):
    """A headless Chromium loads pages, and has their marks."""
    names = ["chromium", "chromium-browser", "google-chrome", "google-chrome-stable"]
    browser = next(filter(None, map(shutil.which, names)), None)
    if browser is None:
        print("page: no Chromium is here, so none loaded a page")
        return
    with tempfile.TemporaryDirectory() as folder:
        for name, page in pages.items():
            file = pathlib.Path(folder) / "page.html"
            file.write_bytes(page)
            done = subprocess.run(
                [browser, "--headless", "--no-sandbox", "--disable-gpu", f"--user-data-dir={folder}/x",
                 "--enable-logging=stderr", "--dump-dom", file.as_uri()],
                capture_output=True, timeout=300)
            errors = [line for line in done.stderr.splitlines() if b"CONSOLE" in line]
            check(f"{name}, in Chromium", (done.returncode, errors), (0, []))
            check(f"{name}, its marks in Chromium", done.stdout.count(b"<rect "), page.count(b"<rect "))
    print(f"page: Chromium loaded {len(pages)} pages without an error")


def main(*programs):
    provider, picture, launcher = (str(pathlib.Path(each).resolve()) for each in programs)
    pages = {name: page_of(name, provider, picture, script)
             for name, script in {**examples(), **odd()}.items()}
    for seed in range(80):
        page_of(f"random {seed}", provider, picture, random_script(seed))
    statuses(picture)
    for name in ["live-pass.script", "small-archive.script"]:
        found = run(launcher, ["picture"], examples()[name])
        check(f"launched, {name}", found, (0, pages[name]))
    for name in ["2,000 lines", "a bad line"]:
        check(f"launched, {name}", run(launcher, ["picture"], odd()[name]), (0, pages[name]))
    loads({name: pages[name] for name in ["live-pass.script", "2,000 lines", "odd octets"]})
    return checks.end()


if __name__ == "__main__":
    if len(sys.argv) != 4:
        sys.exit(__doc__)
    sys.exit(main(*sys.argv[1:]))
