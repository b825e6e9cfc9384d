"""The crates of this repository, the programs that `rt ci` built of them, and those that these are
compared with."""
import os
import re
import subprocess
import sys

TOP = os.path.dirname(os.path.dirname(os.path.realpath(__file__)))


def crates():
    """The crates that each crate stands on, by its name, in the order of crates.txt."""
    with open(f"{TOP}/crates.txt", encoding="utf-8") as file:
        lines = re.findall(r"(?m)^(\w+)[^:#\n]*:(.*)$", file.read())
    names = [name for name, _ in lines]
    return {name: [it for it in below.split() if it in names] for name, below in lines}


def needed(name):
    """This crate, and all of the repository that it stands on."""
    below, found, left = crates(), [], [name]
    while left:
        crate = left.pop()
        if crate not in found:
            found.append(crate)
            left += below[crate]
    return found


def sources(name):
    """Each file that a proof of the crate reads, and each folder of them."""
    yield from (f"{TOP}/crates.txt", f"{TOP}/HANDLES")
    for crate in needed(name):
        for part in ("src", "specs", "proofs"):
            for folder, _, files in os.walk(f"{TOP}/crates/{crate}/{part}"):
                yield folder
                yield from (f"{folder}/{file}" for file in files)


def changed(paths):
    """When one of them last changed; nobody can set that time back."""
    return max(os.stat(it).st_ctime_ns for it in paths) / 1e9


def made(folders):
    """When each of these folders was made; 0 where the file system doesn't tell."""
    words = ["stat", "--format=%.9W", *folders]
    told = subprocess.run(words, capture_output=True, text=True).stdout.split()
    return [float(it) for it in told] if len(told) == len(folders) else [0]


def is_built(program, name):
    """Whether `rt ci` built a program of the present sources. It makes out/ of each crate anew
    before it reads the crate's sources, and the program last: so sources are older than those
    folders of the crate and of all below, and these older than the program."""
    try:
        folders = made([f"{TOP}/crates/{it}/out" for it in needed(name)])
        last_made = os.stat(program).st_mtime_ns / 1e9
        return changed(sources(name)) < min(folders) and max(folders) < last_made
    except FileNotFoundError:
        return False


def program_of(name):
    """The program that `rt ci` built of a crate; the end where none is of the present sources."""
    program = f"{TOP}/crates/{name}/out/{name}"
    if not is_built(program, name):
        sys.exit(f"{name} isn't built of these sources: `rt ci` at the top builds it")
    return program


def provider():
    """The proved provider; the end where none is of the present sources. The launcher knows: it
    refuses a `list` then, with exit code 1. (The program has another code for a folder.)"""
    asked = subprocess.run([f"{TOP}/bin/provider", "list", TOP], stdin=subprocess.DEVNULL,
                           stdout=subprocess.DEVNULL, stderr=subprocess.DEVNULL)
    if asked.returncode == 1:
        sys.exit("the provider isn't built of these sources: `bin/provider prove` builds it")
    return f"{TOP}/crates/provider_cli/out/provider_cli"


def plain():
    """The same work in plain Rust (bench/plain), which cargo builds where its sources changed."""
    folder = f"{TOP}/bench/plain"
    built = subprocess.run(["cargo", "build", "--release", "--offline", "--quiet"], cwd=folder)
    if built.returncode:
        sys.exit("bench/plain isn't built: it needs cargo, and no crate from outside")
    return f"{folder}/target/release/plain"


def before(name):
    """The program that `rt ci` built of this crate of another checkout, by its name, where the
    command line begins with --before and its folder. These words are taken off the command line."""
    if sys.argv[1:2] != ["--before"]:
        return {}
    if len(sys.argv) < 3:
        sys.exit("--before takes the folder of another checkout")
    folder = sys.argv[2]
    program = f"{folder}/crates/{name}/out/{name}"
    if not os.access(program, os.X_OK):
        sys.exit(f"{program} isn't there: `rt ci` in {folder} builds it")
    del sys.argv[1:3]
    return {"before": program}


def compared():
    """The proved provider and what it is compared with, by their names: that of another checkout, if
    its folder is given, and plain Rust."""
    return {"provider": provider(), **before("provider_cli"), "plain": plain()}
