"""`bin/provider package`: a tar of the proved programs and what one needs to run them, without kit and checkout."""
import io
import os
import subprocess
import tarfile
import time

from programs import TOP, is_package, proved
from words import refuse, say

NAME = "buwekota"
NEEDED = ["provider_cli", "user_cli"]
FURTHER = ["explain_cli", "capture_cli", "picture_cli", "check_cli"]
TEXT = """This is Buwekota, a ground station's Space Link Extension provider and its user's program: proved programs, of the
sources that PACKAGE names. They run on Linux with a C library of the version below or a later one, by launchers in
bin/ that want a POSIX shell and Python 3 (3.8 or later).

    bin/provider --help         the station's commands
    bin/user --help             the user's
    docs/OPERATING.md           how a station is run
    examples/station.conf       a configuration; examples/station.service a unit for systemd, and
                                examples/stunnel.conf TLS in front of a station's doors

Nothing can be proved or tested here: the sources' repository and the Rattle kit do that.
"""


def run(path):
    if is_package():
        refuse("this is a package already; copy it, or make one in a checkout")
    programs = {}
    for main in NEEDED + FURTHER:
        if os.path.isdir(os.path.join(TOP, "crates", main)):
            program = proved(main)
            if program:
                programs[main] = program
            elif main in NEEDED:
                how = "bin/user prove" if main == "user_cli" else "bin/provider prove"
                refuse(f"{main} isn't proved of the present sources; `{how}` proves and builds it")
            else:
                say(f"{main} isn't proved, and is left out")
    version = subprocess.run([os.path.join(TOP, "bin/provider"), "--version"], stdout=subprocess.PIPE, text=True).stdout
    libc = os.confstr("CS_GNU_LIBC_VERSION") or "unknown"
    try:
        with tarfile.open(path, "w:gz" if path.endswith(("gz", "tgz")) else "w") as tar:
            put_text(tar, "PACKAGE", f"{version}programs {' '.join(programs)}\nC library {libc}\n")
            put_text(tar, "README", TEXT)
            for name in ["bin", "examples", "docs/OPERATING.md"]:
                tar.add(os.path.join(TOP, name), f"{NAME}/{name}", filter=plain)
            for main, program in programs.items():
                tar.add(program, f"{NAME}/programs/{main}", filter=plain)
    except OSError as why:
        refuse(f"{path} can't be written: {why.strerror}", code=7)
    print(f"packed {len(programs)} programs")
    return 0


def plain(info):
    """Without caches, and as nobody's."""
    if "__pycache__" in info.name:
        return None
    info.uid = info.gid = 0
    info.uname = info.gname = "root"
    return info


def put_text(tar, name, text):
    info = tarfile.TarInfo(f"{NAME}/{name}")
    info.size, info.mode, info.mtime = len(text.encode()), 0o644, int(time.time())
    tar.addfile(info, io.BytesIO(text.encode()))
