"""`bin/provider next`: an archive keeps its octets under the time of its first frame, and a new one takes its name.

Each step leaves an archive at the name: the old one until the rename, and the new one after it. A run that was killed
is made again, from its first step on.
"""
import fcntl
import os
import signal
import stat
import subprocess

import times
import words
from programs import proved
from words import refuse

words.LAUNCHER = "provider"
# How many octets an archive without entries has: its header, and the octet that closes it.
EMPTY = 9


def run(path):
    """Does all of it, and answers the exit code."""
    signal.signal(signal.SIGINT, signal.SIG_DFL)
    os.umask(0o077)
    program = proved("provider_cli")
    if program is None:
        refuse("next works on a file, which takes the proved program; `bin/provider prove` proves and builds the program")
    try:
        kept = rotate(program, path)
    except OSError as why:
        name = why.filename if isinstance(why.filename, str) else path
        refuse(f"{name}: {why.strerror}; see whether its folder is there and allowed to you, and its disk has room", code=8)
    try:
        print(f"kept {kept}", flush=True)
    except OSError:
        os._exit(7)
    return 0


def rotate(program, path):
    """Links the archive to its second name and puts a new one at its first; answers the second name."""
    archive = opened(path)
    lock(archive, path)
    # (`list` takes the lock for itself; the first frame of an archive stays the first)
    fcntl.flock(archive, fcntl.LOCK_UN)
    kept, new = f"{path}.{basic_form(first_frame(program, path))}", f"{path}.new"
    lock(archive, path)
    if not is_same(archive, path):
        refuse(f"{path} was replaced meanwhile; see what did so, and run this again")
    is_linked = is_second_name(archive, kept)
    make_new(program, new, archive)
    if not is_linked:
        os.link(path, kept, follow_symlinks=False)
    # (on the disk before the first name goes)
    sync(os.path.dirname(path) or ".")
    os.rename(new, path)
    sync(os.path.dirname(path) or ".")
    return kept


def opened(path):
    """The archive's file, which is its user's own."""
    if os.path.islink(path):
        refuse(f"{path} is a symbolic link; name the file that it leads to")
    file = os.open(path, os.O_RDWR | os.O_NOFOLLOW | os.O_NONBLOCK)
    found = os.fstat(file)
    if not stat.S_ISREG(found.st_mode):
        refuse(f"{path} is no file; name an archive's")
    if os.geteuid() not in (0, found.st_uid):
        refuse(f"{path} is another user's; run this as that user, whose station can open the new one then")
    return file


def lock(file, path):
    """Takes the lock that each command takes which opens an archive."""
    try:
        fcntl.flock(file, fcntl.LOCK_EX | fcntl.LOCK_NB)
    except BlockingIOError:
        refuse(f"{path} is held by a station or another command; stop the station (`bin/provider stop`), and run this again")


def first_frame(program, path):
    """The time of the first frame, in fields; the list is read that far and no further."""
    last = ""
    with subprocess.Popen([program, "list", path], stdin=subprocess.DEVNULL, stdout=subprocess.PIPE) as listing:
        for line in listing.stdout:
            last = line.decode().strip()
            if last.startswith("frame "):
                listing.kill()
                return last.split()[1]
    code = listing.returncode
    if code == 0:
        refuse(f"{path} has no frame, and was left as it is: nothing is to be kept, and a station may go on with it")
    if code == 5:
        refuse(f"{path} is no archive's file from octet {last.split()[-1]} on (the first is 0), and was left as it is;"
               " name one that `init` made, or a whole copy of it", code=5)
    refuse(f"{path} can't be read, and was left as it is: `list` ended with exit code {code}",
           code=code if code in (8, 70) else 1)


def basic_form(fields):
    """A time in the basic form of ISO 8601, without the part of its second."""
    return times.iso_of(fields).split(".")[0].replace("-", "").replace(":", "") + "Z"


def is_same(archive, path):
    return os.path.samestat(os.fstat(archive), os.lstat(path))


def is_second_name(archive, kept):
    """True where the archive has this name already; another file of this name is left."""
    if not os.path.lexists(kept):
        return False
    if not is_same(archive, kept):
        refuse(f"{kept} is there, and is another file; move it away, and run this again")
    return True


def make_new(program, new, archive):
    """An archive without entries, on the disk, with the old one's owner and mode."""
    remove_left(new)
    made = subprocess.run([program, "init", new], stdin=subprocess.DEVNULL, stdout=subprocess.PIPE)
    if made.returncode:
        refuse(f"{new} can't be made; see whether its folder is allowed to you, and its disk has room",
               code=made.returncode if made.returncode in (5, 8, 70) else 1)
    old = os.fstat(archive)
    with open(new, "rb+") as file:
        own = os.fstat(file.fileno())
        if (own.st_uid, own.st_gid) != (old.st_uid, old.st_gid):
            os.chown(new, old.st_uid, old.st_gid)
        os.chmod(new, stat.S_IMODE(old.st_mode))
        os.fsync(file.fileno())


def remove_left(new):
    """Removes what a run that was killed had made; another file is left."""
    if not os.path.lexists(new):
        return
    found = os.lstat(new)
    if not stat.S_ISREG(found.st_mode) or found.st_size > EMPTY:
        refuse(f"{new} is there, and is no archive without entries; move it away, and run this again")
    with open(new, "rb+") as left:
        lock(left, new)
        os.unlink(new)


def sync(folder):
    """Has the names in a folder be on the disk."""
    names = os.open(folder, os.O_RDONLY | os.O_DIRECTORY)
    try:
        os.fsync(names)
    finally:
        os.close(names)
