"""Runs of a program that are timed, and the machine's load."""
import os
import subprocess
import sys
import time
from typing import NamedTuple


class Run(NamedTuple):
    """What a run wrote to a pipe, and its seconds: those of a processor, and real ones."""
    told: str
    processor: float
    real: float


def run(words, source=subprocess.DEVNULL, to=subprocess.PIPE, status=0):
    """Runs a program from its start to its end, which is to be with this status."""
    words, begin = [str(word) for word in words], time.perf_counter()
    process = subprocess.Popen(words, stdin=source, stdout=to, text=True)
    told = process.stdout.read() if process.stdout else ""
    _, ended, usage = os.wait4(process.pid, 0)
    real = time.perf_counter() - begin
    if os.waitstatus_to_exitcode(ended) != status:
        sys.exit(f"{' '.join(words)} ended with {os.waitstatus_to_exitcode(ended)}")
    return Run(told, usage.ru_utime + usage.ru_stime, real)


def best(count, words, told):
    """The least seconds of a processor in so many runs, each of which is to tell this."""
    runs = [run(words) for _ in range(count)]
    for it in runs:
        check(words, it.told, told)
    return min(it.processor for it in runs)


def in_turns(count, works):
    """The best times of each of these works, which are done in turns, so many of them."""
    runs = [[work() for work in works] for _ in range(count)]
    return [Run("", min(it.processor for it in each), min(it.real for it in each))
            for each in zip(*runs)]


def compare(what, count, ours, other, say=lambda seconds: f"{seconds:.3f} s"):
    """Does two works, each with its name, in turns, and tells the best times of both."""
    (name, work), (other_name, other_work) = ours, other
    best_runs = in_turns(count, [work, other_work])
    for kind in ("real", "processor"):
        mine, its = (getattr(it, kind) for it in best_runs)
        print(f"{what}, {kind} time: {name} {say(mine)}, {other_name} {say(its)},"
              f" {mine / its:.2f} times its time", flush=True)


def check(what, told, wanted):
    """Ends where something else was told than is wanted."""
    if told != wanted:
        sys.exit(f"{what} told {told!r}, not {wanted!r}")


def tell_each(what, programs, runs, peaks):
    """A row for each program: the seconds of its best run, its peak, and how many times its seconds
    those of the first one are."""
    first = runs[0].processor
    for name, it, most in zip(programs, runs, peaks):
        print(f"{what:>7} {name:>9} {it.processor:>8.4f} {what / it.processor:>10,.0f} {most:>9,}"
              f" {first / it.processor:>6.2f}", flush=True)


HEAD = (f"{'frames':>7} {'program':>9} {'seconds':>8} {'frames/s':>10} {'peak KiB':>9} {'times':>6}")


def peak(words, source=subprocess.DEVNULL):
    """The most KiB of memory that a run held, by GNU time."""
    timed = ["/usr/bin/time", "-f", "%M", *map(str, words)]
    how = {"stdin": source, "stdout": subprocess.DEVNULL, "stderr": subprocess.PIPE}
    return int(subprocess.run(timed, check=True, text=True, **how).stderr)


def word(place, otherwise):
    """The word at a place of the command line, where it has one, as a value of this one's type."""
    return type(otherwise)(sys.argv[place]) if len(sys.argv) > place else otherwise


def tell_load():
    print("load: %.1f %.1f %.1f" % os.getloadavg())
