# SPDX-License-Identifier: MIT
"""What the suites share: where things are, what has to be built, and runs of calls and programs."""
import os
import statistics
import subprocess
import sys
import tempfile
import time
import timeit
from contextlib import contextmanager
from functools import partial
from pathlib import Path
from typing import NamedTuple

TOP = Path(__file__).resolve().parent.parent
BUILD, SOURCES = TOP / "build", TOP / "bench" / "c"
ARCHIVE = BUILD / "librrcache.a"
# The program, and that which makes calls of the crates and counts what they did.
REPLAY, BENCH = (TOP / "crates" / name / "out" / name for name in ("rrcache", "bench"))
# How often a run is made, at most, where the host takes processors away.
TRIES = 20


def builder(path):
    """The command that builds what a suite needs."""
    return "bin/build-c" if path.suffix else f"bin/build {path.name}"


def compiled(name, *words, compiler="cc"):
    """What the C compiler makes in build/ of these sources and options."""
    BUILD.mkdir(exist_ok=True)
    made = BUILD / name
    common = ["-std=gnu11", "-O2", "-Wall", "-Wextra", "-pthread", f"-I{TOP / 'include'}"]
    subprocess.run([compiler, *common, *words, "-o", made], check=True)
    return made


@contextmanager
def files(**contents):
    """The paths of temporary files with these contents, by their names."""
    with tempfile.TemporaryDirectory() as folder:
        paths = {name: Path(folder) / name for name in contents}
        for name, text in contents.items():
            paths[name].write_bytes(text if isinstance(text, bytes) else text.encode())
        yield paths


def ran(*command, **environment):
    """A run of a program to its end, with what it wrote."""
    return subprocess.run([str(it) for it in command], capture_output=True, text=True, check=True,
                          env=os.environ | environment)


def counted(wanted, *words):
    """The number that the program of the crates wrote to standard error, once it counted what is
    wanted."""
    done = ran(BENCH, *words)
    if done.stdout != f"{wanted}\n":
        sys.exit(f"the program counted {done.stdout!r}, and not {wanted!r}")
    return int(done.stderr or 0)


class Used(NamedTuple):
    """What a run took: seconds of the processors, the most octets that it held, and seconds by the
    clock."""

    seconds: float
    octets: int
    clock: float


def used_by(*command, source=os.devnull, report=subprocess.DEVNULL):
    """What a program takes that reads this file."""
    with open(source, "rb") as text:
        began = time.monotonic()
        child = subprocess.Popen([str(it) for it in command], stdin=text, stdout=report,
                                 stderr=subprocess.DEVNULL)
        _, status, used = os.wait4(child.pid, 0)
        clock = time.monotonic() - began
    child.returncode = os.waitstatus_to_exitcode(status)
    if status:
        sys.exit(f"{command[0]} ended with {child.returncode}")
    return Used(used.ru_utime + used.ru_stime, 1024 * used.ru_maxrss, clock)


def replayed(trace, report=subprocess.DEVNULL, **options):
    """What the program takes of a trace, by its options."""
    words = [f"--{name}={value}" for name, value in options.items()]
    return used_by(REPLAY, *words, source=trace, report=report)


def answered(trace, lines, ending=b"\n", **options):
    """The same where the report is written, of which so many lines have to end so."""
    with tempfile.TemporaryFile() as report:
        used = replayed(trace, report, **options)
        report.seek(0)
        if (count := sum(line.endswith(ending) for line in report)) != lines:
            sys.exit(f"the program answered {count} of {lines} lines")
    return used


def in_turn(runs, calls):
    """The answers of each of these calls, by their names, which are made in turn so many times."""
    rounds = [{name: call() for name, call in calls.items()} for _ in range(runs)]
    return {name: [it[name] for it in rounds] for name in calls}


def median_of(runs, call, *words):
    """The median of what so many calls answer."""
    return statistics.median(call(*words) for _ in range(runs))


def median_seconds(runs, call, *words):
    """The median of the seconds by the clock that so many calls take."""
    return statistics.median(timeit.repeat(partial(call, *words), number=1, repeat=runs))


def over(ratio, most):
    """Why a suite fails whose ratio is larger than the most that is allowed."""
    return f"that is more than {most} times" if ratio > most else None


def taken_away():
    """For how many hundredths of a second the host of a virtual machine has kept its processors
    from it (steal, in proc(5))."""
    return int(Path("/proc/stat").read_text().split("\n", 1)[0].split()[8])


def undisturbed(call, *words):
    """What a call answers, made again, at most TRIES times in all, where the host took processors
    away during it."""
    for _ in range(TRIES):
        began, before = time.perf_counter(), taken_away()
        answer = call(*words)
        if taken_away() - before <= 1 + time.perf_counter() - began:
            break
        time.sleep(1)
    return answer
