# SPDX-License-Identifier: MIT
"""The programs that the tests of the forwarder run, compiled of build/librrcache.a, and forwarders.

The forwarder is compiled four times: plainly, under the sanitizers of addresses and of undefined
behavior, under that of threads, and as under the first of these with requests for memory and
threads that can be refused (in_turn.c).

A forwarder asks again after 0.8 seconds, and gives up after 3.8. So where the machine does not run
it or its upstream for so long, it may rightly do something else than a test expects. A run of a
test in which the machine stalled and something failed does not count (stalls.py).
"""
import contextlib
import fcntl
import subprocess
import warnings
from pathlib import Path

import pytest

from tests.forwarder.harness import BUILD, COMPARED, Forwarder
from tests.forwarder.stalls import Stalls

TESTS = Path(__file__).parent
SOURCES = sorted((TESTS.parents[1] / "examples" / "forwarder").glob("*.c"))
INCLUDE = TESTS.parents[1] / "include"
WARNINGS = ["-Wall", "-Wextra", "-Wshadow", "-Wconversion", "-Werror"]
FLAGS = ["-std=gnu11", "-D_GNU_SOURCE=", "-g", *WARNINGS, "-pthread", f"-I{INCLUDE}"]
CHECKED = ["-O1", "-fsanitize=address,undefined", "-fno-sanitize-recover=all"]
WRAPPED = [f"-Wl,--wrap={it}" for it in ("malloc", "calloc", "realloc", "pthread_create")]
FORWARDER = [*SOURCES, BUILD / "librrcache.a"]
# ThreadSanitizer sees the locks of lib/ only where they are compiled for it, so these stand before
# the archive. Their warnings are those of bin/build-c.
LIBRARY = TESTS.parents[1] / "lib"
THREADS = ["-O1", "-fsanitize=thread", "-Wl,--allow-multiple-definition", "-Wno-conversion",
           TESTS / "races.c", *sorted(LIBRARY.glob("*.c")), *FORWARDER]
PROGRAMS = {
    "forwarder": ["-O2", *FORWARDER],
    "forwarder-checked": [*CHECKED, *FORWARDER],
    "forwarder-threads": THREADS,
    "forwarder-refused": [*CHECKED, *WRAPPED, TESTS / "in_turn.c", *FORWARDER],
    "refusals.so": ["-O1", "-shared", "-fPIC", TESTS / "refusals.c"],
    "suspend.so": ["-O1", "-shared", "-fPIC", TESTS / "suspend.c"],
    "families.so": ["-O1", "-shared", "-fPIC", TESTS / "families.c"],
}
# So many places lie between two tests that follow each other in their files.
STRIDE = 24
# The most runs of a test, of which the last one counts whatever the machine does.
RUNS = 5


def pytest_collection_modifyitems(items):
    """Takes tests that follow each other in a file apart, since a worker of xdist gets many in a
    row, and the slow ones stand together."""
    items[:] = [it for first in range(STRIDE) for it in items[first::STRIDE]]


def pytest_terminal_summary(terminalreporter):
    """Writes how many answers were compared with those of nsd, if any were."""
    counts = [count for it in terminalreporter.stats.get("passed", ()) if it.when == "call"
              for name, count in it.user_properties if name == COMPARED]
    if counts:
        terminalreporter.write_line(f"{sum(counts)} answers are those of nsd")


def compile_all():
    runs = {name: subprocess.Popen(["cc", *FLAGS, *words, "-o", BUILD / f"{name}.new"])
            for name, words in PROGRAMS.items()}
    for name, run in runs.items():
        assert run.wait() == 0, f"{name} is not compiled"
        (BUILD / f"{name}.new").rename(BUILD / name)


@pytest.fixture(scope="session")
def programs(library):
    """Compiles the programs, where one is older than what it is made of; one worker does so."""
    made_of = [*TESTS.glob("*.c"), *FORWARDER, *INCLUDE.glob("*.h"), Path(__file__)]
    for folder in (LIBRARY, TESTS.parents[1] / "examples" / "forwarder"):
        made_of += folder.glob("*.[ch]")
    with open(BUILD / "forwarder.lock", "w") as lock:
        fcntl.flock(lock, fcntl.LOCK_EX)
        newest = max(it.stat().st_mtime for it in made_of)
        made = [BUILD / it for it in PROGRAMS]
        if not all(it.exists() and it.stat().st_mtime > newest for it in made):
            compile_all()


class Starter:
    """Starts forwarders of a program before name servers, and ends them."""

    def __init__(self, program):
        self.program, self.started = program, contextlib.ExitStack()

    def __call__(self, *servers, **others):
        return self.started.enter_context(Forwarder(*servers, program=self.program, **others))

    def end(self):
        self.started.close()


@pytest.fixture(params=["forwarder-checked", "forwarder-threads"])
def forwarder(request, programs):
    """Starts forwarders, which end with the test. A test runs under each of two sanitizers, where
    it does not name its programs (`under`)."""
    it = Starter(request.param)
    yield it
    it.end()


@pytest.hookimpl(tryfirst=True)
def pytest_pyfunc_call(pyfuncitem):
    """Calls a test, and once more where it failed while the machine stalled. What always fails, or
    fails while nothing stalls, is a failure; and that a forwarder has to end cleanly holds for each
    run."""
    words = {it: pyfuncitem.funcargs[it] for it in pyfuncitem._fixtureinfo.argnames}
    for run in range(1, RUNS + 1):
        with Stalls() as stalls:
            try:
                pyfuncitem.obj(**words)
                return True
            except (Exception, pytest.fail.Exception) as error:
                failure = error
        if run == RUNS or not stalls:
            raise failure
        said = " ".join(str(failure).split())[:200]
        warnings.warn(f"run {run} does not count, as the machine stalled ({stalls}): {said}")
        if "forwarder" in words:
            words["forwarder"].end()
