# SPDX-License-Identifier: MIT
"""Threads that look at one shelf at once, beside one that writes (readers.c), each reply checked:
plainly, under ThreadSanitizer, which sees what the caller compiles, and under helgrind, which sees
the library too. That has to catch the control, in which the threads share one handle and not a copy
each."""
import shutil
import subprocess
from pathlib import Path

import pytest

TOP = Path(__file__).resolve().parents[2]
FLAGS = ["-std=gnu11", "-O1", "-g", "-Wall", "-Wextra", "-Werror", "-pthread",
         f"-I{TOP / 'include'}"]
THREADS = "-fsanitize=thread"
HELGRIND = ["valgrind", "--tool=helgrind", "-q", "--error-exitcode=3"]
# Rounds of a thread; what watches threads is slow, helgrind most.
ROUNDS = {"plain": 200_000, THREADS: 20_000, "helgrind": 2_000}


@pytest.fixture(scope="module")
def compiled(library, tmp_path_factory):
    """Compiles the test with more words for the compiler."""
    def program(*words):
        made = tmp_path_factory.mktemp("readers") / "readers"
        subprocess.run(["cc", *FLAGS, *words, TOP / "tests" / "c" / "readers.c",
                        library.with_name("librrcache.a"), "-o", made], check=True)
        return made
    return program


def ran(words):
    return subprocess.run(list(map(str, words)), capture_output=True, text=True, timeout=300)


def test_readers_see_what_was_offered_last(compiled):
    run = ran([compiled(), ROUNDS["plain"]])
    assert run.returncode == 0 and " faults 0\n" in run.stdout, run.stdout + run.stderr


def test_readers_race_with_nobody(compiled):
    run = ran([compiled(THREADS), ROUNDS[THREADS]])
    assert run.returncode == 0 and "WARNING" not in run.stderr, run.stdout + run.stderr


@pytest.mark.skipif(shutil.which("valgrind") is None, reason="valgrind is not installed")
@pytest.mark.parametrize("words, status", [((), 0), (("-DSHARED_HANDLE",), 3)],
                         ids=["a copy each", "one handle"])
def test_helgrind_says_the_same(compiled, words, status):
    assert ran([*HELGRIND, compiled(*words), ROUNDS["helgrind"]]).returncode == status
