# SPDX-License-Identifier: MIT
"""The locks of lib/places.h by themselves (places_test.c): no reader is in a part while a writer
is, and each thread comes to its turn, however many others there are. Wrong locks are caught."""
import subprocess

import pytest

from tests.c.builds import FLAGS, TOP, has

SOURCES = sorted((TOP / "lib").glob("*.c"))
WATCHED = "-fsanitize=thread"
SECONDS, FOREVER = 300, 1 << 60
# Places, readers, writers: as many places as readers, more, fewer, and one.
THREADS = [(4, 4, 1), (8, 3, 3), (2, 6, 2), (1, 4, 4)]


@pytest.fixture(scope="module")
def compiled(library, tmp_path_factory):
    """The test, with more words for the compiler. What it has of lib/*.c is linked first."""
    def program(*words):
        made = tmp_path_factory.mktemp("places") / "places_test"
        if WATCHED in words and not has([WATCHED], made.parent):
            pytest.skip("the compiler has no sanitizers (bin/setup installs gcc, which has)")
        subprocess.run(["cc", "-std=c11", *FLAGS, f"-I{TOP / 'lib'}", *words,
                        TOP / "tests" / "c" / "places_test.c", *SOURCES,
                        library.with_name("librrcache.a"), "-Wl,--allow-multiple-definition",
                        "-o", made], check=True)
        return made
    return program


def ran(program, threads, rounds):
    return subprocess.run([program, *map(str, threads), str(rounds)], capture_output=True,
                          text=True, errors="replace", timeout=SECONDS)


@pytest.mark.parametrize("words, rounds", [((), 100_000), ((WATCHED,), 10_000)],
                         ids=["plain", "watched"])
def test_readers_and_writers_take_turns(words, rounds, compiled):
    program = compiled(*words)
    for threads in THREADS:
        run = ran(program, threads, rounds)
        assert run.returncode == 0 and run.stdout.endswith("faults 0\n"), run.stdout + run.stderr
        made = [int(line.split()[1]) for line in run.stdout.splitlines()[:-1]]
        assert len(made) == sum(threads[1:]) and min(made) >= rounds


def test_a_reader_that_stores_plainly_is_caught(compiled):
    """By the two numbers that it sees, as soon as it is in while a writer is."""
    run = ran(compiled("-DSTORES_PLAINLY"), (8, 4, 2), FOREVER)
    assert run.returncode == 1 and not run.stdout.endswith("faults 0\n"), run.stdout + run.stderr


def test_a_reader_that_leaves_without_order_is_caught(compiled):
    run = ran(compiled(WATCHED, "-DLEAVES_NO_ORDER"), (8, 4, 2), 10_000)
    assert "ThreadSanitizer: data race" in run.stderr, run.stdout + run.stderr
