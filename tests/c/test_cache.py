# SPDX-License-Identifier: MIT
"""cache_tests.c, of `struct rrcache`, on the C library as tests.c runs on it (test_c.py). Under
the sanitizers lib/*.c is compiled with the tests, in place of what the archive has of it. The
archives that a cache writes are audited by the program, where it is built."""
import subprocess

import pytest

from tests.c.builds import BUILDS, FLAGS, TOP, built, run

SOURCES = sorted((TOP / "lib").glob("*.c"))
# What stands first is linked, and that is what the sanitizers see.
MORE = {"sanitized": [*SOURCES, "-Wl,--allow-multiple-definition"]}


@pytest.mark.parametrize("source", SOURCES, ids=lambda it: it.stem)
def test_words_of_a_program(source):
    """A program that compiles lib/ with its own words for the compiler, as under ThreadSanitizer,
    may define _GNU_SOURCE."""
    subprocess.run(["cc", "-std=c11", *FLAGS, "-D_GNU_SOURCE", "-fsyntax-only", source], check=True)


@pytest.mark.parametrize("build", BUILDS)
def test_cache(build, libraries, tmp_path, capsys):
    run(built("cache_tests.c", build, libraries, tmp_path, *MORE.get(build, ()), standard="c11"),
        build, capsys)


@pytest.mark.parametrize("build", ["archive", "sanitized"])
def test_owners(build, libraries, tmp_path, capsys):
    """owner_tests.c sees the inside of lib/."""
    run(built("owner_tests.c", build, libraries, tmp_path, f"-I{TOP / 'lib'}", *MORE["sanitized"],
              standard="c11"), build, capsys)


@pytest.mark.parametrize("build", ["archive", "sanitized"])
def test_memos(build, libraries, tmp_path, capsys):
    """memo_tests.c uses one function inside lib/."""
    run(built("memo_tests.c", build, libraries, tmp_path, f"-I{TOP / 'lib'}", *MORE["sanitized"],
              standard="c11"), build, capsys)


@pytest.mark.parametrize("build", ["archive", "sanitized"])
def test_forgetting(build, libraries, tmp_path, capsys):
    """forget_tests.c looks up behind each release of a lock, as another thread may."""
    run(built("forget_tests.c", build, libraries, tmp_path, "-Wl,--wrap=pthread_mutex_unlock",
              *MORE.get(build, ()), standard="c11"), build, capsys)


@pytest.mark.parametrize("build", ["archive", "sanitized"])
def test_canceled_threads(build, libraries, tmp_path, capsys):
    """cancel_tests.c takes places of lib/ itself."""
    run(built("cancel_tests.c", build, libraries, tmp_path, f"-I{TOP / 'lib'}",
              "-Wl,--wrap=nanosleep", *MORE["sanitized"], standard="c11"), build, capsys)


@pytest.mark.parametrize("build", ["archive", "sanitized"])
def test_waiting_look_ups(build, libraries, tmp_path, capsys):
    """wait_tests.c takes places of lib/ itself."""
    run(built("wait_tests.c", build, libraries, tmp_path, f"-I{TOP / 'lib'}",
              "-Wl,--wrap=nanosleep", *MORE["sanitized"], standard="c11"), build, capsys)


@pytest.mark.parametrize("build", ["archive", "sanitized"])
def test_long_calls_give_way(build, libraries, tmp_path, capsys):
    """turn_tests.c makes each step of a long call longer. A step is a call of lib/, which is
    compiled with the test."""
    run(built("turn_tests.c", build, libraries, tmp_path, f"-I{TOP / 'lib'}",
              "-Wl,--wrap=rrc_sizes", *MORE["sanitized"], standard="c11"), build, capsys)


@pytest.mark.parametrize("build", ["archive", "sanitized"])
def test_dropped_records(build, libraries, tmp_path, capsys):
    """drop_tests.c sees whether a shelf is locked while its record is freed."""
    run(built("drop_tests.c", build, libraries, tmp_path, f"-I{TOP / 'lib'}",
              "-Wl,--wrap=rrc_free_chapters,--wrap=rrc_stop_and_drop", *MORE["sanitized"],
              standard="c11"), build, capsys)


def test_archives_are_legal(libraries, tmp_path, request):
    program = request.config.getoption("program")
    if not program.exists():
        pytest.skip(f"there is no {program}, which audits archives: bin/build builds it")
    folder = tmp_path / "archives"
    folder.mkdir()
    writer = built("cache_tests.c", "archive", libraries, tmp_path, standard="c11")
    subprocess.run([writer, folder], check=True)
    archives = sorted(folder.iterdir())
    assert len(archives) == 4
    for it in archives:
        audit = subprocess.run([program, "--audit-history"], stdin=it.open("rb"),
                               capture_output=True, text=True)
        assert audit.returncode == 0 and audit.stdout.startswith("legal: "), audit.stdout
