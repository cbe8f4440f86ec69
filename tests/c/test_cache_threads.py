# SPDX-License-Identifier: MIT
"""Threads that make every call of rrcache.h at once (cache_threads.c), each reply checked: plainly,
under ThreadSanitizer, which sees lib/*.c, and under helgrind, which sees the shelves too. Both have
to catch the controls, in which look-ups take no lock. The archives of the shelves are audited by
the program, and hold the replies that the cache counted."""
import os
import shutil
import subprocess
from collections import Counter
from pathlib import Path

import pytest

TOP = Path(__file__).resolve().parents[2]
FLAGS = ["-std=c11", "-O1", "-g", "-Wall", "-Wextra", "-Werror", "-pthread",
         f"-I{TOP / 'include'}"]
THREADS = "-fsanitize=thread"
HELGRIND = ["valgrind", "--tool=helgrind", "-q", "--fair-sched=try", "--error-exitcode=3"]
# What tells helgrind of the locks of lib/, since it does not know them (lib/watched.h).
WATCHED = ["-DWATCHED"]
# The controls: in one file of lib/ locks look free, and are not taken; helgrind is not told either.
NO_LOCKS = ["-include", TOP / "tests" / "c" / "unlocked.h"]
# Readers of the config and size of the cache. There are 8 threads.
CACHES = [(1, "small"), (2, "large"), (8, "small"), (8, "large")]
# The share of the seconds that all these caches get together.
SHARE = {"plain": 1 / 15, THREADS: 1 / 6}
# Calls of each thread where these are counted: they end before the seconds do.
ROUNDS, FOREVER, LONG = 4_000, 1 << 60, 600
# ThreadSanitizer sees no count of owners in the shelves, which is atomic and decides who frees
# data last: that may be another thread than the one that reads them under a lock.
SUPPRESSED = "race_top:free$\n"
DATA_RACE, AUDITED = "ThreadSanitizer: data race", ("record-*", "dump-*")


def objects(folder, words, unlocked):
    """lib/*.c compiled with more words for the compiler, and one file with no locks."""
    made = []
    for source in sorted((TOP / "lib").glob("*.c")):
        made.append(folder / f"{source.stem}.o")
        how = words if source.stem != unlocked else [*NO_LOCKS, *(set(words) - set(WATCHED))]
        subprocess.run(["cc", *FLAGS, *how, "-c", source, "-o", made[-1]], check=True)
    return made


@pytest.fixture(scope="module")
def compiled(library, tmp_path_factory):
    """Compiles the test with more words for the compiler, as often as they differ. What it has of
    lib/*.c comes before the same of the archive."""
    programs = {}

    def program(*words, unlocked=None):
        if (words, unlocked) not in programs:
            folder = tmp_path_factory.mktemp("threads")
            made = folder / "cache_threads"
            subprocess.run(["cc", *FLAGS, *words, TOP / "tests" / "c" / "cache_threads.c",
                            *objects(folder, words, unlocked),
                            library.with_name("librrcache.a"), "-Wl,--allow-multiple-definition",
                            "-o", made], check=True)
            programs[words, unlocked] = made
        return programs[words, unlocked]
    return program


@pytest.fixture
def ran(tmp_path):
    """Runs the test on a cache, within its words; its archives go into `tmp_path`."""
    def run(words, seconds, rounds, cache, record, options=""):
        given = map(str, [*words, seconds, rounds, *cache, record, tmp_path])
        suppressed = tmp_path / "suppressed"
        suppressed.write_text(SUPPRESSED)
        environment = os.environ | {"TSAN_OPTIONS": f"suppressions={suppressed} {options}"}
        return subprocess.run(list(given), capture_output=True, text=True, errors="replace",
                              timeout=seconds + LONG, env=environment)
    return run


def said(run):
    """What a run said, as far as one reads."""
    return f"{run.returncode}: {run.stdout}{run.stderr[:4000]}"


def is_right(run):
    return run.returncode == 0 and " faults 0\n" in run.stdout and "WARNING" not in run.stderr


@pytest.fixture
def audited(request, tmp_path):
    """Audits the archives that a run wrote, and tells how many they were: each has to be legal."""
    program = request.config.getoption("program")

    def audit():
        if not program.exists():
            pytest.skip(f"no archive was audited: there is no {program} (bin/build builds it)")
        archives = [it for pattern in AUDITED for it in sorted(tmp_path.glob(pattern))]
        for archive in archives:
            with archive.open() as octets:
                run = subprocess.run([program, "--audit-history"], stdin=octets,
                                     capture_output=True, text=True, timeout=LONG)
            assert run.returncode == 0 and run.stdout.startswith("legal: "), \
                f"{archive}: {said(run)}"
        return len(archives)
    return audit


def counted(archive):
    """What an archive says that its shelf told and stored, as `rrcache_stats_of` counts it. What a
    trim and `rrcache_forget` write is not counted: failures with no time to live. Keys that go by a
    sweep at moment 0 may be those: how many go by others, and by all, is told."""
    counts = Counter()
    for line in archive.read_text().splitlines():
        event, _, _, moment, *fields = line.split(" ")
        if event == "ask":
            kind = fields[4]
            counts["failed" if kind == "miss" and len(fields) == 6 else kind] += 1
        elif event == "offer":
            at = 4 if fields[2] == "failure" else 7
            counts[fields[at]] += fields[2:4] != ["failure", "0"]
            counts["driven out"] += len(fields) > at + 1
        elif event == "sweep":
            counts["swept"] += len(fields) // 2
            counts["swept later"] += len(fields) // 2 * (moment != "0")
    return counts


def stats_of(path):
    """The numbers of the text of `struct rrcache_stats`."""
    words = path.read_text().split(" ")
    return {name: int(number) for name, number in zip(words[::2], words[1::2])}


@pytest.mark.parametrize("cache", CACHES, ids=str)
@pytest.mark.parametrize("how", SHARE)
def test_threads_are_told_what_was_stored(how, cache, compiled, ran, seconds):
    """All calls at once, also those that begin and end records."""
    program = compiled(*[THREADS] * (how == THREADS))
    run = ran([program], seconds * SHARE[how] / len(CACHES), FOREVER, cache, "loose")
    assert is_right(run), said(run)


@pytest.mark.parametrize("cache", CACHES[1:3], ids=str)
@pytest.mark.parametrize("how", SHARE)
def test_what_threads_were_told_is_legal(how, cache, compiled, ran, audited, tmp_path):
    """All is recorded from the beginning to the end. What each shelf counted is in its archive; the
    test itself compares that with what callers were told."""
    program = compiled(*[THREADS] * (how == THREADS))
    run = ran([program], LONG, ROUNDS // (1 + 3 * (how == THREADS)), cache, "whole")
    assert is_right(run), said(run)
    shelves = sorted(tmp_path.glob("stats-0-*"))
    for stats, counts in ((stats_of(it), counted(it.with_name(it.name.replace("stats", "record"))))
                          for it in shelves):
        told = {"hits": counts["fresh"], "stale": counts["stale"], "misses": counts["miss"],
                "negative": counts["nodata"] + counts["nxdomain"], "failed": counts["failed"],
                "kept": counts["kept"], "outranked": counts["less"]}
        assert {name: stats[name] for name in told} == told
        assert counts["swept later"] <= stats["expired"] <= counts["swept"]
        # The others went by trims, and such events are those of what is forgotten too.
        assert counts["driven out"] <= stats["evicted"] <= sum(
            counts[it] for it in ("driven out", "cleared", "swept"))
    assert len(shelves) == {"small": 4, "large": 16}[cache[1]]
    assert audited() == len(shelves)


@pytest.mark.parametrize("cache", CACHES[::3], ids=str)
@pytest.mark.parametrize("how", SHARE)
def test_records_begin_and_end_among_calls(how, cache, compiled, ran, audited, seconds):
    """One thread records for a while, again and again, and dumps what is held in between. Where the
    machine does so much else that it does so not even once, it gets more time."""
    program = compiled(*[THREADS] * (how == THREADS))
    for share in (1 / 100, 1 / 10, 1):
        run = ran([program], share * seconds, FOREVER, cache, "parts")
        assert is_right(run), said(run)
        if audited() >= 2 * {"small": 4, "large": 16}[cache[1]]:
            return
    pytest.fail("too few archives")


@pytest.mark.parametrize("cache", CACHES[::3], ids=str)
def test_look_ups_with_no_locks_are_caught(cache, compiled, ran):
    run = ran([compiled(THREADS, unlocked="lookups")], LONG, FOREVER, cache, "loose",
              "halt_on_error=1")
    assert run.returncode != 0 and DATA_RACE in run.stderr and "look_up" in run.stderr, said(run)


def test_memos_with_no_locks_are_caught(compiled, ran):
    """Here 8 threads share the memos of one reader."""
    run = ran([compiled(THREADS, unlocked="memos")], LONG, FOREVER, (1, "large"), "loose",
              "halt_on_error=1")
    assert run.returncode != 0 and DATA_RACE in run.stderr and "memo" in run.stderr, said(run)


@pytest.mark.skipif(shutil.which("valgrind") is None, reason="valgrind is not installed")
@pytest.mark.parametrize("unlocked, rounds, status", [(None, 2.5, 0), ("lookups", 0.5, 3)],
                         ids=["locks", "no locks"])
def test_helgrind_says_the_same(unlocked, rounds, status, compiled, ran, seconds):
    """So many rounds for each second, and at least one."""
    run = ran([*HELGRIND, compiled(*WATCHED, unlocked=unlocked)], LONG, 1 + int(rounds * seconds),
              (2, "small"), "parts")
    assert run.returncode == status, said(run)
