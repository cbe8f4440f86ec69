# SPDX-License-Identifier: MIT
"""Each request for memory refused in turn, in each test of the programs that `rt test` or `rt ci`
made of the crates of tests, but for those of replays, whose threads wait for one another.

A run must pass, or fail and say that memory was refused. An assertion that fails and does not name
the refusal tells nothing, as where it compares how many answers are right; such runs are counted
apart. A test with `refused` in its path makes again what was refused, and compares what it sees
with what it saw before: there an assertion that fails is wrong, and a run may only pass, or say
that a value of the test's own was refused. Tests that NAMED_TESTS names have to be tried to their
end; the others share --seconds.
"""
import re
import signal
import subprocess
from pathlib import Path

import pytest

from tests.refusals.refusing import MEMORY

TOP = Path(__file__).resolve().parents[2]
CRATES = sorted(it.name for it in (TOP / "crates").glob("*_tests"))
# By their paths, tests of what a refusal leaves, and all that are tried to their end.
LEAVING = re.compile(r"refused")
NAMED_TESTS = (LEAVING, re.compile(r"\bmarks::"), re.compile(r"chain"),
               re.compile(r"\breads_and_prints_names$"))
# Tests in which a thread waits for what another does, and so for ever where that one is refused.
# Replays are refused memory on the rows.
WAITING = re.compile(r"replay::")
# What a test that fails says where memory was refused. A writer that grows in memory answers Write.
SAYS_MEMORY = re.compile(rb"Alloc(Error|Failed)|Memory\b|memory (or a thread )?was refused"
                         rb"|error: Write\n")
# What it says where a value of its own was refused, and `expect` tells why.
LACKS_VALUE = re.compile(rb": (Memory|Alloc(Error|Failed)[^\n]*)\n$")
# What it says on standard output where an assertion failed.
ASSERTED = b"test stopped at src/"


def program_of(crate):
    return TOP / "crates" / crate / "out" / f"{crate}_tests"


def paths_of(crate):
    """The paths of a crate's tests, none where they were not made."""
    if not program_of(crate).exists():
        return []
    told = subprocess.run([program_of(crate), "--list"], capture_output=True, text=True, check=True)
    return re.findall(r"^(\S+): test$", told.stdout, re.M)


TESTS = [(crate, path) for crate in CRATES for path in paths_of(crate) if not WAITING.match(path)]
NAMED = [it for it in TESTS if any(named.search(it[1]) for named in NAMED_TESTS)]


def has_passed(answer):
    return answer.status == 0 and answer.report.endswith(b"test result: ok\n")


def judge_leaving_test(answer, is_refused):
    return has_passed(answer) or is_refused and LACKS_VALUE.search(answer.fault) is not None


def judge_test(answer, is_refused):
    if answer.status is None:
        return False
    if has_passed(answer) or is_refused and SAYS_MEMORY.search(answer.fault):
        return True
    return None if answer.status == -signal.SIGABRT and ASSERTED in answer.report else False


def refused_in(crate, path, refusals, *seconds):
    judge = judge_leaving_test if LEAVING.search(path) else judge_test
    return refusals.refuse([program_of(crate), path], b"", judge, MEMORY, *seconds)


@pytest.mark.parametrize("crate", CRATES)
def test_a_crate_has_its_tests(crate):
    assert paths_of(crate), "rt test makes their program"


@pytest.mark.parametrize("named", NAMED_TESTS, ids=lambda it: it.pattern)
def test_a_path_is_named(named):
    assert any(named.search(path) for _, path in TESTS)


@pytest.mark.parametrize("crate, path", NAMED)
def test_each_request_in_a_named_test(refusals, crate, path):
    assert refused_in(crate, path, refusals), "not tried to its end"


@pytest.mark.parametrize("crate, path", [it for it in TESTS if it not in NAMED])
def test_requests_in_another_test(refusals, share, crate, path):
    refused_in(crate, path, refusals, share())
