# SPDX-License-Identifier: MIT
"""Tests that bin/fuzz, tests/archives, tests/schedules and tests/refusals find what is wrong with a
wrong program."""
import os
import re

import pytest

from tests.tools.shared import REPORT, pytest_ran, ran

# What makes a wrong program of the right one, the words of the lines of its least trace, and by
# which check, or which of two, it is found.
WHERE = 'case "$*" in *{}*) "$real" "$@" | sed "{}" ;; *) exec "$real" "$@" ;; esac'
WRONG = [
    (REPORT.format("s/ put less$/ put kept/"), "put put", "model"),
    (REPORT.format("s/ stale 30 / stale 29 /"), "(put|fetch|response) (ask|fetch)", "model"),
    (REPORT.format("s/ refused 3$/ refused 2/"), "response", "model"),
    ('"$real" "$@" 2>&1', r"\S*", "model|arguments"),
    (WHERE.format("--audit", "s/ ask miss$/ ask fresh/"), "ask", "audit"),
    (WHERE.format("--workers", "s/ ask miss$/ ask fresh/"), "ask", "workers"),
]
# Likewise: it tells an event's place, its chapter, what is due, what was held or how many chapters
# there are otherwise, or which archives are legal, or takes letters in either case.
WRONG_AUDITS = [
    REPORT.format("s/, event 1\\b/, event 2/"), REPORT.format("s/chapter 1 /chapter 2 /"),
    REPORT.format("/^due: /s/ answer / any /"), REPORT.format("/^held: /d"),
    REPORT.format("s/^legal: 1 chapters/legal: 2 chapters/"), '"$real" "$@"; exit 0',
    'tr A-Z a-z | "$real" "$@"']


def assert_found(program, lines, check):
    """A difference is found by a check, and its least trace has such lines."""
    run = ran("bin/fuzz", "--seconds=30", "--most=1", program)
    assert run.returncode == 1
    assert re.fullmatch(r"\d+ passed, [1-9]\d* failed", run.stdout.splitlines()[-1])
    found = re.search(r"^FAIL .*, (\w+): .*\n(?:.*\n)*?-- trace\n((?:.*\n)*?)-- ", run.stdout, re.M)
    assert found and found[1] in check.split("|")
    assert re.fullmatch(lines, " ".join(it.split(" ")[0] for it in found[2].splitlines()))


@pytest.mark.parametrize("body, lines, check", WRONG)
def test_fuzz_finds_each_wrong_rule_and_makes_it_minimal(program_of, body, lines, check):
    assert_found(program_of(body), lines, check)


def test_fuzz_finds_that_two_builds_differ(program_of, tmp_path):
    program_of(REPORT.format("s/ put cleared$/ put kept/"), tmp_path / "right.by-rattle")
    assert_found(program_of('exec "$real" "$@"', tmp_path / "right"), "put", "builds")


def test_fuzz_repeats_its_runs(program):
    first, second = (ran("bin/fuzz", "--runs=70", "--seed=7", program) for _ in range(2))
    assert first.stdout == second.stdout
    assert first.stdout.endswith("\n70 passed, 0 failed\n")


@pytest.fixture(params=["exec sleep 60", None], ids=["does not end", "does not start"])
def endless(request, program_of, tmp_path):
    """A program that does not end or does not start."""
    return program_of(request.param) if request.param else tmp_path / "nothing"


def test_fuzz_says_that_a_program_does_not_start_or_end(endless):
    run = ran("bin/fuzz", "--seconds=1", endless)
    assert run.returncode == 1
    assert re.fullmatch(r"0 passed, \d failed", run.stdout.splitlines()[-1])


def test_schedules_say_that_a_program_does_not_start_or_end(endless):
    status, last = pytest_ran("tests/schedules", "--seconds=1", f"--program={endless}")
    assert status == 1 and re.match(r"\d+ (failed|error)", last)


@pytest.mark.parametrize("words, compiler", [(["-x"], "no-compiler"), (["-k", "no-row"], "cc")])
def test_refusals_say_that_nothing_was_tried(words, compiler):
    status, last = pytest_ran("tests/refusals", *words, env={**os.environ, "CC": compiler})
    assert status and "passed" not in last


def test_refusals_try_a_request_of_each_kind_in_no_time():
    status, last = pytest_ran("tests/refusals", "--seconds=0", "-k", "workers-of-64")
    assert status == 0 and last.startswith("2 passed")


@pytest.mark.parametrize("body", WRONG_AUDITS)
def test_archives_find_each_wrong_audit(program_of, body):
    status, last = pytest_ran("tests/archives", "-x", "--seconds=10",
                              f"--program={program_of(body)}")
    assert status == 1 and re.match("1 failed", last)
