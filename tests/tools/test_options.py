# SPDX-License-Identifier: MIT
"""Tests of the program's options: that they are those of docs/FORMATS.md."""
import os
import re
import resource
import subprocess
import time

import pytest

from tests.tools.shared import (ARCHIVE, LIMIT, OPTIONS, TOP, WRONG_ARGUMENTS,
                                is_all_read)
from tools.version import VERSION


@pytest.fixture
def run(program):
    """Runs the program on an empty trace, or what else it is given."""
    def run(*words, **others):
        return subprocess.run([program, *words], capture_output=True, text=True, timeout=LIMIT,
                              **{"input": "", **others})
    return run


@pytest.mark.parametrize("name", ["workers", "parts", "capacity", "chapter", "stale"])
def test_options_have_the_ranges_and_defaults_of_the_document(run, name):
    (least, most, usual), helped = OPTIONS[name], run("--help")
    assert (helped.returncode, helped.stderr, len(OPTIONS)) == (0, "", 5)
    assert re.search(rf"--{name} <N> .*\[default: {usual}\]", helped.stdout)
    for number, status in ((least, 0), (most, 0), (least - 1, WRONG_ARGUMENTS),
                           (most + 1, WRONG_ARGUMENTS)):
        assert run(f"--{name}={number}").returncode == status, number


@pytest.mark.parametrize("word", ["--version", "-V"])
def test_the_version_is_that_of_the_package_and_of_the_kit(run, word):
    kit = re.search(r"^Proved with `(.+?)`", (TOP / "README.md").read_text(), re.M)[1]
    told = run(word)
    assert (told.returncode, told.stdout, told.stderr) == (
        0, f"rrcache {VERSION}\nproved with {kit}\n", "")


@pytest.mark.parametrize("word", ["--workers=1", "--parts=1", "--capacity=1024", "--chapter=4096",
                                  "--stale=0", "--audit", "--progress"])
def test_an_audit_of_an_archive_takes_no_other_option(run, word):
    for words in ((word, "--audit-history"), ("--audit-history", word)):
        told = run(*words)
        assert (told.returncode, told.stdout) == (WRONG_ARGUMENTS, "") and told.stderr


def test_an_audit_says_that_it_could_not_read(program):
    folder = os.open(TOP, os.O_RDONLY)
    run = subprocess.run([program, "--audit-history"], stdin=folder, capture_output=True,
                         timeout=LIMIT)
    os.close(folder)
    assert (run.returncode, run.stdout, run.stderr) == (
        1, b"", b"rrcache: the archive could not be read\n")


def test_an_audit_says_that_it_could_not_write(program):
    with open("/dev/full", "wb") as full:
        run = subprocess.run([program, "--audit-history"], input=ARCHIVE.encode(), stdout=full,
                             stderr=subprocess.PIPE, timeout=LIMIT)
    assert (run.returncode, run.stderr) == (1, b"rrcache: what was found could not be written\n")


@pytest.mark.parametrize("word", ["--help", "-V"])
def test_help_that_cannot_be_written_is_no_fault(program, word):
    with open("/dev/full", "wb") as full:
        run = subprocess.run([program, word], stdout=full, stderr=subprocess.PIPE, timeout=LIMIT)
    assert (run.returncode, run.stderr) == (0, b"")


@pytest.mark.parametrize("words, wanted", [
    ([], b""), (["--progress"], b"rrcache: at line 256\n")])
def test_progress_is_told_where_it_is_asked_for(program, words, wanted):
    """The clock is read before the trace is read, which takes more than a second to come, and at
    line 256."""
    run = subprocess.Popen([program, *words], stdin=subprocess.PIPE, stdout=subprocess.DEVNULL,
                           stderr=subprocess.PIPE)
    run.stdin.write(b"sweep 1\n" * 300)
    run.stdin.flush()
    while run.poll() is None and not is_all_read(run.stdin):
        time.sleep(0.01)
    time.sleep(1.1)
    assert run.communicate(timeout=LIMIT)[1] == wanted


def take_little_memory():
    """Has this process take 1.75 GB at most, and 64 MB for the stack of each thread. For what a
    thread asks of malloc glibc may take 128 MB more for a moment, and keep 64 MB."""
    for kind, most in ((resource.RLIMIT_AS, 7 << 28), (resource.RLIMIT_STACK, 64 << 20)):
        resource.setrlimit(kind, (most, resource.getrlimit(kind)[1]))


@pytest.mark.parametrize("words, wanted", [([], 0), (["--workers=8"], 0), (["--workers=32"], 1)])
def test_each_worker_is_a_thread(run, words, wanted):
    """The stacks of 8 threads find room, and those of 32 do not."""
    assert run(*words, preexec_fn=take_little_memory).returncode == wanted


def test_chapters_and_audits_ask_for_memory(program, tmp_path):
    """Where chapters end, and whether an audit is made, shows in no report, but in how often the
    program asks for memory. It does so for its arguments too, so the same number is compared."""
    from tests.refusals.refusing import MEMORY, refuser, run_refused
    library = refuser(tmp_path, "cc")
    text = b"put 1 a. 1 4 60 01020304\n" + 2 * b"ask 1 a. 1 any none\n"

    def requests(word):
        return run_refused(library, [program, word], text, MEMORY, 0)[1]
    usual, three, two, one = (requests(f"--chapter={it}") for it in (4096, 3, 2, 1))
    assert usual == three < two < one
    assert requests("--progress") < requests("--audit")
