# SPDX-License-Identifier: MIT
"""Tests of the commands in docs/CAPTURES.md: those of its session are run as they are typed, and
print what it shows."""
import re
import runpy
import shlex
import shutil
import subprocess
from unittest.mock import patch

import pytest

from tests.tools.shared import LIMIT, TOP
from tools.command_manual import commands

DOCUMENT = (TOP / "docs" / "CAPTURES.md").read_text()
SESSION, OTHERS = re.search(r"^## A session\n(.*?)(^## .*)", DOCUMENT, re.M | re.S).groups()
SHELL = r"^```sh\n(.*?)^```\n"
STEPS = re.findall(SHELL + r"\n```text\n(.*?)^```\n", SESSION, re.M | re.S)


@pytest.fixture
def place(tmp_path, program):
    """A folder that has what the session names, with the program that was built last."""
    (tmp_path / "bin").mkdir()
    for name in ("from-capture", "what-if", "why"):
        shutil.copy(TOP / "bin" / name, tmp_path / "bin")
    for name in ("python", "tests", "tools", "VERSION"):
        (tmp_path / name).symlink_to(TOP / name)
    (tmp_path / "bin" / "rrcache").symlink_to(program)
    return tmp_path


def test_each_step_of_the_session_prints_what_the_document_shows(place):
    pytest.importorskip("dpkt")
    assert len(STEPS) == len(re.findall(SHELL, SESSION, re.M | re.S)) == 5
    for typed, wanted in STEPS:
        run = subprocess.run(["bash", "-ec", typed], cwd=place, timeout=LIMIT, text=True,
                             stdout=subprocess.PIPE, stderr=subprocess.STDOUT)
        assert (run.returncode, run.stdout) == (0, wanted), typed
    assert (place / "what-if.svg").read_text() == (TOP / "docs" / "what-if.svg").read_text()
    assert "octets that keys took" in (place / "memory.svg").read_text()


def test_what_the_session_says_in_words_follows_from_its_tables():
    """What is not missed is answered: of all keys and of half of them, and over octets."""
    rows = [it.split() for it in STEPS[1][1].splitlines()[1:]]
    answered = {(int(it[0]), it[2]): 100 - float(it[-4]) for it in rows}
    for stale in ("0", "86,400"):
        assert 2.5 < answered[256, stale] - answered[128, stale] < 3.5
    assert 7.5 < answered[128, "86,400"] - answered[128, "0"] < 8.5
    assert 8.5 < answered[256, "86,400"] - answered[256, "0"] < 9.5
    said = " ".join(SESSION.split())
    assert "another 8 to 9 % of the asks" in said
    assert "asks that miss is about 3 percentage points higher" in said
    rows = [it.split() for it in STEPS[4][1].splitlines()[1:]]
    told = [(f"{int(it[-1].replace(',', '')) / 1_000:.0f}k", f"{100 - float(it[-4]):.0f} %")
            for it in rows[2:]]
    assert told == re.findall(r"(\d+k)[^%]*?(\d+ %)", SESSION.rpartition("```")[2])


def test_the_other_commands_of_the_document_are_words_that_commands_take():
    found = [it for block in re.findall(SHELL, OTHERS, re.M | re.S)
             for it in re.findall(r"^bin/(.*)$", block, re.M)]
    readers = {it.name.removeprefix("rrcache-"): it.reader for it in commands()}
    for line in found:
        name, *words = shlex.split(re.sub(r"\$\(.*?\)", "FILES", line.partition(" > ")[0]))
        assert readers[name].parse_args(words)
    assert len(found) > 1


def test_the_options_that_the_document_names_are_there():
    known = {it for command in commands() for action in command.reader._actions
             for it in action.option_strings}
    named = set(re.findall(r"`(--[\w-]+)", DOCUMENT))
    assert len(named) > 15 and named <= known


def test_what_the_document_says_of_a_bound_is_the_bound():
    from tools.captures import traffic, waits
    with patch("sys.argv", ["from-capture"]):
        command = runpy.run_path(str(TOP / "bin" / "from-capture"))
    for number, text in ((traffic.SERVERS_MOST, "at most {:,} server names from each NS RRset"),
                         (traffic.GUESSED_FROM, "from the first {:,} messages"),
                         (command["LINES_MOST"], "A trace has at most {:,} lines"),
                         (traffic.TWICE_MICROSECONDS // 1_000, "seen twice within {} milliseconds"),
                         (waits.SET_BACK // 1_000_000, "go back by more than {} seconds"),
                         (traffic.REMEMBERED // 1_000_000,
                          "failed within the preceding {} seconds")):
        assert text.format(number) in " ".join(DOCUMENT.split()), text
