# SPDX-License-Identifier: MIT
"""Tests of the model on each row, whose reports are written by hand, and of its archives. bin/fuzz
and tests/archives compare it with the program on random traces."""
import io
import re
import subprocess
import sys

import pytest
from rrcache.history import ArchiveFault, read_archive

from tests.tools.made_messages import DENIED
from tests.tools.shared import (ARCHIVE, LIMIT, TOP, history_of, rows_to_explain, rows_to_read)
from tools.archive import Rules, archive_of
from tools.audits import first_fault
from tools.captures.reasons import Story
from tools.rows import content, options_of, traces_of
from tools.traces import lines_in
from tools.trials import Answer, by_model

each_row_to_explain = pytest.mark.parametrize("row", rows_to_explain(), ids=lambda it: it.name)


@pytest.mark.parametrize("row", rows_to_read(), ids=lambda it: it.name)
def test_model_answers_each_row(row):
    wanted = Answer(int(content(row, "status", b"0")), content(row, "report"),
                    content(row, "stderr"))
    for text in traces_of(row):
        assert by_model(options_of(row), text) == wanted


@each_row_to_explain
def test_why_explains_each_line_of_each_row(row):
    """The report above the sentences is the row's, and no sentence is empty."""
    reports, story = content(row, "report").decode().splitlines(), Story(**options_of(row))
    for place, line in enumerate(lines_in(io.BytesIO(*traces_of(row)))):
        got, sentences = story.explain(place, line)
        assert got == reports[place]
        assert sentences and "None" not in " ".join(sentences)


# ---- archives

# A trace of each kind of event, for a part of two keys with four events in a chapter, and a
# max-stale of 100.
TRACE = rf"""
put 100 a.Example. 1 4 60 C0000201,c0000202
ask 150 A.example. 1 answer none
put 150 a.example. 1 1 60 c0000203
put 150 a\.b\000. 16/3 2 0 -
fail 160 B. 28
ask 161 b. 28 any failed
put 170 c. 16/4 3 5 00,-
ask 180 c. 16/4 answer now
sweep 300
response 400 example. {DENIED}
ask 500 a.example. 1 answer none
checkpoint
fetch 600 x. 1 . -
sweep 0
""".lstrip()


def test_an_archive_of_the_model_is_that_by_hand():
    archive = archive_of(lines_in(io.BytesIO(TRACE.encode())), Rules(2, 4, 100))
    assert archive == ARCHIVE
    assert not first_fault(read_archive(archive))


@each_row_to_explain
def test_archives_of_the_model_are_legal_on_each_row(row):
    """They are read, and each line is what its call, as it was read, writes."""
    assert not first_fault(read_archive(history_of(row)))


@pytest.mark.parametrize("words, text, status, told", [
    ([], "sweep 0\nask\n", 1, r"archive\.py: line 1 is not a line of a trace\n"),
    (["--capacity=0"], "", 2, ".*--capacity is out of its range: 0\n"),
    (["--chapter=1048577"], "", 2, ".*--chapter is out of its range: 1048577\n")])
def test_archive_refuses_what_it_cannot_replay(words, text, status, told):
    run = subprocess.run([sys.executable, "-m", "tools.archive", *words], cwd=TOP, input=text,
                         capture_output=True, text=True, timeout=LIMIT)
    assert (run.returncode, run.stdout) == (status, "")
    assert re.fullmatch(told, run.stderr, re.DOTALL)


# The first fault of what a line of the archive above becomes, by hand.
AUDITED = [
    (2, "fresh 10", "fresh 11",
     "not legal: chapter 0 of the archive, event 1 (line 2)\n"
     "written: ask 1 0 150 a.example. 1 answer none fresh 11 a.Example. c0000201,c0000202\n"
     "due: ask 1 0 150 a.example. 1 answer none fresh 10 a.Example. c0000201,c0000202\n"
     "held: entry 0 100 a.example. 1 set 4 60 a.Example. c0000201,c0000202"),
    (9, "kept a.example. 1", "kept",
     "not legal: chapter 1 of the archive, event 2 (line 9)\n"
     "written: offer 6 0 170 c. 16/4 set 3 5 c. 00,- kept\n"
     "due: offer 6 0 170 c. 16/4 set 3 5 c. 00,- kept a.example. 1"),
    (14, " b. failed28", "",
     "not legal: chapter 2 of the archive, event 0 (line 14)\n"
     "written: sweep 8 0 300 c. 16/4\n"
     "due: sweep 8 0 300 b. failed28 c. 16/4"),
    (2, " 150 ", " 1099511627777 ",
     "not legal: chapter 0 of the archive, event 1 (line 2)\n"
     "written: ask 1 0 1099511627777 a.example. 1 answer none fresh 10 a.Example."
     " c0000201,c0000202\n"
     "due: none, since the numbers are spent or the moment is above 2^40"),
    (6, "c0000202", "c0000203", "OtherContents 1"),
    (11, "chapter 3", "chapter 4", "NumberGap 2"),
    (5, "chapter 2 4", "chapter 2 5", "NumberGap 1"),
    (6, "set 4 60", "set 4 2147483648", "WrongBody 1"),
    (6, "entry 0", "entry 4", "BadNumber 1"),
    (6, "entry 0 100", "entry 0 1099511627777", "BadMoment 1"),
    (13, "b. failed28 failure 30", "c. 16/4 set 3 5 c. 00,-", "RepeatedKey 2"),
    (11, "8 2 4 100", "8 1 4 100", "TooMany 2"),
    (0, "chapter 1", "chapter 0", "NoNumber 0"),
    (13, "failed28", "Failed28", "line 13"),
    (0, "chapter 1", "chapter 01", "line 0"),
    (1, "c0000201", "C0000201", "line 1"),
    (2, "a.example. 1 answer", "A.example. 1 answer", "line 2"),
    (6, "entry", "offer 0", "line 6"),
]


def audited(text):
    """What is wrong with an archive first."""
    try:
        fault = first_fault(read_archive(text))
    except ArchiveFault as bad:
        return f"line {bad.line}"
    return "\n".join(fault.lines()) if hasattr(fault, "lines") else " ".join(map(str, fault or ()))


@pytest.mark.parametrize("number, old, new, wanted", AUDITED)
def test_an_audit_by_the_model_tells_what_is_wrong_first(number, old, new, wanted):
    lines = ARCHIVE.splitlines(True)
    assert old in lines[number]
    lines[number] = lines[number].replace(old, new, 1)
    assert audited("".join(lines)) == wanted
