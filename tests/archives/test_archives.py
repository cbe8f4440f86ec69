# SPDX-License-Identifier: MIT
"""Tests of rrcache --audit-history by archives of the model: the program has to say of them what
the model says (audits.py), word for word.

The history of a part that the model makes of a row, or of a trace that is drawn (changed.py), is an
archive that is legal. By each change of one place it is an archive and not legal at a known event,
or the model says what is wrong with it, if anything is, or a known line is none. All is the same by
the number of a run. An archive of which the program says something else is written below
build/archives.
"""
import collections
import io
import itertools
import random
import re
import subprocess
import time
from pathlib import Path

import pytest

from rrcache.history import ArchiveFault, read_archive
from tests.archives.changed import (CHANGES, NO_LINE, UNLAWFUL, archive_drawn, changed,
                                    octet_changed)
from tools.archive import Rules, archive_of, entry_text
from tools.audits import Fault, Unlawful, entry_of, first_fault
from tools.rows import content, options_of, rows, traces_of
from tools.traces import lines_in

TOP = Path(__file__).resolve().parents[2]
SECONDS = 60
# Of the time for what is drawn, what is for octets, and what is for archives that are not changed.
OCTETS, UNCHANGED = 0.1, 0.05
LINES_MOST = 400
BEGINS = "chapter {} begins with entries that no part holds: "
# What the program says of a chapter that is wrong in itself, or behind the one before it.
FAULTS = {
    "Empty": "the archive has no chapters",
    "TooMany": BEGINS + "as many entries as the capacity stand before an entry",
    "RepeatedKey": BEGINS + "an entry has the key of one before it",
    "BadNumber": BEGINS + "an entry has the number of one before it, or one that is not below the"
                          " first event's",
    "WrongBody": BEGINS + "the body of an entry does not fit its key",
    "BadMoment": BEGINS + "the moment of an entry is above 2^40 seconds",
    "NoNumber": "chapter {} has a number that no closed chapter has",
    "NumberGap": "chapter {} does not follow the one before it",
    "OtherContents": "chapter {} does not begin with what the one before it ends with",
}


def judged(text):
    """What is wrong with an archive by the model, if anything is, and the status and the lines that
    are due of the program."""
    try:
        chapters = read_archive(text)
    except ArchiveFault as fault:
        return fault, (1, [f"not legal: line {fault.line} is not a line of an archive"])
    fault = first_fault(chapters)
    if isinstance(fault, Unlawful):
        return fault, (1, [*fault.lines()])
    if isinstance(fault, Fault):
        return fault, (1, [f"not legal: {FAULTS[fault.kind].format(fault.chapter)}"])
    events = sum(len(it.events) for it in chapters)
    return None, (0, [f"legal: {len(chapters)} chapters, {events} events from number"
                      f" {chapters[0].first} on"])


@pytest.fixture(scope="session")
def counts(request):
    """How many archives were audited with each kind of fault, which is told at the end."""
    kinds = collections.Counter()
    yield kinds
    found = ", ".join(f"{count} {kind}" for kind, count in sorted(kinds.items()))
    with request.config.pluginmanager.getplugin("capturemanager").global_and_fixture_disabled():
        print(f"\narchives audited: {found}")


def cut(text):
    return text if len(text) <= 2_000 else f"{text[:1_000]} .. {text[-1_000:]}"


@pytest.fixture
def audited(program, counts, request):
    """Audits an archive by the program, which has to say what the model says: what that is."""
    def audit(text):
        octets = text.encode("latin-1")
        fault, due = judged(text)
        run = subprocess.run([program, "--audit-history"], input=octets, capture_output=True,
                             timeout=SECONDS)
        if (run.returncode, run.stdout.decode("latin-1").splitlines(), run.stderr) != (*due, b""):
            path = TOP / "build" / "archives" / re.sub(r"\W+", "-", request.node.name)
            path.parent.mkdir(parents=True, exist_ok=True)
            path.write_bytes(octets)
            told = f"{path.relative_to(TOP)}: due {due}", f"said {run}"
            pytest.fail("\n".join(map(cut, told)), pytrace=False)
        counts[getattr(fault, "kind", type(fault).__name__) if fault else "legal"] += 1
        return fault
    return audit


def within(seconds, trials):
    """Trials for so many seconds, and at least one."""
    end = time.monotonic() + seconds
    for trial in trials:
        yield trial
        if time.monotonic() > end:
            return


def has_history(row):
    """Whether a row has one trace, that the program takes, and that is not too long."""
    traces = traces_of(row)
    return not content(row, "status") and not content(row, "stderr") and len(traces) == 1 \
        and traces[0].count(b"\n") <= LINES_MOST


@pytest.mark.parametrize("row", [pytest.param(row, id=name) for name, row in rows().items()
                                 if has_history(row)])
def test_the_history_of_a_row_is_legal(row, audited):
    options, [trace] = options_of(row), traces_of(row)
    rules = Rules(options.get("capacity", 1024), 7, options.get("stale", 86_400))
    assert audited(archive_of(lines_in(io.BytesIO(trace)), rules)) is None


def test_drawn_histories_are_legal(audited, seconds):
    """They are read as they were written: the audit writes the lines of events again."""
    for run in within(seconds * UNCHANGED, itertools.count()):
        archive = archive_drawn(run)
        assert audited(archive) is None, run
        entries = [entry_text(entry_of(it)) for chapter in read_archive(archive)
                   for it in chapter.entries]
        assert entries == re.findall("^entry .*", archive, re.M), run


@pytest.mark.parametrize("name", CHANGES)
def test_what_is_wrong_with_a_changed_archive(name, audited, seconds):
    share = seconds * (1 - OCTETS - UNCHANGED) / len(CHANGES)
    for text, line in within(share, changed(name)):
        fault = audited(text)
        if name in UNLAWFUL:
            assert isinstance(fault, Unlawful) and fault.line == line
        if name in NO_LINE:
            assert isinstance(fault, ArchiveFault) and fault.line == line


def test_what_is_wrong_with_an_archive_of_another_octet(audited, seconds):
    for run in within(seconds * OCTETS, itertools.count()):
        audited(octet_changed(random.Random(run), archive_drawn(run % 64)))
