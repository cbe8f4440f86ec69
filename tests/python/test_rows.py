# SPDX-License-Identifier: MIT
"""The rows that the library can be told: each line is compared with the row's report, and the
history with that of the Python model."""
import io
import re

import pytest

import rrcache
from tools.archive import Rules, archive_of
from tools.names import to_text
from tools.rows import content, rows
from tools.traces import read_trace

CALLS = {b"put", b"ask", b"fail", b"response", b"sweep", b"checkpoint"}
PURPOSES, MODES = {"any": 1, "answer": 2}, {"none": 1, "failed": 2, "now": 3}
OUTCOMES = {1: "kept", 2: "cleared", 3: "less"}
KINDS = {1: "fresh", 2: "stale", 3: "nodata", 4: "nxdomain"}
# The rules of a shelf, by the program's options.
RULES = {"--capacity": "capacity", "--chapter": "chapter", "--stale": "max_stale"}


def words_of(row):
    """The words of a row's command line: options and their values."""
    return content(row, "args").decode("latin-1").replace("=", "\n").split()


def is_told(row):
    words = set(re.findall(rb"^[^ \n]+", content(row, "trace"), re.M))
    return (content(row, "status", b"0").strip() == b"0" and not (row / "each").exists()
            and set(words_of(row)[::2]) <= set(RULES)
            and words and words <= CALLS)


TOLD = [it for it in rows().values() if is_told(it)]


def counted(kept, cleared, less):
    outcomes = ["cleared"] * cleared + ["kept"] * kept + ["less"] * less
    return " ".join([str(len(outcomes)), *outcomes])


def answer_of_response(shelf, line, number):
    zone, octets = line.rest
    if fault := rrcache.fault(octets):
        return f"refused {fault}"
    return counted(*shelf.offer_message_unchecked(octets, zone, line.at, line=number))


def answer_of_ask(shelf, line, number):
    purpose, mode = line.rest
    asked = line.name, line.rtype, line.at, PURPOSES[purpose], MODES[mode]
    reply = shelf.peek(*asked, rclass=line.rclass)
    assert shelf.ask(*asked, number, line.rclass) == reply
    if reply.is_miss:
        return "miss" if reply.kind == rrcache.Kind.MISS else f"miss {reply.retry_from}"
    items = ",".join(it.hex() or "-" for it in reply.data)
    return f"{KINDS[reply.kind]} {reply.left} {to_text(reply.owner)} {items}"


def answer_of(shelf, line, number):
    """What a line of a trace answers, as a report tells it. Its calls have the line's number."""
    call = line.at, number, line.rclass
    if line.word == "put":
        body = line.rest[0].body
        return OUTCOMES[shelf.offer_set(line.name, line.rtype, body.rank, body.ttl, body.items,
                                        *call)]
    if line.word == "fail":
        return OUTCOMES[shelf.offer_failure(line.name, line.rtype, 30, *call)]
    if line.word == "sweep":
        return str(shelf.sweep(line.at, number))
    if line.word == "checkpoint":
        return ""  # no call of the library closes a chapter, which changes no answer
    return (answer_of_ask if line.word == "ask" else answer_of_response)(shelf, line, number)


def told_of(line):
    """The answer of a report's line, as far as the library can tell it: no key that was evicted,
    and outcomes of a response in no order."""
    _, word, *answer = re.sub(r" kept-out:\S+", " kept", line).split(" ")
    if word == "response" and answer[0] != "refused":
        return counted(*(answer.count(it) for it in ("kept", "cleared", "less")))
    return " ".join(answer)


def history_of(lines, rules):
    """The texts of the chapters that the model makes of a trace."""
    # The first chapter of a shelf is what came before its record, and holds nothing here.
    numbers = {"stale" if it == "max_stale" else it: number for it, number in rules.items()}
    archive = archive_of(lines, Rules(**numbers), number=2)
    return [it.text for it in rrcache.read_archive(archive)]


def texts_of(lines, report, **rules):
    """Gives a shelf the lines, compares what it answers with a report, and tells its chapters."""
    with rrcache.Shelf(**rules) as shelf:
        for number, (line, told) in enumerate(zip(lines, report)):
            assert answer_of(shelf, line, number) == told_of(told), f"line {number}"
        assert rules["record"] or shelf.sizes()[1:3] == (0, 0)
        chapters = shelf.take_chapters()
        assert shelf.sizes().chapters == 0
        return [it.text for it in chapters + shelf.stop_recording()]


@pytest.mark.parametrize("row", TOLD, ids=lambda it: it.name)
def test_row(row):
    words, report = words_of(row), content(row, "report").decode("latin-1").splitlines()
    rules = {RULES[word]: int(value) for word, value in zip(words[::2], words[1::2])}
    lines = read_trace(io.BytesIO(content(row, "trace") * int(content(row, "repeat", b"1"))))
    assert len(lines) == len(report)
    assert texts_of(lines, report, record=False, **rules) == []
    texts = texts_of(lines, report, record=True, **rules)
    # No call of the library closes a chapter that has room.
    assert texts == history_of(lines, rules) or any(it.word == "checkpoint" for it in lines)


def test_most_rows_are_told():
    """163 are compared, and 52 cannot be told."""
    assert len(TOLD) >= 163
    assert len(rows()) - len(TOLD) <= 52
