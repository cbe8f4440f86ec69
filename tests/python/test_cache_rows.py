# SPDX-License-Identifier: MIT
"""The rows that a cache of one shelf can be told, each line compared with the row's report. It
reads responses for a query alone and follows aliases, so that rows with these are test_rows.py's.
The moment 0 is now to it, and so all moments are later here by as much."""
import io

import pytest

from rrcache import Kind, SharedCache
from tests.python.test_rows import KINDS, MODES, OUTCOMES, RULES, TOLD, told_of, words_of
from tools.names import to_text
from tools.rows import content
from tools.traces import read_trace

CNAME = 5
LATER, LAST = 1 << 20, 1 << 40
WORDS = {"put", "ask", "fail", "sweep"}


def opened(capacity=65536, max_stale=86400, **_):
    """A cache of one shelf, in which each look-up is a use, as an ask is in a trace."""
    return SharedCache(1 << 40, keys=capacity, shelves=1, readers=2, max_stale=max_stale,
                       exact_recency=True)


def answer_of(cache, line):
    """What a line of a trace answers, as a report tells it."""
    moment, name = line.at + LATER, (line.name, line.rtype)
    if line.word == "put":
        body = line.rest[0].body
        return OUTCOMES[cache.store_set(*name, body.rank, body.ttl, body.items, moment,
                                        rclass=line.rclass)]
    if line.word == "fail":
        return OUTCOMES[cache.store_failure(*name, 30, moment, rclass=line.rclass)]
    if line.word == "sweep":
        return str(cache.sweep(moment).removed)
    purpose, mode = line.rest
    answer = cache.lookup(*name, moment, mode=MODES[mode], takes_glue=purpose == "any",
                          rclass=line.rclass)
    if answer.is_miss:
        return "miss" if answer.kind is Kind.MISS else f"miss {answer.retry_from - LATER}"
    [rrset] = answer
    items = ",".join(it.hex() or "-" for it in rrset.data)
    return f"{KINDS[answer.kind]} {rrset.ttl} {to_text(rrset.owner)} {items}"


def lines_of(row):
    return read_trace(io.BytesIO(content(row, "trace") * int(content(row, "repeat", b"1"))))


def is_for_a_cache(row):
    lines = lines_of(row)
    return all(it.word in WORDS and it.at + LATER <= LAST
               and (it.word, it.rtype) != ("put", CNAME) for it in lines)


FOR_A_CACHE = [it for it in TOLD if is_for_a_cache(it)]


@pytest.mark.parametrize("row", FOR_A_CACHE, ids=lambda it: it.name)
def test_row(row):
    words, report = words_of(row), content(row, "report").decode("latin-1").splitlines()
    rules = {RULES[word]: int(value) for word, value in zip(words[::2], words[1::2])}
    with opened(**rules) as cache:
        for number, (line, told) in enumerate(zip(lines_of(row), report)):
            assert answer_of(cache, line) == told_of(told), f"line {number}"


def test_many_rows_are_told():
    assert len(FOR_A_CACHE) >= 34
