# SPDX-License-Identifier: MIT
"""Each request for memory, and each for a thread, refused in turn, on the rows and in audits.

A run must end with the row's report and nothing else, or, where its request was refused, with the
fault of memory, status 1 and no report; one that does not start or does not end is wrong too. What
is named has to be tried to its end. The other rows but the longest share --seconds: the shortest
come first, and what they leave is for the last, of evictions, fetches, messages cut short and many
workers. One row: `pytest tests/refusals -k NAME --seconds N`.
"""
import pytest

from tests.refusals.refusing import MEMORY, THREAD, TO_THE_END
from tests.tools.shared import ARCHIVE, WRONG_ARGUMENTS
from tools.rows import content, rows, traces_of

NAMED_ROWS = [
    # Names, the reader and what is offered of a message. The first has one address, two with AA and
    # without it, NXDOMAIN, an alias to it and one to itself, a truncated one and SERVFAIL.
    "offers-of-the-nine-messages", "ttl-with-top-bit-is-capped", "referral-glue",
    "nodata-until-minimum", "earlier-higher-rank-governs-while-unexpired", "chaos-response",
    # A part: offers, asks, sweeps and checkpoints.
    "later-nxdomain-governs-an-unexpired-address", "the-least-recently-touched-key-goes",
    "sweep-removes-the-dead", "checkpoint-keeps-recency",
    # Chapters that are chained, and a shared cache that opens one.
    "an-audit-over-chapters-of-one-event", "second-offer-opens-chapter-2",
    # A replay by one worker, with its marks.
    "first-trace", "put-then-ask-is-fresh", "servfail-is-remembered",
    "fetch-without-message-then-held"]
LAST_ROWS = [
    "real-mail-with-addresses", "name-of-255-octets", "every-cut-is-short-alias",
    "fetches-of-two-classes", "workers-of-64", "4-workers-each-miss-in-four-parts",
    "four-parts-of-one-key", "fetch-of-octets-that-are-no-message",
    "a-response-evicts-what-it-stored", "a-key-that-is-held-evicts-nothing"]
# A row with more octets of trace is left out.
MOST_OCTETS = 300_000
# What an archive by hand becomes where a datum is changed that its second chapter begins with, and
# how audits of the two end.
CHANGED = "c0000202\noffer 4", "c0000203\noffer 4"
LEGAL = 0, b"legal: 4 chapters, 16 events from number 0 on\n", b""
OTHER_CONTENTS = b"chapter 1 does not begin with what the one before it ends with\n"
NOT_LEGAL = 1, b"not legal: " + OTHER_CONTENTS, b""
# How a run ends that was refused something: a replay by the first, an audit by either.
REFUSALS = [(1, b"", b"rrcache: memory or a thread was refused\n"),
            (1, b"", b"rrcache: memory was refused\n")]
pytestmark = pytest.mark.parametrize("kind", [MEMORY, THREAD], ids=["memory", "thread"])


def other_rows():
    sizes = {name: sum(map(len, traces_of(row))) for name, row in rows().items()
             if name not in NAMED_ROWS + LAST_ROWS}
    found = [name for name, size in sizes.items() if size <= MOST_OCTETS]
    return [*sorted(found, key=lambda it: (sizes[it], it)), *LAST_ROWS]


def judge_by(status, report, fault, refused=REFUSALS):
    """What judges answers that have to be this one, or a refusal where there was one."""
    def judge(answer, is_refused):
        if is_refused and answer in refused:
            return True
        if status == WRONG_ARGUMENTS:
            return answer[:2] == (status, report) and answer.fault != b""
        return answer == (status, report, fault)
    return judge


def refused_on(row, program, refusals, kind, seconds=TO_THE_END):
    """Refuses each request on a row, or on each line of it where each is a trace by itself."""
    judge = judge_by(int(content(row, "status", b"0")), content(row, "report"),
                     content(row, "stderr"), REFUSALS[:1])
    words, texts = [program, *content(row, "args").splitlines()], traces_of(row)
    return all([refusals.refuse(words, it, judge, kind, seconds / len(texts)) for it in texts])


@pytest.mark.parametrize("name", NAMED_ROWS)
def test_each_request_on_a_named_row(refusals, program, name, kind):
    assert refused_on(rows()[name], program, refusals, kind), "not tried to its end"


@pytest.mark.parametrize("text, whole", [(ARCHIVE, LEGAL), (ARCHIVE.replace(*CHANGED), NOT_LEGAL)],
                         ids=["archive", "changed-archive"])
def test_each_request_of_an_audit(refusals, program, text, whole, kind):
    words = [program, "--audit-history"]
    assert refusals.refuse(words, text.encode(), judge_by(*whole), kind), "not tried to its end"


@pytest.mark.parametrize("name", other_rows())
def test_requests_on_another_row(refusals, program, share, name, kind):
    refused_on(rows()[name], program, refusals, kind, share())
