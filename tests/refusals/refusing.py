# SPDX-License-Identifier: MIT
"""A program that is run again and again, each time with another of its requests for memory, or for
a thread, refused: the first, the second and so on, until a run makes fewer."""
import collections
import itertools
import os
import struct
import subprocess
import time
from pathlib import Path

from tools.trials import run

MEMORY, THREAD = 0, 1
ASKED = struct.Struct("ll")
PROCESSORS = os.cpu_count() or 1
# How long a run may take, and all runs of what has to be tried to its end.
SECONDS, TO_THE_END = 60, 600


def refuser(folder, compiler):
    """The library that refuses, made in a folder."""
    source, library = Path(__file__).with_name("refuser.c"), Path(folder) / "refuser.so"
    subprocess.run([compiler, "-shared", "-fPIC", "-o", library, source, "-ldl"], check=True)
    return library


def run_refused(library, words, text, kind, request):
    """What a run answers whose request of that kind and number is refused, none where it is 0, and
    how often it asked for that kind."""
    asked = os.memfd_create("asked")
    os.ftruncate(asked, ASKED.size)
    around = {**os.environ, "LD_PRELOAD": str(library), "ASKED": str(asked),
              "REFUSED": str(request), "KIND": str(kind)}
    answer = run(words, text, SECONDS, env=around, pass_fds=(asked,))
    counts = ASKED.unpack(os.pread(asked, ASKED.size, 0))
    os.close(asked)
    return answer, counts[kind]


class Refuser:
    """Refuses requests, and counts what it was told of the runs."""

    def __init__(self, library, pool):
        self.library, self.pool, self.verdicts = library, pool, collections.Counter()

    def in_turn(self, words, text, judge, kind, requests, end):
        """Refuses these requests in turn, one at least, until a run makes fewer. Tells whether it
        came so far before the end."""
        for request in requests:
            answer, asked = run_refused(self.library, words, text, kind, request)
            is_refused = asked >= request
            verdict = judge(answer, is_refused)
            assert verdict or verdict is None and is_refused, (
                f"{('memory', 'thread')[kind]} {request}: status {answer.status},"
                f" {len(answer.report)} octets of output, {answer.fault[-300:]!r}")
            if not is_refused:
                break
            self.verdicts[verdict] += 1
            if time.monotonic() > end:
                return False
        return True

    def refuse(self, words, text, judge, kind, seconds=TO_THE_END):
        """Refuses each request of that kind for so many seconds, shared out to the processors, and
        behind them all those of higher numbers, since another run may make more. `judge` tells of
        an answer, and of whether something was refused, whether it is right (True), wrong (False),
        or tells nothing (None). Tells whether each was tried."""
        end = time.monotonic() + seconds
        _, asked = run_refused(self.library, words, text, kind, 0)
        shares = [range(first, asked + 1, PROCESSORS) for first in range(1, PROCESSORS + 1)]
        calls = [self.pool.submit(self.in_turn, words, text, judge, kind, requests, end)
                 for requests in [*shares, itertools.count(asked + 1)]]
        return all([it.result() for it in calls])
