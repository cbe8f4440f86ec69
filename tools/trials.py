# SPDX-License-Identifier: MIT
"""Trials of the program on a trace: two answers that have to be the same, and how they differ.

The model's answer is that of model.py and traces.py, with one worker. The checks, by what the
second answer varies:

  model      the model, and the program
  chapters   where chapters end changes no answer (docs/FORMATS.md)
  audit      an audit changes no answer
  parts      one part and many: the same if nothing is evicted, since each part evicts by its own
             capacity, and no key of a name concerns another name. A sweep reports a number for
             each part: the sums are the same.
  workers    one worker and many: the same if the trace is refused, since it is read before it is
             replayed; and if the calls of different lines are on different names (`apart`) and
             nothing is evicted, since then each line meets only entries and marks of its own.
  builds     what LLVM and what Rattle's own compiler made of the program
  arguments  options out of their ranges are refused, with status 2
"""
import io
import re
import subprocess
import time
from contextlib import suppress
from typing import NamedTuple

from tools.names import fold
from tools.traces import Replay, TraceFault, read_trace, report

SECONDS = 30
NO_END = b"it did not end"
RANGES = {"workers": (1, 64), "parts": (1, 64), "capacity": (1, 65_536), "chapter": (1, 2**20),
          "stale": (0, 604_800)}


class Answer(NamedTuple):
    """How a trace was answered: the status, the report, and what standard error says."""

    status: int | None
    report: bytes
    fault: bytes


def words_of(options):
    """The words of a command line. An audit has no number."""
    return [f"--{name}" if value is None else f"--{name}={value}"
            for name, value in options.items()]


def by_model(options, text):
    """What the model answers."""
    if not all(least <= options.get(it, least) <= most for it, (least, most) in RANGES.items()):
        return Answer(2, b"", b"")
    rules = {it: options[it] for it in ("capacity", "parts", "stale") if it in options}
    try:
        lines = report(read_trace(io.BytesIO(text)), **rules)
        return Answer(0, "".join(it + "\n" for it in lines).encode(), b"")
    except TraceFault as fault:
        return Answer(1, b"", f"rrcache: {fault}\n".encode())
    except Exception as fault:
        return Answer(None, b"", f"the model fell over {fault!r}".encode())


def run(words, text, seconds=SECONDS, **others):
    """What a command answers; one that does not start or does not end has no status."""
    try:
        ran = subprocess.run(words, input=text, capture_output=True, timeout=seconds, **others)
    except subprocess.TimeoutExpired:
        return Answer(None, b"", NO_END)
    except OSError as fault:
        return Answer(None, b"", f"it did not start: {fault}".encode())
    return Answer(ran.returncode, ran.stdout, ran.stderr)


def by_program(program, options, text):
    """What the program answers."""
    return run([program, *words_of(options)], text)


def with_sums(answer):
    """The answer with the sum alone of what each sweep removed."""
    def summed(found):
        return b"%s%d" % (found[1], sum(map(int, found[2].split())))
    return answer._replace(report=re.sub(rb"(?m)^(\d+ sweep )([\d ]+)$", summed, answer.report))


def apart(texts):
    """Those of the lines that are lines of a trace, call on no name that an earlier one of them
    calls on, and are no sweeps."""
    found, taken = [], set()
    for text in texts:
        try:
            (line,) = read_trace(io.BytesIO(text + b"\n"))
        except TraceFault:
            continue
        _, told = Replay(capacity=2**16).line(line)
        names = {it.call.key.name if hasattr(it.call, "key") else fold(it.call[0]) for it in told}
        if line.word != "sweep" and not names & taken:
            found.append(text)
            taken |= names
    return found


class Trial(NamedTuple):
    """A trace, the check, the options, what the second answer has instead of them, and the
    programs that are asked."""

    check: str
    options: dict
    varied: dict
    programs: tuple
    text: bytes

    def sides(self):
        """Who is asked, with what options, in order: the model has no program."""
        first, second = self.programs[0], self.programs[-1]
        if self.check in ("model", "arguments"):
            return [(None, self.options), (first, self.options)]
        return [(first, self.options), (second, {**self.options, **self.varied})]

    def answers(self):
        return [by_program(program, options, self.text) if program else
                by_model(options, self.text) for program, options in self.sides()]

    def may_differ(self, first):
        """Whether the two need not be the same."""
        if first.status != 0:
            return False
        if self.check == "workers":
            *texts, behind = self.text.split(b"\n")
            return behind != b"" or apart(texts) != texts
        return self.check == "parts" and b"-out:" in first.report

    def differs(self, answers):
        """Whether the answers differ where they have to be the same."""
        first, second = answers
        if None in (first.status, second.status):
            return True
        if self.check == "parts":
            first, second = with_sums(first), with_sums(second)
        if first.status == 2:
            return second.status != 2 or bool(second.report) or not second.fault
        return first != second and not self.may_differ(first)

    def fails(self):
        """Whether it fails; with several workers, in any of some runs."""
        times = 8 if self.check == "workers" else 1
        return any(self.differs(self.answers()) for _ in range(times))


# ---- the least trial that fails


FIELD = re.compile(rb"(?<= )[^ \n]+")
# What a field of a line is tried as, where it is longer.
SIMPLE = [b"0", b"1", b"-", b".", b"9", b"a.", b"16", b"00", b"100", b"a.b."]


class Spent(Exception):
    """All the tries are used up."""


class Shortener:
    """Makes a failing trial shorter while it fails, by so many tries at most."""

    def __init__(self, trial, tries=1_000):
        self.trial, self.tries = trial, tries

    def fails(self, **changes):
        """Whether the trial fails with changes too, which are then gone on from."""
        if self.tries <= 0:
            raise Spent
        trial, begun = self.trial._replace(**changes), time.monotonic()
        found = trial.fails()
        # where a run did not end, it is the last
        self.tries -= self.tries if time.monotonic() - begun > SECONDS else 1
        if found:
            self.trial = trial
        return found

    def drop_pieces(self, pieces):
        """Drops the pieces of the text that are not needed, larger runs of them first."""
        size = max(1, len(pieces) // 2)
        while size:
            for at in range(len(pieces) - size, -size, -size):
                left = pieces[:max(at, 0)] + pieces[at + size:]
                if self.fails(text=b"".join(left)):
                    pieces = left
            size //= 2

    def simplify_fields(self):
        for at in range(len(FIELD.findall(self.trial.text))):
            text = self.trial.text
            start, end = [*FIELD.finditer(text)][at].span()
            any(self.fails(text=text[:start] + it + text[end:])
                for it in SIMPLE if len(it) < end - start)

    def shortest(self):
        """The shortest that was found."""
        with suppress(Spent):
            self.drop_pieces(self.trial.text.splitlines(True))
            for name in self.trial.options:
                left = {it: value for it, value in self.trial.options.items() if it != name}
                self.fails(options=left)
            self.simplify_fields()
            self.drop_pieces([bytes([it]) for it in self.trial.text])
            self.drop_pieces(self.trial.text.splitlines(True))
        return self.trial
