# SPDX-License-Identifier: MIT
"""The spans of what keys hold, as rrc_page_spans tells them (crates/rrc_page/src/page_calls.rt), by
the model of the rules: from what it holds before and after each event."""
from bisect import bisect_left

from tools.archive import Recorder, key_text
from tools.traces import Replay

LAST = 1 << 42  # a moment at which everything is expired
HOLDS = {"positive": "set", "failure": "failed"}


def first(start, test):
    """The first moment from a start on that passes a test, which all later ones pass too."""
    return start + bisect_left(range(start, LAST), True, key=test)


class Spans(Recorder):
    """A part that tells its spans, in the order of the events that stored something."""

    def __init__(self, rules):
        super().__init__(rules)
        self.before, self.spans = {}, {}

    def write(self, word, at, *fields):
        event = f"{self.number - 1} {self.line} {self.place} {at}"
        super().write(word, at, *fields)
        for key, entry in self.before.items():
            if self.held.get(key) != entry:
                self.spans[entry] += f" {self.loss(key, word, fields[0])} {event}"
        for entry in self.held.values():
            if entry.number == self.number - 1:
                self.spans[entry] = f"span {self.text(entry, event)}"
        self.before = dict(self.held)

    def loss(self, key, word, named):
        """How an event of this word, which names a key first, took what another or the same key
        held."""
        if word == "sweep":
            return "swept"
        if key in self.held:
            return "replaced"
        return "cleared" if key_text(key) == named else "evicted"

    def text(self, entry, event):
        holds = HOLDS.get(entry.body.kind, "nxdomain" if entry.key.slot == "nx" else "nodata")
        fresh = first(entry.at, lambda it: not entry.is_unexpired(it))
        until = first(entry.at, lambda it: entry.is_fully_expired(it, self.stale))
        return f"{holds} {event} {key_text(entry.key)} {fresh} {until}"


def spans_of(lines, rules):
    """The spans of the lines of a trace, on one part."""
    replay = Replay()
    replay.parts = [part] = [Spans(rules)]
    for part.line, line in enumerate(lines):
        part.place = 0
        replay.line(line)
    return [*part.spans.values()]
