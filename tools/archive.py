# SPDX-License-Identifier: MIT
"""python3 -m tools.archive [--capacity N] [--chapter N] [--stale N] < TRACE: prints the history of
a part as an archive (docs/FORMATS.md).

The model of the rules (model.py), which is independent of the program, replays the trace with one
worker and one part. All chapters are printed, the open one last. The options are those of the
program.
"""
import argparse
import sys
from typing import NamedTuple

from tools.model import IN, Key, Part, items_text
from tools.names import fold, to_text
from tools.traces import Replay, TraceFault, lines_in
from tools.trials import RANGES


class Rules(NamedTuple):
    """The rules of a part: how many keys, how many events in a chapter, and max-stale."""

    capacity: int = 1024
    chapter: int = 4096
    stale: int = 86_400


# ---- the text


def key_text(key):
    return f"{to_text(key.name)} {key.slot_text}"


def body_text(body):
    if body.kind == "failure":
        return f"failure {body.ttl}"
    word = {"positive": "set", "negative": "negative"}[body.kind]
    return f"{word} {body.rank} {body.ttl} {to_text(body.owner)} {items_text(body.items)}"


def entry_text(entry):
    return f"entry {entry.number} {entry.at} {key_text(entry.key)} {body_text(entry.body)}"


# ---- the history of a part


class Recorder(Part):
    """A part that writes the line of each event. `line` and `place` are what the next one is called
    by."""

    line = place = 0

    def __init__(self, rules, entries=(), number=0):
        super().__init__(rules.capacity, rules.stale, entries, number)
        self.rules, self.lines = rules, []

    def make_room(self):
        """What is done before each event: nothing, as lines that are no chapters have room."""

    def write(self, word, at, *fields):
        self.lines.append(" ".join(map(str, (word, self.line, self.place, at, *fields))))
        self.place += 1

    def offer(self, offer):
        self.make_room()
        outcome = super().offer(offer)
        evicted = [key_text(outcome.evicted.key)] if outcome.evicted else []
        self.write("offer", offer.at, key_text(offer.key), body_text(offer.body), outcome.word,
                   *evicted)
        return outcome

    def ask(self, name, rtype, at, purpose, mode, rclass=IN):
        self.make_room()
        reply = super().ask(name, rtype, at, purpose, mode, rclass)
        self.write("ask", at, key_text(Key(fold(name), "set", rtype, rclass)), purpose, mode, reply)
        return reply

    def sweep(self, at):
        self.make_room()
        removed = super().sweep(at)
        self.write("sweep", at, *map(key_text, sorted((it.key for it in removed),
                                                      key=lambda it: it.place)))
        return removed

    def held_lines(self):
        """The lines of what the keys hold, the key touched last first."""
        return [*map(entry_text, reversed(self.held.values()))]


class Chapters(Recorder):
    """A part that writes its history, in chapters; a replay has it in the part's place."""

    def __init__(self, rules, number):
        super().__init__(rules)
        self.chapter = number - 1
        self.checkpoint()

    def checkpoint(self):
        """Closes the open chapter and begins the next one."""
        self.chapter, self.first = self.chapter + 1, self.number
        self.lines.append(" ".join(map(str, ("chapter", self.chapter, self.first, *self.rules))))
        self.lines += self.held_lines()

    def make_room(self):
        """Closes the open chapter where it is full."""
        if self.number - self.first == self.rules.chapter:
            self.checkpoint()


def archive_of(lines, rules=Rules(), number=1):
    """The archive of the history that the lines of a trace make, the open chapter last. The first
    chapter has this number."""
    replay = Replay()
    replay.parts = [recorder] = [Chapters(rules, number)]
    for recorder.line, line in enumerate(lines):
        recorder.place = 0
        if line.word == "checkpoint":
            recorder.checkpoint()
        replay.line(line)
    return "".join(f"{it}\n" for it in recorder.lines)


def rules_given(words):
    reader = argparse.ArgumentParser(description=__doc__,
                                     formatter_class=argparse.RawDescriptionHelpFormatter)
    for name, usual in Rules()._asdict().items():
        least, most = RANGES[name]
        reader.add_argument(f"--{name}", type=int, default=usual, metavar="N",
                            help=f"{least} to {most}, by default {usual}")
    given = vars(reader.parse_args(words))
    for name, number in given.items():
        if not RANGES[name][0] <= number <= RANGES[name][1]:
            reader.error(f"--{name} is out of its range: {number}")
    return Rules(**given)


def main(words):
    rules = rules_given(words)
    try:
        print(archive_of(lines_in(sys.stdin.buffer), rules), end="")
    except TraceFault as fault:
        print(f"archive.py: {fault}", file=sys.stderr)
        return 1
    return 0


if __name__ == "__main__":
    sys.exit(main(sys.argv[1:]))
