# SPDX-License-Identifier: MIT
"""The answers from a resolver's cache, compared with those of rrcache, and counted by class."""
from collections import Counter
from typing import NamedTuple

from tools.captures.cached import Ask
from tools.captures.compared import (Answer, Difference, NotCompared, Verdict, cache_answer,
                                     resolver_answer, verdict)
from tools.captures.later import Doubt, newer, piece_of


class Example(NamedTuple):
    """An answer of a class: the ask at which it differs, and both answers."""

    found: Verdict
    ask: Ask
    resolver: Answer
    cache: Answer


class Comparison:
    """How many answers are of each class, with examples, and why others are not compared."""

    def __init__(self, most):
        self.most, self.not_compared, self.doubts = most, Counter(), []
        self.classes, self.examples = Counter(), {it: [] for it in Difference}
        self.seconds = {it: [] for it in (Difference.LONGER, Difference.SHORTER)}

    def take(self, cached, replies):
        """Compares an answer, and counts it unless it may be wrong, which `settle` finds out."""
        try:
            resolver, own = resolver_answer(cached), cache_answer(cached.asks, replies)
            found = verdict(cached.asks, resolver, own)
        except NotCompared as why:
            self.not_compared[str(why)] += 1
            return
        ask = cached.asks[min(found.place, len(cached.asks) - 1)]
        example = Example(found, ask, resolver, own)
        if found.difference.is_wrong:
            self.doubts.append(example)
        else:
            self.count_in(found.difference, example)

    def count_in(self, difference, example):
        self.classes[difference] += 1
        if difference in self.seconds:
            self.seconds[difference].append(abs(example.found.seconds))
        if len(self.examples[difference]) < self.most:
            self.examples[difference].append(example)

    def settle(self, trace):
        """Counts the answers that may be wrong: one is not if a server sent it later, by the trace,
        than what the resolver answers."""
        doubts = [Doubt(it.ask.number, it.ask.at, piece_of(it.cache, it.found.place, it.ask),
                        it.cache.is_stale, piece_of(it.resolver, it.found.place, it.ask))
                  for it in self.doubts]
        later = newer(trace, doubts) if doubts else ()
        for it in self.doubts:
            is_newer = it.ask.number in later
            self.count_in(Difference.NEWER if is_newer else it.found.difference, it)

    def all_examples(self):
        """The examples, each with its class."""
        return ((difference, it) for difference, several in self.examples.items()
                for it in several)

    @property
    def count(self):
        return self.classes.total()

    @property
    def is_wrong(self):
        return any(self.classes[it] for it in Difference if it.is_wrong)
