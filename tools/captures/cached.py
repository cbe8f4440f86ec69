# SPDX-License-Identifier: MIT
"""The queries of clients that a resolver answered from its cache.

An answer is from the cache if no message went to a server, or came from one, between the client's
query and the answer. A busy resolver answers some queries from its cache while it asks servers for
other clients. Those do not count, so each answer that counts is certain to be from the cache.
"""
from collections import Counter
from typing import NamedTuple

from tools.captures.sides import QR, flags_of
from tools.captures.traffic import Question
from tools.model import GLUE, Key
from tools.names import fold
from tools.traces import line_of, offers_in

# Why a query has no answer from the cache.
UNANSWERED = "no answer is in the capture"
EXCHANGED = "messages went to servers or came from them before the answer"


class Ask(NamedTuple):
    """An `ask` line of a trace: its number, text and moment, the folded name, the type, and until
    when an answer lives that lines before it offered, or None if none did."""

    number: int
    text: str
    at: int
    name: bytes
    rtype: int
    until: int | None


class Open(NamedTuple):
    """A client's query that has no answer yet: its question, its asks, and how many messages the
    resolver had exchanged with servers by then."""

    question: tuple
    asks: tuple
    exchanged: int


class Cached(NamedTuple):
    """An answer from the cache: the question, the asks of the trace for it, and the message."""

    question: tuple
    asks: tuple
    octets: bytes


class Finder:
    """Hands on the lines that `Traffic` makes of messages, and finds the answers that came from the
    resolver's cache. It counts the other queries by reason."""

    def __init__(self, traffic):
        self.traffic, self.queries, self.answers, self.others = traffic, 0, [], Counter()
        self.number, self.asks, self.until = 0, [], {}
        self.open, self.exchanged = {}, 0

    def lines(self, seen):
        """The lines of the trace."""
        for text in self.traffic.lines(self.noted(seen)):
            word = text.partition(" ")[0]
            if word == "ask":
                self.note_ask(text, line_of(text.encode()))
            elif word == "response":
                self.note_offers(line_of(text.encode()))
            self.number += 1
            yield text

    def noted(self, seen):
        """The messages, each of which is noted after its lines were made."""
        for it in seen:
            yield it
            self.note(it)

    def end(self):
        """Counts the queries that are still without an answer."""
        self.others[UNANSWERED] += len(self.open)

    # ---- lines

    def note_ask(self, text, line):
        name = fold(line.name)
        keys = Key(name, "set", line.rtype), Key(name, "nx", 0)
        until = max((self.until[it] for it in keys if it in self.until), default=None)
        self.asks.append(Ask(self.number, text, line.at, name, line.rtype, until))

    def note_offers(self, line):
        """Notes until when each key has data that may answer a client."""
        offers, _ = offers_in(*line.rest, line.at)
        for it in offers:
            if it.body.rank > GLUE:
                self.until[it.key] = max(self.until.get(it.key, 0), it.at + it.body.ttl)

    # ---- messages

    def note(self, it):
        """Notes a message, with the asks that were made of it."""
        asks, self.asks = tuple(self.asks), []
        is_response = bool(flags_of(it.octets) & QR)
        if it.kind == "unreachable" or self.side_of(it, is_response) == "server":
            self.exchanged += 1
        elif asks:
            self.note_query(it, asks)
        elif is_response:
            self.note_answer(it)

    def side_of(self, it, is_response):
        if it.role:
            return it.role
        asked = it.source if is_response else it.target
        return self.traffic.sides.of(it, is_response) if asked.port in self.traffic.ports else None

    def note_query(self, it, asks):
        """Notes that a client's query awaits its answer."""
        self.queries += 1
        key = it.source, it.target, it.octets[:2]
        self.others[UNANSWERED] += key in self.open
        self.open[key] = Open(Question.of(it.octets).asked, asks, self.exchanged)

    def note_answer(self, it):
        """Keeps the answer to a client's query if it came from the cache."""
        query = self.open.pop((it.target, it.source, it.octets[:2]), None)
        if query and self.exchanged == query.exchanged:
            self.answers.append(Cached(query.question, query.asks, it.octets))
        elif query:
            self.others[EXCHANGED] += 1
