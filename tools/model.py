# SPDX-License-Identifier: MIT
"""The rules of the cache (docs/RULES.md), in Python and apart from the program: what each offer,
ask and sweep does to a part, and the reply.

bin/fuzz compares the program with it, tests/schedules tries the orders of several workers by it,
bin/why explains lines of a report by it, and bin/what-if counts octets by it. Names are octets in
wire form.
"""
from typing import NamedTuple

from tools.names import fold, labels_in, to_text

STALE, RECHECK, CAP, NEGATIVE_CAP = 86_400, 30, 604_800, 10_800
STALE_SECONDS = 30
GLUE = 1
IN = 1
CNAME = 5


class Key(NamedTuple):
    """A folded name, a class, and a slot of them: `set` or `failed` with a type, or `nx` with 0."""

    name: bytes
    slot: str
    rtype: int
    rclass: int = IN

    def __str__(self):
        return f"{to_text(self.name)}/{self.slot_text}"

    @property
    def slot_text(self):
        """The slot, and the class where that is not IN."""
        slot = {"set": str(self.rtype), "nx": "nx", "failed": f"failed{self.rtype}"}[self.slot]
        return slot if self.rclass == IN else f"{slot}/{self.rclass}"

    @property
    def place(self):
        """By which keys are ordered: the labels from the rightmost (RFC 4034 section 6.1), the
        class, and the slot, RRsets by type, NXDOMAIN, failures by type."""
        slots = ("set", "nx", "failed")
        labels = labels_in(self.name)[::-1]
        return labels, self.rclass, slots.index(self.slot), self.rtype


class Body(NamedTuple):
    """What a key holds: `positive`, `negative` (its item is the SOA record's data) or `failure`."""

    kind: str
    owner: bytes
    items: tuple
    rank: int
    ttl: int


class Offer(NamedTuple):
    key: Key
    body: Body
    at: int


class Entry(NamedTuple):
    """A body under its key, with the moment and the number of the event that brought it."""

    key: Key
    body: Body
    at: int
    number: int

    def age(self, at):
        """Its age; 0 at an earlier moment."""
        return max(0, at - self.at)

    def is_unexpired(self, at):
        return self.age(at) < self.body.ttl

    def is_fully_expired(self, at, stale):
        """Whether it answers nothing at this moment or later: a set may be stale for a time."""
        return self.age(at) >= self.body.ttl + (stale if self.body.kind == "positive" else 0)


class Outcome(NamedTuple):
    """What became of an offer: the word, what its key held, and what was evicted."""

    word: str
    old: Entry | None
    evicted: Entry | None = None

    def __str__(self):
        return f"{self.word}-out:{self.evicted.key}" if self.evicted else self.word


class Reply(NamedTuple):
    """What an ask is answered: `fresh`, `stale`, `nodata`, `nxdomain` or `miss`; the entry that
    governs; what else is held for the name and the type; the failure, where it is recent, and where
    it is not; for how long the answer is good; and what is held for the name and the type CNAME."""

    word: str
    governing: Entry | None
    other: Entry | None
    failed: Entry | None
    past: Entry | None
    left: int = 0
    alias: Entry | None = None

    def __str__(self):
        if self.word == "miss":
            return f"miss {self.retry_from}" if self.failed else "miss"
        body = self.governing.body
        return f"{self.word} {self.left} {to_text(body.owner)} {items_text(body.items)}"

    @property
    def retry_from(self):
        """The moment from which on asking may be tried again (RFC 8767 section 5)."""
        return self.failed.at + self.failed.body.ttl


def items_text(items):
    return ",".join(item.hex() or "-" for item in items)


def positive(owner, rtype, items, rank, ttl, at, rclass=IN):
    """The offer of an RRset."""
    body = Body("positive", owner, tuple(items), rank, ttl)
    return Offer(Key(fold(owner), "set", rtype, rclass), body, at)


def negative(key, owner, soa, rank, ttl, at):
    """The offer of a negative answer: the owner and the data are the SOA record's."""
    return Offer(key, Body("negative", owner, (soa,), rank, ttl), at)


def failure(name, rtype, at, rclass=IN):
    """The offer of a failure."""
    key = Key(fold(name), "failed", rtype, rclass)
    return Offer(key, Body("failure", b"", (), 0, RECHECK), at)


def part_of(name, parts):
    """The part in which all keys of a name lie."""
    hashed = 0
    for octet in fold(name):
        hashed = (hashed * 1_000_003 + octet) % 2**32
    return hashed % parts


class Part:
    """A part of the cache: its entries by key, the one touched least recently first, and the number
    of its next event."""

    def __init__(self, capacity, stale=STALE, entries=(), number=0):
        self.capacity, self.stale, self.number = capacity, stale, number
        self.held = {entry.key: entry for entry in entries}

    def frozen(self):
        """What the part is, as a value that can be compared and hashed."""
        return tuple(self.held.values()), self.number

    def offer(self, offer):
        """An offer's outcome ("What an offer does")."""
        number, self.number = self.number, self.number + 1
        key, body, at = offer
        old = self.held.get(key)
        if body.kind != "failure":
            if old and old.is_unexpired(at) and old.body.rank > body.rank:
                return Outcome("less", old)
            if not body.ttl:
                self.held.pop(key, None)
                return Outcome("cleared", old)
        evicted = None
        if old is None and len(self.held) == self.capacity:
            evicted = self.held.pop(next(iter(self.held)))
        self.held.pop(key, None)
        self.held[key] = Entry(key, body, at, number)
        return Outcome("kept", old, evicted)

    def answering(self, name, rtype, rclass):
        """What is held under the two keys that may answer."""
        keys = (Key(name, "set", rtype, rclass), Key(name, "nx", 0, rclass))
        return [self.held.get(it) for it in keys]

    def governing(self, name, rtype, at, rclass=IN):
        """The entry that governs, and the other, of those under the two keys that may answer."""
        found = self.answering(name, rtype, rclass)
        earlier, later = sorted(found, key=lambda it: it.number if it else -1)
        if earlier and earlier.is_unexpired(at) and earlier.body.rank > later.body.rank:
            return earlier, later
        return later, earlier

    def recent_failure(self, name, rtype, at, rclass=IN):
        """The failure to ask, where it is unexpired and later than what is held."""
        failed = self.held.get(Key(name, "failed", rtype, rclass))
        if failed is None or not failed.is_unexpired(at):
            return None
        others = self.answering(name, rtype, rclass)
        return failed if all(it is None or failed.number > it.number for it in others) else None

    def ask(self, name, rtype, at, purpose, mode, rclass=IN):
        """An ask's reply ("What an ask answers")."""
        self.number += 1
        name = fold(name)
        entry, other = self.governing(name, rtype, at, rclass)
        failed = self.recent_failure(name, rtype, at, rclass)
        word, left = self.word_of(entry, at, purpose, mode, failed)
        if word != "miss":
            self.held[entry.key] = self.held.pop(entry.key)
        past = None if failed else self.held.get(Key(name, "failed", rtype, rclass))
        alias = self.held.get(Key(name, "set", CNAME, rclass))
        return Reply(word, entry, other, failed, past, left, alias)

    def word_of(self, entry, at, purpose, mode, failed):
        """The row of the table of answers that applies, and for how long the answer is good."""
        if entry is None or purpose == "answer" and entry.body.rank == GLUE:
            return "miss", 0
        if entry.is_unexpired(at):
            left = entry.body.ttl - entry.age(at)
            if entry.body.kind == "positive":
                return "fresh", left
            return "nxdomain" if entry.key.slot == "nx" else "nodata", left
        may_be_stale = entry.body.kind == "positive" and not entry.is_fully_expired(at, self.stale)
        if may_be_stale and (mode == "now" or mode == "failed" and failed):
            return "stale", STALE_SECONDS
        return "miss", 0

    def sweep(self, at):
        """The fully expired entries, which a sweep removes."""
        self.number += 1
        expired = [it for it in self.held.values() if it.is_fully_expired(at, self.stale)]
        for entry in expired:
            del self.held[entry.key]
        return expired
