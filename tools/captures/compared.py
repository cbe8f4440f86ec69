# SPDX-License-Identifier: MIT
"""How an answer of a resolver differs from that of the cache.

Both are read into one form: the RRsets along the aliases of the question, and the end, which is
data or a denial. Owners and names in rdata are compared without case, and the records of an RRset
in any order. Records of types that the cache does not keep, as RRSIG, are left out.
"""
from enum import Enum
from typing import NamedTuple

from tools.messages import (ALIASES_MOST, ANY, CNAME, NOERROR, NOT_FOLLOWED, NXDOMAIN, SOA,
                            MessageFault, plain_item, read, sets_of)
from tools.names import fold, from_text

# How many seconds apart TTLs may be: moments of a trace and of a resolver are whole seconds.
ROUNDING = 1
# The lines of a capture's trace that make offers, each of which may evict a key.
OFFERED = ("response", "fail")


class End(Enum):
    """How an answer ends. The last two are the cache's alone."""

    DATA = "data"
    NODATA = "NODATA"
    NXDOMAIN = "NXDOMAIN"
    MISS = "a miss"
    UNASKED = "an alias to a name that the trace does not ask for"


DENIALS = (End.NODATA, End.NXDOMAIN)
ENDS = {"nodata": End.NODATA, "nxdomain": End.NXDOMAIN, "miss": End.MISS}


class Records(NamedTuple):
    """An RRset: the folded owner, the type, the rdata with folded names, each once, and the TTL."""

    owner: bytes
    rtype: int
    data: tuple
    ttl: int

    @property
    def identity(self):
        """What RRsets have in common that differ by their TTLs and the order of records alone."""
        return self.owner, self.rtype, frozenset(self.data)

    @property
    def target(self):
        """Where an alias leads: of several CNAME records of a name the first one counts."""
        return self.data[0]


class Answer(NamedTuple):
    """An answer: its RRsets, its end, the TTL of a denial if it is known, and whether some of the
    RRsets are stale."""

    sets: tuple
    end: End
    ttl: int | None = None
    is_stale: bool = False

    @property
    def ttls(self):
        """The TTLs of the RRsets, and that of the denial."""
        return [it.ttl for it in self.sets] + ([self.ttl] if self.end in DENIALS else [])


# ---- what the resolver answered


class NotCompared(ValueError):
    """Why an answer can't be compared."""


def resolver_answer(cached):
    """The answer that the resolver gave from its cache."""
    try:
        message = read(cached.octets)
    except MessageFault as fault:
        raise NotCompared(f"the answer can't be read: {fault}") from fault
    if (fold(message.name), message.rtype) != cached.question:
        raise NotCompared("the answer has another question than the query")
    if message.is_truncated:
        raise NotCompared("the answer is truncated")
    if message.rcode not in (NOERROR, NXDOMAIN):
        raise NotCompared(f"the answer has RCODE {message.rcode}")
    sets, name = chain_of(message)
    if sets and (sets[-1].owner, sets[-1].rtype) == (name, message.rtype):
        return Answer(tuple(sets), End.DATA)
    ttl = min((it.ttl for it in message.sections[1] if it.rtype == SOA), default=None)
    if message.rcode == NXDOMAIN:
        return Answer(tuple(sets), End.NXDOMAIN, ttl)
    if ttl is None:
        raise NotCompared("the answer has neither data nor an SOA record")
    return Answer(tuple(sets), End.NODATA, ttl)


def chain_of(message):
    """The RRsets from the question's name along its aliases, and the name to which these lead. An
    alias is not followed if it has the CNAME or NSEC records that are asked for."""
    there = {key: Records(*key, tuple(dict.fromkeys(it.folded for it in records)),
                          min(it.ttl for it in records))
             for key, records in sets_of(message.sections[0])}
    name, sets = fold(message.name), []
    has_own = message.rtype in NOT_FOLLOWED and (name, message.rtype) in there
    is_led = message.rtype != ANY and not has_own
    while is_led and (name, CNAME) in there and len(sets) < ALIASES_MOST:
        sets.append(there[name, CNAME])
        name = sets[-1].target
    if (name, message.rtype) in there:
        sets.append(there[name, message.rtype])
    return sets, name


# ---- what the cache answered


class ReportFault(ValueError):
    """A report does not fit the trace."""


class Reply(NamedTuple):
    """The reply of a report to an ask: its word, and the RRset or the TTL of a denial."""

    word: str
    records: Records | None = None
    ttl: int | None = None


def reply_of(ask, word, *words):
    """The reply to an ask that these words of a report spell; ValueError if they spell none."""
    if word == "miss":
        return Reply(word)
    ttl, owner, items = words
    if word in ENDS:
        return Reply(word, ttl=int(ttl))
    if word not in ("fresh", "stale"):
        raise ValueError
    data = tuple(plain_item(ask.rtype, b"" if it == "-" else bytes.fromhex(it))
                 for it in items.split(","))
    if None in data:
        raise ValueError
    return Reply(word, Records(fold(from_text(owner.encode())), ask.rtype, data, int(ttl)))


def replies_in(report, asks, count):
    """The replies of a report to asks, by the numbers of their lines, and how many keys were
    evicted. The trace has so many lines."""
    replies, evictions, place = {}, 0, -1
    for place, text in enumerate(report):
        try:
            number, word, *words = text.split()
            if number != str(place):
                raise ValueError
            if place in asks:
                replies[place] = reply_of(asks[place], *words)
            if word in OFFERED:
                evictions += sum(it.startswith("kept-out:") for it in words)
        except (TypeError, ValueError) as fault:
            raise ReportFault(f"the report is not about line {place} of the trace, but has"
                              f" {text.strip()!r}") from fault
    if place + 1 != count:
        raise ReportFault(f"the report has {place + 1:,} lines, and the trace {count:,}")
    return replies, evictions


def cache_answer(asks, replies):
    """The answer of the cache to a query, by the replies to its asks. Each ask but the last is for
    an alias."""
    sets, is_stale, name = [], False, asks[0].name
    for ask in asks:
        reply = replies[ask.number]
        is_link = ask is not asks[-1]
        if ask.name != name or is_link and reply.word == "nodata":
            return Answer(tuple(sets), End.UNASKED)
        if reply.records is None:
            return Answer(tuple(sets), ENDS[reply.word], reply.ttl, is_stale)
        sets.append(reply.records)
        is_stale |= reply.word == "stale"
        name = sets[-1].target if is_link else name
    return Answer(tuple(sets), End.DATA, None, is_stale)


# ---- the difference


class Difference(Enum):
    """A class of differences, and its meaning."""

    SAME = "same", "the same RRsets, with TTLs at most a second apart"
    SAME_DENIAL = "same-denial", "the same denial, with TTLs at most a second apart"
    LONGER = "longer", "the same, but rrcache's TTL is longer"
    SHORTER = "shorter", "the same, but rrcache's TTL is shorter"
    STALE = "stale", "the same RRsets, but rrcache serves them as stale data"
    ENDED = "ended", "rrcache misses: the TTL ended in that second or the one before"
    UNSEEN = "unseen", "rrcache misses: no earlier response in the capture has the answer"
    MISSED = "missed", "rrcache misses, although an earlier response has the answer"
    NEWER = "newer", "rrcache has data that a server sent later than those of the resolver"
    WRONG_SET = "wrong-set", "rrcache has other records, or data that the resolver denies"
    WRONG_DENIAL = "wrong-denial", "rrcache denies data, or has another kind of denial"

    def __init__(self, word, meaning):
        self.word, self.meaning = word, meaning

    @property
    def is_wrong(self):
        return self in (Difference.WRONG_SET, Difference.WRONG_DENIAL)


class Verdict(NamedTuple):
    """How the cache's answer differs from the resolver's, at which place of the chain, and by how
    many seconds the TTL there is longer."""

    difference: Difference
    place: int = 0
    seconds: int = 0


def verdict(asks, resolver, cache):
    """How the answers to these asks differ."""
    for place, records in enumerate(cache.sets):
        if place == len(resolver.sets) or records.identity != resolver.sets[place].identity:
            return Verdict(Difference.WRONG_SET, place)
    place = len(cache.sets)
    if cache.end is End.UNASKED:
        raise NotCompared(f"rrcache has {cache.end.value}")
    if cache.end is End.MISS:
        return Verdict(missed(asks[place], resolver, place), place)
    if cache.end is not resolver.end or place != len(resolver.sets):
        kind = Difference.WRONG_DENIAL if cache.end in DENIALS else Difference.WRONG_SET
        return Verdict(kind, place)
    if cache.is_stale:
        return Verdict(Difference.STALE)
    return apart(resolver, cache)


def missed(ask, resolver, place):
    """The class of a miss. A resolver may still answer in the second in which a TTL ends, with a
    TTL of 0, or with that of an SOA record that another denial brought."""
    if ask.until is None:
        return Difference.UNSEEN
    is_ended = ask.until <= ask.at <= ask.until + ROUNDING
    is_last = place < len(resolver.sets) and resolver.sets[place].ttl <= ROUNDING
    return Difference.ENDED if is_ended or is_last else Difference.MISSED


def apart(resolver, cache):
    """The class of answers that differ by their TTLs at most."""
    gaps = [(own - other, place) for place, (own, other) in
            enumerate(zip(cache.ttls, resolver.ttls)) if other is not None]
    seconds, place = max(gaps, key=lambda it: abs(it[0]), default=(0, 0))
    if abs(seconds) > ROUNDING:
        return Verdict(Difference.LONGER if seconds > 0 else Difference.SHORTER, place, seconds)
    same = Difference.SAME if cache.end is End.DATA else Difference.SAME_DENIAL
    return Verdict(same, place, seconds)
