# SPDX-License-Identifier: MIT
"""The arguments and results of calls. Timestamps (`moment`) and TTLs are in seconds."""
from __future__ import annotations

from dataclasses import dataclass, field
from typing import NamedTuple

from .choices import Class, Kind, Trust
from .names import to_text


class Counts(NamedTuple):
    """The number of offers of a message with each outcome: stored (`kept`), cleared by a TTL of 0,
    or not stored because the key holds data of higher rank (`outranked`)."""

    kept: int
    cleared: int
    outranked: int

    def plus(self, other: Counts) -> Counts:
        """Returns the sums of both.

        >>> Counts(2, 0, 1).plus(Counts(1, 1, 0))
        Counts(kept=3, cleared=1, outranked=1)
        """
        return Counts(self.kept + other.kept, self.cleared + other.cleared,
                      self.outranked + other.outranked)


# The numbers of octets that `Sizes.octets` adds up. ENTRY_OCTETS is for a key, with its places in
# the LRU order, the map and the expiry queue. VALUE_OCTETS is for a name or rdata, which are stored
# inline up to a size of INLINE_OCTETS. BLOCK_OCTETS is for the separate block of a larger name or
# larger rdata. SHARED_OCTETS is for the reference count of a name or of the data of a key.
ENTRY_OCTETS = 160
VALUE_OCTETS = 48
INLINE_OCTETS = 32
BLOCK_OCTETS = 16
SHARED_OCTETS = 32


class Sizes(NamedTuple):
    """The sizes of a shelf: the number of keys (`keys`); the number of recorded events in the open
    chapter (`events`) and the number of closed chapters (`chapters`), both 0 while nothing is being
    recorded; and approximately how many octets of memory the keys use (`octets`). A key uses
    `ENTRY_OCTETS` and, in addition, these:

    - its name;
    - for an RRset, `SHARED_OCTETS` and the rdata of each record and, if there are several records,
      also `VALUE_OCTETS` and `BLOCK_OCTETS`;
    - for a negative answer, `SHARED_OCTETS` and the rdata of its SOA record;
    - the owner of these records, unless it is spelled like the name of the key.

    Rdata use `VALUE_OCTETS`. Rdata of more than `INLINE_OCTETS` also use `BLOCK_OCTETS` and their
    own size. A name uses `SHARED_OCTETS` more than rdata of its size."""

    keys: int
    events: int
    chapters: int
    octets: int


class Swept(NamedTuple):
    """The number of keys that a sweep removed, and whether no key is left that is fully expired at
    the timestamp of the sweep."""

    removed: int
    is_done: bool


class Trimmed(NamedTuple):
    """The number of keys that a trim removed, and the octets (`Sizes.octets`) of the remaining
    keys."""

    removed: int
    octets: int


@dataclass(frozen=True)
class StoredEntry:
    """The entry of a key.

    - `kind`: FRESH for an RRset, NODATA, NXDOMAIN, or FAILED for a failure.
    - `trust`: the rank, or None for a failure.
    - `ttl`: the TTL with which the entry was stored.
    - `moment`: the timestamp at which the entry was stored. To prefetch, a resolver renews an entry
      if a client asks for it shortly before `ttl` seconds have passed since `moment`.
    - `number`: the number of the event that stored the entry. No other entry of the shelf has this
      number.
    - `age`: the number of uses of keys of the shelf since the last use of this key. An ask counts
      as a use of the entry that answers the ask, unless the entry is already at the front of the
      LRU order (age 0). A peek counts as no use.

    >>> entry = StoredEntry(Kind.FRESH, Trust.AUTHORITY, ttl=60, moment=1000, number=0, age=0)
    >>> entry.moment + entry.ttl
    1060
    """

    kind: Kind
    trust: Trust | None
    ttl: int
    moment: int
    number: int
    age: int


class Stored(NamedTuple):
    """The entries of a name, a class and a type: the RRset or NODATA (`kind` FRESH or NODATA), the
    NXDOMAIN of the name, and the failure. Each of them is None if nothing is stored."""

    set: StoredEntry | None
    nxdomain: StoredEntry | None
    failure: StoredEntry | None


class Query(NamedTuple):
    """A query that a resolver sent: its name, type, identifier and class, and whether the response
    has to repeat the letters of the name in the same case (`with_case`).

    >>> Query("wWw.eXample.", 1, id=0x1234, with_case=True).rclass.name
    'IN'
    """

    name: str | bytes
    rtype: int
    id: int
    rclass: Class | int = Class.IN
    with_case: bool = False


class Limits(NamedTuple):
    """The limits on how long data of a response may be cached, in seconds: the maximum TTL (`cap`,
    1 to 604,800, RFC 8767 section 4), the maximum TTL of a negative answer (`negative_cap`, 1 to
    604,800, RFC 2308 section 5), and the TTL of a failure (`recheck`, 1 to 300, RFC 9520 section
    3.2).

    >>> Limits(cap=86_400).negative_cap
    10800
    """

    cap: int = 604_800
    negative_cap: int = 10_800
    recheck: int = 30


class OfKind:
    """Properties that follow from the kind of a reply or of an answer."""

    kind: Kind

    @property
    def is_miss(self) -> bool:
        """Whether nothing answers the question."""
        return self.kind in (Kind.MISS, Kind.FAILED)

    @property
    def is_negative(self) -> bool:
        """Whether the kind is that of a negative answer: NODATA or NXDOMAIN (RFC 2308)."""
        return self.kind in (Kind.NODATA, Kind.NXDOMAIN)


@dataclass(frozen=True)
class Reply(OfKind):
    """The reply of a shelf. Replies are equal if all their fields except `entry` are equal.

    - `kind`: the kind of the reply.
    - `left`: for how many seconds the reply may be used: the remaining TTL, or 30 for STALE, or 0
      for a miss.
    - `owner`: the owner in wire form, as it was received.
    - `data`: the rdata of the RRset, or of the SOA record of a negative answer.
    - `retry_from`: for FAILED, the timestamp from which to try again; otherwise 0.
    - `rtype`: the type of the reply: the type of the question, or CNAME (5) if `Shelf.ask_alias`
      returns the CNAME record of the name.
    - `entry`: the entry that gives the reply, or None for a miss and for a reply that was read from
      an archive.

    >>> reply = Reply(Kind.FRESH, 50, b"\\3www\\7example\\0", (bytes([192, 0, 2, 1]),), rtype=1)
    >>> reply.owner_text, reply.is_miss, reply.is_negative
    ('www.example.', False, False)
    """

    kind: Kind
    left: int = 0
    owner: bytes = b""
    data: tuple[bytes, ...] = ()
    retry_from: int = 0
    rtype: int = 0
    entry: StoredEntry | None = field(default=None, compare=False)

    @property
    def owner_text(self) -> str:
        """The owner as text; empty for a miss."""
        return to_text(self.owner) if self.owner else ""
