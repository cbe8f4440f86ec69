# SPDX-License-Identifier: MIT
"""The answers of a `SharedCache`, and the look-ups that return them."""
from __future__ import annotations

import functools
import struct
from collections.abc import Iterator
from ctypes import addressof, c_void_p, create_string_buffer
from dataclasses import dataclass
from typing import Any, NamedTuple

from . import structs
from .asking import KINDS, data_of, entry_of, new
from .choices import Class, Kind
from .handles import refused
from .library import library
from .names import NAME_MOST, to_text, to_wire
from .parts import NAMES_MOST, OCTETS_AT, AnyName, Name
from .refusals import Status
from .replies import OfKind, StoredEntry
from .reuse import reused

# A buffer of this size has room for every answer except those that rrcache.h describes at
# RRCACHE_ANSWER_OCTETS.
ANSWER_OCTETS = 65_536
CLASSES = {int(it): it for it in Class}
# Makes a named tuple from all its fields at once, which is faster than its own constructor.
new_tuple = tuple.__new__
REQUEST, ANSWER, RRSET = map(structs.packer, (structs.Request, structs.Answer, structs.Rrset))


class AnswerSet(NamedTuple):
    """An RRset of an answer: its owner in wire form, as it was received; its type; its remaining
    TTL in seconds; its rdata; and its class. The class is a plain number if it is not a `Class`,
    which is possible only in an answer of `SharedCache.store`.

    - `kind`: FRESH or STALE or, for the SOA record of a negative answer (`is_negative`), NODATA or
      NXDOMAIN. This SOA record belongs in the authority section of a message.
    - `entry`: the entry that the RRset comes from, with the rank, the TTL and the timestamp with
      which the entry was stored. In the answer that `SharedCache.store` returns, `number` and `age`
      are 0.

    `compose_response` accepts an `AnswerSet` like a `ParsedSet`.

    >>> from rrcache import SharedCache
    >>> with SharedCache() as cache:
    ...     _ = cache.store_set("www.example.", 1, 4, 60, [bytes([192, 0, 2, 1])], moment=1000)
    ...     [rrset] = cache.lookup("www.example.", 1, moment=1010)
    >>> rrset.owner_text, rrset.ttl, rrset.data[0].hex(), rrset.kind.name, rrset.is_negative
    ('www.example.', 50, 'c0000201', 'FRESH', False)
    >>> rrset.entry.ttl, rrset.entry.moment, rrset.entry.trust.name
    (60, 1000, 'AUTHORITATIVE_ANSWER')
    """

    owner: bytes
    rtype: int
    ttl: int
    data: tuple[bytes, ...]
    rclass: Class | int
    kind: Kind
    entry: StoredEntry

    @property
    def owner_text(self) -> str:
        """The owner as text."""
        return to_text(self.owner)

    @property
    def is_negative(self) -> bool:
        """Whether the RRset is the SOA record of a negative answer (RFC 2308)."""
        return self.kind in (Kind.NODATA, Kind.NXDOMAIN)


@dataclass(frozen=True)
class Answer(OfKind):
    """The answer to a question. Iterating over an answer iterates over its RRsets.

    - `kind`: the kind of the reply for the name at the end of the CNAME chain.
    - `rrsets`: the RRsets. The first ones are the CNAME RRsets of the chain.
    - `aliases`: the number of CNAME RRsets that lead to `end`.
    - `is_stale`: whether at least one of the RRsets is stale.
    - `is_endless`: whether the CNAME chain is a loop or has more than 16 records. `kind` is then
      MISS, and a query to a server will not help.
    - `retry_from`: for FAILED, the timestamp from which to try again; otherwise 0.
    - `end`: the name at the end of the CNAME chain, in wire form and lower case. For MISS, this is
      the name to query for. For a delegation, it is the zone.

    >>> from rrcache import SharedCache
    >>> with SharedCache() as cache:
    ...     _ = cache.store_set("www.example.", 5, 4, 60, [to_wire("a.example.")])
    ...     answer = cache.lookup("www.example.", 1)
    >>> answer.kind.name, answer.aliases, answer.end_text, [it.rtype for it in answer]
    ('MISS', 1, 'a.example.', [5])
    """

    kind: Kind
    rrsets: tuple[AnswerSet, ...]
    aliases: int
    is_stale: bool
    is_endless: bool
    retry_from: int
    end: bytes

    def __iter__(self) -> Iterator[AnswerSet]:
        return iter(self.rrsets)

    @property
    def end_text(self) -> str:
        """The name at the end of the CNAME chain, as text."""
        return to_text(self.end)


# ---- The addresses of names in memory.

@functools.lru_cache(NAMES_MOST)
def place_of_wire(name: str | bytes) -> tuple[int, int, Any]:
    """Returns the address of a name's wire form, its size, and the object that owns the memory.
    Recent results are cached."""
    wire = to_wire(name)
    octets = create_string_buffer(wire, len(wire))
    return addressof(octets), len(wire), octets


def place_of(name: AnyName) -> tuple[int, int, Any]:
    """Returns the same as `place_of_wire`, for a name in any form."""
    if isinstance(name, Name):
        return addressof(name._made) + OCTETS_AT, name._made.size, name
    if isinstance(name, bytes) and len(name) > NAME_MOST:
        return place_of_wire.__wrapped__(name)  # not cached: the library refuses it
    return place_of_wire(name)


# ---- Answers that the library writes.

class Work:
    """The arguments of one call that fills an answer, with a buffer of `room` octets."""

    __slots__ = ("request", "answer", "buffer", "following")

    def __init__(self, room: int = ANSWER_OCTETS, request: structs.Request | None = None) -> None:
        self.request, self.following = request or structs.Request(), library().rrcache_next
        self.buffer: Any = create_string_buffer(room)
        self.answer = structs.Answer(addressof(self.buffer), room)


taken, put_back = reused(Work)


def rrsets_in(work: Work, begin: int, size: int) -> tuple[AnswerSet, ...]:
    """Returns the RRsets of an answer, which uses `size` octets of its buffer, starting at the
    address `begin`."""
    following, answer, rrset = work.following, work.answer, structs.Rrset()
    found, end = [], 0
    while end < size:
        following(answer, rrset)
        (owner, owner_size, rtype, rclass, left, _, data, data_size, kind, _, stored, trust, ttl,
         moment, number, age, end) = RRSET.unpack_from(rrset)
        octets = work.buffer[owner - begin:data - begin + data_size]
        entry = entry_of(stored, trust, ttl, moment, number, age)
        found.append(new_tuple(AnswerSet, (octets[:owner_size], rtype, left,
                                           data_of(octets, data - owner),
                                           CLASSES.get(rclass, rclass), KINDS[kind], entry)))
    return tuple(found)


def answer_of(work: Work) -> Answer:
    """Returns the answer that the library wrote, and makes `work` available to the next call."""
    (begin, room, used, kind, aliases, is_stale, is_endless, _, retry_from, _, _, _, size,
     end) = ANSWER.unpack_from(work.answer)
    answer = new(Answer)
    fields = answer.__dict__
    fields["kind"], fields["rrsets"] = KINDS[kind], rrsets_in(work, begin, used)
    fields["aliases"], fields["is_stale"] = aliases, is_stale
    fields["is_endless"], fields["retry_from"] = is_endless, retry_from
    fields["end"] = end[:size]
    if room == ANSWER_OCTETS:
        put_back(work)
    return answer


def looked_up(look: Any, cache: c_void_p, name: AnyName, rtype: int, rclass: int, moment: int,
              mode: int, takes_glue: bool, with_dnames: bool) -> Answer:
    """Makes a look-up call of the library, and returns the answer. If the buffer is too small,
    which is possible if the caller stored large RRsets, repeats the call with a larger buffer."""
    place, work = place_of(name), taken()
    try:
        REQUEST.pack_into(work.request, 0, place[0], place[1], rtype, rclass, moment, mode,
                          takes_glue)
    except struct.error as fault:
        raise structs.out_of_range(fault) from fault
    work.answer.with_dnames = with_dnames
    while status := look(cache, work.request, work.answer):
        if status != Status.SMALL:
            raise refused(status)
        work = Work(2 * work.answer.room, work.request)
        work.answer.with_dnames = with_dnames
    return answer_of(work)
