# SPDX-License-Identifier: MIT
"""Reads a message once for several shelves, and lists its offers."""
from __future__ import annotations

import itertools
from collections.abc import Iterator
from ctypes import c_uint64
from typing import Any, NamedTuple

from . import structs
from .asking import told_offer
from .choices import Kind, ResponseKind
from .library import Held, call, seed_of, sized, told
from .names import to_wire
from .parts import Name, Parts
from .refusals import NoOffers
from .replies import (BLOCK_OCTETS, ENTRY_OCTETS, INLINE_OCTETS, SHARED_OCTETS, VALUE_OCTETS,
                      Limits, Query, Reply)


class Summary(NamedTuple):
    """What a response says in addition to its offers: its kind; the RCODE of its header, without
    the upper bits that an OPT record may have; AA and TC; and `name`, which is the zone of a
    referral or the target of an alias, and otherwise None."""

    kind: ResponseKind
    rcode: int
    aa: bool
    tc: bool
    name: Name | None


def summary_of(said: structs.Summary, made: structs.Name) -> Summary:
    """Returns the summary that the library wrote, with the name, if the library made one."""
    return Summary(ResponseKind(said.kind), said.rcode, said.aa, said.tc,
                   Name(made) if made.size else None)


class Offers(Held):
    """The offers of a response from a zone's servers. `read_response` reads them once for all
    shelves, and `Shelf.offer_read` offers those of one part (shelf). One thread at a time may use
    the object. A `with` statement frees the object at its end. Later calls raise `NoOffers`.

    `concerned` lists the parts, counted from 0, that have offers. Iterating over the object returns
    each offer, in the order in which the message makes them, as a name and a reply. `part` of the
    name is the part to which the offer belongs. The reply is the one that the offer would give at
    the timestamp of the response, with the whole TTL remaining. An offer is returned even if no
    shelf will store it.
    """

    _kind, _freed_by = structs.Offers, "rrc_free_offers"

    def __init__(self) -> None:
        super().__init__()
        self.concerned: list[int] = []

    def __iter__(self) -> Iterator[tuple[Name, Reply]]:
        for index in itertools.count():
            offer = told_offer(self._handle, index)
            if offer is None and not self._handle.is_live:
                raise NoOffers
            if offer is None:
                return
            yield offer

    @property
    def summary(self) -> Summary:
        """What the response says in addition to its offers.

        >>> from rrcache import ParsedSet, compose_response
        >>> query, parts = Query("www.example.", 1, id=0x1234), Parts(1, seed=bytes(range(16)))
        >>> message = compose_response(query, [ParsedSet("www.example.", 5, 60, [b"\\1a\\0"])])
        >>> with read_response(message, "example.", query, parts, moment=1000) as offers:
        ...     offers.summary.kind.name, offers.summary.name
        ('ALIAS', Name('a.'))
        """
        made, said = structs.Name(), structs.Summary()
        call("rrc_tell_response", self._handle, made, said)
        return summary_of(said, made)

    def _read(self, export: str, count: int, *arguments: Any) -> Offers:
        """Reads the offers, for `count` parts."""
        bits = told(export, c_uint64, self._handle, *arguments)
        self.concerned = [part for part in range(count) if bits >> part & 1]
        return self


def room(octets: bytes) -> int:
    """Returns the number of octets of memory that a name or rdata use."""
    size = len(octets)
    return VALUE_OCTETS + (0 if size <= INLINE_OCTETS else BLOCK_OCTETS + size)


def octets_of(name: Name, reply: Reply) -> int:
    """Returns the number of octets of memory that an offer uses if the offer is stored under a new
    key. The arguments are those that iterating over `Offers` returns. An offer that uses more
    octets than the limit to which a shelf is trimmed would evict all other keys. A caller that
    limits memory leaves out such an offer, and passes the other offers to `Shelf.offer_one`.

    >>> from rrcache import make_name
    >>> name = make_name("www.example.", Parts(1, seed=bytes(range(16))))
    >>> octets_of(name, Reply(Kind.FRESH, 50, name.octets, (bytes([192, 0, 2, 1]),), rtype=1))
    320
    """
    octets = ENTRY_OCTETS + SHARED_OCTETS + room(name.octets)
    if reply.kind == Kind.FAILED:
        return octets
    if reply.owner != name.octets:
        octets += SHARED_OCTETS + room(reply.owner)
    several = VALUE_OCTETS + BLOCK_OCTETS if len(reply.data) > 1 else 0
    return octets + SHARED_OCTETS + sum(map(room, reply.data)) + several


def terms(moment: int, limits: Limits, line: int = 0, parts: Parts | None = None, part: int = 0,
          query: Query | None = None, lowest_ttl: bool = False,
          clears_denied: bool = False) -> structs.ResponseTerms:
    """Returns a `struct rrc_response`: the arguments of a call other than the octets of a
    response."""
    count, seed = parts or (0, bytes(structs.SEED_OCTETS))
    asked = (query.id, query.rtype, query.rclass, query.with_case) if query else (0, 0, 0, 0)
    return structs.fill(structs.ResponseTerms(), moment, line, count, seed_of(seed), part, *limits,
                        *asked, lowest_ttl, clears_denied)


def read_response(message: bytes, zone: str | bytes, query: Query, parts: Parts, moment: int,
                  limits: Limits = Limits(), *, lowest_ttl: bool = False,
                  clears_denied: bool = False) -> Offers:
    """Reads the response of a zone's server to a query, once for all `parts`, and returns the
    offers that are relevant to the query. The caller must check the address and port that the
    response came from.

    With `lowest_ttl`, an RRset with different TTLs is offered with the lowest of them even if AA is
    clear. Without `lowest_ttl`, such an RRset is left out if AA is clear (RFC 2181 section 5.2).
    With `clears_denied`, an authoritative NXDOMAIN clears the data of the denied name for the types
    A, AAAA and CNAME and for the type of the question.

    Raises `OtherQuery` if the octets have another identifier or question, regardless of the octets
    after the question: the caller then drops the response and keeps waiting. Raises `BadMessage`
    only if the octets answer the query but cannot be read, and `NoQuestion` if the response is a
    header without a question.

    >>> import os
    >>> message = bytes([0x12, 0x34, 0x84, 0, 0, 1, 0, 0, 0, 0, 0, 0])
    >>> message += b"\\3www\\7example\\0\\0\\1\\0\\1"
    >>> query, parts = Query("www.example.", 1, id=0x1234), Parts(16, seed=os.urandom(16))
    >>> with read_response(message, "example.", query, parts, moment=1000) as offers:
    ...     offers.concerned, list(offers), offers.summary.kind.name
    ([], [], 'NODATA')
    """
    return Offers()._read("rrc_read_response", parts.count, *sized(message), *sized(to_wire(zone)),
                          *sized(to_wire(query.name)),
                          terms(moment, limits, 0, parts, 0, query, lowest_ttl, clears_denied))


def read_message_unchecked(message: bytes, zone: str | bytes, parts: Parts, moment: int,
                           limits: Limits = Limits()) -> Offers:
    """Reads a response, and returns the offers of all its data that are in bailiwick. Unlike
    `read_response`, this function does not compare the response with a query. The caller must do so
    first.

    >>> from rrcache import ParsedSet, compose_response
    >>> query, parts = Query("www.example.", 1, id=0), Parts(1, seed=bytes(range(16)))
    >>> message = compose_response(query, [ParsedSet("other.example.", 1, 60, [bytes(4)])])
    >>> with read_message_unchecked(message, "example.", parts, moment=1000) as offers:
    ...     [name for name, _ in offers]
    [Name('other.example.')]
    """
    return Offers()._read("rrc_read_message_unchecked", parts.count, *sized(message),
                          *sized(to_wire(zone)), terms(moment, limits, 0, parts))
