# SPDX-License-Identifier: MIT
"""The exceptions that calls raise. There is one for each error status of the C library."""
from __future__ import annotations

from enum import IntEnum
from typing import cast

from .replies import Counts, Swept


class Status(IntEnum):
    """The statuses that calls of the library return (include/rrcache_shelf.h). This package never
    raises NULL, SINK or OVERLAP."""

    DONE = 0
    NO_SHELF = 1
    HAS_SHELF = 2
    MEMORY = 3
    HISTORY_FULL = 4
    MOMENT_TOO_LARGE = 5
    BAD_RULES = 6
    BAD_SEED = 7
    BAD_LIMITS = 8
    BAD_NAME = 9
    BAD_MESSAGE = 10
    BAD_CHOICE = 11
    BAD_TYPE = 12
    BAD_DATA = 13
    WRONG_BODY = 14
    WIDE = 15
    SMALL = 16
    NULL = 17
    NO_OFFERS = 18
    HAS_OFFERS = 19
    OTHER_QUERY = 20
    NO_CHAPTERS = 21
    HAS_CHAPTERS = 22
    NO_LINE = 23
    SINK = 24
    OVERLAP = 25
    OTHER_SEED = 26
    NO_QUESTION = 27
    TOO_LARGE = 28


class Refused(Exception):
    """The base class of all exceptions for a failed call. The call left the contents and the
    history unchanged, except in two cases. A call that stores a message may have made some of its
    offers, which `counts` counts. A sweep may have made some of its steps, whose result is in
    `swept`. For all other calls, `counts` and `swept` are None.

    A library of a later minor version may return a status that this package does not know. In that
    case, `Refused` itself is raised, and `status` is a number."""

    status: Status
    reason: str = "no such status"

    def __init__(self, counts: Counts | None = None, swept: Swept | None = None) -> None:
        super().__init__(self.reason)
        self.counts, self.swept = counts, swept


class NoShelf(Refused):
    """The shelf or the cache is closed."""

    status, reason = Status.NO_SHELF, "the handle holds no shelf"


class HasShelf(Refused):
    """The handle already holds a shelf."""

    status, reason = Status.HAS_SHELF, "the handle already holds a shelf"


class Memory(Refused):
    """Memory allocation failed."""

    status, reason = Status.MEMORY, "out of memory"


class HistoryFull(Refused):
    """The event numbers or chapter numbers are used up: the next number would be 2^62."""

    status, reason = Status.HISTORY_FULL, "the event numbers are used up"


class MomentTooLarge(Refused):
    """The timestamp is above 2^40."""

    status, reason = Status.MOMENT_TOO_LARGE, "the timestamp is too large"


class BadRules(Refused):
    """One of these numbers is out of range: a capacity, a chapter size, a max-stale, a number of
    parts, shelves, readers, octets or keys, the number of a part or shelf, or a limit of a sweep or
    a trim."""

    status, reason = Status.BAD_RULES, "a number in the rules is out of range"


class BadSeed(Refused):
    """The seed does not have 16 octets, or all of them are 0."""

    status, reason = Status.BAD_SEED, "the seed is all zeros"


class BadLimits(Refused):
    """A field of `Limits` is out of range."""

    status, reason = Status.BAD_LIMITS, "a limit is out of range"


class BadName(Refused):
    """The octets are not the wire form of a name."""

    status, reason = Status.BAD_NAME, "the octets are not the wire form of a name"


class BadMessage(Refused):
    """The octets cannot be read as a response. The function `fault` returns the reason."""

    status, reason = Status.BAD_MESSAGE, "the octets cannot be read as a response"


class BadChoice(Refused):
    """No purpose, mode, kind, rank, section or RCODE has this number."""

    status = Status.BAD_CHOICE
    reason = "no purpose, mode, kind, rank, section or RCODE has this number"


class BadType(Refused):
    """In an offer: data of this type are not supported in this class. In a question: the class is
    not supported, or the type is 0."""

    status, reason = Status.BAD_TYPE, "this type or class is not supported"


class BadData(Refused):
    """The rdata do not fill the layout of their type."""

    status, reason = Status.BAD_DATA, "the rdata are malformed for their type"


class WrongBody(Refused):
    """The RRset to store has no data, or a TTL is above 2^31 - 1."""

    status, reason = Status.WRONG_BODY, "the RRset has no data, or its TTL is too large"


class Wide(Refused):
    """The rdata of a record in the reply have more than 65,535 octets."""

    status, reason = Status.WIDE, "the reply has too many octets of rdata"


class NoOffers(Refused):
    """The offers have been freed, or there is no offer with this number."""

    status, reason = Status.NO_OFFERS, "the handle holds no offers, or none with this number"


class HasOffers(Refused):
    """The handle already holds offers."""

    status, reason = Status.HAS_OFFERS, "the handle already holds offers"


class OtherQuery(Refused):
    """The octets do not have the identifier or the question of the query, or they are themselves a
    query."""

    status, reason = Status.OTHER_QUERY, "the octets do not answer the query"


class NoChapters(Refused):
    """The chapters have been freed."""

    status, reason = Status.NO_CHAPTERS, "the handle holds no chapters"


class HasChapters(Refused):
    """The handle already holds chapters. A dump raises this exception while histories are being
    recorded."""

    status, reason = Status.HAS_CHAPTERS, "the handle already holds chapters"


class NoLine(Refused):
    """There is no such chapter, or the chapter has no such line."""

    status, reason = Status.NO_LINE, "there is no such line"


class OtherSeed(Refused):
    """The name was made, or the message was read, under a seed other than that of the shelf."""

    status, reason = Status.OTHER_SEED, "the name or the message has a seed other than the shelf's"


class NoQuestion(Refused):
    """The response is a header without a question, from a server that could not or would not read
    the query. Its RCODE, the low four bits of its fourth octet, is FORMERR (1), NOTIMP (4) or
    REFUSED (5)."""

    status, reason = Status.NO_QUESTION, "the response has no question"


class TooLarge(Refused):
    """The data to store would use more memory than a shelf of the cache may use."""

    status = Status.TOO_LARGE
    reason = "the data would use more memory than a shelf may use"


BY_STATUS: dict[int, type[Refused]] = {it.status: it for it in Refused.__subclasses__()}


def refusal(status: int, counts: Counts | None = None, swept: Swept | None = None) -> Refused:
    """Returns the exception for a status."""
    fault = BY_STATUS.get(status, Refused)(counts, swept)
    if status not in BY_STATUS:
        fault.status = cast(Status, status)
    return fault
