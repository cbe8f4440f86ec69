# SPDX-License-Identifier: MIT
"""The enumerations of the cache, with the numbers of the C library."""
from enum import IntEnum


class Class(IntEnum):
    """The classes whose data are kept (RFC 1035 section 3.2.4)."""

    IN = 1
    CH = 3
    HS = 4


class Purpose(IntEnum):
    """The purpose of an answer (RFC 2181 section 5.4.1). ANYTHING: additional data, such as glue,
    are acceptable. QUESTION: the answer is for a client's question, which additional data must not
    answer."""

    ANYTHING = 1
    QUESTION = 2


class Mode(IntEnum):
    """When a stale answer is acceptable (RFC 8767 section 5). NO_STALE: never. STALE_IF_FAILED:
    only after a recent failure, so that a miss would be FAILED. STALE_NOW: with or without a
    failure."""

    NO_STALE = 1
    STALE_IF_FAILED = 2
    STALE_NOW = 3


class Trust(IntEnum):
    """The rank of data (RFC 2181 section 5.4.1), from low to high."""

    ADDITIONAL = 1
    NON_AUTHORITATIVE_ANSWER = 2
    AUTHORITY = 3
    AUTHORITATIVE_ANSWER = 4


class Outcome(IntEnum):
    """The outcome of an offer. KEPT: the data were stored. CLEARED: the TTL was 0, and the key now
    holds nothing. OUTRANKED: the key holds data of higher rank, so nothing was stored."""

    KEPT = 1
    CLEARED = 2
    OUTRANKED = 3


class Kind(IntEnum):
    """The kind of a reply or of a stored entry. FRESH and STALE mean an unexpired and an expired
    RRset; the entry of an RRset is always FRESH. NODATA means that the name has no data of the type
    (RFC 2308 section 2.2), and NXDOMAIN that the name does not exist (section 2.1). MISS means that
    no entry may answer. FAILED means the same, and that there is a recent failure: this failure is
    unexpired, and was stored later than all other entries for the question. A resolver then answers
    SERVFAIL (RFC 9520)."""

    FRESH = 1
    STALE = 2
    NODATA = 3
    NXDOMAIN = 4
    MISS = 5
    FAILED = 6


class ResponseKind(IntEnum):
    """What a response from the servers of a zone means for its question (RFC 1034 section 5.3.3).

    - ANSWER: the response has data of the type.
    - UNEQUAL_TTLS: the response has data of the type, but these data are left out, because their
      TTLs differ and AA is clear.
    - NODATA: the name has no data of the type (RFC 2308 section 2.2).
    - NXDOMAIN: the name does not exist (RFC 2308 section 2.1).
    - REFERRAL: the response names the servers of a zone that is below the zone whose servers were
      asked, and that contains the name.
    - ALIAS: a CNAME chain leads to a name that is out of bailiwick, or for which the response has
      no data.
    - FAILURE: the RCODE is neither NOERROR nor NXDOMAIN.
    - UNUSABLE: none of these, such as a response with TC set.
    """

    ANSWER = 1
    UNEQUAL_TTLS = 2
    NODATA = 3
    NXDOMAIN = 4
    REFERRAL = 5
    ALIAS = 6
    FAILURE = 7
    UNUSABLE = 8


class MessageFault(IntEnum):
    """Why octets cannot be read as a response.

    - NO_FAULT, which is false: the octets can be read.
    - SHORT: the message ends too soon.
    - RESERVED_BITS: a length octet of a name has reserved bits.
    - POINTER: a compression pointer does not lead to an earlier offset.
    - LONG_NAME: a name has more than 255 octets.
    - LAYOUT: rdata do not fill the layout of their type exactly.
    - NO_RESPONSE: QR is clear.
    - NOT_ONE_QUESTION: there is not exactly one question.
    - LONG_MESSAGE: there are more than 65,535 octets.
    """

    NO_FAULT = 0
    SHORT = 1
    RESERVED_BITS = 2
    POINTER = 3
    LONG_NAME = 4
    LAYOUT = 5
    NO_RESPONSE = 6
    NOT_ONE_QUESTION = 7
    LONG_MESSAGE = 8
