# SPDX-License-Identifier: MIT
"""Makes messages for `read_response` from responses that a resolver parsed itself."""
from __future__ import annotations

import struct
from collections.abc import Iterable
from typing import NamedTuple

from .answers import AnswerSet
from .choices import Class
from .names import LABEL_MOST, NAME_MOST, to_wire
from .refusals import BadChoice, BadName, BadType, WrongBody
from .replies import Query

# The fields of a message (RFC 1035 section 4.1), and the first offset that no pointer can reach.
HEADER, QUESTION, RECORD, POINTER = map(struct.Struct, (">6H", ">2H", ">2HIH", ">H"))
POINTER_BIT, POINTERS_END = 0xC000, 0x4000
QR, AA, TC, RA = 0x8000, 0x0400, 0x0200, 0x0080
RCODES, MESSAGE_MOST = 16, 65_535


class ParsedSet(NamedTuple):
    """An RRset of a response that a resolver parsed itself. `data` are rdata without compressed
    names.

    >>> ParsedSet("www.example.", 1, ttl=60, data=[bytes([192, 0, 2, 1])]).rclass.name
    'IN'
    """

    owner: str | bytes
    rtype: int
    ttl: int
    data: Iterable[bytes]
    rclass: Class | int = Class.IN


def whole_name(name: str | bytes) -> bytes:
    """Returns the wire form of a name. Raises `BadName` if octets are not the wire form of a
    name."""
    wire, at = to_wire(name), 0
    while at < len(wire) and 0 < wire[at] <= LABEL_MOST:
        at += 1 + wire[at]
    if wire[at:] != b"\0" or len(wire) > NAME_MOST:
        raise BadName
    return wire


# The RRsets from which a message is made.
AnySet = ParsedSet | AnswerSet


def put_set(message: bytearray, asked: bytes, one: AnySet) -> int:
    """Appends the records of an RRset to a message, and returns their number."""
    owner, data = whole_name(one.owner), list(one.data)
    if not (one.rtype and one.rclass):
        raise BadType
    if not data:
        raise WrongBody
    place = HEADER.size if owner == asked else 0
    for datum in data:
        if 0 < place < POINTERS_END:
            message += POINTER.pack(POINTER_BIT | place)
        else:
            place = len(message)
            message += owner
        message += RECORD.pack(one.rtype, one.rclass, one.ttl, len(datum)) + datum
    return len(data)


def put_message(query: Query, flags: int, sections: Iterable[Iterable[AnySet]]) -> bytes:
    """Returns the message with these flags and sections."""
    asked = whole_name(query.name)
    if not (query.rtype and query.rclass):
        raise BadType
    message = bytearray(HEADER.size) + asked + QUESTION.pack(query.rtype, query.rclass)
    counts = [sum(put_set(message, asked, it) for it in section) for section in sections]
    if len(message) > MESSAGE_MOST:
        raise ValueError("the message has more than 65,535 octets")
    HEADER.pack_into(message, 0, query.id, flags, 1, *counts)
    return bytes(message)


def compose_response(query: Query, answer: Iterable[AnySet] = (),
                     authority: Iterable[AnySet] = (), additional: Iterable[AnySet] = (), *,
                     rcode: int = 0, aa: bool = False, tc: bool = False, ra: bool = False) -> bytes:
    """Makes a message from a response that a resolver parsed itself: from the RRsets of the three
    sections of the response, its RCODE, and three of its flags. Pass the message to `read_response`
    with the same query, like any other response.

    The caller first compares the response with its query (RFC 5452 section 9.1): QR, the opcode,
    the identifier and the question. The message has the identifier and question of the query, even
    if the response had others. If the records of an RRset have different TTLs, pass one set for
    each record.

    Raises `BadChoice` if the RCODE is above 15, `BadType` if a type or a class is 0, `BadName` if
    octets are not the wire form of a name, `WrongBody` if a set has no data, and `ValueError` if a
    number is too large for its field. Also raises `ValueError` if the message would have more than
    65,535 octets. The message may be too large even if the response was not, because only the
    owners are compressed in the message.

    >>> from rrcache import Parts, Query, read_response
    >>> query, parts = Query("www.example.", 1, id=0x1234), Parts(1, seed=bytes(range(16)))
    >>> answer = [ParsedSet("www.example.", 1, 60, [bytes([192, 0, 2, 1])])]
    >>> message = compose_response(query, answer, aa=True)
    >>> with read_response(message, "example.", query, parts, moment=1000) as offers:
    ...     [(reply.kind.name, reply.left, reply.data) for _, reply in offers]
    [('FRESH', 60, (b'\\xc0\\x00\\x02\\x01',))]
    """
    if not 0 <= rcode < RCODES:
        raise BadChoice
    # a flag may be a number, as `header & AA` is, of which no bit may get into another field
    flags = QR | (AA if aa else 0) | (TC if tc else 0) | (RA if ra else 0) | rcode
    try:
        return put_message(query, flags, (answer, authority, additional))
    except struct.error as fault:
        raise ValueError(f"a number is out of range: {fault}") from fault
