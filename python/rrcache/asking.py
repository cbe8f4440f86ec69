# SPDX-License-Identifier: MIT
"""Look-ups in a shelf: the arguments of the calls, and their results as Python objects."""
from __future__ import annotations

import itertools
import struct
from ctypes import create_string_buffer, sizeof
from typing import Any

from . import structs
from .choices import Kind, Trust
from .library import library
from .parts import Name
from .refusals import Status, refusal
from .replies import Reply, Stored, StoredEntry
from .reuse import reused

# A buffer of this size has room for a reply with data that `read_response` read (rrcache_shelf.h).
ROOM = 28_551
KINDS = {int(it): it for it in Kind}
TRUSTS = {int(it): it for it in Trust}
QUESTION, TOLD, ENTRY = map(structs.packer, (structs.Question, structs.Told, structs.Entry))


class Work:
    """The arguments of one look-up, other than the shelf and the name."""

    __slots__ = ("question", "told", "stored", "buffer")

    def __init__(self) -> None:
        self.question, self.told = structs.Question(), structs.Told()
        self.stored = structs.Stored()
        self.buffer: Any = create_string_buffer(ROOM)


taken, put_back = reused(Work)


def data_of(octets: bytes, at: int) -> tuple[bytes, ...]:
    """Returns the rdata in `octets`, starting at the offset `at`. Two octets of length precede each
    rdata."""
    data, end = [], len(octets)
    while at < end:
        behind = at + 2 + (octets[at] << 8 | octets[at + 1])
        data.append(octets[at + 2:behind])
        at = behind
    return tuple(data)


# Makes an empty object of a frozen dataclass, whose fields are then set in its dictionary. The
# constructor of such a class calls a function for each field, and takes three times as long.
new = object.__new__


def entry_of(kind: int, trust: int, ttl: int, moment: int, number: int,
             age: int) -> StoredEntry | None:
    """Returns an entry made from its numbers, or None if nothing is stored."""
    if not kind:
        return None
    entry = new(StoredEntry)
    fields = entry.__dict__
    fields["kind"], fields["trust"], fields["ttl"] = KINDS[kind], TRUSTS.get(trust), ttl
    fields["moment"], fields["number"], fields["age"] = moment, number, age
    return entry


def reply_of(told: structs.Told, buffer: Any) -> Reply:
    """Returns the reply that a call wrote to `told` and to the buffer."""
    (kind, rtype, left, retry_from, owner_size, data_size, stored, trust, ttl, moment, number,
     age) = TOLD.unpack_from(told)
    octets = buffer[:owner_size + data_size]
    reply = new(Reply)
    fields = reply.__dict__
    fields["kind"], fields["left"] = KINDS[kind], left
    fields["owner"], fields["data"] = octets[:owner_size], data_of(octets, owner_size)
    fields["retry_from"], fields["rtype"] = retry_from, rtype
    fields["entry"] = entry_of(stored, trust, ttl, moment, number, age)
    return reply


def room_for(told: structs.Told) -> Any:
    """Returns a buffer that is large enough for the reply in `told`."""
    return create_string_buffer(told.owner_size + told.data_size)


def told_offer(handle: structs.Offers, index: int) -> tuple[Name, Reply] | None:
    """Returns the name of the offer with this number, and the reply that the offer gives. Returns
    None if there is no such offer."""
    work, made = taken(), structs.Name()
    try:
        tell, buffer = library().rrc_tell_offer, work.buffer
        while status := tell(handle, index, made, work.told, buffer, sizeof(buffer)):
            if status == Status.NO_OFFERS:
                return None
            if status != Status.SMALL:
                raise refusal(status)
            buffer = room_for(work.told)
        return Name(made), reply_of(work.told, buffer)
    finally:
        put_back(work)


def answered(export: str, handle: structs.Shelf, name: Name, moment: int, line: int, rtype: int,
             rclass: int, purpose: int, mode: int) -> Reply:
    """Makes a look-up call, and returns its reply. If the buffer is too small, the library has
    written no event, and the call is repeated with a larger buffer."""
    work = taken()
    try:
        QUESTION.pack_into(work.question, 0, moment, line, rtype, rclass, purpose, mode)
        ask, told, buffer, room = getattr(library(), export), work.told, work.buffer, ROOM
        while status := ask(handle, name._made, work.question, told, buffer, room):
            if status != Status.SMALL:
                raise refusal(status)
            buffer = room_for(told)
            room = sizeof(buffer)
        return reply_of(told, buffer)
    except struct.error as fault:
        raise structs.out_of_range(fault) from fault
    finally:
        put_back(work)


def stored_under(handle: structs.Shelf, name: Name, rtype: int, rclass: int) -> Stored:
    """Returns the three entries of a name, a class and a type."""
    work = taken()
    try:
        QUESTION.pack_into(work.question, 0, 0, 0, rtype, rclass, 0, 0)
        if status := library().rrc_stored(handle, name._made, work.question, work.stored):
            raise refusal(status)
        return Stored(*itertools.starmap(entry_of, ENTRY.iter_unpack(work.stored)))
    except struct.error as fault:
        raise structs.out_of_range(fault) from fault
    finally:
        put_back(work)
