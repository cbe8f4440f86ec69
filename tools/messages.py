# SPDX-License-Identifier: MIT
"""What a response says and what it offers to a cache (docs/RULES.md), read strictly.

This is apart from the program, and from wire.py, which makes messages. Names are octets in wire
form, without pointers. If there are several faults, the first in the order of reading is raised.
"""
import struct
from typing import NamedTuple

from tools.model import CAP, NEGATIVE_CAP, Key, failure, negative, positive
from tools.names import WIRE_MOST, fold, is_at_or_below

SHORT, RESERVED_LABEL, BAD_POINTER, NAME_TOO_LONG, BAD_DATA = 1, 2, 3, 4, 5
NOT_RESPONSE, NOT_ONE_QUESTION, TOO_LONG = 6, 7, 8
FAULTS = {
    SHORT: "the message ends too early",
    RESERVED_LABEL: "a label's length has reserved bits",
    BAD_POINTER: "a pointer in a name does not lead backwards",
    NAME_TOO_LONG: "a name has more than 255 octets",
    BAD_DATA: "the data of a record do not fill the layout of its type",
    NOT_RESPONSE: "it is a query and no response",
    NOT_ONE_QUESTION: "it has not one question",
    TOO_LONG: "it has more than 65,535 octets",
}
MESSAGE_LEAST, MESSAGE_MOST = 12, 65_535
IN, CH, HS = 1, 3, 4
A, NS, CNAME, SOA, RRSIG, NSEC, ANY = 1, 2, 5, 6, 46, 47, 255
NOERROR, NXDOMAIN = 0, 3
ALIASES_MOST = 16
# A look-up for one of these types follows no alias, since an alias may have records of these types
# itself (RFC 1034 section 4.3.2, RFC 4035 section 2.5).
NOT_FOLLOWED = (CNAME, ANY, NSEC, RRSIG)
KEPT_CLASSES = {IN, CH, HS}
NOT_KEPT = {0, 24, 30, 35, 41, 46, *range(128, 256)}
# Fixed octets, names, fixed octets of the data of a type.
LAYOUTS = {
    **dict.fromkeys((2, 3, 4, 5, 7, 8, 9, 12), (0, 1, 0)),
    6: (0, 2, 20), 14: (0, 2, 0), 17: (0, 2, 0),
    **dict.fromkeys((15, 18, 21), (2, 1, 0)),
    26: (2, 2, 0), 33: (6, 1, 0),
}
LEFT_OUT = None


class MessageFault(ValueError):
    """What is wrong with a message, by its number."""

    def __init__(self, number):
        super().__init__(FAULTS[number])
        self.number = number


class Record(NamedTuple):
    """A kept record. `folded` is its data with the letters of its layout's names lowered."""

    owner: bytes
    rtype: int
    rclass: int
    ttl: int
    data: bytes
    folded: bytes


class Message(NamedTuple):
    """A response: its flags, its question, and the kept records of its three sections."""

    flags: int
    name: bytes
    rtype: int
    rclass: int
    sections: tuple

    @property
    def is_authoritative(self):
        return bool(self.flags & 0x0400)

    @property
    def is_truncated(self):
        return bool(self.flags & 0x0200)

    @property
    def opcode(self):
        return self.flags >> 11 & 15

    @property
    def rcode(self):
        return self.flags & 15


def is_kept(rtype, rclass=IN):
    """Whether records of a type are kept in a class; the data of A hold a name in CH."""
    return rtype not in NOT_KEPT and rclass in KEPT_CLASSES and (rtype, rclass) != (A, CH)


# ---- reading


def name_at(octets, at, end, past=SHORT, tails=None):
    """The name at a place, whose first run ends before `end`, and the place behind that run.

    What passes `end` in the first run is the fault `past`; what passes the message's end behind a
    pointer is Short (RFC 1035 section 4.1.4). `tails` keeps, of one message, what pointers led to,
    by their targets: thousands of its names may lead through one chain of thousands of pointers."""
    labels, size, start, behind, led = [], 1, at, None, []
    tails = {} if tails is None else tails
    while True:
        if at >= end:
            raise MessageFault(past)
        length = octets[at]
        if length >= 192:
            if at + 2 > end:
                raise MessageFault(past)
            target = (length & 63) << 8 | octets[at + 1]
            if target >= start:
                raise MessageFault(BAD_POINTER)
            behind = behind or at + 2
            at = start = target
            end, past = len(octets), SHORT
            if target in tails:
                labels.append(tails[target])
                if size - 1 + len(tails[target]) > WIRE_MOST:
                    raise MessageFault(NAME_TOO_LONG)
                break
            led.append((target, len(labels)))
            continue
        if length >= 64:
            raise MessageFault(RESERVED_LABEL)
        if not length:
            labels.append(b"\0")
            break
        size += 1 + length
        if size > WIRE_MOST:
            raise MessageFault(NAME_TOO_LONG)
        if at + 1 + length > end:
            raise MessageFault(past)
        labels.append(octets[at:at + 1 + length])
        at += 1 + length
    tails.update((target, b"".join(labels[count:])) for target, count in led)
    return b"".join(labels), behind or at + 1


HEADER, QUESTION, RECORD = map(struct.Struct, (">6H", ">2H", ">HHIH"))


def fields_at(octets, at, form):
    """The fields at a place, and the place behind them."""
    behind = at + form.size
    if behind > len(octets):
        raise MessageFault(SHORT)
    return form.unpack_from(octets, at), behind


def data_at(octets, at, end, rtype, tails=None):
    """The data of a record, names expanded, and the same with the letters of the names lowered."""
    if rtype not in LAYOUTS:
        return (octets[at:end],) * 2
    before, names, after = LAYOUTS[rtype]
    if at + before > end:
        raise MessageFault(BAD_DATA)
    data = folded = octets[at:at + before]
    at += before
    for _ in range(names):
        name, at = name_at(octets, at, end, BAD_DATA, tails)
        data, folded = data + name, folded + fold(name)
    if at + after != end:
        raise MessageFault(BAD_DATA)
    return data + octets[at:end], folded + octets[at:end]


def record_at(octets, at, tails=None):
    """The record at a place, LEFT_OUT if it is not kept, and the place behind it."""
    owner, at = name_at(octets, at, len(octets), tails=tails)
    (rtype, rclass, ttl, size), at = fields_at(octets, at, RECORD)
    end = at + size
    if end > len(octets):
        raise MessageFault(SHORT)
    if not is_kept(rtype, rclass):
        return LEFT_OUT, end
    return Record(owner, rtype, rclass, ttl, *data_at(octets, at, end, rtype, tails)), end


def read(octets):
    """The response that octets are; MessageFault where they are none."""
    if len(octets) > MESSAGE_MOST:
        raise MessageFault(TOO_LONG)
    (_, flags, questions, *counts), at = fields_at(octets, 0, HEADER)
    if not flags & 0x8000:
        raise MessageFault(NOT_RESPONSE)
    if questions != 1:
        raise MessageFault(NOT_ONE_QUESTION)
    tails = {}
    name, at = name_at(octets, at, len(octets), tails=tails)
    (rtype, rclass), at = fields_at(octets, at, QUESTION)
    sections = []
    for count in counts:
        records = []
        for _ in range(count):
            record, at = record_at(octets, at, tails)
            if record is not LEFT_OUT:
                records.append(record)
        sections.append(tuple(records))
    return Message(flags, name, rtype, rclass, tuple(sections))


def plain_item(rtype, data):
    """The data with the letters of its names lowered, or None where it does not fill the layout of
    its type with whole names and no pointer."""
    if rtype not in LAYOUTS:
        return data
    try:
        whole, folded = data_at(data, 0, len(data), rtype)
    except MessageFault:
        return None
    return folded if whole == data else None


# ---- what a response offers


def rank_of(message, section, owner):
    """The rank of a set by the place where it stood (RFC 2181 section 5.4.1)."""
    if section == 0:
        return 4 if message.is_authoritative and fold(owner) == fold(message.name) else 2
    return 3 if section == 1 and message.is_authoritative else 1


def sets_of(records):
    """The records of a section by owner and type, in the order of first records (RFC 2181 5)."""
    sets = {}
    for record in records:
        sets.setdefault((fold(record.owner), record.rtype), []).append(record)
    return sets.items()


def set_offer(message, section, key, records, at):
    """The offer of one set, or None where it has no time to live (RFC 2181 section 5.2)."""
    if len({it.ttl for it in records}) > 1 and not message.is_authoritative:
        return None
    once = {}
    for record in records:
        once.setdefault(record.folded, record.data)
    owner = records[0].owner
    life = min(min(it.ttl for it in records), CAP)
    rank = rank_of(message, section, owner)
    return positive(owner, key[1], once.values(), rank, life, at, message.rclass)


def final_name(message):
    """Where the aliases of the answer lead, and whether one was followed; None where there are more
    than 16 (RFC 2308 section 2.1)."""
    name, answer = fold(message.name), message.sections[0]
    if message.rtype in (CNAME, ANY):
        return name, False
    targets = {}
    for record in answer:
        if record.rtype == CNAME:
            targets.setdefault(fold(record.owner), record.folded)
    for followed in range(ALIASES_MOST + 1):
        if name not in targets:
            return name, followed > 0
        name = targets[name]
    return None


def negative_offer(message, zone, at):
    """The negative answer that a response gives, or None (RFC 2308 sections 2 and 5)."""
    led = final_name(message)
    if led is None:
        return None
    name, followed = led
    soa = next((it for it in message.sections[1] if it.rtype == SOA
                and is_at_or_below(it.owner, zone) and is_at_or_below(name, it.owner)), None)
    if soa is None:
        return None
    there = {it.rtype for it in message.sections[0] if fold(it.owner) == name}
    if message.rcode == NXDOMAIN:
        key = None if there else Key(name, "nx", 0, message.rclass)
    else:
        is_there = message.rtype in there or not is_kept(message.rtype, message.rclass)
        key = None if is_there else Key(name, "set", message.rtype, message.rclass)
    if key is None:
        return None
    life = min(soa.ttl, int.from_bytes(soa.data[-4:], "big"), NEGATIVE_CAP)
    rank = 4 if message.is_authoritative and not followed else 2
    return negative(key, soa.owner, soa.data, rank, life, at)


def in_own_class(message):
    """The message without its records of other classes than its question's."""
    sections = [tuple(it for it in records if it.rclass == message.rclass)
                for records in message.sections]
    return message._replace(sections=tuple(sections))


def offers_of(message, zone, at):
    """What a response that was read offers for a zone at a moment, in order."""
    if why_nothing(message, zone):
        return []
    if message.rcode not in (NOERROR, NXDOMAIN):
        told = fold(message.name), message.rtype, at, message.rclass
        return [failure(*told)] if is_kept(message.rtype, message.rclass) else []
    message = in_own_class(message)
    found = []
    for section, records in enumerate(message.sections):
        for key, records_of_key in sets_of(records):
            if is_at_or_below(key[0], zone):
                found.append(set_offer(message, section, key, records_of_key, at))
    found.append(negative_offer(message, zone, at))
    return [it for it in found if it is not None]


def why_nothing(message, zone):
    """In words why a response that was read makes no offer at all, or None where it may."""
    if message.is_truncated:
        return "it is truncated (RFC 2181 section 9)"
    if message.opcode:
        return "its opcode is not that of a standard query"
    if message.rclass not in KEPT_CLASSES:
        return "its question is of a class that is not kept (RFC 1035 section 3.2.4)"
    if not is_at_or_below(message.name, zone):
        return "its question is not at or below the zone"
    return None
