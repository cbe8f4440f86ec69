# SPDX-License-Identifier: MIT
"""DNS messages as octets (RFC 1035 section 4), for bin/fuzz, tests/ and bench/.

A name is given as a text (docs/FORMATS.md), whose last dot may be left out, or as octets, which
stay as they are, so that pointers can be given.
"""
import struct

from rrcache.names import labels_of, to_text, wire_of
from tools import messages

A, NS, CNAME, SOA, PTR, MINFO, TXT, OPT, RRSIG, ANY = 1, 2, 5, 6, 12, 14, 16, 41, 46, 255
IN = 1


def wire(name, end=b"\0"):
    """A name in wire form: its labels, and behind them the root or a pointer (section 3.1)."""
    if isinstance(name, bytes):
        return name
    return wire_of(labels_of(name.encode("latin-1")))[:-1] + end


def pointer(place):
    """A pointer to the name at a place of the message (section 4.1.4)."""
    return struct.pack(">H", 0xC000 + place)


def name_at(octets, at):
    """The text of the name at a place, without the last dot, and the place behind it."""
    name, behind = messages.name_at(octets, at, len(octets))
    return to_text(name)[:-1], behind


def question(name, rtype, rclass=IN):
    """A question (section 4.1.2)."""
    return wire(name) + struct.pack(">HH", rtype, rclass)


def record(owner, rtype, ttl, data, rclass=IN):
    """A resource record (section 4.1.3)."""
    return wire(owner) + struct.pack(">HHIH", rtype, rclass, ttl, len(data)) + data


def opt(size):
    """An OPT record of one who takes datagrams of so many octets (RFC 6891 section 6.1.2)."""
    return record(".", OPT, 0, b"", size)


def soa_data(server, mailbox, *numbers):
    """The data of a SOA record: serial, refresh, retry, expire, minimum (section 3.3.13)."""
    return wire(server) + wire(mailbox) + struct.pack(">5I", *numbers)


def header(number, flags, questions=0, answers=0, authorities=0, additionals=0):
    """A header; its flags are all of its second 16 bits (section 4.1.1)."""
    return struct.pack(">6H", number, flags, questions, answers, authorities, additionals)


def message(number, flags, question, answer=(), authority=(), additional=()):
    """A message with a question, or with none where that is empty, and the records of sections."""
    counts = [len(section) for section in (answer, authority, additional)]
    records = b"".join([*answer, *authority, *additional])
    return header(number, flags, 1 if question else 0, *counts) + question + records


def response(question, answer=(), authority=(), additional=(), rcode=0):
    """A response of an authority to a query of number 0x1234."""
    return message(0x1234, 0x8400 + rcode, question, answer, authority, additional)
