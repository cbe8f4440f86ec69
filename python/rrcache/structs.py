# SPDX-License-Identifier: MIT
"""The structs of include/rrcache_shelf.h and include/rrcache.h for ctypes, with the same fields in
the same order. For example, `struct rrcache_told` is `Told` here, and `struct rrc_set` is
`SetTerms`."""
from __future__ import annotations

import functools
import struct
from ctypes import (Array, Structure, c_bool, c_size_t, c_uint8, c_uint16, c_uint32, c_uint64,
                    c_void_p, sizeof)
from typing import Any, TypeVar

SEED_OCTETS = 16
Seed = c_uint8 * SEED_OCTETS


class Shelf(Structure):
    """A handle of a shelf: zeros until `rrc_make` makes the shelf."""

    _fields_ = [("at", c_void_p), ("is_live", c_bool), ("seed", c_uint64 * 2)]


class Offers(Structure):
    """A handle of the offers of a message."""

    _fields_ = [("at", c_void_p), ("is_live", c_bool)]


class Chapters(Structure):
    """A handle of chapters that were taken from a shelf."""

    _fields_ = [("at", c_void_p), ("is_live", c_bool)]


class Name(Structure):
    """A name that was folded and hashed."""

    _fields_ = [("hash", c_uint64), ("part", c_uint64), ("seed", Seed), ("size", c_uint8),
                ("octets", c_uint8 * 255)]


class Parts(Structure):
    """How names are divided among shelves."""

    _fields_ = [("count", c_uint64), ("seed", Seed)]


class Rules(Structure):
    """The rules of a shelf."""

    _fields_ = [("capacity", c_uint64), ("chapter", c_uint64), ("max_stale", c_uint64),
                ("seed", Seed)]


class Question(Structure):
    """What to ask about a name, and which answers are acceptable."""

    _fields_ = [("moment", c_uint64), ("line", c_uint64), ("rtype", c_uint16), ("rclass", c_uint16),
                ("purpose", c_uint32), ("mode", c_uint32)]


class Entry(Structure):
    """The entry of a key."""

    _fields_ = [("kind", c_uint32), ("trust", c_uint32), ("ttl", c_uint32), ("moment", c_uint64),
                ("number", c_uint64), ("age", c_uint64)]


class Told(Structure):
    """A reply."""

    _fields_ = [("kind", c_uint32), ("rtype", c_uint32), ("left", c_uint32),
                ("retry_from", c_uint64), ("owner_size", c_uint64), ("data_size", c_uint64),
                ("entry", Entry)]


class Stored(Structure):
    """The entries of a name, a class and a type."""

    _fields_ = [("set", Entry), ("nxdomain", Entry), ("failure", Entry)]


class Counts(Structure):
    """The number of offers of a message with each outcome."""

    _fields_ = [("kept", c_uint64), ("cleared", c_uint64), ("outranked", c_uint64)]


class Limits(Structure):
    """The limits on how long data of a response may be cached."""

    _fields_ = [("cap", c_uint32), ("negative_cap", c_uint32), ("recheck", c_uint32)]


class SweepAt(Structure):
    """When to sweep a shelf, and the limit of one call."""

    _fields_ = [("moment", c_uint64), ("line", c_uint64), ("most", c_uint64)]


class Swept(Structure):
    """The result of a sweep in steps."""

    _fields_ = [("removed", c_uint64), ("is_done", c_uint32)]


class TrimTo(Structure):
    """The number of octets to which a shelf is trimmed, the timestamp, and the maximum number of
    keys to remove."""

    _fields_ = [("moment", c_uint64), ("line", c_uint64), ("limit", c_uint64), ("most", c_uint64)]


class Trimmed(Structure):
    """The result of a trim."""

    _fields_ = [("removed", c_uint64), ("octets", c_uint64)]


class Usage(Structure):
    """The sizes of a shelf."""

    _fields_ = [("keys", c_uint64), ("events", c_uint64), ("chapters", c_uint64),
                ("octets", c_uint64)]


class Share(Structure):
    """Which offers of a message to make: those of one part."""

    _fields_ = [("part", c_uint64), ("line", c_uint64)]


class OfferPick(Structure):
    """Which single offer of a message to make."""

    _fields_ = [("index", c_uint64), ("line", c_uint64)]


class Summary(Structure):
    """What a response says in addition to its offers."""

    _fields_ = [("kind", c_uint32), ("rcode", c_uint8), ("aa", c_bool), ("tc", c_bool)]


class Place(Structure):
    """A position in the text of chapters."""

    _fields_ = [("chapter", c_uint64), ("line", c_uint64), ("from", c_uint64)]


class Line(Structure):
    """The number of octets of a line, and how many of them were written."""

    _fields_ = [("size", c_uint64), ("written", c_uint64)]


class ResponseTerms(Structure):
    """The arguments of a call other than the octets of a response."""

    _fields_ = [("moment", c_uint64), ("line", c_uint64), ("parts", Parts), ("part", c_uint64),
                ("limits", Limits), ("id", c_uint16), ("rtype", c_uint16), ("rclass", c_uint16),
                ("with_case", c_bool), ("lowest_ttl", c_bool), ("clears_denied", c_bool)]


class SetTerms(Structure):
    """The arguments of a call other than the octets of an RRset."""

    _fields_ = [("moment", c_uint64), ("line", c_uint64), ("ttl", c_uint32), ("trust", c_uint32),
                ("rtype", c_uint16), ("rclass", c_uint16)]


class NegativeTerms(Structure):
    """The arguments of a call other than the octets of a negative answer."""

    _fields_ = [("moment", c_uint64), ("line", c_uint64), ("ttl", c_uint32), ("trust", c_uint32),
                ("denial", c_uint32), ("rtype", c_uint16), ("rclass", c_uint16)]


class FailureTerms(Structure):
    """The arguments of a call other than the name of a failure in octets."""

    _fields_ = [("moment", c_uint64), ("line", c_uint64), ("ttl", c_uint32), ("rtype", c_uint16),
                ("rclass", c_uint16)]


# ---- The structs of rrcache.h. The number of octets follows each address.

class Config(Structure):
    """The configuration of a cache."""

    _fields_ = [("octets", c_uint64), ("keys", c_uint64), ("shelves", c_uint64),
                ("readers", c_uint64), ("max_stale", c_uint64), ("limits", Limits), ("seed", Seed),
                ("exact_recency", c_bool)]


class Request(Structure):
    """The question to look up, or the data to forget."""

    _fields_ = [("name", c_void_p), ("name_size", c_size_t), ("rtype", c_uint16),
                ("rclass", c_uint16), ("moment", c_uint64), ("mode", c_uint32),
                ("takes_glue", c_bool)]


class Answer(Structure):
    """An answer, and the buffer that contains its RRsets."""

    _fields_ = [("buffer", c_void_p), ("room", c_size_t), ("size", c_size_t), ("kind", c_uint32),
                ("aliases", c_uint32), ("is_stale", c_bool), ("is_endless", c_bool),
                ("with_dnames", c_bool), ("retry_from", c_uint64), ("end", Name)]


class ParsedSet(Structure):
    """An RRset from which a message is composed."""

    _fields_ = [("owner", c_void_p), ("owner_size", c_size_t), ("rtype", c_uint16),
                ("rclass", c_uint16), ("ttl", c_uint32), ("section", c_uint32), ("data", c_void_p),
                ("data_size", c_size_t)]


class Rrset(Structure):
    """An RRset of an answer."""

    _fields_ = [("set", ParsedSet), ("kind", c_uint32), ("trust", c_uint32), ("entry", Entry),
                ("next", c_size_t)]


class Query(Structure):
    """The query that a response has to answer."""

    _fields_ = [("name", c_void_p), ("name_size", c_size_t), ("id", c_uint16), ("rtype", c_uint16),
                ("rclass", c_uint16), ("with_case", c_bool)]


class Response(Structure):
    """A response, and how to read it."""

    _fields_ = [("octets", c_void_p), ("size", c_size_t), ("zone", c_void_p),
                ("zone_size", c_size_t), ("moment", c_uint64), ("limits", Limits),
                ("lowest_ttl", c_bool), ("clears_denied", c_bool)]


class Report(Structure):
    """The result of storing a response."""

    _fields_ = [("summary", Summary), ("counts", Counts), ("too_large", c_uint64), ("name", Name)]


class Set(Structure):
    """An RRset of the caller."""

    _fields_ = [("owner", c_void_p), ("owner_size", c_size_t), ("rtype", c_uint16),
                ("rclass", c_uint16), ("trust", c_uint32), ("ttl", c_uint32), ("data", c_void_p),
                ("data_size", c_size_t), ("moment", c_uint64), ("line", c_uint64)]


class Negative(Structure):
    """A negative answer: a name has no data of a type, or does not exist."""

    _fields_ = [("name", c_void_p), ("name_size", c_size_t), ("rtype", c_uint16),
                ("rclass", c_uint16), ("kind", c_uint32), ("trust", c_uint32), ("ttl", c_uint32),
                ("soa_owner", c_void_p), ("soa_owner_size", c_size_t), ("soa", c_void_p),
                ("soa_size", c_size_t), ("moment", c_uint64), ("line", c_uint64)]


class Failure(Structure):
    """A resolution failure of a name and a type."""

    _fields_ = [("name", c_void_p), ("name_size", c_size_t), ("rtype", c_uint16),
                ("rclass", c_uint16), ("ttl", c_uint32), ("moment", c_uint64), ("line", c_uint64)]


class Stats(Structure):
    """Counters of a cache or of one shelf."""

    _fields_ = [("hits", c_uint64), ("stale", c_uint64), ("negative", c_uint64),
                ("misses", c_uint64), ("failed", c_uint64), ("kept", c_uint64),
                ("outranked", c_uint64), ("evicted", c_uint64), ("expired", c_uint64),
                ("keys", c_uint64), ("octets", c_uint64)]


# ---- These functions set or get all numbers of a struct at once, which takes a third of the time
# of setting or getting them one after another. The functions reject a number that is too large for
# its field. ctypes would keep only the lower bits of such a number.

LETTERS = {c_bool: "?", c_uint8: "B", c_uint16: "H", c_uint32: "I", c_uint64: "Q", c_void_p: "P"}


def letters_of(kind: Any) -> str:
    """Returns the letters of a field's type in the format of the module `struct`. All arrays are
    arrays of octets. A nested struct ends with the padding that C adds."""
    if issubclass(kind, Array):
        return f"{sizeof(kind)}s"
    if not issubclass(kind, Structure):
        return LETTERS[kind]
    letters = "".join(letters_of(it) for _, it in kind._fields_)
    return letters + f"{sizeof(kind) - struct.calcsize(f'@{letters}')}x"


@functools.cache
def packer(kind: type[Structure]) -> struct.Struct:
    """Returns an object that packs and unpacks a struct, with its nested structs, in the layout of
    C."""
    return struct.Struct(f"@{letters_of(kind)}")


T = TypeVar("T", bound=Structure)


def out_of_range(fault: struct.error) -> ValueError:
    """Returns the exception for a number that is too large for its field."""
    return ValueError(f"a number is out of range: {fault}")


def fill(target: T, *numbers: Any) -> T:
    """Sets the numbers of a struct, in the order of its fields. Raises ValueError if a value is not
    a number, or is too large for its field."""
    try:
        packer(type(target)).pack_into(target, 0, *numbers)
    except struct.error as fault:
        raise out_of_range(fault) from fault
    return target


def wide(number: int) -> int:
    """Returns a number as an argument of a call. Raises ValueError if the number does not fit into
    64 bits."""
    try:
        struct.pack("@Q", number)
    except struct.error as fault:
        raise out_of_range(fault) from fault
    return number


def numbers_in(source: Structure) -> tuple[Any, ...]:
    """Returns the numbers of a struct, in the order of its fields."""
    return packer(type(source)).unpack_from(source)
