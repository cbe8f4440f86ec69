# SPDX-License-Identifier: MIT
"""Names in the form that the library uses, which a caller makes once for each name, and the
division of names among shelves."""
from __future__ import annotations

import functools
from collections.abc import Callable
from typing import NamedTuple, final

from . import structs
from .library import call, seed_of, sized
from .names import to_text, to_wire

# The offset of a name's octets in `struct rrcache_name`.
OCTETS_AT = structs.Name.octets.offset
# How many names a shelf or a cache keeps in the library's form. Each takes about 500 octets.
NAMES_MOST = 4096


class Parts(NamedTuple):
    """How names are divided among shelves: `count` is the number of shelves, 1 to 64, and `seed` is
    the seed that all shelves share: 16 secret random octets, not all 0."""

    count: int  # type: ignore[assignment]  # for which the method of tuples goes
    seed: bytes

    def struct(self) -> structs.Parts:
        """Returns a `struct rrcache_parts`."""
        return structs.fill(structs.Parts(), self.count, seed_of(self.seed))


@final
class Name:
    """A name that `make_name` converted to lower case and hashed under a seed, for any number of
    calls. Any number of threads may use the object at once. Two names are equal if their octets
    are, even if their seeds differ.

    >>> parts = Parts(1, seed=bytes(range(16)))
    >>> make_name("WWW.example.", parts) == make_name("www.example.", parts)
    True
    """

    __slots__ = ("_made", "part")

    def __init__(self, made: structs.Name) -> None:
        self._made = made
        self.part: int = made.part

    @property
    def octets(self) -> bytes:
        """The wire form of the name, in lower case.

        >>> make_name("WWW.example.", Parts(1, seed=bytes(range(16)))).octets
        b'\\x03www\\x07example\\x00'
        """
        return bytes(self._made)[OCTETS_AT:OCTETS_AT + self._made.size]

    def __eq__(self, other: object) -> bool:
        return isinstance(other, Name) and self.octets == other.octets

    def __hash__(self) -> int:
        return hash(self.octets)

    def __repr__(self) -> str:
        return f"Name({to_text(self.octets)!r})"


# A name as an argument: text, wire form, or a `Name` from `make_name`.
AnyName = str | bytes | Name


def wire_form(name: AnyName) -> bytes:
    """Returns the wire form of a name that was passed in any form."""
    return name.octets if isinstance(name, Name) else to_wire(name)


def make_name(name: str | bytes, parts: Parts) -> Name:
    """Converts a name to lower case and hashes it, once for any number of calls. `part` of the
    result is the number of the shelf that holds all data of the name, counted from 0. Raises
    `NameFault` if text is not a name, `BadName` if octets are not the wire form of a name,
    `BadRules` if `parts.count` is out of range, and `BadSeed` if the seed is all 0 or does not have
    16 octets.

    >>> import os
    >>> parts = Parts(16, seed=os.urandom(16))
    >>> make_name("WWW.example.", parts).part == make_name("www.example.", parts).part
    True
    """
    made = structs.Name()
    call("rrc_make_name", *sized(to_wire(name)), parts.struct(), made)
    return Name(made)


def names_under(parts: Parts) -> Callable[[str | bytes], Name]:
    """Returns `make_name` for these parts, with a cache of recent results."""
    return functools.lru_cache(NAMES_MOST)(functools.partial(make_name, parts=parts))
