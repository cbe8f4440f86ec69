# SPDX-License-Identifier: MIT
"""The library's pointer to a shared cache, and the arguments of its calls."""
from __future__ import annotations

import itertools
import os
from collections.abc import Callable
from ctypes import Structure, byref, c_char_p, c_void_p, cast
from typing import Any, TypeVar

from . import structs
from .library import library
from .refusals import NoShelf, Refused, Status, refusal
from .replies import Counts, Swept

T = TypeVar("T", bound=Structure)


class Handle(c_void_p):
    """A pointer to a `struct rrcache`. The cache is closed when the last reference to this object
    is gone. Each call holds such a reference, so no thread closes a cache while another thread is
    in a call on the cache. In a forked child, the cache is not closed: another thread of the parent
    may have been in a call."""

    close: Any = None
    process = 0

    def __del__(self, getpid: Callable[[], int] = os.getpid) -> None:
        if self.value and self.process == getpid():
            self.close(self)


CLOSED = Handle()


def refused(status: int, counts: Counts | None = None, swept: Swept | None = None) -> Refused:
    """Returns the exception for a status that a call on a cache returned. NULL means that the cache
    was closed."""
    return NoShelf() if status == Status.NULL else refusal(status, counts, swept)


def done(status: int, counts: Counts | None = None, swept: Swept | None = None) -> None:
    """Raises the exception for a status, unless the status is DONE."""
    if status:
        raise refused(status, counts, swept)


def place_in(octets: bytes) -> tuple[int, int]:
    """Returns the address of octets, and the number of these octets."""
    return cast(c_char_p(octets), c_void_p).value or 0, len(octets)


def handed(kind: type[T], values: tuple[Any, ...]) -> T:
    """Returns a struct with these values, as the argument of a call. For octets, the struct has
    their address and size, so the caller must keep the values until the call returns."""
    places = (place_in(it) if isinstance(it, bytes) else (it,) for it in values)
    return structs.fill(kind(), *itertools.chain.from_iterable(places))


def opened(config: structs.Config) -> Handle:
    """Opens a cache, and returns its handle. The handler of a signal may raise an exception as soon
    as the library has opened the cache, so the handle can close the cache even then."""
    handle = Handle()
    handle.close, handle.process = library().rrcache_close, os.getpid()
    done(library().rrcache_open(byref(handle), config))
    return handle
