# SPDX-License-Identifier: MIT
"""The C library, through ctypes: its file, the arguments of its functions, and the calls that
need no shelf."""
from __future__ import annotations

import functools
import os
from collections.abc import Callable
from ctypes import (CDLL, CFUNCTYPE, POINTER, Structure, byref, c_bool, c_char_p, c_int, c_size_t,
                    c_uint32, c_uint64, c_void_p)
from pathlib import Path
from typing import Any, ClassVar, NoReturn, TypeVar

from . import structs
from .choices import MessageFault
from .refusals import Status, refusal

# The version of the header for which this package is written. A library with another major version,
# or with an older minor version, may lack functions that the header declares.
MAJOR, MINOR, SONAME = 2, 1, "librrcache.so.2"
# The arguments of calls other than structs: octets with their number, and the numbers that calls
# write.
OCTETS: list[Any] = [c_char_p, c_size_t]
NUMBER, WIDE_NUMBER = POINTER(c_uint32), POINTER(c_uint64)
SHELF, OFFERS = POINTER(structs.Shelf), POINTER(structs.Offers)
CHAPTERS, NAME = POINTER(structs.Chapters), POINTER(structs.Name)
RESPONSE, COUNTS = POINTER(structs.ResponseTerms), POINTER(structs.Counts)
TELLS = [SHELF, NAME, POINTER(structs.Question), POINTER(structs.Told), *OCTETS]
CALLS: dict[str, list[Any]] = {
    "rrc_make": [SHELF, POINTER(structs.Rules)],
    "rrc_free": [SHELF],
    "rrc_make_name": [*OCTETS, POINTER(structs.Parts), NAME],
    "rrc_record": [SHELF],
    "rrc_stop_and_drop": [SHELF],
    "rrc_ask": TELLS,
    "rrc_ask_alias": TELLS,
    "rrc_peek": TELLS,
    "rrc_peek_alias": TELLS,
    "rrc_stored": [SHELF, NAME, POINTER(structs.Question), POINTER(structs.Stored)],
    "rrc_read_response": [OFFERS, *OCTETS, *OCTETS, *OCTETS, RESPONSE, WIDE_NUMBER],
    "rrc_read_message_unchecked": [OFFERS, *OCTETS, *OCTETS, RESPONSE, WIDE_NUMBER],
    "rrc_tell_response": [OFFERS, NAME, POINTER(structs.Summary)],
    "rrc_tell_offer": [OFFERS, c_uint64, NAME, POINTER(structs.Told), *OCTETS],
    "rrc_offer_read": [SHELF, OFFERS, POINTER(structs.Share), COUNTS],
    "rrc_offer_one": [SHELF, OFFERS, POINTER(structs.OfferPick), NUMBER],
    "rrc_free_offers": [OFFERS],
    "rrc_offer_message_unchecked": [SHELF, *OCTETS, *OCTETS, RESPONSE, COUNTS],
    "rrc_offer_part_unchecked": [SHELF, *OCTETS, *OCTETS, RESPONSE, COUNTS],
    "rrc_offer_set": [SHELF, *OCTETS, POINTER(structs.SetTerms), *OCTETS, NUMBER],
    "rrc_offer_negative": [SHELF, *OCTETS, POINTER(structs.NegativeTerms), *OCTETS, *OCTETS,
                           NUMBER],
    "rrc_offer_failure": [SHELF, *OCTETS, POINTER(structs.FailureTerms), NUMBER],
    "rrc_sweep": [SHELF, POINTER(structs.SweepAt), WIDE_NUMBER],
    "rrc_sweep_some": [SHELF, POINTER(structs.SweepAt), POINTER(structs.Swept)],
    "rrc_trim": [SHELF, POINTER(structs.TrimTo), POINTER(structs.Trimmed)],
    "rrc_next_expiry": [SHELF, WIDE_NUMBER],
    "rrc_sizes": [SHELF, POINTER(structs.Usage)],
    "rrc_drop_chapters": [SHELF, WIDE_NUMBER],
    "rrc_take_chapters": [SHELF, CHAPTERS, WIDE_NUMBER],
    "rrc_stop_recording": [SHELF, CHAPTERS, WIDE_NUMBER],
    "rrc_chapter_line": [CHAPTERS, POINTER(structs.Place), *OCTETS, POINTER(structs.Line)],
    "rrc_free_chapters": [CHAPTERS],
    "rrc_fault": [*OCTETS, NUMBER],
    "rrc_version": [],
}

# The calls of rrcache.h. `struct rrcache` is opaque.
CACHE, SINK = c_void_p, CFUNCTYPE(c_int, c_void_p, c_uint64, c_void_p, c_size_t)
REQUEST, ANSWER = POINTER(structs.Request), POINTER(structs.Answer)
SHARED_CALLS: dict[str, list[Any]] = {
    "rrcache_open": [POINTER(CACHE), POINTER(structs.Config)],
    "rrcache_close": [CACHE],
    "rrcache_lookup": [CACHE, REQUEST, ANSWER],
    "rrcache_lookup_delegation": [CACHE, REQUEST, ANSWER],
    "rrcache_next": [ANSWER, POINTER(structs.Rrset)],
    "rrcache_store": [CACHE, POINTER(structs.Query), POINTER(structs.Response),
                      POINTER(structs.Report), ANSWER],
    "rrcache_store_set": [CACHE, POINTER(structs.Set), NUMBER],
    "rrcache_store_negative": [CACHE, POINTER(structs.Negative), NUMBER],
    "rrcache_store_failure": [CACHE, POINTER(structs.Failure), NUMBER],
    "rrcache_forget": [CACHE, REQUEST],
    "rrcache_sweep_all": [CACHE, c_uint64, c_uint64, POINTER(structs.Swept)],
    "rrcache_stats": [CACHE, POINTER(structs.Stats)],
    "rrcache_stats_of": [CACHE, c_uint64, POINTER(structs.Stats)],
    "rrcache_stats_text": [POINTER(structs.Stats), c_char_p, c_size_t],
    "rrcache_record_all": [CACHE],
    "rrcache_stop_recording_all": [CACHE, SINK, c_void_p],
    "rrcache_dump": [CACHE, SINK, c_void_p],
}
# The results of the calls that do not return a status.
RESULTS: dict[str, Any] = {"rrcache_close": None, "rrcache_next": c_bool}


def path() -> str:
    """Returns the path of the library: the path in the environment variable RRCACHE_LIBRARY;
    otherwise the file next to these modules, if there is one; otherwise the file in the repository
    that contains these modules; otherwise a name for the system's loader."""
    folder = Path(__file__).resolve().parent
    places = folder / "librrcache.so", folder.parents[1] / "build" / "librrcache.so"
    found = next((str(it) for it in places if it.exists()), SONAME)
    return os.environ.get("RRCACHE_LIBRARY") or found


def parts_of_version(number: int) -> tuple[int, int, int]:
    """Returns the major, minor and patch version in a version number."""
    return number >> 16, number >> 8 & 255, number & 255


def loaded_from(place: str) -> CDLL:
    """Loads the library from a path. Raises ImportError if the library cannot be loaded or its
    version is not supported."""
    try:
        loaded = CDLL(place)
        number = loaded.rrc_version()
    except (OSError, AttributeError) as fault:  # another library lacks the function
        raise ImportError(f"{place} cannot be loaded ({fault}): build the library by bin/build-c, "
                          "install it by bin/install-c, or name it in RRCACHE_LIBRARY") from fault
    major, minor, _ = parts_of_version(number)
    if major != MAJOR or minor < MINOR:
        raise ImportError(f"{place} has version {major}.{minor}, and this package is for "
                          f"{MAJOR}.{MINOR}")
    return loaded


@functools.cache
def library() -> CDLL:
    """Returns the library, with the types of its functions. The first call loads it."""
    loaded = loaded_from(path())
    for name, types in (CALLS | SHARED_CALLS).items():
        export = getattr(loaded, name)
        export.argtypes, export.restype = types, RESULTS.get(name, c_uint32)
    return loaded


def call(name: str, *arguments: Any) -> None:
    """Makes a call, and raises an exception if the call returns an error."""
    if status := getattr(library(), name)(*arguments):
        raise refusal(status)


def told(name: str, number: type[c_uint32] | type[c_uint64], *arguments: Any) -> int:
    """Makes a call whose last argument is an output, and returns the number that the call
    writes."""
    out = number()
    call(name, *arguments, byref(out))
    return int(out.value)


def sized(octets: bytes) -> tuple[bytes, int]:
    """Returns octets and the number of them, as arguments of a call."""
    return bytes(octets), len(octets)


def seed_of(octets: bytes) -> bytes:
    """Returns a seed for a struct. Raises `BadSeed` if the seed does not have 16 octets. The
    library checks that not all of them are 0."""
    if len(octets) != structs.SEED_OCTETS:
        raise refusal(Status.BAD_SEED)
    return bytes(octets)


T = TypeVar("T", bound="Closing")


class Closing:
    """An object that a `with` statement closes at its end."""

    def close(self) -> None:
        raise NotImplementedError

    def __enter__(self: T) -> T:
        return self

    def __exit__(self, *fault: object) -> None:
        self.close()


class Held(Closing):
    """An object of the library behind a handle. The handle is initialized to zeros, which means
    that it holds nothing. A forked child frees such an object only if it calls `close`: another
    thread of the parent may have been in a call."""

    _kind: ClassVar[type[Structure]]
    _freed_by: ClassVar[str]

    def __init__(self) -> None:
        self._process = os.getpid()
        self._handle: Any = self._kind()

    def close(self) -> None:
        """Frees the object. Later calls on the object fail, except `close`."""
        if self._handle.is_live:
            call(self._freed_by, self._handle)

    def __del__(self, getpid: Callable[[], int] = os.getpid) -> None:
        if hasattr(self, "_handle") and self._process == getpid():
            self.close()

    def __reduce__(self) -> NoReturn:
        """Refuses to be copied or pickled, because deleting the copy would also free the object of
        the original."""
        raise TypeError(f"cannot copy or pickle a {type(self).__name__}")


def fault(message: bytes) -> MessageFault:
    """Returns the first reason why octets cannot be read as a response, or NO_FAULT (0, which is
    false) if they can.

    >>> fault(b"").name
    'SHORT'
    """
    return MessageFault(told("rrc_fault", c_uint32, *sized(message)))


def library_version() -> tuple[int, int, int]:
    """Returns the version of the library: major, minor and patch.

    >>> library_version() >= (2, 0, 0)
    True
    """
    return parts_of_version(library().rrc_version())
