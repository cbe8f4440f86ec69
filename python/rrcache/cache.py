# SPDX-License-Identifier: MIT
"""A cache of several shelves, for any number of threads."""
from __future__ import annotations

import os
import threading
from typing import Any

from .choices import Class, Mode, Purpose
from .library import Closing
from .offers import Offers, read_message_unchecked, read_response
from .parts import AnyName, Name, Parts, names_under
from .refusals import Refused
from .replies import Counts, Limits, Query, Reply, Stored, StoredEntry, Trimmed
from .shelf import KEYS_MOST, Shelf

LINKS_MOST = 16
NONE = Counts(0, 0, 0)


def is_recent(stored: Stored, alias: StoredEntry | None, moment: int) -> bool:
    """Returns whether the failure of a question is recent: it is unexpired, and was stored later
    than all other entries for the question, and later than the CNAME record of its name. No reply
    can show this, because older data of the type, which that record replaced, may be unexpired."""
    failure = stored.failure
    if failure is None or max(0, moment - failure.moment) >= failure.ttl:
        return False
    others = alias, stored.set, stored.nxdomain
    return all(it is None or it.number < failure.number for it in others)


class Cache(Closing):
    """1 to 64 shelves, each with a Python lock. All data of a name are in one shelf. A hash of the
    name under a seed chooses the shelf; the seed is random unless the caller passes one. `parts` is
    the number of shelves, `capacity` is the maximum number of keys in each shelf, and the other
    arguments are those of `Shelf`. Raises `BadRules` or `BadSeed` if an argument is out of range.
    The cache keeps recently used names in the library's form.

    New programs should use a `SharedCache`, in which several threads can look up names at the same
    time, and which limits its memory. A `Cache` returns a reply for each name of a CNAME chain, and
    its calls are like those of a shelf, with a `line`.

    >>> with Cache(parts=4) as cache:
    ...     cache.ask("www.example.", 1, moment=1000).kind.name
    'MISS'
    """

    def __init__(self, parts: int = 16, *, seed: bytes | None = None, **rules: Any) -> None:
        octets = os.urandom(16) if seed is None else seed
        self._parts = Parts(parts, octets)
        self._made = names_under(self._parts)
        self._made(".")  # refuses a wrong number of parts
        self._shelves = [(threading.Lock(), Shelf(seed=octets, **rules)) for _ in range(parts)]

    def _found(self, name: AnyName) -> tuple[Name, threading.Lock, Shelf]:
        """Returns the name in the library's form, the lock of its shelf, and the shelf."""
        found = self._made(name.octets if isinstance(name, Name) else name)
        return found, *self._shelves[found.part]

    def ask(self, name: AnyName, rtype: int, moment: int, *,
            purpose: Purpose | int = Purpose.QUESTION, mode: Mode | int = Mode.NO_STALE,
            line: int = 0, rclass: Class | int = Class.IN) -> Reply:
        """Looks up a name in its shelf, as `Shelf.ask` does. A `Name` that `make_name` made under
        another seed is allowed too: the cache uses only the octets of the `Name`.

        >>> with Cache() as cache:
        ...     reply = cache.ask("www.example.", 1, moment=1000, mode=Mode.STALE_IF_FAILED)
        >>> reply.kind.name, reply.is_miss
        ('MISS', True)
        """
        found, lock, shelf = self._found(name)
        with lock:
            return shelf.ask(found, rtype, moment, purpose, mode, line, rclass)

    def follow(self, name: AnyName, rtype: int, moment: int, *,
               purpose: Purpose | int = Purpose.QUESTION, mode: Mode | int = Mode.NO_STALE,
               line: int = 0, rclass: Class | int = Class.IN) -> list[Reply]:
        """Follows the CNAME chain of a question (RFC 1034 section 3.6.2). Returns the reply for
        each name of the chain: a CNAME record for each alias, and then the reply for the end of the
        chain. `Shelf.ask_alias` chooses between a CNAME record and data of the type. There are at
        most 16 replies. If the chain is a loop or is longer, the last reply is a CNAME record. Each
        reply is one event. The arguments and the exceptions are those of `Shelf.ask`.

        With the mode STALE_IF_FAILED, stale data are acceptable for every name of the chain if
        resolution of the question has failed recently, and this failure was stored after the CNAME
        record, if any, of the question's name (RFC 8767 section 5). Otherwise, they are acceptable
        only for names for which resolution of the type has failed recently.

        >>> from rrcache import ParsedSet, compose_response
        >>> query = Query("www.example.", 1, id=0x1234)
        >>> answer = [ParsedSet("www.example.", 5, 60, [b"\\1a\\7example\\0"]),
        ...           ParsedSet("a.example.", 1, 30, [bytes([192, 0, 2, 1])])]
        >>> response = compose_response(query, answer, aa=True)
        >>> with Cache() as cache:
        ...     _ = cache.offer_response(response, "example.", query, moment=1000)
        ...     [(it.owner_text, it.left) for it in cache.follow("www.example.", 1, moment=1010)]
        [('www.example.', 50), ('a.example.', 20)]
        """
        replies: list[Reply] = []
        seen = set()
        while True:
            found, lock, shelf = self._found(name)
            with lock:
                reply = shelf.ask_alias(found, rtype, moment, purpose, mode, line, rclass)
                if (not replies and reply.rtype != rtype and mode == Mode.STALE_IF_FAILED
                        and is_recent(shelf.stored(found, rtype, rclass), reply.entry, moment)):
                    mode = Mode.STALE_NOW
            replies.append(reply)
            seen.add(found.octets)
            if reply.rtype == rtype:
                return replies
            name = reply.data[0]
            if len(replies) == LINKS_MOST or name.lower() in seen:
                return replies

    def _offer(self, offers: Offers, line: int) -> Counts:
        """Offers to each shelf its share of the offers, and frees the offers."""
        total = NONE
        with offers:
            for part in offers.concerned:
                lock, shelf = self._shelves[part]
                try:
                    with lock:
                        total = total.plus(shelf.offer_read(offers, part, line))
                except Refused as fault:
                    fault.counts = total.plus(fault.counts or NONE)
                    raise
        return total

    def offer_response(self, message: bytes, zone: str | bytes, query: Query, moment: int,
                       limits: Limits = Limits(), line: int = 0, *, lowest_ttl: bool = False,
                       clears_denied: bool = False) -> Counts:
        """Stores the response of a zone's server to a query. The message is read once, without a
        lock, as `read_response` does, and each shelf gets the relevant offers for its names. If the
        call on one shelf fails, the exception of this call is raised, and the other shelves keep
        the data that they have stored. `counts` of the exception counts the offers to all shelves.

        >>> from rrcache import ParsedSet, compose_response
        >>> query = Query("www.example.", 1, id=0x1234)
        >>> answer = [ParsedSet("www.example.", 1, 60, [bytes([192, 0, 2, 1])])]
        >>> response = compose_response(query, answer, aa=True)
        >>> with Cache() as cache:
        ...     cache.offer_response(response, "example.", query, moment=1000).kept
        ...     cache.ask("www.example.", 1, moment=1010).left
        1
        50
        """
        offers = read_response(message, zone, query, self._parts, moment, limits,
                               lowest_ttl=lowest_ttl, clears_denied=clears_denied)
        return self._offer(offers, line)

    def offer_message_unchecked(self, message: bytes, zone: str | bytes, moment: int,
                                limits: Limits = Limits(), line: int = 0) -> Counts:
        """Stores all data of a response that are in bailiwick. Unlike `offer_response`, this call
        does not compare the response with a query. The caller must do so first.

        >>> from rrcache import ParsedSet, compose_response
        >>> answer = [ParsedSet(it, 1, 60, [bytes(4)]) for it in ("a.example.", "b.example.")]
        >>> response = compose_response(Query("a.example.", 1, id=0), answer)
        >>> with Cache() as cache:
        ...     cache.offer_message_unchecked(response, "example.", moment=1000).kept
        2
        """
        offers = read_message_unchecked(message, zone, self._parts, moment, limits)
        return self._offer(offers, line)

    def sweep(self, moment: int) -> int:
        """Sweeps the shelves, one after another, and returns the number of keys that were removed.
        If the history is being recorded, the closed chapters of each shelf are dropped. If the call
        on one shelf fails, the exception of this call is raised, and the shelves before this one
        stay swept.

        >>> with Cache() as cache:
        ...     cache.sweep(moment=1000)
        0
        """
        removed = 0
        for lock, shelf in self._shelves:
            with lock:
                removed += shelf.sweep(moment)
                shelf.drop_chapters()
        return removed

    def trim(self, moment: int, limit: int, most: int = KEYS_MOST) -> Trimmed:
        """Limits the memory of the cache. Trims the shelves, one after another, each to an equal
        share of `limit`, and removes at most `most` keys from each shelf (`Shelf.trim`). Returns
        the totals of all shelves. If the history is being recorded, the closed chapters of each
        shelf are dropped. Raises `BadRules` if `limit` is less than the number of shelves, or if
        `most` is 0. If the call on one shelf fails, the exception of this call is raised, and the
        shelves before this one stay trimmed.

        >>> with Cache(parts=4) as cache:
        ...     cache.trim(moment=1000, limit=64_000_000)
        Trimmed(removed=0, octets=0)
        """
        removed = octets = 0
        for lock, shelf in self._shelves:
            with lock:
                trimmed = shelf.trim(moment, limit // len(self._shelves), most)
                shelf.drop_chapters()
            removed, octets = removed + trimmed.removed, octets + trimmed.octets
        return Trimmed(removed, octets)

    def close(self) -> None:
        """Frees all shelves."""
        for lock, shelf in self._shelves:
            with lock:
                shelf.close()
