# SPDX-License-Identifier: MIT
"""One shelf of the cache."""
from __future__ import annotations

import itertools
import os
from collections.abc import Iterable
from ctypes import c_uint32, c_uint64, create_string_buffer
from typing import Any

from . import structs
from .asking import answered, stored_under
from .choices import Class, Kind, Mode, Outcome, Purpose, Trust
from .history import Chapter, read_archive
from .library import Held, call, library, seed_of, sized, told
from .offers import Offers, terms
from .parts import AnyName, Name, Parts, names_under, wire_form
from .refusals import Status, refusal
from .replies import Counts, Limits, Reply, Sizes, Stored, Swept, Trimmed

# A buffer of this size has room for most lines of a chapter.
LINE_ROOM = 4096
# The maximum number of keys of a shelf.
KEYS_MOST = 65_536


def line_at(chapters: structs.Chapters, chapter: int, line: int, room: int = LINE_ROOM) -> bytes:
    """Returns a line of a chapter with its LF, or no octets after the last line."""
    buffer, size = create_string_buffer(room), structs.Line()
    place = structs.fill(structs.Place(), chapter, line, 0)
    status = library().rrc_chapter_line(chapters, place, buffer, room, size)
    if status not in (Status.DONE, Status.NO_LINE):
        raise refusal(status)
    if size.size > room:
        return line_at(chapters, chapter, line, size.size)
    return buffer.raw[:size.written]


def text_of(chapters: structs.Chapters, chapter: int) -> bytes:
    """Returns the text of a chapter."""
    lines = (line_at(chapters, chapter, it) for it in itertools.count())
    return b"".join(itertools.takewhile(bool, lines))


def with_lengths(data: Iterable[bytes]) -> bytes:
    """Returns rdata one after another, with two octets of length before each."""
    try:
        return b"".join(len(it).to_bytes(2, "big") + it for it in data)
    except OverflowError as fault:
        raise ValueError("rdata of a record have more than 65,535 octets") from fault


class ChaptersHeld(Held):
    """Chapters that were taken from their shelf."""

    _kind, _freed_by = structs.Chapters, "rrc_free_chapters"


class Shelf(Held):
    """One shard of a cache. One thread at a time may use a shelf, or any number of threads that
    make only read-only calls. Other Python threads run during a call, so threads that share a shelf
    need a lock. A `with` statement closes the shelf at its end. Later calls raise `NoShelf`.

    Raises `BadRules` or `BadSeed` if an argument is out of range:

    - `capacity`: the maximum number of keys, 1 to 65,536.
    - `chapter`: the maximum number of events in a recorded chapter, 1 to 1,048,576.
    - `max_stale`: for how many seconds past its TTL an RRset may be served, 0 to 604,800 (RFC 8767
      section 4).
    - `seed`: 16 secret octets, not all 0, under which names are hashed. By default, the octets are
      random.
    - `record`: whether the history is recorded from the start (`Shelf.record`).

    Names are text, octets in wire form, or the result of `make_name` under the seed of the shelf.
    The shelf keeps recently used names in the library's form. Types and classes are 16-bit numbers.
    TTLs and timestamps (`moment`) are in seconds, and a timestamp is at most 2^40. `line` is a
    64-bit number that the caller chooses. The history keeps this number with the event of the call.
    A number that is too large for its field raises `ValueError`.

    >>> with Shelf() as shelf:
    ...     outcome = shelf.offer_set("www.example.", 1, Trust.AUTHORITATIVE_ANSWER, 60,
    ...                               [bytes([192, 0, 2, 1])], moment=1000)
    ...     reply = shelf.ask("WWW.example.", 1, moment=1010)
    >>> reply.kind.name, reply.left, reply.owner_text, reply.data
    ('FRESH', 50, 'www.example.', (b'\\xc0\\x00\\x02\\x01',))
    >>> reply.entry.ttl, reply.entry.moment, reply.entry.trust.name
    (60, 1000, 'AUTHORITATIVE_ANSWER')
    """

    _kind, _freed_by = structs.Shelf, "rrc_free"

    def __init__(self, capacity: int = 1024, chapter: int = 4096, max_stale: int = 86_400,
                 seed: bytes | None = None, record: bool = False) -> None:
        super().__init__()
        octets = seed_of(os.urandom(structs.SEED_OCTETS) if seed is None else seed)
        call("rrc_make", self._handle,
             structs.fill(structs.Rules(), capacity, chapter, max_stale, octets))
        self._made = names_under(Parts(1, octets))
        if record:
            self.record()

    # ---- offers

    def _offer(self, export: str, *arguments: Any) -> Counts:
        counts = structs.Counts()
        status = getattr(library(), export)(self._handle, *arguments, counts)
        told_counts = Counts(*structs.numbers_in(counts))
        if status:
            raise refusal(status, told_counts)
        return told_counts

    def offer_message_unchecked(self, message: bytes, zone: AnyName, moment: int,
                                limits: Limits = Limits(), line: int = 0) -> Counts:
        """Offers all data of a response that are in bailiwick, which means at or below the zone.
        Unlike `read_response`, this call does not compare the response with a query. The caller
        must do so first. Raises `BadMessage`, `BadName` if the zone is not in wire form,
        `BadLimits` or `MomentTooLarge`.

        >>> from rrcache import ParsedSet, Query, compose_response
        >>> answer = [ParsedSet("www.example.", 1, 60, [bytes(4)])]
        >>> response = compose_response(Query("www.example.", 1, id=0), answer)
        >>> with Shelf() as shelf:
        ...     shelf.offer_message_unchecked(response, "example.", moment=1000)
        Counts(kept=1, cleared=0, outranked=0)
        """
        return self._offer("rrc_offer_message_unchecked", *sized(message), *sized(wire_form(zone)),
                           terms(moment, limits, line))

    def offer_part_unchecked(self, message: bytes, zone: AnyName, parts: Parts, part: int,
                             moment: int, limits: Limits = Limits(), line: int = 0) -> Counts:
        """Offers what `offer_message_unchecked` offers, but only the data of names in one part
        (shelf), counted from 0. Raises `BadRules` if there is no such part.

        >>> from rrcache import ParsedSet, Query, compose_response, make_name
        >>> answer = [ParsedSet("www.example.", 1, 60, [bytes(4)])]
        >>> response = compose_response(Query("www.example.", 1, id=0), answer)
        >>> parts = Parts(2, seed=bytes(range(16)))
        >>> with Shelf(seed=parts.seed) as shelf:
        ...     for part in range(parts.count):
        ...         counts = shelf.offer_part_unchecked(response, "example.", parts, part, 1000)
        ...         assert counts.kept == (part == make_name("www.example.", parts).part)
        """
        return self._offer("rrc_offer_part_unchecked", *sized(message), *sized(wire_form(zone)),
                           terms(moment, limits, line, parts, part))

    def offer_read(self, offers: Offers, part: int, line: int = 0) -> Counts:
        """Makes the offers that belong to one part, with the timestamp of the response. `part` is
        counted from 0, and is less than the number of parts for which the message was read. Raises
        `BadRules`, `NoOffers` or `OtherSeed`.

        >>> from rrcache import ParsedSet, Query, compose_response, read_response
        >>> query, parts = Query("www.example.", 1, id=0x1234), Parts(4, seed=bytes(range(16)))
        >>> answer = [ParsedSet("www.example.", 1, 60, [bytes(4)])]
        >>> response = compose_response(query, answer)
        >>> with read_response(response, "example.", query, parts, moment=1000) as offers:
        ...     [part] = offers.concerned
        ...     with Shelf(seed=parts.seed) as shelf:
        ...         shelf.offer_read(offers, part)
        Counts(kept=1, cleared=0, outranked=0)
        """
        return self._offer("rrc_offer_read", offers._handle,
                           structs.fill(structs.Share(), part, line))

    def offer_one(self, offers: Offers, index: int, line: int = 0) -> Outcome:
        """Makes one of the offers, whose number `index` is counted from 0 in the order of
        iteration. So a caller can decide for each offer whether to store its data. This shelf must
        be the one with the number in `part` of the offer's name. Raises `NoOffers` if there is no
        offer with this number, `OtherSeed` or `MomentTooLarge`.

        >>> from rrcache import ParsedSet, Query, compose_response, read_response
        >>> query, parts = Query("www.example.", 1, id=0x1234), Parts(1, seed=bytes(range(16)))
        >>> answer = [ParsedSet("www.example.", 1, 60, [bytes(4)])]
        >>> response = compose_response(query, answer)
        >>> with (read_response(response, "example.", query, parts, moment=1000) as offers,
        ...       Shelf(seed=parts.seed) as shelf):
        ...     for index, (name, reply) in enumerate(offers):
        ...         print(name, reply.left, shelf.offer_one(offers, index).name)
        Name('www.example.') 60 KEPT
        """
        pick = structs.fill(structs.OfferPick(), index, line)
        return Outcome(told("rrc_offer_one", c_uint32, self._handle, offers._handle, pick))

    def offer_set(self, owner: AnyName, rtype: int, trust: Trust | int, ttl: int,
                  data: Iterable[bytes], moment: int, line: int = 0,
                  rclass: Class | int = Class.IN) -> Outcome:
        """Offers an RRset. `data` are rdata without compressed names. With the highest rank and
        `ttl` 0, the call clears the RRset or NODATA of the name and type. Raises `BadName`,
        `BadType`, `BadChoice` if `trust` is not a rank, `BadData` or `WrongBody`.

        >>> trust, data = Trust.AUTHORITATIVE_ANSWER, [bytes([192, 0, 2, 1])]
        >>> with Shelf() as shelf:
        ...     shelf.offer_set("www.example.", 1, trust, 60, data, moment=1000).name
        ...     shelf.offer_set("www.example.", 1, Trust.ADDITIONAL, 60, data, moment=1010).name
        'KEPT'
        'OUTRANKED'
        """
        octets = with_lengths(data)
        numbers = structs.fill(structs.SetTerms(), moment, line, ttl, trust, rtype, rclass)
        return Outcome(told("rrc_offer_set", c_uint32, self._handle, *sized(wire_form(owner)),
                            numbers, *sized(octets)))

    def offer_negative(self, name: AnyName, rtype: int, kind: Kind | int, trust: Trust | int,
                       ttl: int, soa_owner: AnyName, soa: bytes, moment: int, line: int = 0,
                       rclass: Class | int = Class.IN) -> Outcome:
        """Offers a negative answer with its SOA record (RFC 2308): the name has no data of the type
        (`kind` NODATA), or does not exist (NXDOMAIN, which ignores `rtype`). Raises `BadName`,
        `BadType`, `BadChoice` (`kind` or `trust`), `BadData` or `WrongBody`.

        >>> soa = b"\\0\\0" + bytes(20)
        >>> with Shelf() as shelf:
        ...     _ = shelf.offer_negative("gone.example.", 0, Kind.NXDOMAIN,
        ...                              Trust.AUTHORITATIVE_ANSWER, 60, "example.", soa, 1000)
        ...     reply = shelf.ask("gone.example.", 28, moment=1010)
        >>> reply.kind.name, reply.left, reply.owner_text
        ('NXDOMAIN', 50, 'example.')
        """
        numbers = structs.fill(structs.NegativeTerms(), moment, line, ttl, trust, kind, rtype,
                               rclass)
        return Outcome(told("rrc_offer_negative", c_uint32, self._handle, *sized(wire_form(name)),
                            numbers, *sized(wire_form(soa_owner)), *sized(soa)))

    def offer_failure(self, name: AnyName, rtype: int, ttl: int, moment: int, line: int = 0,
                      rclass: Class | int = Class.IN) -> Outcome:
        """Offers a resolution failure of a name and type for `ttl` seconds (RFC 9520). With `ttl`
        0, a stored failure of this name and type ends. Raises `BadName`, `BadType` or `WrongBody`.

        >>> with Shelf() as shelf:
        ...     _ = shelf.offer_failure("www.example.", 1, 30, moment=1000)
        ...     reply = shelf.ask("www.example.", 1, moment=1010)
        >>> reply.kind.name, reply.retry_from
        ('FAILED', 1030)
        """
        numbers = structs.fill(structs.FailureTerms(), moment, line, ttl, rtype, rclass)
        return Outcome(told("rrc_offer_failure", c_uint32, self._handle, *sized(wire_form(name)),
                            numbers))

    # ---- asks

    def _name(self, name: AnyName) -> Name:
        """Returns a name in the library's form."""
        return name if isinstance(name, Name) else self._made(name)

    def _look(self) -> structs.Shelf:
        """Returns a copy of the handle for a read-only call. The call writes to this copy."""
        return structs.Shelf.from_buffer_copy(self._handle)

    def ask(self, name: AnyName, rtype: int, moment: int,
            purpose: Purpose | int = Purpose.QUESTION, mode: Mode | int = Mode.NO_STALE,
            line: int = 0, rclass: Class | int = Class.IN) -> Reply:
        """Looks up the answer to a question, as one event. This call does not follow CNAME records:
        to find the CNAME record of an alias, use `ask_alias`. Raises `BadChoice` (the purpose or
        the mode), `BadType` if the type is 0 or the class is not kept, `BadName`, `OtherSeed` or
        `MomentTooLarge`.

        >>> with Shelf() as shelf:
        ...     _ = shelf.offer_set("www.example.", 1, Trust.AUTHORITY, 60, [bytes(4)], moment=1000)
        ...     shelf.ask("www.example.", 1, moment=1060).kind.name
        ...     shelf.ask("www.example.", 1, moment=1060, mode=Mode.STALE_NOW).kind.name
        'MISS'
        'STALE'
        """
        return answered("rrc_ask", self._handle, self._name(name), moment, line, rtype, rclass,
                        purpose, mode)

    def ask_alias(self, name: AnyName, rtype: int, moment: int,
                  purpose: Purpose | int = Purpose.QUESTION, mode: Mode | int = Mode.NO_STALE,
                  line: int = 0, rclass: Class | int = Class.IN) -> Reply:
        """Looks up either data of the type or the CNAME record of the name, as one event. `rtype`
        of the reply is CNAME (5) if the reply is the CNAME record. For types CNAME, ANY, NSEC
        and RRSIG, the reply is that of `ask`.

        The reply is the CNAME record if this record is fresh, or is stale and stale data are
        acceptable, and if one of these conditions is true (RFC 8767 section 7). First, the reply
        for the type is a miss. Second, the record was stored later than the entry for the type,
        unless that entry is unexpired and of higher rank. Third, the record was stored earlier than
        that entry, and is unexpired and of higher rank.

        Raises the exceptions of `ask`.

        >>> from rrcache import to_wire
        >>> with Shelf() as shelf:
        ...     _ = shelf.offer_set("www.example.", 5, Trust.AUTHORITATIVE_ANSWER, 60,
        ...                         [to_wire("a.example.")], moment=1000)
        ...     reply = shelf.ask_alias("www.example.", 1, moment=1010)
        >>> reply.rtype, reply.data
        (5, (b'\\x01a\\x07example\\x00',))
        """
        return answered("rrc_ask_alias", self._handle, self._name(name), moment, line, rtype,
                        rclass, purpose, mode)

    def peek(self, name: AnyName, rtype: int, moment: int,
             purpose: Purpose | int = Purpose.QUESTION, mode: Mode | int = Mode.NO_STALE,
             rclass: Class | int = Class.IN) -> Reply:
        """Returns the reply that `ask` would return, but writes no event. Unlike `ask`, accepts
        timestamps of any size.

        >>> with Shelf(record=True) as shelf:
        ...     shelf.peek("www.example.", 1, moment=1000).kind.name, shelf.sizes().events
        ('MISS', 0)
        """
        return answered("rrc_peek", self._look(), self._name(name), moment, 0, rtype, rclass,
                        purpose, mode)

    def peek_alias(self, name: AnyName, rtype: int, moment: int,
                   purpose: Purpose | int = Purpose.QUESTION, mode: Mode | int = Mode.NO_STALE,
                   rclass: Class | int = Class.IN) -> Reply:
        """Returns the reply that `ask_alias` would return, but writes no event, as `peek` does for
        `ask`.

        >>> with Shelf() as shelf:
        ...     shelf.peek_alias("www.example.", 1, moment=1000).kind.name
        'MISS'
        """
        return answered("rrc_peek_alias", self._look(), self._name(name), moment, 0, rtype, rclass,
                        purpose, mode)

    def stored(self, name: AnyName, rtype: int, rclass: Class | int = Class.IN) -> Stored:
        """Returns the entries of a name and type: the RRset or NODATA of the type, the NXDOMAIN of
        the name, and the failure of the type. Each entry is returned even if it has expired, and
        even if another entry answers the question. Raises `BadType`, `BadName` or `OtherSeed`.

        >>> with Shelf() as shelf:
        ...     _ = shelf.offer_failure("www.example.", 1, 30, moment=1000)
        ...     stored = shelf.stored("www.example.", 1)
        >>> stored.set is None, stored.failure.ttl, stored.failure.moment
        (True, 30, 1000)
        """
        return stored_under(self._look(), self._name(name), rtype, rclass)

    # ---- housekeeping

    def sweep(self, moment: int, line: int = 0) -> int:
        """Removes the fully expired keys, and returns their number. An NXDOMAIN hides an older
        RRset of the name, even after the NXDOMAIN has expired, until a sweep removes the NXDOMAIN.

        >>> with Shelf(max_stale=0) as shelf:
        ...     _ = shelf.offer_set("www.example.", 1, Trust.AUTHORITY, 60, [bytes(4)], moment=1000)
        ...     shelf.sweep(moment=1059), shelf.sweep(moment=1060)
        (0, 1)
        """
        return told("rrc_sweep", c_uint64, self._handle,
                    structs.fill(structs.SweepAt(), moment, line, 0))

    def next_expiry(self) -> int | None:
        """Returns a timestamp before which no key is fully expired. A sweep before this timestamp
        removes nothing, and even a sweep at this timestamp may remove nothing. After a sweep,
        `next_expiry` returns a timestamp later than that of the sweep, until an offer is made or a
        chapter is closed. Returns None if and only if the shelf holds no key.

        >>> with Shelf(max_stale=0) as shelf:
        ...     shelf.next_expiry() is None
        ...     _ = shelf.offer_set("www.example.", 1, Trust.AUTHORITY, 60, [bytes(4)], moment=1000)
        ...     shelf.next_expiry()
        True
        1060
        """
        moment = told("rrc_next_expiry", c_uint64, self._look())
        return None if moment == 2 ** 64 - 1 else moment

    def sweep_some(self, moment: int, most: int, line: int = 0) -> Swept:
        """Sweeps in steps, so that no call takes long. Each step is a sweep at the timestamp that
        `next_expiry` then returns, and is one event. The call stops when this timestamp is later
        than `moment`, when at least `most` keys have been removed, or after `most` steps. Returns
        the number of keys that were removed, and whether no fully expired key is left. Raises
        `BadRules` if `most` is 0, or `MomentTooLarge`, before the first step. Keys that were
        removed before another exception stay removed, and `swept` of the exception counts them.

        >>> with Shelf(max_stale=0) as shelf:
        ...     for ttl in 10, 20, 30:
        ...         _ = shelf.offer_failure(f"{ttl}.example.", 1, ttl, moment=1000)
        ...     shelf.sweep_some(moment=2000, most=2)
        ...     shelf.sweep_some(moment=2000, most=2)
        Swept(removed=2, is_done=False)
        Swept(removed=1, is_done=True)
        """
        swept = structs.Swept()
        status = library().rrc_sweep_some(
            self._handle, structs.fill(structs.SweepAt(), moment, line, most), swept)
        result = Swept(swept.removed, bool(swept.is_done))
        if status:
            raise refusal(status, swept=result)
        return result

    def trim(self, moment: int, limit: int, most: int = KEYS_MOST, line: int = 0) -> Trimmed:
        """Limits the memory of the shelf. Evicts the least recently used keys until the octets of
        the remaining keys (`Sizes.octets`) are at most `limit`, `most` keys are removed, or no key
        is left. Returns the number of keys that were removed, and the remaining octets. Each
        eviction is one event, and the eviction of a failure is two events. Failures with TTL 0 are
        removed first, and are not counted. Raises `BadRules` if `limit` or `most` is 0, or
        `MomentTooLarge`, before any key is removed. If `Memory` is raised, keys that were removed
        before the error stay removed.

        >>> with Shelf() as shelf:
        ...     for name in "a.example.", "b.example.", "c.example.":
        ...         _ = shelf.offer_failure(name, 1, 30, moment=1000)
        ...     octets = shelf.sizes().octets
        ...     shelf.trim(moment=1000, limit=octets - 1).removed
        ...     shelf.stored("a.example.", 1).failure is None
        1
        True
        """
        trimmed = structs.Trimmed()
        call("rrc_trim", self._handle, structs.fill(structs.TrimTo(), moment, line, limit, most),
             trimmed)
        return Trimmed(*structs.numbers_in(trimmed))

    def record(self) -> None:
        """Starts to record the history. Recording does not change any reply. If the history is
        already being recorded, the call does nothing.

        >>> with Shelf() as shelf:
        ...     shelf.ask("www.example.", 1, moment=1000).kind.name, shelf.sizes().events
        ...     shelf.record()
        ...     shelf.ask("www.example.", 1, moment=1000).kind.name, shelf.sizes().events
        ('MISS', 0)
        ('MISS', 1)
        """
        call("rrc_record", self._handle)

    def stop_and_drop(self) -> None:
        """Stops recording, and drops the recorded history. This does not change any reply. If
        nothing is being recorded, the call does nothing.

        >>> with Shelf(record=True) as shelf:
        ...     _ = shelf.ask("www.example.", 1, moment=1000)
        ...     shelf.stop_and_drop()
        ...     shelf.sizes().events
        0
        """
        call("rrc_stop_and_drop", self._handle)

    def drop_chapters(self) -> int:
        """Drops the closed chapters of the history, and returns the number of these chapters, which
        is 0 while nothing is being recorded.

        >>> with Shelf(chapter=1, record=True) as shelf:
        ...     for moment in 1000, 1001:
        ...         _ = shelf.ask("www.example.", 1, moment)
        ...     shelf.drop_chapters(), shelf.drop_chapters()
        (1, 0)
        """
        return told("rrc_drop_chapters", c_uint64, self._handle)

    def _chapters(self, export: str) -> list[Chapter]:
        """Returns the chapters that a call takes from the shelf."""
        with ChaptersHeld() as held:
            count = told(export, c_uint64, self._handle, held._handle)
            text = b"".join(text_of(held._handle, it) for it in range(count))
        return read_archive(text.decode("ascii"))

    def take_chapters(self) -> list[Chapter]:
        """Takes the closed chapters of the history from the shelf, and returns them. While nothing
        is being recorded, there are none. The texts of all chapters of one recording, one after
        another, form an archive. Events before the start of the recording are in an earlier
        chapter, which is not returned. If `Memory` is raised, chapters may be lost.

        >>> with Shelf(chapter=1, record=True) as shelf:
        ...     for moment in 1000, 1001:
        ...         _ = shelf.ask("www.example.", 1, moment)
        ...     [chapter] = shelf.take_chapters()
        >>> print(chapter.text, end="")
        chapter 2 0 1024 1 86400
        ask 0 0 1000 www.example. 1 answer none miss
        """
        return self._chapters("rrc_take_chapters")

    def stop_recording(self) -> list[Chapter]:
        """Stops recording, and returns all recorded chapters, the open one last. If no event has
        followed `record`, there is one chapter, whose `entries` are the contents of the shelf.

        >>> with Shelf(record=True) as shelf:
        ...     _ = shelf.ask("WWW.example.", 1, moment=1000, line=7)
        ...     [chapter] = shelf.stop_recording()
        >>> [(event.line, event.name, event.reply.kind.name) for event in chapter.events]
        [(7, 'www.example.', 'MISS')]
        """
        return self._chapters("rrc_stop_recording")

    def sizes(self) -> Sizes:
        """Returns the sizes of the shelf.

        Before the first `trim`, the call visits all keys to add up their octets. From the first
        `trim` on, the shelf keeps this number up to date.

        >>> with Shelf() as shelf:
        ...     _ = shelf.offer_failure("www.example.", 1, 30, moment=1000)
        ...     shelf.sizes()
        Sizes(keys=1, events=0, chapters=0, octets=240)
        """
        sizes = structs.Usage()
        call("rrc_sizes", self._look(), sizes)
        return Sizes(*structs.numbers_in(sizes))
