# SPDX-License-Identifier: MIT
"""A cache that threads share."""
from __future__ import annotations

import os
from collections.abc import Iterable
from ctypes import Structure, c_uint32, create_string_buffer
from pathlib import Path
from typing import Any, NamedTuple

from . import structs
from .answers import ANSWER_OCTETS, Answer, Work, answer_of, looked_up, taken
from .choices import Class, Kind, Mode, Outcome, Trust
from .handles import CLOSED, done, handed, opened
from .library import Closing, library, seed_of
from .offers import Summary, summary_of
from .parts import AnyName, wire_form
from .refusals import BadSeed, Status
from .replies import Counts, Limits, Query, Swept
from .shelf import with_lengths
from .writing import files_of, texts_of

# The default number of shelves (rrcache.h).
SHELVES = 64
# Limits of 0 mean the limits of the cache.
OF_THE_CACHE = Limits(0, 0, 0)
EVERYTHING = 2 ** 64 - 1
ANY, STATS_OCTETS = 255, 384
# The maximum number of octets of an answer to a query of type ANY for each octet of the response.
# Rdata take at most 34 octets for each, because a record of 15 octets may have pointers to two
# names of 255 octets. The rest of an RRset takes at most as many, because a record has at least 11
# octets.
OCTETS_FOR_ONE = 68


class Stats(NamedTuple):
    """Counters of a cache or of one shelf.

    - Look-ups answered by an unexpired RRset (`hits`), by a stale RRset (`stale`), or by NODATA or
      NXDOMAIN (`negative`); look-ups without an answer and without a recent failure (`misses`); and
      look-ups without an answer, after a recent failure (`failed`). Each name of a CNAME chain
      counts as one look-up. `lookup_delegation` counts one look-up for each name that it tries.
    - RRsets, negative answers and failures that were stored (`kept`), and RRsets and negative
      answers that were not stored, because data of higher rank were cached (`outranked`).
    - Keys that were evicted (`evicted`) or that sweeps removed (`expired`), keys that are cached
      now (`keys`), and octets of memory that the cached keys use (`octets`).

    The text of the counters is one line for a log.

    >>> with SharedCache() as cache:
    ...     _ = cache.lookup("www.example.", 1)
    ...     stats = cache.stats()
    >>> stats.misses, str(stats).split(" kept ")[0]
    (1, 'hits 0 stale 0 negative 0 misses 1 failed 0')
    """

    hits: int
    stale: int
    negative: int
    misses: int
    failed: int
    kept: int
    outranked: int
    evicted: int
    expired: int
    keys: int
    octets: int

    def __str__(self) -> str:
        text = create_string_buffer(STATS_OCTETS)
        done(library().rrcache_stats_text(structs.fill(structs.Stats(), *self), text, STATS_OCTETS))
        return text.value.decode("ascii")


class Report(NamedTuple):
    """The result of `SharedCache.store`.

    - `summary`: the RCODE, AA and TC of the response, its kind, and the zone of a referral or the
      target of an alias.
    - `counts`: the number of RRsets, negative answers and failures with each outcome.
    - `too_large`: the number of RRsets and negative answers that were left out, because each would
      use more memory than a shelf may use.
    - `answer`: the answer that the response itself gives. This answer includes data with TTL 0, and
      data of lower rank than the cached data.

    >>> from rrcache import ParsedSet, compose_response
    >>> query = Query("www.example.", 1, id=0x1234)
    >>> response = compose_response(query, [ParsedSet("www.example.", 1, 0, [bytes(4)])], aa=True)
    >>> with SharedCache() as cache:
    ...     report = cache.store(response, "example.", query)
    >>> report.summary.kind.name, report.counts, report.too_large
    ('ANSWER', Counts(kept=0, cleared=1, outranked=0), 0)
    >>> report.answer.kind.name, report.answer.rrsets[0].ttl
    ('FRESH', 0)
    """

    summary: Summary
    counts: Counts
    too_large: int
    answer: Answer


def work_for(size: int, query: Query) -> Work:
    """Returns a `Work` object with room for the answer of a response of `size` octets."""
    room = size * OCTETS_FOR_ONE
    return Work(room) if query.rtype == ANY and room > ANSWER_OCTETS else taken()


class SharedCache(Closing):
    """The RRset cache that all threads of a resolver share. Any thread may make any call at any
    time: the cache does its own locking, and other Python threads run during a call. A `with`
    statement closes the cache at its end. Later calls raise `NoShelf`. Calls that are running when
    the cache is closed end normally, and then the memory of the cache is freed.

    - `octets`: the maximum number of octets of memory that the keys use (`Sizes.octets`), divided
      equally among the shelves: 65,536 to 2^46, or 0 for 64 MiB. The least recently used keys are
      evicted to meet this limit.
    - `keys`: the maximum number of keys, divided equally among the shelves, or 0 for 65,536 in each
      shelf.
    - `shelves`: the number of shelves, 1 to 64, or 0 for 64.
    - `readers`: the maximum number of threads that can look up in a shelf at once, 1 to 64, or 0
      for the number of processors, but at most 16.
    - `max_stale`: for how many seconds past its TTL an RRset may be served, 0 to 604,800, to
      look-ups for which stale data are acceptable (RFC 8767 section 4).
    - `limits`: the limits on how long data of responses may be cached.
    - `seed`: 16 secret random octets. A hash under this seed divides the names among the shelves.
      By default, the system provides these octets.
    - `exact_recency`: whether every look-up moves its entry to the front of the LRU order. If not,
      some look-ups do not move their entry.

    Raises `BadRules`, `BadLimits` or `BadSeed` if an argument is out of range.

    Names are text, octets in wire form, or the result of `make_name`. Types and classes are 16-bit
    numbers. TTLs and timestamps (`moment`) are in seconds, and a timestamp is at most 2^40. If the
    timestamp is 0, which is the default, a call uses the current time of CLOCK_BOOTTIME. A caller
    must pass timestamps either in no call, or in all calls and from its own clock, which must never
    be set back. A number that is too large for its field raises `ValueError`.

    >>> with SharedCache(octets=256 << 20) as cache:
    ...     cache.store_set("www.example.", 1, Trust.AUTHORITATIVE_ANSWER, 60,
    ...                     [bytes([192, 0, 2, 1])], moment=1000).name
    ...     answer = cache.lookup("WWW.example.", 1, moment=1010)
    'KEPT'
    >>> answer.kind.name, [(it.owner_text, it.ttl, it.data[0].hex()) for it in answer]
    ('FRESH', [('www.example.', 50, 'c0000201')])
    """

    def __init__(self, octets: int = 0, *, keys: int = 0, shelves: int = 0, readers: int = 0,
                 max_stale: int = 86_400, limits: Limits = Limits(), seed: bytes | None = None,
                 exact_recency: bool = False) -> None:
        if seed is not None and not any(seed):
            raise BadSeed
        config = structs.fill(structs.Config(), octets, keys, shelves, readers, max_stale, *limits,
                              seed_of(bytes(structs.SEED_OCTETS) if seed is None else seed),
                              exact_recency)
        self._handle, self._look = opened(config), library().rrcache_lookup
        self.shelves = shelves or SHELVES

    def close(self) -> None:
        """Closes the cache, and frees its memory when all running calls have ended. This method may
        be called more than once."""
        self._handle = CLOSED

    # ---- looking up

    def lookup(self, name: AnyName, rtype: int, moment: int = 0, *,
               mode: Mode | int = Mode.NO_STALE, takes_glue: bool = False,
               with_dnames: bool = False, rclass: Class | int = Class.IN) -> Answer:
        """Looks up the answer to a question. The answer has the CNAME RRsets of the CNAME chain
        that begins at the name (RFC 1034 section 4.3.2), and the reply for the name at the end of
        the chain: an RRset of the type, a negative answer (NODATA, NXDOMAIN), or a miss (MISS,
        FAILED). For a question of type CNAME, ANY, NSEC or RRSIG, no CNAME record is followed.

        `mode` says when stale data are acceptable. With STALE_IF_FAILED, they are acceptable for
        every name of the chain if resolution of the question has failed recently, and this failure
        was stored after the CNAME record, if any, of the question's name (RFC 8767 section 5).
        Otherwise, they are acceptable only for names for which resolution of the type has failed
        recently. `takes_glue` says whether additional data are acceptable, such as glue, which must
        not answer a client's question (RFC 2181 section 5.4.1). With `with_dnames`, each CNAME
        record that was synthesized from a cached DNAME RRset is preceded by that RRset (RFC 6672
        section 3.1). Raises `BadChoice` (the mode), `BadType`, `BadName` or `MomentTooLarge`.

        >>> with SharedCache() as cache:
        ...     _ = cache.store_set("www.example.", 1, Trust.AUTHORITY, 60, [bytes(4)], moment=1000)
        ...     cache.lookup("www.example.", 1, moment=1060).kind.name
        ...     _ = cache.store_failure("www.example.", 1, 30, moment=1060)
        ...     cache.lookup("www.example.", 1, moment=1060).retry_from
        ...     cache.lookup("www.example.", 1, 1060, mode=Mode.STALE_IF_FAILED).kind.name
        'MISS'
        1090
        'STALE'
        """
        return looked_up(self._look, self._handle, name, rtype, rclass, moment, mode, takes_glue,
                         with_dnames)

    def lookup_delegation(self, name: AnyName, moment: int = 0, *,
                          rclass: Class | int = Class.IN) -> Answer:
        """Looks up the deepest unexpired NS RRset at or above a name, from which a resolver can
        start (RFC 1034 section 5.3.3, RFC 9156 section 2). `end` of the answer is the owner of this
        RRset. If there is no such RRset, the kind is MISS.

        >>> from rrcache import to_text, to_wire
        >>> with SharedCache() as cache:
        ...     _ = cache.store_set("example.", 2, Trust.ADDITIONAL, 60, [to_wire("ns.example.")])
        ...     answer = cache.lookup_delegation("www.a.example.")
        >>> answer.kind.name, answer.end_text, [to_text(it) for it in answer.rrsets[0].data]
        ('FRESH', 'example.', ['ns.example.'])
        """
        return looked_up(library().rrcache_lookup_delegation, self._handle, name, 0, rclass, moment,
                         0, False, False)

    # ---- storing

    def store(self, message: bytes, zone: AnyName, query: Query, moment: int = 0, *,
              limits: Limits | None = None, lowest_ttl: bool = False,
              clears_denied: bool = False, with_dnames: bool = False) -> Report:
        """Stores the data of a response that are relevant to the query, and returns a report.
        `zone` is the zone whose server sent the response. `answer` of the report is for the waiting
        client: it has the data that the server sent and, for type ANY, all RRsets of the name. The
        kind of this answer is MISS if only `summary` has the result, as for a negative response
        without an SOA record. The kind is also MISS if the data, or a CNAME record that leads to
        them, are left out because their TTLs differ. Unless `is_miss` of `answer` is set, `answer`
        answers the question, even if the kind of `summary` is UNUSABLE or ALIAS, as for data of a
        type that is not kept, such as NAPTR.

        The caller must check the address and port that a response came from. Raises `OtherQuery` if
        the octets do not answer the query: the caller then drops them and keeps waiting.
        `BadMessage` and `NoQuestion` mean that the server has failed, and nothing is stored. A
        response with an RCODE other than NOERROR and NXDOMAIN is stored as a failure of its
        question. So pass such a response only when no other server is left to ask. From a response
        with TC set, nothing is stored: send the query again over TCP. If such a response ends
        inside a record, `BadMessage` is raised, which then does not mean that the server has
        failed.

        If `limits` is None, the limits of the cache apply. If a single limit is 0, that limit of
        the cache applies. With `lowest_ttl`, an RRset with different TTLs is stored with the lowest
        of them even if AA is clear. With `clears_denied`, an authoritative NXDOMAIN clears the data
        of the denied name for the types A, AAAA and CNAME and for the type of the question.
        `with_dnames` affects `answer` as it does in `lookup`. If `Memory` is raised, some data may
        have been stored, and `counts` of the exception counts them. `BadData`, raised if a
        record whose type is not kept cannot be read, comes only after everything has been stored.

        >>> from rrcache import ParsedSet, compose_response
        >>> query = Query("www.example.", 1, id=0x1234)
        >>> answer = [ParsedSet("www.example.", 1, 60, [bytes([192, 0, 2, 1])])]
        >>> response = compose_response(query, answer, aa=True)
        >>> with SharedCache() as cache:
        ...     report = cache.store(response, "example.", query, moment=1000)
        ...     cache.lookup("www.example.", 1, moment=1010).rrsets[0].ttl
        50
        >>> report.summary.kind.name, report.counts.kept, report.answer.rrsets[0].ttl
        ('ANSWER', 1, 60)
        """
        asked = (wire_form(query.name), query.id, query.rtype, query.rclass, query.with_case)
        came = (bytes(message), wire_form(zone), moment, *(limits or OF_THE_CACHE), lowest_ttl,
                clears_denied)
        terms = self._handle, handed(structs.Query, asked), handed(structs.Response, came)
        report, work = structs.Report(), work_for(len(message), query)
        work.answer.with_dnames = with_dnames
        status = library().rrcache_store(*terms, report, work.answer)
        counts = Counts(*structs.numbers_in(report.counts))
        while status == Status.SMALL:
            # Everything has been stored, and is stored again by the call that returns the answer.
            # Only the first report is used.
            work = Work(4 * work.answer.room)
            work.answer.with_dnames = with_dnames
            status = library().rrcache_store(*terms, structs.Report(), work.answer)
        done(status, counts)
        return Report(summary_of(report.summary, report.name), counts, report.too_large,
                      answer_of(work))

    def _kept(self, export: str, kind: type[Structure], *values: Any) -> Outcome:
        """Stores data that the caller provides, and returns the outcome."""
        outcome = c_uint32()
        done(getattr(library(), export)(self._handle, handed(kind, values), outcome))
        return Outcome(outcome.value)

    def store_set(self, owner: AnyName, rtype: int, trust: Trust | int, ttl: int,
                  data: Iterable[bytes], moment: int = 0, line: int = 0,
                  rclass: Class | int = Class.IN) -> Outcome:
        """Stores an RRset of the caller, under the same rules as `Shelf.offer_set`. `data` are
        rdata without compressed names. With the highest rank and `ttl` 0, the call clears the RRset
        or NODATA of the name and type. Raises `BadName`, `BadType`, `BadChoice` if `trust` is not a
        rank, `BadData`, `WrongBody`, or `TooLarge` if the RRset might use more memory than a shelf
        may use for all its keys.

        >>> trust, data = Trust.AUTHORITATIVE_ANSWER, [bytes([192, 0, 2, 1])]
        >>> with SharedCache() as cache:
        ...     cache.store_set("www.example.", 1, trust, 60, data, moment=1000).name
        ...     cache.store_set("www.example.", 1, Trust.ADDITIONAL, 60, data, moment=1010).name
        'KEPT'
        'OUTRANKED'
        """
        return self._kept("rrcache_store_set", structs.Set, wire_form(owner), rtype, rclass, trust,
                          ttl, with_lengths(data), moment, line)

    def store_negative(self, name: AnyName, rtype: int, kind: Kind | int, trust: Trust | int,
                       ttl: int, soa_owner: AnyName, soa: bytes, moment: int = 0, line: int = 0,
                       rclass: Class | int = Class.IN) -> Outcome:
        """Stores a negative answer with its SOA record (RFC 2308), under the same rules as
        `Shelf.offer_negative`: the name has no data of the type (`kind` NODATA), or does not exist
        (NXDOMAIN, which ignores `rtype`). Raises the exceptions of `store_set`, and `BadChoice` for
        any other `kind`.

        >>> soa = b"\\0\\0" + bytes(20)
        >>> with SharedCache() as cache:
        ...     _ = cache.store_negative("gone.example.", 0, Kind.NXDOMAIN, Trust.AUTHORITY, 60,
        ...                              "example.", soa, moment=1000)
        ...     answer = cache.lookup("gone.example.", 28, moment=1010)
        >>> answer.kind.name, answer.rrsets[0].ttl, answer.rrsets[0].owner_text
        ('NXDOMAIN', 50, 'example.')
        """
        return self._kept("rrcache_store_negative", structs.Negative, wire_form(name), rtype,
                          rclass, kind, trust, ttl, wire_form(soa_owner), bytes(soa), moment, line)

    def store_failure(self, name: AnyName, rtype: int, ttl: int, moment: int = 0, line: int = 0,
                      rclass: Class | int = Class.IN) -> Outcome:
        """Stores a resolution failure of a name and type for `ttl` seconds (RFC 9520). With `ttl`
        0, a cached failure of this name and type ends. Raises `BadName`, `BadType` or `WrongBody`.

        >>> with SharedCache() as cache:
        ...     _ = cache.store_failure("www.example.", 1, 30, moment=1000)
        ...     answer = cache.lookup("www.example.", 1, moment=1010)
        >>> answer.kind.name, answer.retry_from
        ('FAILED', 1030)
        """
        return self._kept("rrcache_store_failure", structs.Failure, wire_form(name), rtype, rclass,
                          ttl, moment, line)

    # ---- forgetting and sweeping

    def forget(self, name: AnyName, rtype: int, moment: int = 0, *,
               rclass: Class | int = Class.IN) -> None:
        """Removes the cached data of a name, a class and a type: the RRset or NODATA, the failure,
        and the NXDOMAIN of the name. With type ANY (255), the call removes the data of every type.

        >>> with SharedCache() as cache:
        ...     _ = cache.store_failure("www.example.", 1, 30)
        ...     cache.forget("www.example.", 1)
        ...     cache.lookup("www.example.", 1).kind.name
        'MISS'
        """
        request = (wire_form(name), rtype, rclass, moment, 0, False)
        done(library().rrcache_forget(self._handle, handed(structs.Request, request)))

    def sweep(self, moment: int = 0, most: int = EVERYTHING) -> Swept:
        """Removes fully expired keys, until at least `most` keys are removed or no such key is
        left. `most` is at least 1. Keys that expire in the same second are removed together.
        Returns the number of keys that were removed, and whether no fully expired key is left. A
        sweep continues in the shelf in which the last sweep ended. A caller need not sweep, because
        eviction makes room.

        >>> with SharedCache() as cache:
        ...     _ = cache.store_failure("www.example.", 1, 30, moment=1000)
        ...     cache.sweep(moment=1029), cache.sweep(moment=1030)
        (Swept(removed=0, is_done=True), Swept(removed=1, is_done=True))
        """
        came = structs.Swept()
        status = library().rrcache_sweep_all(self._handle, structs.wide(moment),
                                             structs.wide(most), came)
        swept = Swept(came.removed, came.is_done != 0)
        done(status, swept=swept)
        return swept

    # ---- counters, histories and dumps

    def stats(self, shelf: int | None = None) -> Stats:
        """Returns the counters since the cache was opened, of all shelves or of the shelf with this
        number, counted from 0. Raises `BadRules` if there is no such shelf.

        >>> with SharedCache() as cache:
        ...     _ = cache.store_failure("www.example.", 1, 30)
        ...     cache.stats().kept, sum(cache.stats(it).kept for it in range(cache.shelves))
        (1, 1)
        """
        stats = structs.Stats()
        if shelf is None:
            done(library().rrcache_stats(self._handle, stats))
        else:
            done(library().rrcache_stats_of(self._handle, structs.wide(shelf), stats))
        return Stats(*structs.numbers_in(stats))

    def record(self) -> None:
        """Starts to record the histories of all shelves. While histories are being recorded, each
        look-up is an event, and waits for other look-ups in its shelf. Events use at least 96
        octets each and stay in memory until recording stops. `octets` of the cache does not limit
        this memory.

        >>> with SharedCache(shelves=1) as cache:
        ...     cache.record()
        ...     _ = cache.lookup("www.example.", 1, moment=1000)
        ...     [archive] = cache.stop_recording()
        >>> print(archive.splitlines()[-1])
        ask 0 0 1000 www.example. 1 answer none miss
        """
        done(library().rrcache_record_all(self._handle))

    def stop_recording(self) -> list[str]:
        """Stops recording, and returns the archive (the text of the history) of each shelf, in the
        order of the shelves' numbers. `read_archive` reads an archive. The archives are empty if
        nothing was being recorded. If `Memory` is raised, the histories are dropped.

        >>> with SharedCache(shelves=2) as cache:
        ...     cache.stop_recording()
        ['', '']
        """
        return texts_of("rrcache_stop_recording_all", self._handle, self.shelves)

    def stop_recording_into(self, folder: str | os.PathLike[str]) -> list[Path]:
        """Stops recording, and writes the archives to files in an existing folder, each named after
        the number of its shelf. Existing files with these names are overwritten. Returns the paths
        of the files; the list is empty if nothing was being recorded. `rrcache --audit-history`
        checks such a file against the rules. If a file cannot be written, its `OSError` is raised,
        and the histories that were not written are dropped.

        >>> import tempfile
        >>> with SharedCache(shelves=2) as cache, tempfile.TemporaryDirectory() as folder:
        ...     cache.record()
        ...     [it.name for it in cache.stop_recording_into(folder)]
        ['00', '01']
        """
        return files_of("rrcache_stop_recording_all", self._handle, folder)

    def dump(self) -> list[str]:
        """Returns the contents of each shelf as a text that `read_archive` can read: a chapter
        without events, whose `entries` are the contents of the shelf. Raises `HasChapters` while
        histories are being recorded.

        >>> from rrcache import read_archive
        >>> with SharedCache(shelves=1) as cache:
        ...     _ = cache.store_failure("www.example.", 1, 30, moment=1000)
        ...     [chapter] = read_archive(cache.dump()[0])
        >>> [(it.key.name, it.moment, it.body.ttl) for it in chapter.entries]
        [('www.example.', 1000, 30)]
        """
        return texts_of("rrcache_dump", self._handle, self.shelves)

    def dump_into(self, folder: str | os.PathLike[str]) -> list[Path]:
        """Writes the contents of each shelf to a file in a folder, and names the files as
        `stop_recording_into` does. Returns the paths of the files.

        >>> import tempfile
        >>> with SharedCache(shelves=1) as cache, tempfile.TemporaryDirectory() as folder:
        ...     _ = cache.store_failure("www.example.", 1, 30, moment=1000)
        ...     [path] = cache.dump_into(folder)
        ...     print(path.read_text().splitlines()[-1])
        entry 0 1000 www.example. failed1 failure 30
        """
        return files_of("rrcache_dump", self._handle, folder)
