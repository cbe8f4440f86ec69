# SPDX-License-Identifier: MIT
"""The cache that threads share: what it is asked, what is stored in it, and what it writes.
Responses are dnspython's. TTLs, kinds and ranks follow from RFC 1034, RFC 2181, RFC 2308, RFC 8767
and RFC 9520."""
import itertools
import os
import re
import signal
import subprocess
import sys
import threading
import time
from _thread import start_new_thread
from contextlib import contextmanager, suppress

import pytest
from dns.flags import AA, RA, TC
from dns.rcode import NXDOMAIN, REFUSED, SERVFAIL
from dns.rdatatype import A, AAAA, ANY, CNAME, DNAME, MX, NS, RRSIG, SOA, TXT

import rrcache
from rrcache import Kind, Mode, Outcome, ResponseKind, SharedCache, Trust, writing
from tests.conftest import TOP
from tests.forwarder.harness import ID, aliases, answered, hosts, wire_name
from tests.forwarder.harness import SOA as SOA_LINE
from tools.audits import first_fault

ADDRESS, HIGH = bytes([192, 0, 2, 9]), Trust.AUTHORITATIVE_ANSWER
SEED = bytes(range(16))
FRESH, STALE, MISS = Kind.FRESH, Kind.STALE, Kind.MISS
NODATA, DENIED, FAILED = Kind.NODATA, Kind.NXDOMAIN, Kind.FAILED
# A type for private use, whose data have no layout (RFC 3597).
UNKNOWN = 65_280
# An SOA record's data: two roots and five numbers.
SOA_DATA = bytes(2) + bytes(20)


def opened(**words):
    return SharedCache(seed=SEED, shelves=4, **words)


def store(cache, octets, name, rtype=A, moment=100, zone="example", **others):
    return cache.store(octets, zone, rrcache.Query(name, rtype, ID), moment, **others)


def told(answer):
    """The RRsets of an answer: owner, type, and what is left of the TTL."""
    return [(it.owner_text, it.rtype, it.ttl) for it in answer]


def kinds(cache, name, moment, rtype=A):
    """The kinds of answers in each mode."""
    return [cache.lookup(name, rtype, moment, mode=it).kind for it in Mode]


# ---- Look-ups.

def test_octets_that_are_too_long_for_a_name_are_not_remembered():
    """A caller may hand a packet's octets on unread: what is remembered of names stays small."""
    remembered = rrcache.answers.place_of_wire
    with opened() as cache:
        before = remembered.cache_info()
        for size in 255, 256, 65_535:
            with pytest.raises(rrcache.BadName):
                cache.lookup(b"\1a" * (size // 2) + b"\0" * (size % 2 + 1), A, 100)
        assert remembered.cache_info().currsize == before.currsize


@pytest.mark.parametrize("name", [
    "WWW.example", "www.example.", wire_name("www.EXAMPLE"),
    rrcache.make_name("www.example", rrcache.Parts(7, bytes(range(1, 17))))])
def test_names_as_text_as_octets_and_made(name):
    """Whatever seed and number of parts a name was made for. The owner is spelled as it came."""
    with opened() as cache:
        assert cache.store_set("wWw.Example", A, HIGH, 60, [ADDRESS], 100) is Outcome.KEPT
        answer = cache.lookup(name, A, 110)
        assert (answer.kind, told(answer)) == (FRESH, [("wWw.Example.", A, 50)])
        assert (answer.aliases, answer.is_stale, answer.is_endless, answer.retry_from) == (
            0, False, False, 0)
        assert (answer.end, answer.end_text) == (wire_name("www.example"), "www.example.")
        assert not answer.is_miss and not answer.is_negative
        assert cache.lookup(name, AAAA, 110).is_miss
        cache.forget(name, A)
        assert cache.lookup(name, A, 110).kind is MISS


def test_an_rrset():
    """Its entry tells when it is due to be renewed: TTL as it was stored, and that moment."""
    data = [b"\1a", b"\2bc", b"\0"]
    with opened() as cache:
        cache.store_set("a.example", TXT, Trust.ADDITIONAL, 60, data, 100,
                        rclass=rrcache.Class.CH)
        assert cache.lookup("a.example", TXT, 110, takes_glue=True).kind is MISS
        [rrset] = cache.lookup("a.example", TXT, 110, takes_glue=True, rclass=rrcache.Class.CH)
    assert rrset.data == tuple(data) and rrset.owner == wire_name("a.example")
    assert (rrset.rclass, rrset.kind, rrset.is_negative) == (rrcache.Class.CH, FRESH, False)
    assert (rrset.entry.kind, rrset.entry.trust) == (FRESH, Trust.ADDITIONAL)
    assert (rrset.entry.ttl, rrset.entry.moment, rrset.ttl) == (60, 100, 50)


def test_entries_of_a_shelf():
    """Their numbers tell them apart, and an age is told as it was before the look-up."""
    with SharedCache(shelves=1, exact_recency=True) as cache:
        for name in ("a.example", "b.example"):
            cache.store_set(name, A, HIGH, 60, [ADDRESS], 100)

        def entry(name):
            [rrset] = cache.lookup(name, A, 100)
            return rrset.entry
        first, second = entry("a.example"), entry("b.example")
        assert first.number < second.number
        assert (first.age, second.age, entry("b.example").age) == (1, 1, 0)


def test_aliases_are_followed():
    names = ["www.example", "B.example", "c.example"]
    with opened() as cache:
        report = store(cache, answered(names[0], A, *aliases(names, 90), *hosts(names[2])),
                       names[0])
        for answer in (report.answer, cache.lookup("WWW.example", A, 100)):
            assert told(answer) == [("www.example.", CNAME, 90), ("B.example.", CNAME, 90),
                                    ("c.example.", A, 60)]
            assert (answer.kind, answer.aliases, answer.end_text) == (FRESH, 2, "c.example.")
            assert answer.rrsets[0].data == (wire_name("B.example"),)
        assert told(cache.lookup("www.example", CNAME, 110)) == [("www.example.", CNAME, 80)]
        answer = cache.lookup("www.example", A, 170)
        assert (answer.kind, answer.aliases, answer.end_text) == (MISS, 2, "c.example.")
        answer = cache.lookup("www.example", ANY, 110)
        assert (answer.kind, answer.rrsets) == (MISS, ())


@pytest.mark.parametrize("number, kind", [(16, FRESH), (17, MISS)])
def test_how_many_aliases_are_followed(number, kind):
    names = [f"x{it}.example" for it in range(number + 1)]
    with opened() as cache:
        for one, other in zip(names, names[1:]):
            cache.store_set(one, CNAME, HIGH, 60, [wire_name(other)], 100)
        cache.store_set(names[-1], A, HIGH, 60, [ADDRESS], 100)
        answer = cache.lookup("x0.example", A, 100)
        assert (answer.kind, answer.aliases, answer.is_endless) == (kind, 16, number > 16)
        cache.store_set("r.example", CNAME, HIGH, 60, [wire_name("R.example")], 100)
        answer = cache.lookup("r.example", A, 100)
        assert (answer.kind, answer.is_endless) == (MISS, True)


@pytest.mark.parametrize("others, kind", [({}, NODATA), ({"rcode": NXDOMAIN}, DENIED)])
def test_denials(others, kind):
    """They live as long as the lower one of the SOA record's TTL and MINIMUM, here 60 each, and
    stand in an answer as that record (RFC 2308 sections 2 and 5)."""
    with opened() as cache:
        report = store(cache, answered("a.example", A, authority=[SOA_LINE], **others),
                       "a.example")
        assert report.summary.kind.name == kind.name
        assert told(report.answer) == [("example.", SOA, 60)]
        answer = cache.lookup("a.example", A, 110)
        assert (answer.kind, told(answer)) == (kind, [("example.", SOA, 50)])
        assert answer.is_negative and answer.rrsets[0].is_negative and not answer.is_miss
        assert (answer.rrsets[0].kind, answer.rrsets[0].entry.kind) == (kind, kind)
        # That a name does not exist is so of all types.
        assert cache.lookup("a.example", TXT, 110).kind is (DENIED if kind is DENIED else MISS)
        assert cache.lookup("a.example", A, 160).kind is MISS


def test_stale_data():
    """RFC 8767: for `max_stale` seconds, with a TTL of 30; where asking failed, or at once."""
    with opened(max_stale=1000) as cache:
        cache.store_set("a.example", A, HIGH, 60, [ADDRESS], 100)
        assert kinds(cache, "a.example", 159) == [FRESH, FRESH, FRESH]
        assert kinds(cache, "a.example", 160) == [MISS, MISS, STALE]
        cache.store_failure("a.example", A, 30, 200)
        assert kinds(cache, "a.example", 229) == [FAILED, STALE, STALE]
        answer = cache.lookup("a.example", A, 229)
        assert (answer.retry_from, answer.is_miss, answer.rrsets) == (230, True, ())
        answer = cache.lookup("a.example", A, 229, mode=Mode.STALE_IF_FAILED)
        assert (answer.is_stale, told(answer)) == (True, [("a.example.", A, 30)])
        assert (answer.rrsets[0].kind, answer.rrsets[0].entry.ttl) == (STALE, 60)
        assert kinds(cache, "a.example", 230) == [MISS, MISS, STALE]
        assert kinds(cache, "a.example", 1159) == [MISS, MISS, STALE]
        assert kinds(cache, "a.example", 1160) == [MISS, MISS, MISS]
    with opened(max_stale=0) as cache:
        cache.store_set("a.example", A, HIGH, 60, [ADDRESS], 100)
        assert kinds(cache, "a.example", 160) == [MISS, MISS, MISS]


def test_delegations_and_glue():
    """What a referral brings answers no question (RFC 2181 section 5.4.1), and leads to servers."""
    referral = answered("www.a.example", A, authority=["a.example 60 NS ns.a.example"], flags=0,
                        additional=hosts("ns.a.example"))
    with opened() as cache:
        assert cache.lookup_delegation("www.a.example", 100).kind is MISS
        report = store(cache, referral, "www.a.example")
        assert (report.summary.kind, report.answer.kind) == (ResponseKind.REFERRAL, MISS)
        assert report.summary.name.octets == wire_name("a.example")
        assert (report.counts, report.too_large) == ((2, 0, 0), 0)
        answer = cache.lookup_delegation("www.A.example", 110)
        assert (answer.kind, answer.end_text) == (FRESH, "a.example.")
        assert told(answer) == [("a.example.", NS, 50)]
        assert answer.rrsets[0].entry.trust is Trust.ADDITIONAL
        assert cache.lookup_delegation("b.example", 110).kind is MISS
        assert cache.lookup("ns.a.example", A, 110).kind is MISS
        assert told(cache.lookup("ns.a.example", A, 110, takes_glue=True)) == [
            ("ns.a.example.", A, 50)]
        assert cache.lookup_delegation("www.a.example", 160).kind is MISS


@pytest.mark.parametrize("rtype, others, outranked", [
    (NS, {}, 1), (A, {"rcode": NXDOMAIN}, 0), (AAAA, {}, None)])
def test_a_referral_to_a_zone_that_was_denied(rtype, others, outranked):
    """Whoever asked before the zone was delegated got a negative answer of higher rank. For its NS
    RRset that has to be forgotten."""
    referral = answered("www.a.example", A, authority=["a.example 60 NS ns.a.example"], flags=0)
    with opened() as cache:
        cache.store_set("example", NS, HIGH, 60, [wire_name("ns.example")], 100)
        store(cache, answered("a.example", rtype, authority=[SOA_LINE], **others), "a.example",
              rtype)
        report = store(cache, referral, "www.a.example")
        assert (report.summary.kind, report.counts.outranked) == (
            ResponseKind.REFERRAL, outranked or 0)
        found = "a.example." if outranked is None else "example."
        assert cache.lookup_delegation("www.a.example", 100).end_text == found
        cache.forget("a.example", NS, 100)
        store(cache, referral, "www.a.example")
        assert cache.lookup_delegation("www.a.example", 100).end_text == "a.example."


@pytest.mark.parametrize("size, count", [(65_535, 1), (255, 2000), (65_535, 40)])
def test_answers_that_a_usual_buffer_has_no_room_for(size, count):
    """Sets of the caller's own may take any room. The answer after them is as it was."""
    data = [it.to_bytes(2, "big") + bytes(size - 2) for it in range(count)]
    with SharedCache(1 << 30, shelves=1) as cache:
        cache.store_set("long.example", UNKNOWN, HIGH, 60, data, 100)
        cache.store_set("www.example", CNAME, HIGH, 60, [wire_name("long.example")], 100)
        cache.store_set("short.example", A, HIGH, 60, [ADDRESS], 100)
        for name, before in (("long.example", 0), ("www.example", 1)):
            rrsets = cache.lookup(name, UNKNOWN, 100).rrsets
            assert len(rrsets) == before + 1 and sorted(rrsets[-1].data) == sorted(data)
            assert cache.lookup("short.example", A, 100).rrsets[0].data == (ADDRESS,)


# ---- Responses.

def test_a_response_is_stored_and_answers():
    with opened() as cache:
        report = store(cache, answered("a.example", A, *hosts("a.example")), "a.example")
        assert report.summary == (ResponseKind.ANSWER, 0, True, False, None)
        assert (report.counts, report.too_large) == ((1, 0, 0), 0)
        [rrset] = report.answer
        assert (rrset.data, rrset.ttl, rrset.entry.trust) == ((ADDRESS,), 60, HIGH)
        assert (rrset.entry.ttl, rrset.entry.moment) == (60, 100)
        assert (rrset.entry.number, rrset.entry.age) == (0, 0)
        assert cache.lookup("a.example", A, 159).rrsets[0].ttl == 1


def test_answers_of_what_is_not_stored():
    """Data with a TTL of 0, and such as are trusted less than what is held."""
    with opened() as cache:
        report = store(cache, answered("a.example", A, "a.example 0 A 192.0.2.9"), "a.example")
        assert (report.counts, told(report.answer)) == ((0, 1, 0), [("a.example.", A, 0)])
        assert cache.lookup("a.example", A, 100).kind is MISS
        cache.store_set("a.example", A, HIGH, 600, [bytes(4)], 100)
        report = store(cache, answered("a.example", A, *hosts("a.example"), flags=0), "a.example")
        assert (report.counts, report.answer.rrsets[0].data) == ((0, 0, 1), (ADDRESS,))
        assert cache.lookup("a.example", A, 100).rrsets[0].data == (bytes(4),)


def test_an_alias_that_leads_on():
    with opened() as cache:
        octets = answered("a.example", A, "a.example 60 CNAME B.other.test")
        report = store(cache, octets, "a.example")
        assert (report.summary.kind, report.answer.kind) == (ResponseKind.ALIAS, MISS)
        assert report.summary.name.octets == report.answer.end == wire_name("b.other.test")
        # It is asked for, and stored for its zone.
        answer = cache.lookup(report.summary.name, A, 100)
        assert (answer.kind, answer.end_text) == (MISS, "b.other.test.")


def test_failures_of_servers():
    """SERVFAIL is stored as a failure of its question, for 30 seconds."""
    with opened() as cache:
        octets = answered("a.example", A, flags=0, rcode=SERVFAIL)
        report = store(cache, octets, "a.example")
        assert (report.summary.kind, report.summary.rcode) == (ResponseKind.FAILURE, SERVFAIL)
        assert (report.answer.kind, report.answer.retry_from) == (FAILED, 130)
        assert cache.lookup("a.example", A, 129).retry_from == 130
        assert cache.lookup("a.example", A, 130).kind is MISS


def test_a_truncated_response():
    """Nothing of it is stored (RFC 2181 section 9)."""
    with opened() as cache:
        octets = answered("a.example", A, *hosts("a.example"), flags=AA | TC)
        report = store(cache, octets, "a.example")
        assert (report.summary.tc, report.counts, report.answer.kind) == (True, (0, 0, 0), MISS)


def test_a_response_to_any():
    """All RRsets of the name answer, which no look-up of type ANY tells (RFC 8482)."""
    lines = ["a.example 60 TXT x", "a.example 60 MX 10 mx.example", *hosts("a.example")]
    with opened() as cache:
        report = store(cache, answered("a.example", ANY, *lines), "a.example", ANY)
        assert sorted(it.rtype for it in report.answer) == [A, 15, TXT]
        assert cache.lookup("a.example", ANY, 100).kind is MISS


def test_a_large_response_to_any():
    """So many types as a message has room for: 4,000 records of a type each, with no data. Types
    from 300 on are unknown ones (RFC 3597)."""
    head = answered("a.example", ANY)
    records = b"".join(b"\xc0\x0c" + it.to_bytes(2, "big") + b"\0\1\0\0\0\x3c\0\0"
                       for it in range(300, 4300))
    octets = head[:6] + (4000).to_bytes(2, "big") + head[8:] + records
    with opened() as cache:
        report = store(cache, octets, "a.example", ANY)
        assert sorted(it.rtype for it in report.answer) == [*range(300, 4300)]
        assert {(it.owner_text, it.data) for it in report.answer} == {("a.example.", (b"",))}


def many(name, rtype, count, data):
    """A response of so many records of a name, which is at its front, and of a type."""
    head = answered(name, rtype)
    record = b"\xc0\x0c" + rtype.to_bytes(2, "big") + b"\0\1\0\0\0\x3c"
    records = (record + len(it).to_bytes(2, "big") + it for it in map(data, range(count)))
    return head[:6] + count.to_bytes(2, "big") + head[8:] + b"".join(records)


@pytest.mark.parametrize("rtype, data, sets", [
    (MX, lambda it: it.to_bytes(2, "big") + b"\xc0\x0c", 1),
    (RRSIG, lambda it: it.to_bytes(2, "big") + bytes(18), 2000)])
def test_answers_of_responses_that_a_usual_buffer_has_no_room_for(rtype, data, sets):
    """2,000 records: an RRset whose data have each a long name that two octets point to, and such
    as are not kept, which are told one by one. Nothing of either is stored."""
    name = ".".join([it * 60 for it in "abcd"]) + ".example"
    with opened() as cache:
        report = store(cache, many(name, rtype, 2000, data), name, rtype)
        assert (report.answer.kind, report.counts) == (FRESH, (0, 0, 0))
        assert len(report.answer.rrsets) == sets
        assert sum(len(it.data) for it in report.answer) == 2000
        # The next answer has a usual buffer again.
        assert store(cache, answered("a.example", A, *hosts("a.example")),
                     "a.example").answer.rrsets[0].data == (ADDRESS,)


@pytest.mark.parametrize("rclass", [2, 254, 255])
def test_an_answer_of_a_class_that_is_not_kept(rclass):
    """Records of a type that is not kept are told in the class of the query, whichever that is."""
    question = wire_name("a.example") + RRSIG.to_bytes(2, "big") + rclass.to_bytes(2, "big")
    octets = (ID.to_bytes(2, "big") + bytes([0x84, 0, 0, 1, 0, 1, 0, 0, 0, 0]) + question
              + b"\xc0\x0c" + question[-4:] + bytes([0, 0, 0, 60, 0, 20]) + bytes(20))
    with opened() as cache:
        query = rrcache.Query("a.example", RRSIG, ID, rclass)
        report = cache.store(octets, "example", query, 100)
        assert (report.summary.kind, report.counts) == (ResponseKind.UNUSABLE, (0, 0, 0))
        assert [(it.rclass, it.data) for it in report.answer] == [(rclass, (bytes(20),))]


@pytest.mark.parametrize("is_lowest, kind, rrsets", [
    (False, MISS, []), (True, FRESH, [("a.example.", CNAME, 30), ("b.example.", A, 60)])])
def test_unequal_ttls_of_an_alias(is_lowest, kind, rrsets):
    """They do not affect the kind of the response. But the answer does not have the alias if it is
    left out, nor what it leads to."""
    octets = answered("a.example", A, *(f"a.example {it} CNAME b.example" for it in (60, 30)),
                      "b.example 60 A 192.0.2.1", flags=0)
    with opened() as cache:
        report = store(cache, octets, "a.example", lowest_ttl=is_lowest)
        assert (report.summary.kind, report.answer.kind) == (ResponseKind.ANSWER, kind)
        assert told(report.answer) == rrsets


def test_unequal_ttls_and_limits():
    """The lowest TTL counts where that is chosen, and the cache's limits where none are given."""
    lines = ["a.example 5000 A 192.0.2.1", "a.example 4000 A 192.0.2.2"]
    octets = answered("a.example", A, *lines, flags=0)
    with opened(limits=rrcache.Limits(cap=1000, negative_cap=40, recheck=7)) as cache:
        report = store(cache, octets, "a.example")
        assert (report.summary.kind, report.answer.kind) == (ResponseKind.UNEQUAL_TTLS, MISS)
        for limits, ttl in [(None, 1000), (rrcache.Limits(cap=3000), 3000),
                            (rrcache.Limits(0, 0, 0), 1000), (rrcache.Limits(9000), 4000)]:
            store(cache, octets, "a.example", lowest_ttl=True, limits=limits)
            [rrset] = cache.lookup("a.example", A, 100)
            assert (rrset.ttl, rrset.entry.ttl) == (ttl, ttl)
        store(cache, answered("b.example", A, authority=[SOA_LINE]), "b.example")
        assert cache.lookup("b.example", A, 100).rrsets[0].ttl == 40
        store(cache, answered("c.example", A, flags=0, rcode=SERVFAIL), "c.example")
        assert cache.lookup("c.example", A, 100).retry_from == 107


@pytest.mark.parametrize("clears", [False, True])
def test_what_a_denial_clears(clears):
    with opened() as cache:
        cache.store_set("a.example", AAAA, HIGH, 600, [bytes(16)], 100)
        octets = answered("a.example", A, authority=[SOA_LINE], rcode=NXDOMAIN)
        report = store(cache, octets, "a.example", clears_denied=clears)
        assert report.answer.kind is DENIED
        cache.sweep(200)  # the denial is over
        assert cache.lookup("a.example", AAAA, 200).kind is (MISS if clears else FRESH)


@pytest.mark.parametrize("octets, refusal", [
    (answered("b.example", A), rrcache.OtherQuery),
    (answered("a.example", TXT), rrcache.OtherQuery),
    (b"\0\0" + answered("a.example", A)[2:], rrcache.OtherQuery),
    (b"", rrcache.OtherQuery),
    (answered("a.example", A, *hosts("a.example"))[:-1], rrcache.BadMessage),
    (ID.to_bytes(2, "big") + bytes([0x80, REFUSED, *bytes(8)]), rrcache.NoQuestion)])
def test_responses_that_are_refused(octets, refusal):
    with opened() as cache:
        with pytest.raises(refusal) as refused:
            store(cache, octets, "a.example")
        assert refused.value.counts == (0, 0, 0) and cache.stats().keys == 0
        # The call after it.
        assert store(cache, answered("a.example", A, *hosts("a.example")),
                     "a.example").counts.kept == 1


def test_the_case_of_a_query():
    query = rrcache.Query("A.exAmple", A, ID, with_case=True)
    with opened() as cache:
        with pytest.raises(rrcache.OtherQuery):
            cache.store(answered("a.example", A, *hosts("a.example")), "example", query, 100)
        octets = answered("A.exAmple", A, *hosts("a.example"))
        assert cache.store(octets, "example", query, 100).counts.kept == 1


def test_what_is_too_large():
    """A shelf of 64 has 1,024 octets for all its keys: a set of 10 records of 240 octets takes
    more, and answers all the same."""
    lines = [f"a.example 60 TXT {it:0239}" for it in range(10)]
    with SharedCache(65_536) as cache:
        report = store(cache, answered("a.example", TXT, *lines), "a.example", TXT)
        assert (report.too_large, report.counts) == (1, (0, 0, 0))
        assert len(report.answer.rrsets[0].data) == 10
        with pytest.raises(rrcache.TooLarge) as refused:
            cache.store_set("a.example", UNKNOWN, HIGH, 60, [bytes(1024)], 100)
        assert refused.value.status == 28
        assert cache.stats().keys == 0


def test_the_bound_of_memory():
    """What was used least recently makes room."""
    with SharedCache(65_536, shelves=1, exact_recency=True) as cache:
        for number in range(400):
            cache.store_set(f"n{number}.example", A, HIGH, 600, [ADDRESS], 100)
            assert cache.lookup("n0.example", A, 100).kind is FRESH
        stats = cache.stats()
        # A key of one address and a name of up to 32 octets takes 320.
        assert (stats.keys, stats.octets) == (65_536 // 320, 65_536 // 320 * 320)
        assert stats.evicted == 400 - stats.keys and stats.hits == 400
        assert cache.lookup("n1.example", A, 100).kind is MISS


# ---- What is stored by itself, forgotten and swept.

def test_what_is_stored_by_itself():
    with opened() as cache:
        deny = ("b.example", TXT, NODATA, Trust.AUTHORITY, 60, "Example", SOA_DATA)
        assert cache.store_negative(*deny, 100) is Outcome.KEPT
        answer = cache.lookup("b.example", TXT, 110)
        assert (answer.kind, told(answer)) == (NODATA, [("Example.", SOA, 50)])
        assert answer.rrsets[0].data == (SOA_DATA,)
        assert cache.store_set("b.example", TXT, 1, 60, [b"\0"], 110) is Outcome.OUTRANKED
        assert cache.store_set("b.example", TXT, HIGH, 0, [b"\0"], 110) is Outcome.CLEARED
        assert cache.store_failure("b.example", TXT, 30, 110) is Outcome.KEPT
        assert cache.lookup("b.example", TXT, 110).kind is FAILED
        # A failure is always kept: with a TTL of 0 it takes the place of the one that is held.
        assert cache.store_failure("b.example", TXT, 0, 110) is Outcome.KEPT
        assert cache.lookup("b.example", TXT, 110).kind is MISS


def test_forgetting():
    """Of a name, a class and a type: data, that asking failed, that the name does not exist."""
    with opened() as cache:
        cache.store_set("a.example", A, HIGH, 60, [ADDRESS], 100)
        cache.store_set("a.example", TXT, HIGH, 60, [b"\0"], 100)
        cache.store_failure("a.example", A, 30, 100)
        cache.store_negative("a.example", 0, DENIED, HIGH, 60, "example", SOA_DATA, 100)
        cache.forget("a.example", A, 100, rclass=rrcache.Class.CH)
        assert cache.stats().keys == 4
        assert [cache.lookup("a.example", it, 100).kind for it in (A, TXT)] == [DENIED, DENIED]
        cache.forget("A.example", A, 100)
        assert [cache.lookup("a.example", it, 100).kind for it in (A, TXT)] == [MISS, FRESH]
        assert kinds(cache, "a.example", 100) == [MISS, MISS, MISS]


def test_sweeping():
    with opened(max_stale=0) as cache:
        for number in range(100):
            cache.store_set(f"n{number}.example", A, HIGH, 60 + number, [ADDRESS], 100)
        assert cache.sweep(159) == (0, True)
        assert cache.sweep(169) == (10, True)
        swept = cache.sweep(199, most=5)
        assert swept == (5, False) and cache.stats().keys == 85
        assert cache.sweep(10 ** 6) == (85, True)
        stats = cache.stats()
        assert (stats.keys, stats.octets, stats.expired) == (0, 0, 100)


# ---- Statistics, histories and dumps.

def test_stats():
    with opened() as cache:
        cache.store_set("a.example", A, HIGH, 60, [ADDRESS], 100)
        cache.store_set("a.example", A, 1, 60, [ADDRESS], 100)
        cache.store_negative("b.example", A, NODATA, HIGH, 60, "example", SOA_DATA, 100)
        cache.store_failure("c.example", A, 30, 100)
        for name in ("a.example", "a.example", "b.example", "c.example", "d.example"):
            cache.lookup(name, A, 100)
        cache.lookup("a.example", A, 200, mode=Mode.STALE_NOW)
        stats = cache.stats()
        assert stats._replace(octets=0) == (2, 1, 1, 1, 1, 3, 1, 0, 0, 3, 0)
        parts = [cache.stats(it) for it in range(cache.shelves)]
        assert tuple(map(sum, zip(*parts))) == stats
        assert dict(zip(*[iter(str(stats).split())] * 2)) == {
            name: str(number) for name, number in stats._asdict().items()}


@pytest.mark.parametrize("shelves, number", [(0, 64), (1, 1), (7, 7)])
def test_how_many_shelves_there_are(shelves, number):
    with SharedCache(shelves=shelves) as cache:
        assert cache.shelves == number and cache.stats(number - 1).keys == 0
        with pytest.raises(rrcache.BadRules):
            cache.stats(number)


def test_histories_by_shelf():
    """Each event stands in the archive of its name's shelf, with the line that a call has."""
    parts = rrcache.Parts(4, SEED)
    names = [f"n{it}.example." for it in range(40)]
    with opened() as cache:
        cache.store_set(names[0], A, HIGH, 60, [ADDRESS], 100)
        cache.record()
        cache.record()
        for line, name in enumerate(names):
            cache.store_failure(name, A, 30, 110, line)
            cache.lookup(name, TXT, 110)
        archives = cache.stop_recording()
        assert cache.stop_recording() == ["", "", "", ""]
    entries = []
    for part, archive in enumerate(archives):
        [chapter] = rrcache.read_archive(archive)
        entries += [it.key.name for it in chapter.entries]
        offers = [it for it in chapter.events if isinstance(it, rrcache.Offer)]
        asks = [it.name for it in chapter.events if isinstance(it, rrcache.Ask)]
        assert [names[it.line] for it in offers] == [it.key.name for it in offers] == asks == [
            it for it in names if rrcache.make_name(it, parts).part == part]
    assert entries == names[:1]


def test_dumps():
    names = [f"n{it}.example." for it in range(40)]
    with opened() as cache:
        for number, name in enumerate(names):
            cache.store_set(name, A, HIGH, 60 + number, [ADDRESS], 100)
        chapters = [it for text in cache.dump() for it in rrcache.read_archive(text)]
        assert [len(it.events) for it in chapters] == [0] * 4
        held = {it.key.name: (it.body.ttl, it.moment) for one in chapters for it in one.entries}
        assert held == {name: (60 + number, 100) for number, name in enumerate(names)}
        cache.record()
        with pytest.raises(rrcache.HasChapters):
            cache.dump()
        cache.stop_recording()
        assert len(cache.dump()) == 4


def test_files(tmp_path):
    """In place of those that have the name."""
    with opened() as cache:
        cache.store_set("a.example", A, HIGH, 60, [ADDRESS], 100)
        (tmp_path / "00").write_text("x" * 10_000)
        paths = cache.dump_into(tmp_path)
        assert paths == [tmp_path / it for it in ("00", "01", "02", "03")]
        lines = [line for it in paths for line in it.read_text().splitlines()]
        assert [it.split(" ")[0] for it in lines].count("chapter") == 4 == len(lines) - 1
        assert "entry 0 100 a.example. 1 set 4 60 a.example. c0000209" in lines
        cache.record()
        cache.lookup("a.example", A, 100)
        paths = cache.stop_recording_into(str(tmp_path))
        asks = re.findall("^ask .*", "".join(it.read_text() for it in paths), re.M)
        assert asks == ["ask 0 0 100 a.example. 1 answer none fresh 60 a.example. c0000209"]
        assert cache.stop_recording_into(tmp_path) == []


def test_files_that_cannot_be_written(tmp_path):
    """What is raised is what the file's fault is, and nothing is recorded then."""
    with opened() as cache:
        cache.record()
        for write in (cache.stop_recording_into, cache.dump_into):
            with pytest.raises(FileNotFoundError):
                write(tmp_path / "none")
        assert len(cache.dump()) == 4


class Alarm(Exception):
    """What the handler of a signal raises."""


def test_signals_while_a_cache_is_written():
    """What a handler raises while the library calls back ends the call and is raised, and else the
    text is whole. Signals come at other moments of each dump."""
    def handler(*_):
        raise Alarm

    def entries():
        """What is behind the first line, which has another number in each dump."""
        [text] = cache.dump()
        return text.partition("\n")[2]

    def interrupted(after):
        try:
            signal.setitimer(signal.ITIMER_REAL, after)
            told = entries()
            signal.setitimer(signal.ITIMER_REAL, 0)
            return told
        except Alarm:
            return "none"

    usual = signal.signal(signal.SIGALRM, handler)
    try:
        with SharedCache(shelves=1, seed=SEED) as cache:
            for number in range(2000):
                cache.store_set(f"a{number}.example", A, HIGH, 60, [ADDRESS], 100)
            begun, whole = time.monotonic(), entries()
            took = time.monotonic() - begun
            assert {interrupted(took * it / 40) for it in range(1, 40)} <= {"none", whole}
            assert interrupted(0.001) == "none" and entries() == whole
    finally:
        signal.setitimer(signal.ITIMER_REAL, 0)
        signal.signal(signal.SIGALRM, usual)


@contextmanager
def raised_before(point, fault):
    """Raises a fault before the byte code with this number, of those of writing.py in this thread,
    as the handler of a signal may. Yields a list that holds the fault once it has been raised."""
    passed, raised = itertools.count(), []

    def trace(frame, event, _):
        if frame.f_code.co_filename != writing.__file__:
            return None
        frame.f_trace_opcodes = True
        if event == "opcode" and next(passed) == point:
            raised.append(fault())
            raise raised[0]
        return trace

    usual = sys.gettrace()
    sys._getframe().f_trace_opcodes = True  # Python 3.12 reads this only as it begins to trace
    sys.settrace(trace)
    try:
        yield raised
    finally:
        sys.settrace(usual)


def made_before(point, fault, monkeypatch):
    """What a call that is made apart has done when this thread no longer waits for it, what it has
    done in the end, what was raised, and what the waiting thread was told of that."""
    done, faults, threads = [], [], []

    def call():
        done.append("begun")
        time.sleep(0.002)
        done.append("ended")

    def start(run, arguments):
        threads.append(threading.Event())
        return start_new_thread(lambda: (run(), threads[0].set()), arguments)

    monkeypatch.setattr("rrcache.writing.start_new_thread", start)
    with raised_before(point, fault) as raised:
        try:
            writing.made(call, faults)
        except fault as it:
            faults.append(it)
    at_first = [*done]
    assert all(it.wait(10) for it in threads), f"a thread waits forever: {point}"
    return at_first, done, raised, faults


@pytest.mark.parametrize("fault", [Alarm, RuntimeError])
def test_signals_at_any_point_of_a_wait(fault, monkeypatch):
    """Whenever a handler raises, the call has ended or is never made, and no thread is left. What
    it raises is never lost, and never taken for a thread that cannot begin."""
    for point in itertools.count():
        at_first, in_the_end, raised, faults = made_before(point, fault, monkeypatch)
        assert at_first == in_the_end and at_first in ([], ["begun", "ended"]), point
        assert faults == raised, point
        if not raised:
            break
    assert point > 50 and in_the_end == ["begun", "ended"]


def test_signals_one_after_another():
    """Handlers that raise while a call is waited for do not end the wait."""
    faults, done = [], []

    def handler(*_):
        raise Alarm

    def call():
        for number in range(1, 4):
            signal.pthread_kill(threading.main_thread().ident, signal.SIGALRM)
            until = time.monotonic() + 10
            while len(faults) < number and time.monotonic() < until:
                time.sleep(0.0001)
        done.append("ended")

    usual = signal.signal(signal.SIGALRM, handler)
    try:
        writing.made(call, faults)
    finally:
        signal.signal(signal.SIGALRM, usual)
    assert done == ["ended"] and [type(it) for it in faults] == [Alarm] * 3


def test_signals_while_a_cache_is_opened(monkeypatch):
    """What a handler raises as soon as the library has opened a cache. The cache is closed."""
    library, closed = rrcache.library.library(), []
    opens, closes = library.rrcache_open, library.rrcache_close

    def interrupted(*words):
        opens(*words)
        raise Alarm

    def closing(handle):
        closed.append(handle.value)
        closes(handle)

    monkeypatch.setattr(library, "rrcache_open", interrupted)
    monkeypatch.setattr(library, "rrcache_close", closing)
    with suppress(Alarm):
        SharedCache(shelves=1)
    assert len(closed) == 1


# A cache is written when the interpreter ends: by a function of atexit, and by a finalizer.
ENDED = """
import atexit
import rrcache

class Last:
    def __del__(self):
        try:
            cache.dump()
        except RuntimeError as fault:
            print(fault)

cache, last = rrcache.SharedCache(shelves=2), Last()
atexit.register(lambda: print(len(cache.dump())))
"""


def test_writing_when_the_interpreter_ends():
    """A thread that begins when the interpreter finalizes its modules never runs."""
    told = subprocess.run([sys.executable, "-c", ENDED], capture_output=True, text=True, timeout=60,
                          env={**os.environ, "PYTHONPATH": str(TOP / "python")})
    assert (told.returncode, told.stderr) == (0, "")
    assert told.stdout == "2\nnothing can be written while the interpreter ends\n"


@pytest.mark.parametrize("daemon", [False, True])
def test_writing_where_no_thread_begins(daemon, monkeypatch):
    """Python 3.12 starts none in a function of atexit. In a daemon thread none is started."""
    begun, told = [], []

    def refused(*_):
        begun.append("thread")
        raise RuntimeError("can't create new thread at interpreter shutdown")

    with SharedCache(shelves=2) as cache:
        thread = threading.Thread(target=lambda: told.extend(cache.dump()), daemon=daemon)
        thread.start()
        thread.join()
        monkeypatch.setattr("rrcache.writing.start_new_thread", refused)
        thread = threading.Thread(target=lambda: told.extend(cache.dump()), daemon=daemon)
        thread.start()
        thread.join()
    assert len(told) == 4 and len(begun) == (0 if daemon else 1)


@pytest.fixture(scope="module")
def archives(tmp_path_factory):
    """Those of two shelves in which keys were stored, asked for, evicted and swept."""
    with SharedCache(65_536 * 2, shelves=2) as cache:
        cache.record()
        for number in range(500):
            name, moment = f"n{number}.example", 100 + number
            store(cache, answered(name, A, *hosts(name)), name, moment=moment)
            cache.lookup(f"n{number // 2}.example", A, moment, mode=Mode.STALE_IF_FAILED)
            cache.store_failure(f"n{number // 3}.example", A, 30, moment)
        assert cache.stats().evicted > 0 and cache.sweep(10 ** 6).removed > 0
        return cache.stop_recording_into(tmp_path_factory.mktemp("archives"))


def test_archives_are_legal_by_the_model(archives):
    assert [first_fault(rrcache.read_archive(it.read_text())) for it in archives] == [None, None]


def test_archives_are_legal_by_the_program(archives, request):
    program = request.config.getoption("program")
    if not program.exists():
        pytest.skip(f"there is no {program}, which audits archives: bin/build builds it")
    for path in archives:
        audit = subprocess.run([program, "--audit-history"], stdin=path.open("rb"),
                               capture_output=True, text=True)
        assert audit.returncode == 0 and audit.stdout.startswith("legal: "), audit.stdout


# ---- Moments, and what is refused.

def test_moments_by_the_clock():
    """Where none is given CLOCK_BOOTTIME's time counts."""
    now = int(time.clock_gettime(time.CLOCK_BOOTTIME))
    with opened() as cache:
        cache.store_set("a.example", A, HIGH, 600, [ADDRESS])
        [rrset] = cache.lookup("a.example", A)
        assert now <= rrset.entry.moment <= now + 60 and 540 <= rrset.ttl <= 600
        cache.store_failure("b.example", A, 300)
        assert now + 300 <= cache.lookup("b.example", A).retry_from <= now + 360
        report = store(cache, answered("c.example", A, *hosts("c.example")), "c.example", moment=0)
        assert now <= report.answer.rrsets[0].entry.moment <= now + 60
        assert cache.sweep() == (0, True)


LATE = 2 ** 40 + 1


@pytest.mark.parametrize("status, call", [
    (5, lambda it: it.lookup("a", A, LATE)), (5, lambda it: it.lookup_delegation("a", LATE)),
    (5, lambda it: it.store_failure("a", A, 30, LATE)), (5, lambda it: it.sweep(LATE)),
    (5, lambda it: store(it, answered("a", A, "a 60 A 192.0.2.1"), "a", zone=".", moment=LATE)),
    (6, lambda it: it.sweep(1, 0)), (6, lambda it: it.stats(64)),
    (6, lambda it: SharedCache(65_535)), (6, lambda it: SharedCache(2 ** 46 + 1)),
    (6, lambda it: SharedCache(shelves=65)), (6, lambda it: SharedCache(readers=65)),
    (6, lambda it: SharedCache(keys=65_537, shelves=1)),
    (6, lambda it: SharedCache(max_stale=604_801)),
    (7, lambda it: SharedCache(seed=bytes(16))), (7, lambda it: SharedCache(seed=b"")),
    (7, lambda it: SharedCache(seed=SEED[1:])),
    (8, lambda it: SharedCache(limits=rrcache.Limits(604_801))),
    (8, lambda it: store(it, answered("a", A), "a", zone=".", limits=rrcache.Limits(1, 1, 301))),
    (9, lambda it: it.lookup(b"\1", A, 1)), (9, lambda it: it.lookup_delegation(b"", 1)),
    (9, lambda it: it.forget(b"\1a", A)), (9, lambda it: it.store_failure(b"\0\0", A, 1)),
    (9, lambda it: it.store_set(bytes(300), A, HIGH, 1, [ADDRESS])),
    (9, lambda it: it.store_negative("a", A, NODATA, HIGH, 1, b"\1", SOA_DATA)),
    (9, lambda it: it.store(answered("a", A), b"\1", rrcache.Query("a", A, ID))),
    (11, lambda it: it.lookup("a", A, mode=0)), (11, lambda it: it.lookup("a", A, mode=4)),
    (11, lambda it: it.store_set("a", A, 5, 1, [ADDRESS])),
    (11, lambda it: it.store_negative("a", A, FRESH, HIGH, 1, ".", SOA_DATA)),
    (12, lambda it: it.lookup("a", 0)), (12, lambda it: it.lookup("a", A, rclass=2)),
    (12, lambda it: it.lookup_delegation("a", rclass=2)),
    (12, lambda it: it.store_set("a", 41, HIGH, 1, [b""])),
    (13, lambda it: it.store_set("a", CNAME, HIGH, 1, [b"\1"])),
    (14, lambda it: it.store_set("a", A, HIGH, 1, [])),
    (14, lambda it: it.store_failure("a", A, 2 ** 31))])
def test_refusals(status, call):
    with SharedCache() as cache:
        cache.store_set("a", A, HIGH, 60, [ADDRESS], 100)
        with pytest.raises(rrcache.Refused) as refused:
            call(cache)
        assert refused.value.status == status
        assert cache.stats().keys == 1 and cache.lookup("a", A, 100).kind is FRESH


def test_what_a_refused_sweep_removed():
    with opened() as cache, pytest.raises(rrcache.MomentTooLarge) as refused:
        cache.sweep(LATE)
    assert refused.value.swept == (0, False)


@pytest.mark.parametrize("call", [
    lambda it: it.lookup(".", 65_536), lambda it: it.lookup(".", -1),
    lambda it: it.lookup(".", A, 2 ** 64), lambda it: it.lookup(".", A, -1),
    lambda it: it.lookup(".", A, 1.5), lambda it: it.lookup(".", A, rclass=65_537),
    lambda it: it.lookup(".", A, mode=2 ** 32 + 1), lambda it: it.forget(".", 65_537),
    lambda it: it.lookup_delegation(".", 2 ** 64 + 1), lambda it: it.sweep(2 ** 64 + 1),
    lambda it: it.sweep(1, 2 ** 64 + 1), lambda it: it.stats(-1), lambda it: it.stats(2 ** 64),
    lambda it: it.store_set(".", A, 4, 2 ** 32 + 1, [ADDRESS]),
    lambda it: it.store_set(".", UNKNOWN, 4, 1, [bytes(65_536)]),
    lambda it: it.store_failure(".", A, 1, line=2 ** 64),
    lambda it: it.store(b"", ".", rrcache.Query(".", A, 2 ** 16)),
    lambda it: it.store(b"", ".", rrcache.Query(".", A, 1), limits=rrcache.Limits(2 ** 32 + 1)),
    lambda it: it.lookup("a..b", A), lambda it: it.store_failure("a" * 64, A, 1),
    lambda it: SharedCache(2 ** 64 + 65_536), lambda it: SharedCache(shelves=-1)])
def test_numbers_and_names_that_are_none(call):
    """No number is cut to what there is room for."""
    with SharedCache() as cache:
        with pytest.raises(ValueError):
            call(cache)
        assert cache.stats().keys == 0 and cache.lookup(".", A).kind is MISS


@pytest.mark.parametrize("call", [
    lambda it: it.lookup(".", A), lambda it: it.lookup_delegation("."), SharedCache.stats,
    lambda it: it.stats(0), lambda it: it.forget(".", A), SharedCache.sweep, SharedCache.record,
    lambda it: it.store_set(".", A, 4, 1, [ADDRESS]), lambda it: it.store_failure(".", A, 1),
    lambda it: it.store_negative(".", A, NODATA, 4, 1, ".", SOA_DATA),
    lambda it: store(it, answered(".", A), ".", zone="."), SharedCache.stop_recording,
    SharedCache.dump])
def test_a_cache_that_was_closed(call):
    with SharedCache() as cache:
        pass
    cache.close()
    with pytest.raises(rrcache.NoShelf) as refused:
        call(cache)
    assert refused.value.status == 1


def test_answers_are_composed():
    """An answer stands as a message, which another cache takes: its denial by the SOA record."""
    query = rrcache.Query("www.example", A, ID)
    with opened() as cache, opened() as other:
        store(cache, answered("www.example", A, *aliases(["www.example", "a.example"]),
                              authority=[SOA_LINE], rcode=NXDOMAIN), "www.example")
        answer = cache.lookup("www.example", A, 110)
        message = rrcache.compose_response(
            query, [it for it in answer if not it.is_negative],
            [it for it in answer if it.is_negative], rcode=NXDOMAIN, aa=True)
        report = other.store(message, "example", query, 110)
        assert (report.answer.kind, told(report.answer)) == (DENIED, told(answer))
        assert told(answer) == [("www.example.", CNAME, 50), ("example.", SOA, 50)]


def test_flags_of_a_summary():
    with opened() as cache:
        octets = answered("a.example", A, *hosts("a.example"), flags=RA)
        assert store(cache, octets, "a.example").summary.aa is False


def test_dname_records_stand_before_their_aliases():
    octets = answered("a.old.example", A, "old.example 60 DNAME new.example",
                      "a.old.example 60 CNAME a.new.example", "a.new.example 60 A 192.0.2.9")
    chain = [("a.old.example.", CNAME, 60), ("a.new.example.", A, 60)]
    both = [("old.example.", DNAME, 60), *chain]
    with opened() as cache:
        assert told(store(cache, octets, "a.old.example", with_dnames=True).answer) == both
        assert told(cache.lookup("a.old.example", A, 100, with_dnames=True)) == both
        assert told(cache.lookup("a.old.example", A, 100)) == chain
        assert told(store(cache, octets, "a.old.example").answer) == chain
