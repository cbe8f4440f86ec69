# SPDX-License-Identifier: MIT
"""Caches of several parts: many threads, chains of aliases, in which part a name lies, and what
each part keeps of a response."""
import itertools
import os
import shutil
import subprocess
from concurrent.futures import ThreadPoolExecutor

import pytest
from dns.rcode import SERVFAIL
from dns.rdatatype import A, ANY, CNAME, TXT

import rrcache
from tests.forwarder.harness import aliases, answered, hosts, wire_name
from tools.model import part_of

FRESH, STALE, MISS = rrcache.Kind.FRESH, rrcache.Kind.STALE, rrcache.Kind.MISS
SEED = bytes(range(16))
IN_FOUR = rrcache.Parts(4, SEED)
NAMES = [f"x{n}.example" for n in range(8)]
PARTS = [rrcache.make_name(it, IN_FOUR).part for it in NAMES]
# A key, its name of 12 octets, with which the owner is spelled alike, and a record of 4 or 12.
HELD = rrcache.ENTRY_OCTETS + 2 * (rrcache.SHARED_OCTETS + rrcache.VALUE_OCTETS)


def test_a_cache_of_many_threads():
    names = [f"x{number}.example" for number in range(40)]
    messages = [answered(it, A, *hosts(it)) for it in names]
    with rrcache.Cache(parts=4, capacity=64) as cache, ThreadPoolExecutor(4) as pool:
        def work(place):
            for name, octets in zip(names[place::4], messages[place::4]):
                cache.offer_message_unchecked(octets, "example.", 100)
                yield cache.ask(name.upper(), A, 110).left
        found = pool.map(lambda place: list(work(place)), range(4))
        assert sum(found, []) == [50] * 40
        assert cache.sweep(2 ** 40) == 40


def test_a_cache_that_is_trimmed():
    """Each part to the same share of the octets, whatever it holds: a set of one address takes 160,
    the 80 of its name and 80 more."""
    names = [f"n{it}.example" for it in range(60)]
    parts = [rrcache.make_name(it, IN_FOUR).part for it in names]
    assert 8 <= min(parts.count(it) for it in range(4))
    with rrcache.Cache(4, seed=SEED, record=True, chapter=1) as cache:
        for name in names:
            cache.offer_message_unchecked(answered(name, A, *hosts(name)), "example.", 100)
        assert cache.trim(100, 60 * 320 * 4) == (0, 60 * 320)
        assert cache.trim(100, 4 * 8 * 320 + 3, 1) == (
            sum(parts.count(it) > 8 for it in range(4)),
            sum(max(8, parts.count(it) - 1) for it in range(4)) * 320)
        told = cache.trim(100, 4 * 8 * 320 + 3)
        assert told.octets == 4 * 8 * 320
        # Those that were offered last, and no closed chapter.
        assert [shelf.sizes()[::2] for _, shelf in cache._shelves] == [(8, 0)] * 4
        for place, name in enumerate(names):
            kept = parts[place + 1:].count(parts[place]) < 8
            assert cache.ask(name, A, 110).kind == (FRESH if kept else MISS)


def test_threads_that_look_at_one_shelf():
    """Each is told what it asks for, of sets that take more and less room than a reply mostly."""
    data = {f"x{it}.example": it.to_bytes(2, "big") * (3 + 4000 * (it % 8)) for it in range(40)}
    with rrcache.Shelf(capacity=64) as shelf, ThreadPoolExecutor(4) as pool:
        for name, octets in data.items():
            shelf.offer_set(name, TXT, 4, 60 + octets[1], [octets], 100)

        def looked_at(name):
            replies = [shelf.peek(it, TXT, 110) for it in (name, name.upper()) for _ in range(8)]
            stored = [shelf.stored(name, TXT).set for _ in range(8)]
            assert {it.data for it in replies} == {(data[name],)}
            return {it.entry for it in replies} | set(stored)
        found = [*pool.map(looked_at, list(data) * 4)]
        assert [len(it) for it in found] == [1] * 160
        assert [entry.ttl for it in found for entry in it] == [*range(60, 100)] * 4


def test_aliases_are_followed():
    names = [f"x{number}.example" for number in range(4)]
    octets = answered(names[0], A, *aliases(names), *hosts(names[3]),
                      *aliases(["r0.example", "R1.example", "r0.example"]))
    with rrcache.Cache(parts=8) as cache:
        def kinds(name, rtype, moment, **others):
            return [it.kind for it in cache.follow(name, rtype, moment, **others)]
        cache.offer_message_unchecked(octets, "example.", 100)
        replies = cache.follow("X0.example.", A, 110)
        assert [it.owner_text for it in replies] == [f"{it}." for it in names]
        assert replies[-1].data == (b"\xc0\0\2\x09",)
        assert kinds("y.example", A, 110) == [MISS]
        assert len(kinds("r0.example", A, 110)) == 2
        assert kinds("x0.example", CNAME, 110) == [FRESH]
        assert kinds("x0.example", ANY, 110) == [MISS]
        # RFC 8767 section 5: after a failure of the question all of its chain may be stale.
        failed = {"mode": rrcache.Mode.STALE_IF_FAILED}
        assert kinds("x0.example", A, 170, **failed) == [MISS]
        failed_response = answered("x0.example", A, flags=0, rcode=SERVFAIL)
        cache.offer_message_unchecked(failed_response, "example.", 170)
        assert kinds("x0.example", A, 171, **failed) == [STALE] * 4
        for one, alias in zip(names, aliases(names)):
            cache.offer_message_unchecked(answered(one, CNAME, alias), "example.", 172)
        # A failure that is older than the alias says nothing about the alias's target.
        assert kinds("x0.example", A, 173, **failed) == [FRESH] * 3 + [MISS]
        cache.offer_message_unchecked(failed_response, "example.", 173)
        assert kinds("x0.example", A, 173, **failed) == [FRESH] * 3 + [STALE]
        # A question that did not fail.
        assert kinds("x1.example", A, 173, **failed) == [FRESH] * 2 + [MISS]


# What is stored one after another: an owner, a type, a TTL and a moment. "www" is an alias of "x",
# and a type of 0 stands for a failure of an address.
ALIAS, TARGET = ("www.example", CNAME, 600, 1000), ("x.example", A, 60, 1000)
FAILURE, END_FAILURE = ("www.example", 0, 30, 1105), ("x.example", 0, 30, 1105)
REPLACED = ("www.example", A, 3600, 900)
EXPIRED_ALIAS = ("www.example", CNAME, 60, 1000)


def store_in_both(cache, shared, owner, rtype, ttl, moment):
    [(_, shelf)] = cache._shelves
    if rtype == 0:
        shelf.offer_failure(owner, A, ttl, moment)
        shared.store_failure(owner, A, ttl, moment)
        return
    data = [wire_name("x.example") if rtype == CNAME else bytes(4)]
    for call in (shelf.offer_set, shared.store_set):
        call(owner, rtype, rrcache.Trust.AUTHORITATIVE_ANSWER, ttl, data, moment)


@pytest.mark.parametrize("stored, moment, kinds", [
    # The end has failed, whichever alias leads to it.
    ([ALIAS, TARGET], 1100, [FRESH, MISS]),
    ([ALIAS, TARGET, END_FAILURE], 1106, [FRESH, STALE]),
    ([ALIAS, TARGET, END_FAILURE], 1135, [FRESH, MISS]),
    # The question has failed, after its alias was stored or before.
    ([ALIAS, TARGET, FAILURE], 1106, [FRESH, STALE]),
    ([ALIAS, TARGET, FAILURE], 1135, [FRESH, MISS]),
    ([ALIAS, TARGET, FAILURE, ("www.example", CNAME, 600, 1110)], 1111, [FRESH, MISS]),
    # A TTL of 0 ends a failure, even at a moment before it was offered.
    ([ALIAS, TARGET, FAILURE, ("www.example", 0, 0, 1120)], 1106, [FRESH, MISS]),
    # Older data of the type, which the alias replaced and which have not expired, hide no failure.
    ([REPLACED, ALIAS, TARGET, FAILURE], 1106, [FRESH, STALE]),
    ([REPLACED, ALIAS, TARGET, FAILURE], 1135, [FRESH, MISS]),
    ([REPLACED, ALIAS, TARGET, END_FAILURE], 1106, [FRESH, STALE]),
    # The alias has expired: a failure of the end does not lead there.
    ([EXPIRED_ALIAS, TARGET, END_FAILURE], 1106, [MISS]),
    ([EXPIRED_ALIAS, TARGET, FAILURE], 1106, [STALE, STALE]),
])
def test_stale_chains(stored, moment, kinds):
    """As docs/RULES.md says, "Serving stale data". A shared cache tells the same."""
    mode = rrcache.Mode.STALE_IF_FAILED
    with rrcache.Cache(1) as cache, rrcache.SharedCache(shelves=1) as shared:
        for it in stored:
            store_in_both(cache, shared, *it)
        replies = cache.follow("www.example", A, moment, mode=mode)
        answer = shared.lookup("www.example", A, moment, mode=mode)
    assert [it.kind for it in replies] == kinds and answer.kind == kinds[-1]
    assert [(it.owner, it.rtype, it.ttl) for it in answer] == [
        (it.owner, it.rtype, it.left) for it in replies if it.kind != MISS]


def test_a_cache_has_a_seed_of_its_own():
    names = [f"n{it}.example" for it in range(200)]
    messages = [answered(it, A, *hosts(it)) for it in names]

    def parts_of(cache):
        for name, octets in zip(names, messages):
            cache.offer_message_unchecked(octets, ".", 100)
            assert cache.ask(name.upper(), A, 110).kind == FRESH
        return [shelf.sizes().keys for _, shelf in cache._shelves]
    with rrcache.Cache(64) as one, rrcache.Cache(64) as other:
        assert parts_of(one) != parts_of(other)
    with rrcache.Cache(64, seed=SEED) as cache:
        parts = [rrcache.make_name(it, rrcache.Parts(64, SEED)).part for it in names]
        assert parts_of(cache) == [parts.count(it) for it in range(64)]


def test_a_cache_is_asked_by_names_that_were_made():
    """Whatever they were made for: their seed and number of parts are not those of the cache."""
    with rrcache.Cache(64) as cache:
        for name in NAMES:
            cache.offer_message_unchecked(answered(name, A, *hosts(name)), "example.", 100)
            made = rrcache.make_name(name, IN_FOUR)
            assert cache.ask(made, A, 110).left == cache.follow(made, A, 110)[0].left == 50


@pytest.mark.parametrize("part", range(4))
def test_the_share_of_each_part(part):
    octets = answered(NAMES[0], A, *aliases(NAMES), *hosts(NAMES[-1]), flags=0)
    with rrcache.Shelf(seed=SEED, record=True) as shelf:
        counts = shelf.offer_part_unchecked(octets, "example", IN_FOUR, part, 100)
        share = PARTS.count(part)
        assert counts == (share, 0, 0)
        assert shelf.sizes() == (share, share, 0, HELD * share)
        for name, rtype, home in zip(NAMES, [CNAME] * 7 + [A], PARTS):
            kind = rrcache.Kind.FRESH if home == part else rrcache.Kind.MISS
            assert shelf.peek(name, rtype, 100).kind == kind


def test_one_reading():
    octets = answered(NAMES[0], A, *hosts(*NAMES))
    with rrcache.read_message_unchecked(octets, "example.", IN_FOUR, 100) as offers:
        assert offers.concerned == sorted(set(PARTS)) and len(offers.concerned) > 1
        for part in range(4):
            share = PARTS.count(part)
            with rrcache.Shelf(seed=SEED, record=True) as shelf:
                assert shelf.offer_read(offers, part) == (share, 0, 0)
                counts = shelf.offer_part_unchecked(octets, "example.", IN_FOUR, part, 100)
                assert counts == (share, 0, 0)
                assert shelf.sizes() == (share, 2 * share, 0, HELD * share)


def test_a_reading_of_another_seed():
    octets = answered(NAMES[0], A, *hosts(*NAMES))
    with rrcache.read_message_unchecked(octets, "example.", IN_FOUR, 100) as offers, \
            rrcache.Shelf(seed=SEED[::-1], record=True) as shelf:
        for call in (lambda: shelf.offer_read(offers, 0),
                     lambda: shelf.offer_part_unchecked(octets, "example.", IN_FOUR, 0, 100)):
            with pytest.raises(rrcache.OtherSeed) as refused:
                call()
            assert refused.value.counts == (0, 0, 0) and shelf.sizes().events == 0


def test_offers_before_a_refusal_are_counted():
    """One of two shelves is closed, so that it refuses its share; the other has stored its own."""
    owners = [f"{it}.example." for it in range(16)]
    first = [it for it in owners if rrcache.make_name(it, rrcache.Parts(2, SEED)).part == 0]
    query = rrcache.Query(owners[0], 1, id=1)
    message = rrcache.compose_response(
        query, [rrcache.ParsedSet(it, 1, 60, [bytes(4)]) for it in owners])
    cache = rrcache.Cache(2, seed=SEED)
    cache._shelves[1][1].close()
    with pytest.raises(rrcache.NoShelf) as refused:
        cache.offer_message_unchecked(message, ".", 1000)
    assert 0 < len(first) < len(owners) and refused.value.counts == (len(first), 0, 0)
    assert cache._shelves[0][1].sizes().keys == len(first)


# ---- The hash.

def siphash13(key, octets):
    """SipHash-1-3, a number of 64 bits, by OpenSSL, so that parts are compared with a hash that is
    not of this repository."""
    options = (f"hexkey:{key.hex()}", "size:8", "c-rounds:1", "d-rounds:3")
    words = [word for it in options for word in ("-macopt", it)]
    told = subprocess.run(["openssl", "mac", *words, "SIPHASH"], input=octets, capture_output=True,
                          check=True)
    return int.from_bytes(bytes.fromhex(told.stdout.decode()), "little")


@pytest.mark.skipif(shutil.which("openssl") is None, reason="there is no openssl here")
@pytest.mark.parametrize("seed", [SEED, bytes(15) + b"\1", b"\xff" * 16, SEED[::-1]])
def test_parts_go_by_siphash(seed):
    """By the upper 32 bits of the hash, in whatever case a name is written."""
    for name in ("www.example", "other.example", "third.example", "a", ".".join(["Ab" * 31] * 4),
                 *(f"n{it}.example" for it in range(50))):
        hashed = siphash13(seed, wire_name(name.lower())) >> 32
        for parts in (1, 2, 3, 16, 63, 64):
            made = rrcache.make_name(wire_name(name.upper()), rrcache.Parts(parts, seed))
            assert (made.part, made.octets) == (hashed % parts, wire_name(name.lower())), name


def test_names_of_one_part_want_the_seed():
    """Names that lie in one part by the hash that has no key are spread by a seed like others."""
    places = (b"\6%06x\7example\0" % it for it in range(2 ** 24))
    picked = list(itertools.islice((it for it in places if part_of(it, 16) == 0), 4096))
    for seed in (SEED, os.urandom(16)):
        parts = [rrcache.make_name(it, rrcache.Parts(16, seed)).part for it in picked]
        # 256 each, with a deviation of some 15.5.
        assert all(150 <= parts.count(it) <= 360 for it in range(16))
