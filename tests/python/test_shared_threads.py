# SPDX-License-Identifier: MIT
"""A cache that threads share, from threads of Python: each reply is checked, calls overlap, and a
cache may be closed meanwhile. How long a look-up takes is compared with one of a `Cache`."""
import gc
import os
import subprocess
import sys
import threading
import time
import weakref
from concurrent.futures import ThreadPoolExecutor

import pytest
from dns.rdatatype import A, CNAME, TXT

import rrcache
from rrcache import Kind, SharedCache, Trust, writing
from tests.conftest import TOP
from tests.forwarder.harness import ID, aliases, answered, hosts, wire_name
from tools.audits import first_fault

HIGH, THREADS = Trust.AUTHORITATIVE_ANSWER, 8
FRESH, MISS = Kind.FRESH, Kind.MISS


def datum(name, version):
    """What a name holds in a version: data of several sizes, so that replies of others show."""
    text = f"{name} {version} ".encode()
    return text * (1 + version % 7 * 20)


def work(cache, thread, rounds, names):
    """A thread's own names: each of its replies is known. Those of others are of some version."""
    for version in range(rounds):
        for name in names[thread]:
            assert cache.store_set(name, 65_280, HIGH, 60 + version, [datum(name, version)],
                                   100).name == "KEPT"
            [rrset] = cache.lookup(name.upper(), 65_280, 110)
            assert (rrset.ttl, rrset.data) == (50 + version, (datum(name, version),))
            assert (rrset.entry.ttl, rrset.owner_text) == (60 + version, name)
            assert cache.lookup(name, TXT, 110).kind is MISS
            other = names[(thread + 1) % THREADS][version % len(names[0])]
            for rrset in cache.lookup(other, 65_280, 110):
                at = rrset.entry.ttl - 60
                assert (rrset.ttl, rrset.data) == (50 + at, (datum(other, at),))
        cache.forget(names[thread][0], 65_280, 110)
        assert cache.lookup(names[thread][0], 65_280, 110).kind is MISS
        cache.sweep(110), cache.stats(), cache.stats(version % cache.shelves)


NAMES = [[f"t{it}n{number}.example." for number in range(6)] for it in range(THREADS)]


@pytest.mark.parametrize("shelves, readers", [(1, 1), (1, 8), (16, 2)])
def test_calls_of_many_threads(shelves, readers):
    with SharedCache(shelves=shelves, readers=readers) as cache:
        with ThreadPoolExecutor(THREADS) as pool:
            [*pool.map(lambda it: work(cache, it, 30, NAMES), range(THREADS))]
        assert cache.stats().keys == THREADS * 5


def test_histories_of_many_threads():
    """The model of the rules makes the calls of each shelf again, one after another."""
    with SharedCache(shelves=4) as cache, ThreadPoolExecutor(THREADS) as pool:
        cache.record()
        [*pool.map(lambda it: work(cache, it, 5, NAMES), range(THREADS))]
        archives = [rrcache.read_archive(it) for it in cache.stop_recording()]
    assert sum(len(chapter.events) for it in archives for chapter in it) >= 5 * THREADS * 6 * 4
    assert [first_fault(it) for it in archives] == [None] * 4


def test_responses_of_many_threads():
    """Each thread stores responses and dumps, and is answered by its own."""
    def responses(thread):
        chain = [f"{it}{thread}.example" for it in "abc"]
        octets = answered(chain[0], A, *aliases(chain), *hosts(chain[-1]))
        for moment in range(100, 150):
            report = cache.store(octets, "example", rrcache.Query(chain[0], A, ID), moment)
            for answer in (report.answer, cache.lookup(chain[0], A, moment)):
                assert [it.owner_text for it in answer] == [f"{it}." for it in chain]
                assert (answer.end_text, answer.aliases) == (f"{chain[-1]}.", 2)
            if moment % 25 == thread:
                cache.dump()
        return True
    with SharedCache(shelves=4) as cache, ThreadPoolExecutor(THREADS) as pool:
        assert [*pool.map(responses, range(THREADS))] == [True] * THREADS


def test_calls_overlap():
    """While one thread is within a call of the library, others are within theirs."""
    entered, looked_up = threading.Event(), threading.Event()

    def take(shelf, octets):
        entered.set()
        assert looked_up.wait(60)

    with SharedCache(shelves=1) as cache, ThreadPoolExecutor(1) as pool:
        cache.store_set("a.example", A, HIGH, 60, [bytes(4)], 100)
        dump = pool.submit(writing.written, "rrcache_dump", cache._handle, take)
        assert entered.wait(60)
        for _ in range(100):
            assert cache.lookup("a.example", A, 100).kind is FRESH
        cache.store_set("a.example", A, HIGH, 90, [bytes(4)], 100)
        assert not dump.done()
        looked_up.set()
        assert dump.result(60) is None


def test_a_cache_that_is_closed_meanwhile():
    """A call that runs ends as it would, later ones are refused, and then the memory is freed."""
    entered, closed = threading.Event(), threading.Event()
    taken = []

    def take(shelf, octets):
        entered.set()
        assert closed.wait(60)
        taken.append(shelf)

    cache = SharedCache(shelves=4)
    handle = weakref.ref(cache._handle)
    with ThreadPoolExecutor(1) as pool:
        dump = pool.submit(writing.written, "rrcache_dump", cache._handle, take)
        assert entered.wait(60)
        cache.close()
        with pytest.raises(rrcache.NoShelf):
            cache.lookup("a.example", A)
        assert handle() is not None
        closed.set()
        assert dump.result(60) is None and set(taken) == {0, 1, 2, 3}
    del dump
    gc.collect()
    assert handle() is None


def test_caches_that_threads_close():
    """Look-ups of a cache that is closed meanwhile answer, or are refused as it is closed."""
    def look(cache):
        replies = []
        while True:
            try:
                replies.append(cache.lookup("a.example", A, 100).kind)
            except rrcache.NoShelf:
                return set(replies)
    with ThreadPoolExecutor(4) as pool:
        for _ in range(20):
            cache = SharedCache(shelves=2)
            cache.store_set("a.example", A, HIGH, 60, [bytes(4)], 100)
            looks = [pool.submit(look, cache) for _ in range(4)]
            time.sleep(0.01)
            cache.close()
            assert [it.result(60) <= {FRESH} for it in looks] == [True] * 4


def seconds_for(call, number=500):
    """The seconds of processor time that a call takes, of so many the mean."""
    begun = time.thread_time()
    for _ in range(number):
        call()
    return (time.thread_time() - begun) / number


@pytest.mark.alone
def test_what_a_lookup_takes():
    """At most a quarter more than an ask of a `Cache`, which follows no alias: the quickest of many
    short rounds of each, in turn, since the machine may do much else."""
    data, rounds = [bytes([192, 0, 2, 1])], range(200)
    with SharedCache() as cache, rrcache.Cache() as other:
        cache.store_set("www.example.", A, HIGH, 600, data, 100)
        response = rrcache.compose_response(
            rrcache.Query("www.example.", A, ID), [rrcache.ParsedSet("www.example.", A, 600, data)])
        other.offer_message_unchecked(response, "example.", 100)
        assert cache.lookup("www.example.", A, 100).rrsets[0].data == tuple(data)
        assert other.ask("www.example.", A, 100).data == tuple(data)
        took = [(seconds_for(lambda: cache.lookup("www.example.", A, 100)),
                 seconds_for(lambda: other.ask("www.example.", A, 100))) for _ in rounds]
    lookup, ask = (min(it) for it in zip(*took))
    print(f"a look-up {lookup * 1e6:.2f} microseconds, an ask {ask * 1e6:.2f}")
    assert lookup <= 1.25 * ask


def test_chains_of_a_shared_cache_and_of_a_cache():
    """A look-up tells what `Cache.follow` does."""
    names = [f"x{it}.example" for it in range(5)]
    octets = answered(names[0], A, *aliases(names), *hosts(names[-1]))
    with SharedCache() as cache, rrcache.Cache() as other:
        cache.store(octets, "example", rrcache.Query(names[0], A, ID), 100)
        other.offer_response(octets, "example", rrcache.Query(names[0], A, ID), 100)
        rrsets = [(it.owner, it.rtype, it.ttl, it.data)
                  for it in cache.lookup(names[0], A, 110)]
        assert rrsets == [(it.owner, it.rtype, it.left, it.data)
                          for it in other.follow(names[0], A, 110)]
        assert rrsets[0] == (wire_name(names[0]), CNAME, 50, (wire_name(names[1]),))


FORKED = """
import os
import rrcache

closed = []


class Shelf(rrcache.Shelf):
    def close(self):
        closed.append("shelf")
        super().close()


shelf, cache = Shelf(), rrcache.SharedCache()
handle, close = cache._handle, cache._handle.close
handle.close = lambda it: closed.append("cache") or close(it)
del handle
child = os.fork()
del shelf, cache
if not child:
    os._exit(len(closed))
print(os.waitpid(child, 0)[1], *closed)
"""


def test_a_forked_child_frees_nothing():
    """A thread of the parent may have been in a call as it forked: what the child has is torn."""
    around = {**os.environ, "PYTHONPATH": str(TOP / "python")}
    told = subprocess.run([sys.executable, "-c", FORKED], capture_output=True, text=True,
                          timeout=60, env=around)
    assert (told.stdout, told.stderr) == ("0 shelf cache\n", "")
