# SPDX-License-Identifier: MIT
"""Many clients at once, and one of many that floods. These tests run alone."""
import collections
import concurrent.futures
import contextlib
import itertools
import multiprocessing
import random
import re
import socket
import time

import pytest
from dns.rcode import NOERROR, NXDOMAIN, SERVFAIL

from tests.forwarder.harness import (Server, Stream, address, data, datagrams, dead, exchange,
                                     framed, octets_of, plain, query, read, took, under)

pytestmark = pytest.mark.alone
# So many queries of a flood are sent between two looks at the clock.
BURST = 10
# Of the clients beside the one that floods: how many they are, how often each asks, how often it
# asks again, and within how many seconds it has to be answered.
OTHERS, TURNS, TRIES, MOST_SECONDS = 99, 5, 5, 5
# The MB that a flood may have a forwarder take; sanitizers take more of their own.
MOST_MEMORY, MOST_CHECKED = 50, 500


def is_right(reply, name):
    """Whether a reply is the one to this question."""
    if name is None or str(reply.question[0].name) != f"{name}.":
        return False
    wanted = [address(int(re.search(r"\d+", name)[0]))] if name[0] in "aA" else []
    return (reply.rcode(), data(reply)) == (NXDOMAIN if name[0] == "g" else NOERROR, wanted)


def ask_many(port, number, count, is_tcp, wrong):
    """A client that asks so often, ten at a time."""
    dice = random.Random(number)
    with Stream(port) if is_tcp else datagrams(port) as sock:
        for _ in range(count // 10):
            batch = {}
            while len(batch) < 10:
                kind = dice.choice(("a", "A", "nothing", "gone"))
                batch[dice.randrange(65536)] = f"{kind}{dice.randrange(300)}.example"
            for key, name in batch.items():
                asked = query(name, id=key, use_edns=dice.choice((False, True)))
                sock.put(asked) if is_tcp else sock.send(octets_of(asked))
            while batch:
                reply = sock.read() if is_tcp else read(sock.recv(4096))
                name = batch.pop(reply.id, None)
                if not is_right(reply, name):
                    wrong.append((name, str(reply)))


@pytest.mark.parametrize("forwarder, queries, tcp_clients", [
    ("forwarder", 20000, 0), ("forwarder-threads", 4000, 4)], indirect=["forwarder"])
def test_load(forwarder, queries, tcp_clients):
    """Queries by 8 clients, of whom so many ask over TCP."""
    it, wrong = forwarder(Server(plain(2))), []
    with concurrent.futures.ThreadPoolExecutor(8) as pool:
        list(pool.map(lambda n: ask_many(it.port, n, queries // 8, n < tcp_clients, wrong),
                      range(8)))
    assert wrong[:3] == []
    assert it.counted("queries") == [queries]
    assert sum(it.counted("fresh", "negative", "fetched")) == queries


# ---- One of 100 clients floods.

def hits():
    return itertools.repeat(octets_of(query("a0.example")))


def names():
    """Ever new names whose servers are dead."""
    return (octets_of(query(f"x{n}.dead.example")) for n in itertools.count())


def send_datagrams(port, queries):
    with datagrams(port) as sock:
        for octets in queries:
            with contextlib.suppress(OSError):  # the forwarder's socket is full
                sock.send(octets)
            yield


def connect(port, kept):
    """Makes connections, of which the last so many are kept. Half of these send half a query and
    no more."""
    opened, octets = collections.deque(), framed(query("a0.example"))
    for n in itertools.count():
        sock = socket.socket()
        sock.setblocking(False)
        sock.connect_ex(("127.0.0.1", port))
        opened.append((sock, octets[:None if n % 2 else 9]))
        if len(opened) > BURST:
            with contextlib.suppress(OSError):  # it is not taken up yet, or shut
                opened[-BURST][0].send(opened[-BURST][1])
        if len(opened) > kept:
            opened.popleft()[0].close()
        yield


def send_for_ever(port, kind, rate, begins):
    """Sends so many queries a second and reads no reply. Connections are kept for two seconds."""
    sends = (connect(port, min(2 * rate, 400)) if kind == "connections"
             else send_datagrams(port, {"hits": hits, "names": names}[kind]()))
    begins.set()
    began = time.monotonic()
    for n, _ in enumerate(sends):
        if n % BURST == 0:
            time.sleep(max(0, began + n / rate - time.monotonic()))


@contextlib.contextmanager
def flood(port, kind, rate):
    """One client that floods a forwarder, in a process of its own, so that it is as fast as its
    rate says."""
    begins = multiprocessing.Event()
    process = multiprocessing.Process(target=send_for_ever, args=(port, kind, rate, begins))
    process.start()
    try:
        assert begins.wait(10)
        yield
        assert process.is_alive()
    finally:
        process.kill()
        process.join()


def patient(port, name, is_tcp):
    """Asks as a stub resolver does, again where nothing comes for a second, over TCP for some, or
    where that is a failure: the answer, or None."""
    for _ in range(TRIES):
        asked = query(name)
        try:
            if not is_tcp:
                reply = exchange(port, asked, 1)
            else:
                with Stream(port, MOST_SECONDS) as stream:
                    stream.put(asked)
                    reply = stream.read()
        except OSError:  # the connection was not taken up, or gave way to another
            continue
        # A late reply to another one comes at times, who had this port before.
        if reply is not None and asked.is_response(reply) and reply.rcode() != SERVFAIL:
            return reply
    return None


def client(ports, number):
    """A client that asks forwarders for names which are cached and for others: how many answers of
    each did not come in time."""
    missing = [0] * len(ports)
    for turn in range(TURNS):
        n = random.choice((number, 100 + TURNS * number + turn))
        for at, port in enumerate(ports):
            reply, seconds = took(patient, port, f"a{n}.example", number % 5 == 0)
            assert reply is None or (reply.rcode(), data(reply)) == (NOERROR, [address(n)])
            missing[at] += reply is None or seconds > MOST_SECONDS
        time.sleep(0.2)
    return missing


def under_flood(forwarder, kind, rate, most_memory):
    """99 clients ask, every fifth over TCP, while one floods, and ask another forwarder too, which
    nobody floods: what a machine is late with that does much else is missing there as well. Of 20
    answers the flood may keep one from coming."""
    it, calm = forwarder(Server(dead)), forwarder(Server())
    it.ask("a0.example")
    before = it.memory()
    with concurrent.futures.ThreadPoolExecutor(OTHERS) as pool, flood(it.port, kind, rate):
        missing = pool.map(lambda n: client((it.port, calm.port), n), range(OTHERS))
        of_flooded, of_calm = map(sum, zip(*missing))
    assert it.counters()["connections" if kind == "connections" else "queries"] > 2 * OTHERS
    assert of_flooded <= of_calm + OTHERS * TURNS // 20
    assert it.memory() - before < most_memory << 20


@under("forwarder")
@pytest.mark.parametrize("kind, rate", [("hits", 20000), ("names", 2000), ("connections", 500)])
def test_flood(forwarder, kind, rate):
    under_flood(forwarder, kind, rate, MOST_MEMORY)


@pytest.mark.parametrize("kind, rate", [("names", 500), ("connections", 200)])
def test_flood_with_addresses_and_threads_watched(forwarder, kind, rate):
    under_flood(forwarder, kind, rate, MOST_CHECKED)
