# SPDX-License-Identifier: MIT
"""The memory that what is cached takes is bounded, whatever is cached, and so is that of queries
which wait and of replies that nobody reads, of which each client has its share."""
import contextlib
import itertools
import socket
import struct
import threading
from pathlib import Path

import pytest
from dns.flags import TC
from dns.rcode import NOERROR

from tests.forwarder.harness import (MOST_SECONDS, Server, Stream, address, data, datagrams, framed,
                                     many, octets_of, plain, query, read, take, truncated, under)
from tests.forwarder.test_shares import ATTACKER, OTHERS, Stage, Upstream

MEBIBYTE = 1 << 20
# What may wait where no more than 4 MiB are cached, and the options of that.
MOST_WAITING, OPTIONS = MEBIBYTE, ("-q", "-t", "2", "--octets", "4M")
# The memory that a forwarder may take beside one and a half times its bound: of its threads, which
# have buffers for messages, and of what they read at a time.
BASE = 4 * MEBIBYTE
# Records of a set: as many of two octets as fit in a message.
RECORDS, PRIVATE = 4600, 65280
# The state of a connection in /proc/net/tcp.
ESTABLISHED = "01"


def of_short_records():
    """What stands behind the question of a response with so many records."""
    return b"".join(struct.pack(">HHHIH", 0xc00c, PRIVATE, 1, 600, 2) + n.to_bytes(2, "big")
                    for n in range(RECORDS))


SHORT = of_short_records()


def short(server, asked, name):
    """Answers over TCP with a set of short records, whatever is asked."""
    if name[0] == "a":
        return plain()(server, asked, name)
    if not server.is_tcp:
        return [truncated(asked)]
    end = server.octets.index(0, 12) + 5
    head = server.octets[:2] + struct.pack(">5H", 0x8180, 1, RECORDS, 0, 0)
    return [head + server.octets[12:end] + SHORT]


def ask_for_sets(it, count):
    """Asks for so many sets over TCP, some at a time, and reads all that comes."""
    with Stream(it.port, 30) as stream:
        for first in range(0, count, 10):
            stream.put(*(query(f"s{n}.example", PRIVATE) for n in range(first, first + 10)))
            for _ in range(10):
                size = int.from_bytes(take(stream, 2), "big")
                assert size > 14 * RECORDS and len(take(stream, size)) == size


@under("forwarder")
@pytest.mark.parametrize("octets", [8, 32])
def test_flood_of_sets_of_short_records(forwarder, octets):
    """Sets of 4,600 records, each of which takes more memory than it has octets: some 300 kB a set,
    and so 150 MB for all, if they were kept."""
    it = forwarder(Server(short), options=("-q", "--octets", f"{octets}M"))
    assert data(it.ask("a1.example")) == [address(1)]
    before = it.memory()
    ask_for_sets(it, 500)
    assert it.memory() < before + BASE + octets * MEBIBYTE * 3 // 2
    held, evicted = it.counted("held", "evicted")
    assert held <= octets * MEBIBYTE and evicted > 300
    assert data(it.ask("a2.example")) == [address(2)]


# ---- What waits.

def many_times(count, times):
    """Queries for so many names, each so often, of which each has another id."""
    return (octets_of(query(f"dead{name}.example", "TXT", id=number % 65536))
            for number, name in enumerate(n % count for n in range(count * times)))


@under("forwarder")
def test_queries_that_wait_for_dead_names(forwarder):
    """One client has ever more queries wait, until 1,000 got no room. Each would take some 400
    octets. What waits stays within its bound, and after each burst another client has a query wait,
    and be answered."""
    upstream = Upstream()
    it = forwarder(upstream, options=OPTIONS)
    stage, missed, sent = Stage(upstream, it.port), 0, 0
    before, queries = it.memory(), itertools.cycle(many_times(100, 64))
    with datagrams(it.port, source=ATTACKER) as attacker:
        while it.counters()["failed"] < 1000:
            for octets in itertools.islice(queries, 50):
                attacker.send(octets)
            sent += 50
            it.wait_for("queries", sent)
            missed += stage.answer(stage.ask(OTHERS, stage.names("{}{}.example", "a", 1)))
            sent += 1
            assert it.counters()["waiting"] <= MOST_WAITING
    assert missed == 0
    assert it.memory() < before + MOST_WAITING + BASE


@under("forwarder")
def test_message_for_which_the_share_of_one_client_has_no_room(forwarder):
    """Two clients wait for a message over TCP. The one that asked first has half of all that may
    wait already, but for less than the message has. The other one is answered all the same."""
    def answer(server, asked, name):
        if "dead" in name or (server.is_tcp and not gate.wait(MOST_SECONDS)):
            return []
        return many(server, asked, name) if server.is_tcp else [truncated(asked)]
    gate, sent, asked = threading.Event(), 0, octets_of(query("n4000.example"))
    it, queries = forwarder(Server(answer), options=OPTIONS), many_times(100, 64)
    with (datagrams(it.port, source=ATTACKER) as attacker,
          datagrams(it.port, source=OTHERS) as other):
        while it.counters()["waiting"] < MOST_WAITING // 2 - 60000:
            for octets in itertools.islice(queries, 100):
                attacker.send(octets)
            sent += 100
            it.wait_for("queries", sent)
        attacker.send(asked)
        it.wait_for("upgraded", 1)
        other.send(asked)
        it.wait_for("queries", sent + 2)
        gate.set()
        reply = read(other.recv(4096))
    assert (reply.rcode(), reply.flags & TC) == (NOERROR, TC)


def unread(port):
    """The octets that the system keeps of what clients sent to a port over TCP."""
    lines = [it.split() for it in Path("/proc/net/tcp").read_text().splitlines()[1:]]
    return sum(int(it[4].split(":")[1], 16) for it in lines
               if it[1].endswith(f":{port:04X}") and it[3] == ESTABLISHED)


@under("forwarder")
def test_queries_that_are_not_read(forwarder):
    """One client sends as many queries as it can, and reads nothing. The system keeps 32 KiB of
    them at most, even if it may keep more for each connection (tcp_rmem)."""
    it = forwarder(Server(many), options=OPTIONS)
    with it.stream() as other, it.stream() as stream:
        assert other.gets_many(4000)
        octets = framed(query("n4000.example")) * 1000
        stream.settimeout(0.5)
        with pytest.raises(socket.timeout):
            while True:
                stream.sendall(octets)
        assert 4096 < unread(it.port) <= 32768
        assert other.gets_many(4000)


@under("forwarder")
def test_replies_that_are_not_read(forwarder):
    """One client has 100 connections, asks 64 times on each for what has 64 kB, and reads nothing.
    What waits stays within its bound, and another client is answered."""
    it = forwarder(Server(many), options=OPTIONS)
    with it.stream() as other, contextlib.ExitStack() as opened:
        assert other.gets_many(4000)
        before = it.memory()
        for _ in range(100):
            stream = opened.enter_context(Stream(it.port, source=ATTACKER))
            with contextlib.suppress(ConnectionError):
                stream.put(*[query("n4000.example")] * 64)
            assert other.gets_many(4000)
            assert it.counters()["waiting"] <= MOST_WAITING
        assert it.memory() < before + MOST_WAITING + BASE
