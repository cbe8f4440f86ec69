# SPDX-License-Identifier: MIT
"""Each request for memory or for a thread refused in turn: while the forwarder starts, and while it
serves. The program is one whose requests go through in_turn.c, under the sanitizers of addresses
and of undefined behavior."""
import mmap
import os
import re
import socket
import struct
import time

import pytest
from dns.rcode import NOERROR, NXDOMAIN, REFUSED, SERVFAIL

from tests.forwarder.harness import (Forwarder, Server, Stream, address, counts, data, exchange,
                                     many, plain, query, response, truncated, under)

PROGRAM = "forwarder-refused"
MEMORY, THREADS = 0, 1
NUMBERS = struct.Struct("=QQQ")
NO_END = 2**64 - 1
# More requests than there are in any of these tests.
MOST = 5000
ADDRESSES = 3


class Refusals:
    """Which requests are refused: the file of in_turn.c."""

    def __init__(self, file):
        self.environment = {**os.environ, "REFUSALS": file.name}
        file.truncate(2 * NUMBERS.size)
        self.octets = mmap.mmap(file.fileno(), 2 * NUMBERS.size)

    def refuse(self, kind, first, last):
        """Refuses these requests, counted from this call on; none where the first is 0."""
        at = kind * NUMBERS.size
        NUMBERS.pack_into(self.octets, at, 0, 0, 0)
        NUMBERS.pack_into(self.octets, at, 0, first, last)

    def made(self, kind):
        """How many requests there were since then."""
        return NUMBERS.unpack_from(self.octets, kind * NUMBERS.size)[0]


@pytest.fixture
def refusals(tmp_path):
    with open(tmp_path / "refusals", "w+b") as file:
        yield Refusals(file)


@pytest.fixture
def start(forwarder, refusals):
    """Starts a forwarder of one thread whose requests are refused."""
    def begin(answer):
        refusals.refuse(MEMORY, 0, 0)
        return forwarder(Server(answer), options=("-q", "-t", "1"),
                         environment=refusals.environment)
    return begin


# ---- While it starts.

def started(refusals):
    """Starts a forwarder of three threads. Where it starts it has to serve, and to end cleanly;
    where it does not it has to say why. Tells whether it did."""
    it = Forwarder(server := Server(), program=PROGRAM, options=("-q", "-t", "3"),
                   environment=refusals.environment)
    if it.port:
        assert data(it.ask("a7.example")) == [address(7)]
    status, said = it.end()
    server.stop()
    if it.port:
        assert (status, said) == (0, "")
    else:
        assert status == 1 and re.fullmatch(r"forwarder: [A-Z][a-z ]+\n", said), said
    return it.port is not None


def start_with_each_refused(refusals, kind):
    """Refuses one request after the other, and tells after which refusals it did not start."""
    ends = []
    for number in range(1, MOST):
        refusals.refuse(kind, number, number)
        if not started(refusals):
            ends.append(number)
        if refusals.made(kind) < number:
            return ends, number - 1
    pytest.fail("no end of the requests")


def test_each_request_for_memory_refused_at_the_start(programs, refusals):
    ends, number = start_with_each_refused(refusals, MEMORY)
    assert 0 < len(ends) <= number


def test_each_thread_refused_at_the_start(programs, refusals):
    """Without the first thread it does not start, without another it has fewer."""
    assert start_with_each_refused(refusals, THREADS) == ([1], 3)


# ---- While it serves.

def served(server, asked, name):
    """Answers c7.example with an alias and address 7, f.. with a refusal, m.. with some addresses,
    over TCP alone, and others as `plain` does."""
    if name[0] == "c":
        return [response(asked, f"{name} 60 CNAME b.{name}",
                         f"b.{name} 60 A {address(int(name[1:-len('.example')]))}")]
    if name[0] == "f":
        return [response(asked, rcode=REFUSED)]
    if name[0] == "m" and not server.is_tcp:
        return [truncated(asked)]
    if name[0] == "m":
        return [response(asked, *(f"{name} 60 A {address(it)}" for it in range(ADDRESSES)))]
    return plain()(server, asked, name)


def ask_over_tcp(port, name):
    """The reply by a connection, or None where that is shut."""
    with Stream(port) as stream:
        try:
            return stream.ask(name, use_edns=True)
        except OSError:
            return None


def ask_all(port, number):
    """Asks for names with a number, each twice: what is asked with the answers that are right, and
    the replies."""
    for name, rcode, addresses in ((f"a{number}.example", NOERROR, [address(number)]),
                                   (f"gone{number}.example", NXDOMAIN, []),
                                   (f"c{number}.example", NOERROR, [address(number)]),
                                   (f"f{number}.example", SERVFAIL, [])):
        for _ in range(2):
            yield name, (rcode, addresses), exchange(port, query(name, use_edns=True))
    name, right = f"m{number}.example", (NOERROR, sorted(map(address, range(ADDRESSES))))
    for _ in range(2):
        yield name, right, ask_over_tcp(port, name)


def is_right(reply, right):
    return reply is not None and (reply.rcode(), sorted(data(reply))) == right


def is_refusal(name, reply):
    """Whether a reply says that there is no answer: SERVFAIL without records, or, over TCP, a
    connection that is shut."""
    if reply is None:
        return name[0] == "m"
    return reply.rcode() == SERVFAIL and counts(reply) == [0, 0, 0]


def serve_with_each_refused(it, refusals, last):
    """Refuses request `number` to `last(number)`, for one number after the other, and asks all the
    while. Answers how many numbers there were, and after how many refusals an answer was none."""
    refused = 0
    for number in range(1, MOST):
        refusals.refuse(MEMORY, number, last(number))
        replies = list(ask_all(it.port, number))
        made = refusals.made(MEMORY)
        refusals.refuse(MEMORY, 0, 0)
        for name, right, reply in replies:
            assert is_right(reply, right) or is_refusal(name, reply), f"{name}: {reply}"
        refused += any(not is_right(reply, right) for _, right, reply in replies)
        for name, right, reply in ask_all(it.port, number):
            assert is_right(reply, right), f"{name}, with memory again: {reply}"
        if made < number:
            return number - 1, refused
    pytest.fail("no end of the requests")


@under(PROGRAM)
def test_each_request_for_memory_refused_while_it_serves(start, refusals):
    """Each reply is right or says that there is none, and with memory again all is right."""
    serve_with_each_refused(start(served), refusals, lambda number: number)


@under(PROGRAM)
def test_all_memory_refused_from_each_request_on(start, refusals):
    number, refused = serve_with_each_refused(start(served), refusals, lambda number: NO_END)
    assert refused > number // 2


@under(PROGRAM)
def test_client_that_does_not_read_while_memory_is_refused(start, refusals):
    """What cannot be sent is not kept for it: its connection is shut, and others are answered."""
    it = start(many)
    with it.stream() as stream:
        assert len(data(stream.ask("n3000.example"))) == 3000
        stream.setsockopt(socket.SOL_SOCKET, socket.SO_RCVBUF, 65536)
        stream.put(*(query("n3000.example") for _ in range(400)))
        time.sleep(0.3)
        refusals.refuse(MEMORY, 1, NO_END)
        time.sleep(0.3)
        # It ends before all was sent.
        assert len(stream.rest()) < 400 * 48000
    refusals.refuse(MEMORY, 0, 0)
    with it.stream() as stream:
        assert len(data(stream.ask("n3000.example"))) == 3000
