# SPDX-License-Identifier: MIT
"""examples/stub.c on loopback, between clients and a name server that are made here, under the
sanitizers of addresses and of undefined behaviour. tests/install compiles it as who installed the
library does."""
import os
import random
import socket
import subprocess
import time
from contextlib import suppress
from pathlib import Path

import dns.rdatatype
import pytest
from dns.flags import QR, RA, RD, TC
from dns.rcode import NOERROR, NXDOMAIN, SERVFAIL

from tests.c.builds import example
from tests.forwarder.harness import (
    aliases, bound, counts, data, exchange, octets_of, plain, query, response,
    silent, told, truncated)

# The status of a stub whose port another process has.
NO_PORT = 1
# Of an MX RRset whose names are compressed this has room in 512 octets, and not where they are not.
EXCHANGES = [f"{{}} 60 MX 1 m{it}.some-long-label-of-a-name.example" for it in range(16)]


@pytest.fixture(scope="module")
def program(library, tmp_path_factory):
    return example("stub", library, tmp_path_factory.mktemp("example"))


@pytest.fixture
def port(program, server):
    """The port of a stub that asks the server. At the end it runs, and no sanitizer said a word."""
    stub, number = next(filter(None, (begun(program, server) for _ in range(5))))
    with stub:
        try:
            yield number
            assert stub.poll() is None
        finally:
            stub.terminate()
            assert stub.stderr.read() == ""


def begun(program, server):
    """A stub that has its port, and that port, or None if another process took that before."""
    with bound(False)[0] as sock:
        number = sock.getsockname()[1]
    words = [program, str(number), "127.0.0.1", str(server.port)]
    stub, end = subprocess.Popen(words, stderr=subprocess.PIPE, text=True), time.monotonic() + 60
    while stub.poll() is None and time.monotonic() < end:
        if number in ports_of(stub):
            return stub, number
        time.sleep(0.02)
    with stub:
        stub.kill()
        assert (stub.stderr.read(), stub.wait()) == ("", NO_PORT)


def ports_of(process):
    """The ports on which a process has datagrams. To try whether a port is free would take it for a
    moment, in which the process might want it."""
    found = set()
    with suppress(OSError):  # it has ended, or one is closed meanwhile
        for it in Path(f"/proc/{process.pid}/fd").iterdir():
            found.add(os.readlink(it))
    rows = [it.split() for it in Path("/proc/net/udp").read_text().splitlines()[1:]]
    return {int(it[1].rpartition(":")[2], 16) for it in rows if f"socket:[{it[9]}]" in found}


def test_the_cache_answers(port, server):
    first = exchange(port, query("a7.example"))
    time.sleep(1.1)
    asked = query("A7.example")
    again = exchange(port, asked)
    assert data(first) == data(again) == ["192.0.2.7"]
    assert first.answer[0].ttl == 60 and 30 <= again.answer[0].ttl <= 59
    assert server.times("a7.example") == 1
    assert again.id == asked.id and again.question == asked.question and again.flags & RD
    assert not exchange(port, query("a7.example", flags=0)).flags & RD


@pytest.mark.parametrize("name, rcode", [("b.example", NXDOMAIN), ("nothing.example", NOERROR)])
def test_a_denial_is_cached(name, rcode, port, server):
    for _ in range(2):
        it = exchange(port, query(name))
        assert it.rcode() == rcode and not it.answer and len(it.authority) == 1
    assert server.times(name) == 1


def test_a_chain_of_aliases_is_cached(port, server):
    chain = [f"c{it}.example" for it in range(9)]
    server.answer = told(*aliases(chain), f"{chain[-1]} 60 A 192.0.2.9")
    for _ in range(2):
        it = exchange(port, query(chain[0]))
        assert data(it, "CNAME") == [f"{to}." for to in chain[1:]] and data(it) == ["192.0.2.9"]
    assert len(server.asked) == 1


def test_aliases_in_a_circle_end(port, server):
    server.answer = told(*aliases(["c.example", "d.example", "c.example"]))
    for _ in range(2):
        assert exchange(port, query("c.example")).rcode() in (NOERROR, SERVFAIL)


def test_stale_data_and_failures(port, server):
    server.answer = plain(ttl=1)
    assert exchange(port, query("a1.example")).answer[0].ttl == 1
    server.answer = silent
    time.sleep(1.1)
    for _ in range(2):  # after a try, and since that failed
        it = exchange(port, query("a1.example"))
        assert data(it) == ["192.0.2.1"] and it.answer[0].ttl == 30
        assert exchange(port, query("a2.example")).rcode() == SERVFAIL
    assert server.times("a1.example") == 2 and server.times("a2.example") == 1


def test_servfail_is_cached(port, server):
    server.answer = told(rcode=SERVFAIL)
    for _ in range(2):
        assert exchange(port, query("a.example")).rcode() == SERVFAIL
    assert len(server.asked) == 1


def test_what_leaves_nothing_to_store_goes_on(port, server):
    server.answer = lambda _, asked, name: [truncated(asked)]
    assert exchange(port, query("t.example")).flags & TC
    server.answer = told(rcode=NXDOMAIN)  # with no SOA record
    assert exchange(port, query("n.example")).rcode() == NXDOMAIN
    server.answer = told("{} 0 A 192.0.2.5")
    assert data(exchange(port, query("z.example"))) == ["192.0.2.5"]


def cut(flags, left_out):
    """Answers with an address, without so many octets at the end."""
    return lambda _, asked, name: [octets_of(response(asked, f"{name} 60 A 192.0.2.66",
                                                      flags=RA | flags))[:-left_out]]


def is_truncated(port, name):
    """Asks for a name: whether the reply repeats the question, has TC set, and has no records."""
    asked = query(name)
    it = exchange(port, asked)
    return (it.id == asked.id and it.question == asked.question and it.rcode() == NOERROR
            and it.flags == QR | RD | RA | TC and counts(it) == [0, 0, 0])


@pytest.mark.parametrize("left_out", [1, 4, 5, 15, 16])
def test_a_truncated_response_may_end_inside_a_record(left_out, port, server):
    """It is ignored, and to be asked for over TCP (RFC 2181 section 9), so it is no failure, and
    nothing of it is kept. The record has 16 octets, four of which are the address."""
    server.answer = cut(TC, left_out)
    for _ in range(2):
        assert is_truncated(port, "a6.example")
    server.answer = plain()
    for _ in range(2):
        assert data(exchange(port, query("a6.example"))) == ["192.0.2.6"]
    assert server.times("a6.example") == 3


def test_another_response_that_ends_inside_a_record_is_a_failure(port, server):
    server.answer = cut(0, 1)
    for _ in range(2):
        assert exchange(port, query("a6.example")).rcode() == SERVFAIL
    assert server.times("a6.example") == 1


def test_all_types_are_answered_by_upstream(port, server):
    types = [f"TYPE{it}" for it in range(1000, 1024)]
    server.answer = told(*(f"{{}} 60 {it} \\# 1 00" for it in types))
    it = exchange(port, query("t.example", "ANY"))
    assert [dns.rdatatype.to_text(rrset.rdtype) for rrset in it.answer] == types


def test_a_reply_with_no_room_is_truncated(port, server):
    server.answer = told(*EXCHANGES)
    it = exchange(port, query("e.example", "MX"))
    assert it.flags & TC and not it.answer and len(server.asked) == 1


def test_clients_garbage_does_not_stop_it(port, server):
    good = octets_of(query("a3.example"))
    end = 12 + len(b"\2a3\7example\0")
    made = [good[:it] for it in range(len(good))]
    made += [good[:2] + b"\x81" + good[3:], good[:4] + b"\0\2" + good[6:],
             good[:12] + b"\xc0\x0c" + good[end:], good[:12] + b"\x40" * 200,
             good[:12] + b"\x3f" * 500, good[:12] + b"\1a" * 130 + b"\0\0\1\0\1",
             good[:end] + b"\0\0\0\1", good[:end] + b"\0\1\0\0", good + b"\xff" * 3000]
    drawn = random.Random(7)
    made += [bytes(drawn.randbytes(drawn.randrange(600))) for _ in range(200)]
    with socket.socket(socket.AF_INET, socket.SOCK_DGRAM) as sock:
        for number, it in enumerate(made):
            sock.sendto(it, ("127.0.0.1", port))
            if number % 20 == 0:  # so that no packet is dropped for want of room
                assert data(exchange(port, query("a3.example"))) == ["192.0.2.3"]
    assert data(exchange(port, query("a9.example"))) == ["192.0.2.9"]


def test_garbage_from_upstream_is_no_answer(port, server):
    drawn = random.Random(8)

    def beside(server, asked, name):
        other = query("other.example", id=asked.id)
        wrong = query(name, id=asked.id ^ 1)
        forged = [response(it, "a4.example 60 A 192.0.2.66") for it in (other, wrong)]
        return [b"", drawn.randbytes(300), octets_of(asked), *forged,
                *plain()(server, asked, name)]
    server.answer = beside
    assert data(exchange(port, query("a4.example"))) == ["192.0.2.4"]
    server.answer = lambda _, asked, name: [drawn.randbytes(600) for _ in range(9)]
    assert exchange(port, query("a5.example")).rcode() == SERVFAIL
    server.answer = lambda _, asked, name: [octets_of(truncated(asked))[:6] + b"\0\1" + bytes(4)
                                            + octets_of(asked)[12:] + b"\xff" * 9]
    assert is_truncated(port, "a6.example")
    server.answer = plain()
    assert data(exchange(port, query("a8.example"))) == ["192.0.2.8"]
