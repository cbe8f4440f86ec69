# SPDX-License-Identifier: MIT
"""What clients may ask, by UDP and over TCP, and what fits into a reply."""
import contextlib
import copy
import random
import select
import socket
import struct
import time

import dns.edns
import pytest
from dns.flags import DO, QR, RD, TC
from dns.rcode import BADVERS, FORMERR, NOERROR, NOTIMP, NXDOMAIN, REFUSED, SERVFAIL

from tests.forwarder.harness import (MOST_SECONDS, SOA, Server, Stream, address, counts, data,
                                     datagrams, edns, exchange, framed, many, octets_of, query,
                                     read, record, silent, take, took, truncated)
from tools.processes import Aside

ASKED = query("a1.example", id=7)
OPCODES = 0x7800
# A query with an OPT record, and its octets before that, and from that on.
EDNS = query("a1.example", use_edns=True)
BEFORE_OPT, OPT = octets_of(EDNS)[:-11], octets_of(EDNS)[-11:]
SIGNATURE = b"\3key\7example\0" + struct.pack(">HHIH", 250, 255, 0, 9) + b"signature"


def with_section(section, records, rtype="A"):
    """A query one of whose sections is this."""
    it = query("a1.example", rtype)
    it.sections[section] = records
    return it


def asked_for(name):
    """A query whose name is these octets."""
    return octets_of(ASKED)[:12] + name + octets_of(ASKED)[-4:]


NO_QUERIES = {
    "nothing": (b"", None),
    "11 octets": (bytes(11), None),
    "a response": (query("a1.example", flags=QR | RD), None),
    "opcode 2": (query("a1.example", flags=0x1100), NOTIMP),
    "opcode 5": (query("a1.example", flags=0x2900), NOTIMP),
    "two questions": (with_section(0, ASKED.question * 2), FORMERR),
    "no question": (with_section(0, []), FORMERR),
    "an answer": (with_section(1, [record("a1.example 1 A 192.0.2.1")]), FORMERR),
    "an authority": (with_section(2, [record(SOA)]), FORMERR),
    "an octet behind": (octets_of(ASKED) + b"x", FORMERR),
    "an octet missing": (octets_of(ASKED)[:-1], FORMERR),
    "a pointer to itself": (asked_for(b"\xc0\x0c"), FORMERR),
    "a reserved label": (asked_for(b"\x40a\0"), FORMERR),
    "257 octets of name": (asked_for((b"\x3f" + b"a" * 63) * 4 + b"\0"), FORMERR),
    "class CH": (query("a1.example", rdclass="CH"), REFUSED),
    "type AXFR": (query("a1.example", "AXFR"), NOTIMP),
    "type IXFR": (with_section(2, [record(SOA)], "IXFR"), NOTIMP),
    "type OPT": (query("a1.example", "OPT"), NOTIMP),
    "RD clear": (query("a1.example", flags=0), REFUSED),
}


@pytest.mark.parametrize("asked, rcode", NO_QUERIES.values(), ids=NO_QUERIES)
def test_queries_that_are_none(forwarder, asked, rcode):
    """To some there is no reply, and to none a record."""
    it, octets = forwarder(server := Server()), octets_of(asked)
    reply = exchange(it.port, octets, 0.3 if rcode is None else MOST_SECONDS)
    assert (reply and reply.rcode()) == rcode
    if reply:
        assert (reply.id, counts(reply)) == (octets[0] << 8 | octets[1], [0, 0, 0])
        assert (reply.flags ^ octets[2] << 8) & (OPCODES | RD) == 0
    assert not server.asked


# What a host may be asked of itself (RFC 4892), and names beside that.
IDENTITIES = {"version.bind": "3.1", "VERSION.server": "3.1", "id.server": "here",
              "hostname.bind": "here"}


@pytest.mark.parametrize("name", [*IDENTITIES, "id.servers", "a1.example"])
def test_identity_is_refused(forwarder, name):
    it = forwarder(server := Server())
    reply = it.ask(name, "TXT", rdclass="CH")
    assert (reply.rcode(), counts(reply)) == (REFUSED, [0, 0, 0]) and not server.asked


@pytest.mark.parametrize("options, told", [
    (("--version-text", "3.1", "--identity", "here"), IDENTITIES),
    (("--identity", "x" * 255), {"id.server": "x" * 255, "hostname.bind": "x" * 255})])
def test_identity_that_is_told(forwarder, options, told):
    """By choice, for types TXT and ANY of class CH alone."""
    it = forwarder(server := Server(), options=("-q", *options))
    for name in (*IDENTITIES, "id.servers"):
        for rtype, rdclass in (("TXT", "CH"), ("ANY", "CH"), ("A", "CH"), ("TXT", "HS")):
            reply = it.ask(name, rtype, rdclass=rdclass)
            is_told = name in told and rtype != "A" and rdclass == "CH"
            assert reply.rcode() == (NOERROR if is_told else REFUSED)
            assert [it.to_text() for rrset in reply.answer for it in rrset] == (
                [f'"{told[name]}"'] if is_told else [])
    assert not server.asked


def test_queries_at_the_limits(forwarder):
    it = forwarder(Server())
    it.ask("a1.example")
    assert data(it.ask("a1.example", flags=0)) == [address(1)]  # what is cached, where RD is clear
    longest = ".".join(["x" * 63] * 3 + ["x" * 61])
    assert it.ask(longest).rcode() == NXDOMAIN


def test_junk_of_clients(forwarder):
    dice, it = random.Random(6), forwarder(Server())
    with datagrams(it.port) as client:
        for n in range(3000):
            tail = bytes(dice.randrange(256) for _ in range(dice.choice((0, 0, 3, 700))))
            asked = query("a1.example", dice.choice(("A", "CNAME", "ANY")),
                          use_edns=dice.choice((False, True)))
            octets = bytearray(octets_of(asked) + tail)
            for _ in range(dice.randrange(4)):
                octets[dice.randrange(len(octets))] = dice.choice((0, 1, 63, 64, 192, 255,
                                                                   dice.randrange(256)))
            client.send(octets[:dice.choice((len(octets), dice.randrange(len(octets))))])
            if n % 100 == 99:
                assert data(it.ask("a2.example")) == [address(2)]


def test_replies_come_from_the_address_that_was_asked(forwarder):
    """Where it listens on all addresses; what is fetched, and what is cached."""
    it = forwarder(Server(), host="0.0.0.0")
    for n, host in enumerate(("127.0.0.5", "127.0.0.1")):
        for _ in range(2):
            with datagrams(it.port, host=host) as client:
                client.send(octets_of(query(f"a{n}.example")))
                assert data(read(client.recv(4096))) == [address(n)]


# ---- EDNS (RFC 6891).

@pytest.mark.parametrize("name, rcode", [("a1.example", NOERROR), ("nothing.example", NOERROR),
                                         ("gone.example", NXDOMAIN)])
def test_edns_of_replies(forwarder, name, rcode):
    """Who sent an OPT record gets one: 1,232 octets, version 0, and DO as it was (RFC 3225)."""
    it = forwarder(Server())
    for flags in (0, 0, DO, DO):
        reply = it.ask(name, payload=4096, want_dnssec=bool(flags))
        assert (reply.rcode(), edns(reply)) == (rcode, (1232, 0, flags))
    assert it.ask(name).opt is None


def with_one_more(octets):
    """The query with the octets of another record behind its OPT record."""
    return BEFORE_OPT[:11] + b"\2" + BEFORE_OPT[12:] + OPT + octets


def test_edns_beside_others(forwarder):
    """An option and another record are passed over; an OPT record comes with a refusal too."""
    it = forwarder(Server())
    cookie = dns.edns.GenericOption(10, bytes(8))
    assert data(it.ask("a1.example", options=[cookie])) == [address(1)]
    reply = exchange(it.port, with_one_more(SIGNATURE))
    assert EDNS.is_response(reply) and edns(reply) and data(reply) == [address(1)]
    assert edns(it.ask("a1.example", rdclass="CH", use_edns=True)) == (1232, 0, 0)


@pytest.mark.parametrize("words", ["opcode 2", "opcode 5", "two questions", "no question",
                                   "an answer", "an authority"])
def test_edns_of_refusals(forwarder, words):
    """Who sent an OPT record gets one with each refusal too (RFC 6891 section 6.1.1)."""
    asked, rcode = NO_QUERIES[words]
    (asked := copy.deepcopy(asked)).use_edns(0, DO)
    reply = exchange(forwarder(Server()).port, asked)
    assert (reply.rcode(), edns(reply), counts(reply)) == (rcode, (1232, 0, DO), [0, 0, 0])


@pytest.mark.parametrize("version", [1, 255])
def test_edns_of_another_version(forwarder, version):
    """Also where its options are none of version 0 (RFC 6891 section 6.1.3)."""
    it = forwarder(server := Server())
    for options in (b"", b"\0\1\0\5abcd", b"x"):
        octets = bytearray(with_options(options))
        octets[len(BEFORE_OPT) + 6] = version
        reply = exchange(it.port, bytes(octets))
        assert (reply.rcode(), edns(reply), counts(reply)) == (BADVERS, (1232, 0, 0), [0, 0, 0])
    assert not server.asked


def with_options(options):
    """A query whose OPT record has these octets for its options."""
    return BEFORE_OPT + OPT[:-2] + len(options).to_bytes(2, "big") + options


BROKEN_EDNS = {
    "two OPT records": with_one_more(OPT),
    "an owner": BEFORE_OPT + b"\1a\7example" + OPT,
    "an option that is cut": with_options(b"\0\1\0\5abcd"),
    "half an option": with_options(b"\0\1\0"),
    **{f"{size} octets missing": octets_of(EDNS)[:-size] for size in range(1, 11)},
}


@pytest.mark.parametrize("octets", BROKEN_EDNS.values(), ids=BROKEN_EDNS)
def test_edns_that_is_broken(forwarder, octets):
    reply = exchange(forwarder(Server()).port, octets)
    assert (reply.rcode(), counts(reply)) == (FORMERR, [0, 0, 0])


@pytest.mark.parametrize("count, payload, fits", [
    (30, None, True), (31, None, False), (30, 100, False), (29, 0, True), (30, 512, False),
    (41, 700, True), (42, 700, False), (74, 1232, True), (75, 1232, False), (74, 65535, True),
    (75, 65535, False), (200, 4096, False), (0, None, True)])
def test_what_fits(forwarder, count, payload, fits):
    """A set fits whole or not at all (RFC 2181 section 9), by UDP into what the client takes,
    and at most into 1,232 octets."""
    it = forwarder(server := Server(many))
    most = min(1232, max(512, payload or 0))
    for _ in range(2):
        reply = it.ask(f"n{count}.example", payload=payload, most=most)
        assert (reply.flags & TC == 0, len(data(reply))) == (fits, count if fits else 0)
    assert not count or server.times(f"n{count}.example") == 1


@pytest.mark.parametrize("use_edns, fits", [(None, True), (0, False)])
def test_what_fits_over_tcp(forwarder, use_edns, fits):
    """65,535 octets, of which an OPT record takes 11. What fits gets TC by UDP, and else it is a
    failure, since no message has room for it."""
    count = 4094
    it = forwarder(Server(lambda server, asked, name: (
        many(server, asked, name) if server.is_tcp else [truncated(asked)])))
    reply = it.ask(f"n{count}.example", use_edns=use_edns)
    assert (reply.rcode(), reply.flags & TC != 0) == (NOERROR if fits else SERVFAIL, fits)
    with it.stream() as stream:
        stream.put(query(f"n{count}.example", use_edns=use_edns))
        octets = stream.read_octets()
    assert octets[6:8] == struct.pack(">H", count if fits else 0)


# ---- TCP (RFC 7766).

def test_tcp_queries(forwarder):
    """Several on a connection, in one write, and octet by octet; replies in any order."""
    it = forwarder(Server(delay=0.1))
    with it.stream() as stream:
        assert data(stream.ask("a1.example")) == [address(1)]
        stream.put(*(query(f"a{n % 20}.example", id=n) for n in range(40)))
        replies = [stream.read() for _ in range(40)]
        assert sorted((it.id, data(it)) for it in replies) == [(n, [address(n % 20)])
                                                               for n in range(40)]
        for octet in framed(query("a1.example", want_dnssec=True)):
            stream.sendall(bytes([octet]))
            time.sleep(0.002)
        reply = stream.read()
        assert (data(reply), edns(reply)) == ([address(1)], (1232, 0, DO))
        stream.put(query("a1.example", rdclass="CH"), query("a1.example", flags=0x2900))
        assert [stream.read().rcode() for _ in range(2)] == [REFUSED, NOTIMP]
    assert it.counters()["connections"] == 1


@pytest.mark.parametrize("count", [31, 200, 3000])
def test_tcp_replies_are_whole(forwarder, count):
    it = forwarder(Server(many))
    assert it.ask(f"n{count}.example").flags & TC
    with it.stream() as stream:
        stream.put(*[query(f"n{count}.example", payload=512)] * 2)
        octets = [stream.read_octets() for _ in range(2)]
    for reply in map(read, octets):
        assert not reply.flags & TC
        assert sorted(data(reply)) == sorted(map(address, range(count)))


def test_tcp_client_that_ends_its_side(forwarder):
    with forwarder(Server(delay=0.3)).stream() as stream:
        stream.put(query("a1.example"), query("a2.example"))
        stream.shutdown(socket.SHUT_WR)
        assert sorted(data(stream.read()) for _ in range(2)) == [[address(1)], [address(2)]]
        assert stream.read() is None


def test_tcp_client_that_does_nothing(forwarder):
    """A connection is shut after 5 idle seconds, also where half a query came, and not while it
    waits for an answer."""
    it = forwarder(server := Server())
    with it.stream() as idle, it.stream() as half, it.stream() as busy:
        half.sendall(framed(query("a1.example"))[:9])
        began = time.monotonic()
        while time.monotonic() < began + 6:
            assert data(busy.ask("a1.example")) == [address(1)]
            time.sleep(1)
        assert idle.read() is half.read() is None
        server.delay = 0.6
        assert data(busy.ask("a2.example")) == [address(2)]


def test_tcp_client_that_does_not_read(forwarder):
    """What is kept for it is bounded, it has no more time than another, and others are answered."""
    it = forwarder(Server(many))
    with it.stream() as stream, it.stream() as other:
        assert other.gets_many(3000)
        stream.setsockopt(socket.SOL_SOCKET, socket.SO_RCVBUF, 4096)
        stream.settimeout(0.2)
        sent, began = 0, time.monotonic()
        try:
            while time.monotonic() < began + 12:
                stream.put(query("n3000.example"))
                sent += 1
                if sent % 100 == 0:
                    assert other.gets_many(3000)
                    time.sleep(0.02)
        except socket.timeout:  # its queries are read no more
            pass
        except OSError:
            return  # it was shut
        assert other.gets_many(3000)
        time.sleep(5.5)
        stream.settimeout(MOST_SECONDS)
        assert len(stream.rest()) < 1 << 24


@pytest.mark.parametrize("ends_its_side", [False, True])
def test_tcp_client_that_takes_no_reply(forwarder, ends_its_side):
    """After 5 seconds its connection is reset, so the system does not keep the reply for it. One
    that takes its reply gets all of it, also if it sends no more."""
    it = forwarder(Server(many))
    with it.stream() as first:
        assert first.gets_many(4000)
    with socket.socket() as stream, Stream(it.port) as other:
        stream.setsockopt(socket.SOL_SOCKET, socket.SO_RCVBUF, 4096)
        stream.settimeout(MOST_SECONDS)
        stream.connect(("127.0.0.1", it.port))
        stream.sendall(framed(query("n4000.example")))
        other.put(query("n4000.example"))
        if ends_its_side:
            stream.shutdown(socket.SHUT_WR)
            other.shutdown(socket.SHUT_WR)
        time.sleep(2)
        assert len(other.read_octets()) > 64000
        time.sleep(4)
        with pytest.raises(ConnectionResetError):
            take(stream, 64000)


@pytest.mark.parametrize("octets", [
    b"\0\0", b"\0\x0babc", b"\x10\x01x", framed(query("a1.example", id=7, flags=QR | RD)),
    b"GET / HTTP/1.1\r\n\r\n"])
def test_tcp_junk(forwarder, octets):
    """What is no query ends the connection, at once."""
    with forwarder(Server()).stream() as stream:
        stream.sendall(octets)
        reply, seconds = took(stream.read)
    assert reply is None and seconds < 4  # where it is idle it ends after 5


def test_tcp_junk_at_random(forwarder):
    dice, it = random.Random(7), forwarder(Server())
    for _ in range(200):
        with it.stream() as stream:
            stream.sendall(framed(dice.randbytes(dice.randrange(12, 60))))
    assert data(it.ask("a2.example")) == [address(2)]


def test_tcp_connections_more_than_places(forwarder):
    """The one that did nothing for longest makes way."""
    it = forwarder(Server(), options=("-q", "-t", "1"))
    streams = [it.stream() for _ in range(60)]
    assert data(streams[0].ask("a1.example")) == [address(1)]
    time.sleep(0.6)
    more = [it.stream() for _ in range(60)]
    for stream in more:
        assert data(stream.ask("a1.example")) == [address(1)]
    assert len(select.select(streams, [], [], 0)[0]) >= 50
    for stream in streams + more:
        stream.close()


class Hog(Aside):
    """A client of 127.0.0.1 with many connections. It asks on each of them five times a second, and
    makes another for each that is shut."""

    def __init__(self, port, count):
        super().__init__()
        self.port = port
        self.sockets = [self.connect() for _ in range(count)]

    def connect(self):
        sock = socket.socket()
        sock.setblocking(False)
        sock.connect_ex(("127.0.0.1", self.port))
        return sock

    def ask_on(self, number):
        try:
            self.sockets[number].send(framed(ASKED))
        except BlockingIOError:  # it is not taken up yet
            pass
        except OSError:
            self.sockets[number].close()
            self.sockets[number] = self.connect()

    def run(self):
        while not self.is_over.wait(0.2):
            for number in range(len(self.sockets)):
                self.ask_on(number)

    def __exit__(self, *_):
        super().__exit__()
        for it in self.sockets:
            it.close()


def test_tcp_client_that_wants_all_places(forwarder):
    """It keeps no other address out, whose connections stay though they are less active. One that
    is not used for 4 seconds, as on a machine that stalls, may be shut, and is made anew."""
    it, streams = forwarder(Server(), options=("-q", "-t", "2")), {}
    with Hog(it.port, 256), contextlib.ExitStack() as opened:
        time.sleep(1)
        for _ in range(3):
            for n in range(20):
                stream, used = streams.get(n, (None, 0))
                if stream is None or time.monotonic() > used + 4:
                    stream = opened.enter_context(Stream(it.port, source="127.0.0.2"))
                assert data(stream.ask(f"a{n}.example")) == [address(n)]
                streams[n] = stream, time.monotonic()
            time.sleep(0.4)


def test_tcp_client_that_leaves(forwarder):
    """Answers that come when a connection is gone go nowhere, and not to the next in its place."""
    it = forwarder(server := Server(delay=0.5), options=("-q", "-t", "1"))
    for n in range(20):
        with it.stream() as stream:
            stream.put(query(f"a{n}.example"))
    with it.stream() as stream:
        stream.put(query("a30.example", id=30))
        assert (stream.read().id, data(it.ask("a3.example"))) == (30, [address(3)])
        server.answer = silent
        stream.settimeout(0.5)
        try:
            assert stream.read() is None
        except socket.timeout:
            pass
    assert it.ask("a999.example").rcode() == SERVFAIL
