# SPDX-License-Identifier: MIT
"""How upstreams are asked, and what is made of what they answer."""
import concurrent.futures
import random
import select
import socket
import struct
import threading
import time

import pytest
from dns.flags import AA, QR, RA, RD, TC
from dns.rcode import FORMERR, NOERROR, NOTIMP, NXDOMAIN, REFUSED, SERVFAIL

from tests.forwarder.harness import (MOST_SECONDS, SOA, Server, address, addresses, aliases,
                                     ask_for_any, behind, counts, data, datagrams, framed,
                                     octets_of, plain, query, read, record, response, silent, told,
                                     took, truncated, with_id)

FORGED = f"A {address(66)}"
# The seconds of the first try, which is the shortest.
TRY = 0.8
# The octets of an address record whose owner is a pointer, and the most that a datagram has.
ADDRESS_RECORD, MOST_UDP = 16, 65507


def test_glue_is_never_answered(forwarder):
    def answer(server, asked, name):
        if name == "www.example":
            return [response(asked, f"{name} 60 A {address(1)}",
                             authority=["example 60 NS www2.example"],
                             additional=[f"www{n}.example 60 {FORGED}" for n in range(20)])]
        return [response(asked, f"{name} 60 A {address(2)}")]
    it = forwarder(server := Server(answer))
    reply = it.ask("www.example")
    assert (counts(reply), data(reply)) == ([1, 0, 0], [address(1)])
    for n in range(20):
        assert data(it.ask(f"www{n}.example")) == [address(2)]
        assert server.times(f"www{n}.example") == 1


def test_servers_that_a_zone_names_are_not_kept(forwarder):
    """An authoritative answer may have the zone's NS RRset behind it, and addresses. They are not
    kept, else a zone that was withdrawn would renew its own delegation (ghost domains)."""
    def answer(server, asked, name):
        if name == "zone.example":
            return [response(asked, "zone.example 60 NS new.example")]
        return [response(asked, f"{name} 60 A {address(1)}", flags=AA | RA,
                         authority=["zone.example 86400 NS ns.zone.example"],
                         additional=[f"ns.zone.example 86400 {FORGED}"])]
    it = forwarder(server := Server(answer))
    reply = it.ask("www.zone.example")
    assert (counts(reply), it.counted("keys")) == ([1, 0, 0], [1])
    assert data(it.ask("zone.example", "NS"), "NS") == ["new.example."]
    assert data(it.ask("ns.zone.example")) == [address(1)]
    assert (server.times("zone.example", "NS"), server.times("ns.zone.example")) == (1, 1)


def with_junk(message, size):
    """The header and the question of a message, and junk in place of its records."""
    octets = octets_of(message)
    front = octets[:6] + b"\xff" * 6 + octets[12:-ADDRESS_RECORD]
    return front + random.Random(size).randbytes(size - len(front))


def test_spoofed_replies(forwarder):
    """What has another id or question is dropped, whatever stands behind that."""
    def forged(asked, **others):
        """A forged answer to what may be another query."""
        it = response(asked, f"{asked.question[0].name} 60 {FORGED}")
        for field, value in others.items():
            setattr(it, field, value)
        return it

    def answer(server, asked, name):
        with socket.socket(socket.AF_INET, socket.SOCK_DGRAM) as other:
            other.bind(("127.0.0.1", 0))
            other.sendto(octets_of(forged(asked)), server.client)
        others = [query("a2.example"), query(name, "TXT"), query(name, rdclass="CH")]
        strays = [forged(asked, id=asked.id ^ 1), *(forged(it, id=asked.id) for it in others)]
        return [*strays, *map(with_junk, strays, (MOST_UDP, 16384, 1232, 64)),
                forged(asked, flags=RD | RA), forged(asked, flags=0x9180),
                forged(asked, question=[]), octets_of(forged(asked))[:20], b"", b"x",
                *plain()(server, asked, name)]
    it = forwarder(Server(answer))
    for _ in range(2):
        assert data(it.ask("a1.example")) == [address(1)]
    assert it.counted("strays", "sent", "failures") == [14, 1, 0]


def test_many_ask_and_one_query_goes_out(forwarder):
    it = forwarder(server := Server(behind(gate := threading.Event())))
    began = time.monotonic()
    with concurrent.futures.ThreadPoolExecutor(60) as pool:
        replies = pool.map(it.ask, ["a4.example", "A4.example", "a4.EXAMPLE"] * 20)
        it.wait_for("joined", 59)
        gate.set()
        assert [data(reply) for reply in replies] == [[address(4)]] * 60
    # One more for each try that ended.
    assert it.counted("sent")[0] <= 1 + (time.monotonic() - began) // TRY
    assert server.times("a4.example") <= it.counted("sent")[0] < 5


def test_one_asks_all_the_time_and_others_get_answers(forwarder):
    """300 queries of one address for one name, while it is fetched, leave room for one of another
    address; a query that is sent again is answered once."""
    it = forwarder(Server(behind(gate := threading.Event())))
    one, again = datagrams(it.port), query("a1.example")
    with socket.socket(socket.AF_INET, socket.SOCK_DGRAM) as other:
        other.bind(("127.0.0.2", 0))
        other.connect(("127.0.0.1", it.port))
        other.settimeout(MOST_SECONDS)
        for n in range(300):
            one.send(octets_of(query("a1.example", id=n)))
            if n % 30 == 29:
                it.wait_for("queries", n + 1)
        for _ in range(3):
            other.send(octets_of(again))
        it.wait_for("queries", 303)
        gate.set()
        assert data(read(other.recv(4096))) == [address(1)]
        assert data(it.ask("a1.example")) == [address(1)]  # what was to come is there
        assert not select.select([other], [], [], 0)[0]
    replies = [read(one.recv(4096)) for _ in range(64)]
    assert {it.rcode() for it in replies} == {NOERROR}
    one.close()


def test_addresses_that_differ_like_a_letter_in_two_cases(forwarder):
    """The last octets of 127.0.0.65 and 127.0.0.97 are those of `A` and `a`. They are two clients,
    so what the one asks all the time does not replace what the other asked."""
    it = forwarder(Server(behind(gate := threading.Event())))
    with (datagrams(it.port, source="127.0.0.65") as one,
          datagrams(it.port, source="127.0.0.97") as other):
        other.send(octets_of(query("a1.example")))
        it.wait_for("queries", 1)
        for n in range(90):
            one.send(octets_of(query("a1.example", id=n)))
        it.wait_for("queries", 91)
        gate.set()
        assert data(read(other.recv(4096))) == [address(1)]


def test_ids_and_ports_differ(forwarder):
    seen = []

    def answer(server, asked, name):
        seen.append((asked.id, server.client[1]))
        return plain()(server, asked, name)
    it = forwarder(Server(answer))
    for n in range(64):
        it.ask(f"a{n}.example")
    for numbers in zip(*seen):
        assert len(set(numbers)) > 58
        assert max(numbers) - min(numbers) > 30000


def cut(server, asked, name):
    return [octets_of(response(asked, f"{name} 60 {FORGED}"))[:-2]]


@pytest.mark.parametrize("first, most", [(silent, 2), (told(rcode=REFUSED), 0.7), (cut, 0.7)])
def test_upstreams_in_turn(forwarder, first, most):
    """The one that answered is asked first from then on."""
    it = forwarder(one := Server(first), two := Server())
    reply, seconds = took(it.ask, "a1.example")
    assert data(reply) == [address(1)] and seconds < most
    assert data(it.ask("a2.example")) == [address(2)]
    assert (len(one.asked), len(two.asked)) == (1, 2)


@pytest.mark.parametrize("count, delay", [(1, 1.2), (2, 1.3)])
def test_upstreams_that_are_slow(forwarder, count, delay):
    """An answer counts that is late for its own try, also while another upstream is asked."""
    it = forwarder(*(Server(delay=delay) for _ in range(count)))
    reply, seconds = took(it.ask, "a1.example")
    assert data(reply) == [address(1)] and seconds < 3
    assert it.counted("sent", "strays", "failures") == [2, 0, 0]


def test_upstream_that_is_slow_beside_another_over_tcp(forwarder):
    """The port of the first try is closed before a query goes out over TCP, so an answer to that
    try no longer counts. The next try has another port and identifier."""
    seen = set()

    def answer(server, asked, name):
        seen.add((asked.id, server.client[1]))
        return plain()(server, asked, name)
    it = forwarder(Server(answer, delay=1.2),
                   Server(lambda _, asked, name: [truncated(asked)], tcp=False))
    reply, seconds = took(it.ask, "a1.example")
    assert data(reply) == [address(1)] and seconds > 1.9
    assert [len(set(it)) for it in zip(*seen)] == [2, 2]


def test_late_refusal_of_an_upstream(forwarder):
    """What the one says while the other is asked ends nothing, and it is not asked again."""
    it = forwarder(one := Server(told(rcode=REFUSED), delay=1), Server(delay=1.2))
    assert data(it.ask("a1.example")) == [address(1)]
    assert (it.counted("sent"), len(one.asked)) == ([3], 1)


@pytest.mark.parametrize("count", [1, 2])
def test_upstreams_whose_ports_are_closed(forwarder, count):
    """Each is asked once, and then the question has failed."""
    servers = [Server() for _ in range(count)]
    it = forwarder(*servers)
    for server in servers:
        server.stop()
    reply, seconds = took(it.ask, "a1.example")
    assert reply.rcode() == SERVFAIL and seconds < 0.7
    assert it.counted("sent", "failures") == [count, 1]


@pytest.mark.parametrize("is_closed", [False, True], ids=["refuses", "closed"])
def test_upstream_that_is_given_twice(forwarder, is_closed):
    """It counts once, so what it refuses is not asked again, and nobody waits for another."""
    server = Server(told(rcode=REFUSED))
    it = forwarder(server, server)
    if is_closed:
        server.stop()
    reply, seconds = took(it.ask, "a1.example")
    assert reply.rcode() == SERVFAIL and seconds < 0.7
    assert it.counted("sent", "failures") == [1, 1]


def test_upstream_whose_port_is_closed(forwarder):
    """The other is asked at once, and again at the end of its try."""
    it = forwarder(one := Server(), Server(delay=1.3))
    one.stop()
    assert data(it.ask("a1.example")) == [address(1)]
    assert it.counted("sent") == [3]


@pytest.mark.parametrize("is_closed", [False, True], ids=["silent", "closed"])
@pytest.mark.parametrize("place", [4, 7])
def test_upstream_behind_others_that_are_dead(forwarder, place, is_closed):
    """Each of eight is asked, in the time of four tries, and from then on the one that answers."""
    servers = [Server(plain() if n == place else silent) for n in range(8)]
    it = forwarder(*servers)
    for server in servers:
        if is_closed and server is not servers[place]:
            server.stop()
    reply, seconds = took(it.ask, "a1.example")
    assert data(reply) == [address(1)] and seconds < (0.7 if is_closed else 3.8)
    assert data(it.ask("a2.example")) == [address(2)]
    assert it.counted("sent", "failures") == [place + 2, 0]


def test_upstream_that_is_slow_beside_others_that_refuse(forwarder):
    """What refuses takes no time of it."""
    refuse = told(rcode=REFUSED)
    it = forwarder(Server(delay=2), *(Server(refuse) for _ in range(7)))
    assert data(it.ask("a1.example")) == [address(1)]
    assert it.counted("failures") == [0]


def test_referral_upstream(forwarder):
    """It answers nothing, so the next upstream is asked."""
    it = forwarder(Server(told(authority=["example 60 NS ns.example"])), two := Server())
    assert data(it.ask("a1.example")) == [address(1)]
    assert two.times("a1.example") == 1


# The authority sections of a server that does not serve a name. It may name the servers of the
# root, which leads to no zone below that of the upstreams.
LAME = {"nothing": [], "servers of the root": [". 60 NS a.root-servers.net"]}


@pytest.mark.parametrize("authority", LAME.values(), ids=LAME)
def test_upstream_that_does_not_serve_the_name(forwarder, authority):
    """NOERROR with neither data nor an SOA record, of one who is no authority and does not recurse,
    is no answer. The other upstream is asked (RFC 1034 section 5.3.3), and is asked first from then
    on."""
    it = forwarder(one := Server(told(authority=authority, flags=0)), two := Server())
    for n in (1, 2):
        assert data(it.ask(f"a{n}.example")) == [address(n)]
    assert (len(one.asked), len(two.asked)) == (1, 2)
    assert it.counted("sent", "failures") == [3, 0]


def test_upstreams_that_all_do_not_serve_the_name(forwarder):
    """Each is asked once, and then the question has failed, which is remembered."""
    servers = [Server(told(authority=it, flags=0)) for it in LAME.values()]
    it = forwarder(*servers)
    for _ in range(2):
        reply, seconds = took(it.ask, "a1.example")
        assert (reply.rcode(), counts(reply)) == (SERVFAIL, [0, 0, 0]) and seconds < 0.7
    assert [len(server.asked) for server in servers] == [1, 1]
    assert it.counted("failures") == [1]


@pytest.mark.parametrize("rtype", ["A", "NAPTR"])
@pytest.mark.parametrize("flags", [AA, RA, AA | RA])
def test_upstream_that_has_no_data(forwarder, flags, rtype):
    """With AA or RA set that is NODATA also without an SOA record (RFC 2308 section 2.2, type 3),
    and also of a type that is not kept."""
    it = forwarder(Server(told(flags=flags)), two := Server())
    reply = it.ask("a1.example", rtype)
    assert (reply.rcode(), counts(reply), two.asked) == (NOERROR, [0, 0, 0], [])


# What an upstream says: the type, the records of the answer and of the authority, and the RCODE.
SAID = {
    "data": ("A", [f"a1.example 60 A {address(1)}"], [], NOERROR),
    "data of a type that is not kept": (
        "NAPTR", ['a1.example 60 NAPTR 1 2 "u" "" "!x!y!" rest.a1.example'], [], NOERROR),
    "an alias": ("A", aliases(["a1.example", "a2.example"]), [], NOERROR),
    "no data": ("A", [], [SOA], NOERROR),
    "no data of a type that is not kept": ("NAPTR", [], [SOA], NOERROR),
    "no such name": ("A", [], [SOA], NXDOMAIN),
    "no such name, with no SOA record": ("A", [], [], NXDOMAIN),
}


@pytest.mark.parametrize("rtype, answer, authority, rcode", SAID.values(), ids=SAID)
def test_upstream_that_clears_ra(forwarder, rtype, answer, authority, rcode):
    """Some forwarders do so, though they recurse. What they say counts all the same."""
    it = forwarder(one := Server(told(*answer, authority=authority, rcode=rcode, flags=0)),
                   two := Server())
    reply = it.ask("a1.example", rtype)
    assert (reply.rcode(), reply.answer) == (rcode, [record(it) for it in answer])
    assert reply.authority == [record(it) for it in authority]
    assert (len(one.asked), two.asked) == (1, [])


def test_junk_upstream(forwarder):
    """An upstream whose messages have the right id and question, and then octets at random."""
    dice = random.Random(5)

    def answer(server, asked, name):
        question, size = octets_of(query(name, asked.question[0].rdtype))[12:], dice.randrange(80)
        junk = bytes(dice.choice((0, 1, 5, 12, 192, dice.randrange(256))) for _ in range(size))
        flags = dice.choice((QR | RD | RA, QR | RD | RA, QR | RD | RA | TC))
        numbers = [dice.randrange(3) for _ in range(3)]
        return [struct.pack(">6H", asked.id, flags, 1, *numbers) + question + junk]
    it = forwarder(Server(answer))
    for n in range(1000):
        rtype = dice.choice(("A", "CNAME", "SOA", "TXT"))
        assert ask_for_any(it.port, f"a{n}.example", rtype) in (NOERROR, SERVFAIL)


# ---- EDNS (RFC 6891).

def test_edns_upstream(forwarder):
    """The query's OPT record: 1,232 octets, version 0, DO clear, no option."""
    def answer(server, asked, name):
        it = response(asked, *(f"{name} 60 A {address(n)}" for n in range(70)))
        it.use_edns(payload=4096)
        return [it]
    it = forwarder(server := Server(answer))
    assert len(data(it.ask("a1.example", use_edns=True, most=1232))) == 70
    assert server.octets[-11:] == octets_of(query(".", payload=1232))[-11:]
    assert not server.is_tcp


@pytest.mark.parametrize("rcode, is_bare", [(FORMERR, False), (FORMERR, True), (NOTIMP, False)])
def test_edns_upstream_does_not_know(forwarder, rcode, is_bare):
    """FORMERR and NOTIMP have the query sent again with no OPT record, and this upstream gets none
    after that."""
    def answer(server, asked, name):
        if asked.opt is None:
            return plain()(server, asked, name)
        it = response(asked, rcode=rcode)
        it.question = [] if is_bare else it.question
        return [it]
    it = forwarder(server := Server(answer))
    for n in range(3):
        reply, seconds = took(lambda: it.ask(f"a{n}.example", use_edns=True))
        assert data(reply) == [address(n)] and seconds < 0.7
    assert len(server.asked) == 4


@pytest.mark.parametrize("rcode", [FORMERR, NOTIMP])
def test_edns_upstream_knows_it_though_it_refuses(forwarder, rcode):
    """FORMERR or NOTIMP with an OPT record is of a server that knows these (RFC 6891 section 7). It
    is not asked for that name again, and gets OPT records all the same."""
    def answer(server, asked, name):
        if name == "a1.example":
            (it := response(asked, rcode=rcode)).use_edns(0)
            return [it]
        assert asked.opt
        return plain()(server, asked, name)
    it = forwarder(server := Server(answer))
    assert it.ask("a1.example").rcode() == SERVFAIL
    assert data(it.ask("a2.example")) == [address(2)]
    assert (len(server.asked), server.octets[10:12]) == (2, b"\0\1")


@pytest.mark.parametrize("rcode", [FORMERR, NOTIMP])
def test_edns_upstream_that_refuses_a_question_by_either_query(forwarder, rcode):
    """It refuses the question, as that of a type it does not know, and not the OPT record. So other
    questions come with one, or a client could have all answers above 512 octets come over TCP."""
    refuses, knows = told(rcode=rcode), plain()
    it = forwarder(server := Server(lambda *asked: (
        refuses if asked[2] == "a1.example" else knows)(*asked)))
    assert it.ask("a1.example").rcode() == SERVFAIL
    assert (len(server.asked), server.octets[10:12]) == (2, b"\0\0")
    assert data(it.ask("a2.example")) == [address(2)]
    assert (len(server.asked), server.octets[10:12]) == (3, b"\0\1")


def test_edns_upstream_of_those_alone_that_does_not_know_it(forwarder):
    """What one upstream does not know is sent to another."""
    def answer(server, asked, name):
        if name == "a1.example":
            return [response(asked, rcode=FORMERR if asked.opt else SERVFAIL)]
        return []
    it = forwarder(one := Server(answer), two := Server())
    for n in (1, 2):
        assert data(it.ask(f"a{n}.example")) == [address(n)]
    assert (len(one.asked), one.octets[10:12], two.octets[10:12]) == (2, b"\0\0", b"\0\1")


def test_edns_extended_rcode_upstream(forwarder):
    """A response whose RCODE is 0 in the header alone is no answer: this one says BADVERS."""
    def answer(server, asked, name):
        it = response(asked)
        it.use_edns(ednsflags=1 << 24)
        return [it]
    it = forwarder(Server(answer), two := Server())
    assert data(it.ask("a1.example")) == [address(1)]
    assert two.times("a1.example") == 1


# ---- TCP (RFC 7766).

def over_tcp(count, in_pieces=False):
    """Answers with so many addresses, over UDP with TC set; over TCP perhaps octet by octet
    at first."""
    behind = addresses("a1.example", count)

    def answer(server, asked, name):
        if not server.is_tcp:
            return [truncated(asked)]
        octets = with_id(asked, behind)
        if not in_pieces:
            return [octets]
        for octet in framed(octets)[:5]:
            server.client.sendall(bytes([octet]))
            time.sleep(0.001)
        server.client.sendall(framed(octets)[5:])
        return []
    return answer


@pytest.mark.parametrize("count, in_pieces", [(100, False), (20, True), (3000, False)])
def test_tcp_upstream_where_udp_is_truncated(forwarder, count, in_pieces):
    it = forwarder(server := Server(over_tcp(count, in_pieces)))
    for _ in range(2):
        if count > 20:
            assert it.ask("a1.example").flags & TC
        with it.stream() as stream:
            assert sorted(data(stream.ask("a1.example"))) == sorted(map(address, range(count)))
    assert server.times("a1.example") == 2
    assert it.counters()["upgraded"] == 1


def test_tcp_upstream_that_is_not_there(forwarder):
    """The next upstream is asked; where there is none the answer is SERVFAIL, and no cut one."""
    assert data(forwarder(Server(over_tcp(100), tcp=False), Server()).ask("a1.example")) == [
        address(1)]
    it = forwarder(server := Server(over_tcp(100), tcp=False))
    reply, seconds = took(it.ask, "a1.example")
    assert (reply.rcode(), counts(reply), reply.flags & TC) == (SERVFAIL, [0, 0, 0], 0)
    assert seconds < 5 and server.times("a1.example") == 1


@pytest.mark.parametrize("how", ["early", "short", "empty", "other", "id", "truncated", "slow"])
def test_tcp_upstream_that_is_broken(forwarder, how):
    """What ends early, is too short, is of another question, truncated or slow is no answer."""
    def answer(server, asked, name):
        if not server.is_tcp:
            return [truncated(asked)]
        octets = octets_of(response(asked, f"{name} 60 {FORGED}"))
        server.client.sendall({
            "early": framed(octets)[:-5], "short": b"\0\3abc", "empty": b"\0\0",
            "other": framed(octets.replace(b"a1", b"a2")),
            "id": framed(bytes([octets[0] ^ 1]) + octets[1:]),
            "truncated": framed(truncated(asked)), "slow": b""}[how])
        if how == "early":
            server.client.shutdown(socket.SHUT_RDWR)
        return []
    it = forwarder(Server(answer), Server())
    reply, seconds = took(it.ask, "a1.example")
    assert data(reply) == [address(1)]
    assert seconds < (1.5 if how == "slow" else 0.7)
