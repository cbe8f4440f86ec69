# SPDX-License-Identifier: MIT
"""What an attacker sends in an upstream's place, and an upstream that answers wrongly."""
import concurrent.futures
import itertools
import random
import re
import socket
import string
import struct
import time
from pathlib import Path

import dns.message
import pytest
from dns.rcode import NOERROR, NXDOMAIN, SERVFAIL
from dns.rdataclass import IN
from dns.rdatatype import CNAME, OPT, RRSIG

from tests.forwarder.harness import (Server, address, ask_for_any, counts, data, datagrams, many,
                                     octets_of, plain, query, read, response, take, text_of,
                                     truncated, under, wire_name, with_id)
from tools.model import part_of
from tools.mutation import changed_octets
from tools.rows import content, rows

META, PRIVATE = 128, 65280
PORT_UNREACHABLE, TOO_LARGE = 3, 4
# The parts of the forwarder's cache, and how many names are asked for that are to be spread.
PARTS, SPREAD = 16, 2048


# ---- Answers from wrong places.

def forged(asked, name):
    return octets_of(response(asked, f"{name} 60 A {address(6 * 256 + 66)}"))


def send_from(place, octets, client):
    with socket.socket(socket.AF_INET, socket.SOCK_DGRAM) as other:
        other.bind(place)
        other.sendto(octets, client)


def test_answers_from_wrong_places(forwarder):
    """Answers that are forged but for one thing: they come from another address, from another port,
    from another upstream, under other ids, or to the port of a query that was answered. They come
    before the right one, and none is taken."""
    clients, others = [], 100

    def answer(server, asked, name):
        octets = forged(asked, name)
        for place in (("127.0.0.2", server.port), ("127.0.0.2", 0), ("127.0.0.1", 0)):
            send_from(place, octets, server.client)
        two.socket.sendto(octets, server.client)
        for client in clients[-1:]:
            server.socket.sendto(octets, client)
        clients.append(server.client)
        ids = random.sample([it for it in range(65536) if it != asked.id], others)
        return [it.to_bytes(2, "big") + octets[2:] for it in ids] + plain()(server, asked, name)
    it = forwarder(Server(answer), two := Server())
    for n in range(20):
        for _ in range(2):
            assert data(it.ask(f"a{n}.example")) == [address(n)]
    assert it.counted("strays", "sent") == [20 * others, 20]
    assert not two.asked


def test_answers_from_wrong_places_alone(forwarder):
    """Where the right answer never comes, the forged ones are no answer, by UDP and over TCP."""
    def answer(server, asked, name):
        octets = forged(asked, name)
        if server.is_tcp:
            return [bytes([octets[0] ^ 1]) + octets[1:]]
        for place in (("127.0.0.2", server.port), ("127.0.0.1", 0)):
            send_from(place, octets, server.client)
        return [truncated(asked)] if name[0] == "t" else []
    it = forwarder(Server(answer))
    with concurrent.futures.ThreadPoolExecutor(8) as pool:
        for reply in pool.map(it.ask, [f"{first}{n}.example" for n in range(4) for first in "at"]):
            assert (reply.rcode(), counts(reply)) == (SERVFAIL, [0, 0, 0])


def checksum(octets):
    total = sum(struct.unpack(f">{len(octets) // 2}H", octets))
    total = (total >> 16) + (total & 0xffff)
    return ~(total + (total >> 16)) & 0xffff


def unreachable(code, sender, receiver, quoted, mtu=0):
    """An ICMP message to who sent a datagram, which quotes so much of that (RFC 792, RFC 1191)."""
    udp = struct.pack(">4H", sender[1], receiver[1], 8 + len(quoted), 0)
    ip = struct.pack(">BBHHHBBH4s4s", 0x45, 0, 28 + len(quoted), 1, 0, 64, 17, 0,
                     *(socket.inet_aton(host) for host, _ in (sender, receiver)))
    octets = struct.pack(">BBHHH", 3, code, 0, 0, mtu) + ip + udp + quoted
    return octets[:2] + struct.pack(">H", checksum(octets)) + octets[4:]


@pytest.fixture
def send_icmp():
    """Sends ICMP messages to 127.0.0.1."""
    try:
        raw = socket.socket(socket.AF_INET, socket.SOCK_RAW, socket.IPPROTO_ICMP)
    except PermissionError:
        pytest.skip("ICMP messages may not be sent here")
    with raw:
        yield lambda octets: raw.sendto(octets, ("127.0.0.1", 0))


def test_closed_ports_that_are_forged(forwarder, send_icmp):
    """Anyone may send a message that a port is closed, so one that has only the ports is none. One
    that has the identifier too is believed."""
    def answer(server, asked, name):
        ids = {"a1.example": asked.id ^ 1, "a2.example": asked.id}
        for quoted in (b"", ids[name].to_bytes(2, "big")):
            here = server.socket.getsockname()
            send_icmp(unreachable(PORT_UNREACHABLE, ("127.0.0.1", server.client[1]), here, quoted))
        time.sleep(0.1)
        return plain()(server, asked, name)
    it = forwarder(Server(answer))
    assert data(it.ask("a1.example")) == [address(1)]
    assert it.ask("a2.example").rcode() == SERVFAIL
    assert it.counted("sent", "failures") == [2, 1]


def fragments():
    """How many this host made of datagrams so far."""
    lines = [it.split() for it in Path("/proc/net/snmp").read_text().splitlines()]
    names, numbers = (it for it in lines if it[0] == "Ip:")
    return int(numbers[names.index("FragCreates")])


def test_mtu_that_is_forged(forwarder, send_icmp):
    """Nobody can have replies fragmented (RFC 9715 section 3.1)."""
    it, asked = forwarder(Server(many)), query("n70.example", payload=1232)
    with datagrams(it.port, source="127.0.0.9") as client:
        for _ in range(3):
            before = fragments()
            client.send(octets_of(asked))
            assert len(data(read(client.recv(4096)))) == 70
            assert fragments() == before
            send_icmp(unreachable(TOO_LARGE, ("127.0.0.1", it.port), client.getsockname(),
                                  bytes(512), mtu=552))


# ---- An upstream whose messages are changed at random.

def real_messages():
    """Responses as name servers sent them: those of the rows real-, of which the question is one
    that the forwarder takes, with a name of two labels or more."""
    texts = b"".join(content(row, "trace") for name, row in rows().items()
                     if name.startswith("real-"))
    found = [bytes.fromhex(it.decode())
             for it in re.findall(rb"^response \S+ \S+ (\S+)$", texts, re.M)]
    return [it for it in found if it[4:6] == b"\0\1" and is_taken(question_of(it))]


def question_of(octets):
    return dns.message.from_wire(octets, question_only=True).question[0]


def is_taken(question):
    return (question.rdclass == IN and question.rdtype < META and question.rdtype != OPT
            and len(question.name) > 2)


def renamed(dice, octets):
    """The message with other letters in the first label of its question, whose size stays, so that
    all pointers lead where they did."""
    size = octets[12]
    letters = "".join(dice.choices(string.ascii_lowercase, k=size)).encode()
    return octets[:13] + letters + octets[13 + size:]


def fuzzed(dice, octets):
    """The message, behind its id, with octets changed: mostly behind the question, so that it is
    taken for an answer; and at times with TC set."""
    behind = 12 + len(question_of(octets).name.to_wire()) + 4
    begins, ends = octets[2:behind], changed_octets(dice, octets[behind:])
    if dice.random() < 0.2:
        begins = bytes([begins[0] | 2]) + begins[1:]
    elif dice.random() < 0.2:
        begins = changed_octets(dice, begins)
    return begins + ends


def ask_for(port, sent, octets, number):
    """Asks for what a message answers, and has the upstream answer with it, changed: the RCODE."""
    dice = random.Random(number)
    octets = renamed(dice, octets)
    question = question_of(octets)
    sent[text_of(question.name)] = fuzzed(dice, octets), fuzzed(dice, octets)
    return ask_for_any(port, question.name, question.rdtype)


def test_upstream_of_changed_messages(forwarder):
    """2,000 messages as name servers send them, with octets changed, by UDP and over TCP. Each
    question is answered, in a message that can be read, and what no one changes is right."""
    sent = {}

    def answer(server, asked, name):
        right = plain()(server, asked, name)
        if name not in sent:
            return right
        by_udp, by_tcp = (with_id(asked, it) for it in sent[name])
        return [by_tcp[:65535]] if server.is_tcp else [by_udp, *right]
    messages = real_messages()
    assert len(messages) > 30
    it = forwarder(Server(answer))
    with concurrent.futures.ThreadPoolExecutor(16) as pool:
        rcodes = list(pool.map(
            lambda n: ask_for(it.port, sent, messages[n % len(messages)], n), range(2000)))
    assert it.processor_seconds() < 60
    for n in range(20):
        assert data(it.ask(f"a{n}.example")) == [address(n)]
    assert min(rcodes.count(it) for it in (NOERROR, NXDOMAIN, SERVFAIL)) > 20
    assert it.counters()["upgraded"] > 100


# ---- A message whose names stand behind thousands of pointers (RFC 1035 section 4.1.4).

def pointer(place):
    return (0xc000 + place).to_bytes(2, "big")


def entry(owner, rtype, data):
    """The octets of a record with a TTL of 0."""
    return owner + struct.pack(">HHIH", rtype, 1, 0, len(data)) + data


def behind_pointers(asked, rtype):
    """The octets of a response behind its id: some 16 aliases, the last of which stands first, and
    before them 3,200 records whose owner stands behind 8,100 pointers, each to the one before."""
    front = octets_of(response(query(asked, rtype, use_edns=False)))
    places = range(len(front) + 11, 0x3fff, 2)  # behind what stands before a record's data
    front += entry(b"\0", PRIVATE, b"".join(map(pointer, [12, *places[:-1]])))
    names = [wire_name(it) for it in [asked, *(f"y{n}.example" for n in range(16))]]
    tail = b"".join(entry(*it) for it in reversed([*zip(names, [CNAME] * 16, names[1:])]))
    filler = entry(b"\1x" + pointer(places[-1]), RRSIG if rtype == "RRSIG" else CNAME, pointer(12))
    count = (65140 - len(front) - len(tail)) // len(filler)
    return front[2:6] + struct.pack(">H", 1 + count + 16) + front[8:] + filler * count + tail


@under("forwarder")
@pytest.mark.parametrize("rtype", ["A", "RRSIG"])
def test_names_behind_thousands_of_pointers(forwarder, rtype):
    """Five of these messages take less than half a second of a processor."""
    octets = behind_pointers("a1.example", rtype)

    def answer(server, asked, name):
        return [with_id(asked, octets) if server.is_tcp else truncated(asked)]
    it = forwarder(Server(answer))
    before = it.processor_seconds()
    with it.stream() as stream:
        stream.put(*[query("a1.example", rtype)] * 5)
        replies = [take(stream, int.from_bytes(take(stream, 2), "big")) for _ in range(5)]
    assert it.processor_seconds() - before < 0.5
    assert {it[3:8] for it in replies} == {b"\x80\0\1\0\x10"}  # NOERROR, 16 aliases


# ---- Names that are picked to lie in one part.

def keys_of_parts(it, names, rtypes=("A",)):
    """How many keys each part of a forwarder holds that was asked for each name by each type."""
    with concurrent.futures.ThreadPoolExecutor(16) as pool:
        asked = itertools.product(names, rtypes)
        assert {it.rcode() for it in pool.map(lambda words: it.ask(*words), asked)} == {NOERROR}
    total, *keys = it.counted("keys", *(f"part-{n}" for n in range(PARTS)))
    assert sum(keys) == total
    return keys


def test_keys_of_one_name_lie_in_one_part(forwarder):
    """An address and 19 types that the name has no data of; and the zone's SOA record, which came
    with the latter, in that part or another."""
    keys = keys_of_parts(forwarder(Server()), ["a1.example"], [1, *range(100, 119)])
    assert sorted(keys)[-2:] in ([1, 20], [0, 21])


def test_names_of_one_part_are_spread_by_the_seed(forwarder):
    """2,048 names that are harmless, and as many that lie in one part by the hash that has no key:
    both lie in all parts of a forwarder, and in others at each start. A part has 128 of them, with
    a deviation of 11."""
    names = [f"a{n}.example" for n in range(2 * PARTS * SPREAD)]
    picked = [it for it in names if part_of(wire_name(it), PARTS) == 0][:SPREAD]
    assert len(picked) == SPREAD
    found = [keys_of_parts(forwarder(Server()), it) for it in (names[:SPREAD], picked, picked)]
    for keys in found:
        assert sum(keys) == SPREAD
        assert 0 < min(keys) and max(keys) <= SPREAD // 4
    assert found[1] != found[2]
