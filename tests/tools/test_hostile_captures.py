# SPDX-License-Identifier: MIT
"""Tests of bin/from-capture on captures that were made to harm it, or changed at random: it ends,
says in a line what is wrong, and takes no more time and memory than goes with the capture."""
import random
import struct
import time
import tracemalloc

import pytest

from tests.tools import made_captures as made
from tests.tools.made_messages import message, query
from tests.tools.shared import TOP, ran
from tests.tools.test_captures import (CLIENT, DNSTAP, NOW, PCAP, RESOLVER, SERVER, START, WWW,
                                       field, lines_of, on_ethernet, read_in_time, tapped)
from tools.captures.packets import NoCapture
from tools.captures.sides import Place
from tools.mutation import changed_octets
from tools.traces import line_of

RESOLVERS = [Place(RESOLVER)]
# The link that has IP packets and nothing before them.
RAW = 101
ODD_HEADERS = "packet: headers that are not what they should be"
OTHER_PROTOCOL = "packet: neither UDP nor TCP"
ODD_FRAME = "frame: not what it should be"
# The question of the messages below, and what a pointer to their first name is.
QUESTION, FIRST_NAME = b"\3www\7example\0\0\1\0\1", b"\xc0\x0c"


# ---- changes at random


def wholes():
    """Captures of each format, link and path, from which the changed ones come."""
    packets = made.ip_packets(PCAP)[:150]
    yield from (PCAP.read_bytes()[:20_000], DNSTAP.read_bytes()[:8_000])
    yield from (on_ethernet(made.in_pieces(packets, it)) for it in (made.segments, made.fragments))
    yield made.pcapng(packets, list(made.LINKS.values()))
    for link, framed in made.LINKS.values():
        yield made.pcap([(at, framed(ip)) for at, ip in packets[:60]], link)


def changed_packets(rng, packets):
    """Packets of which each tenth is changed, in a capture whose own octets are not."""
    return made.pcap([(at, changed_octets(rng, ip) if rng.random() < 0.1 else ip)
                      for at, ip in packets], RAW)


def changed_captures(rng):
    """Changed captures, without end."""
    begun, packets = list(wholes()), made.ip_packets(PCAP)[:100]
    while True:
        octets = rng.choice(begun)
        for _ in range(rng.choice([1, 2, 5, 20])):
            octets = changed_octets(rng, octets)
        yield octets
        yield changed_packets(rng, packets)


def test_changed_captures_end_with_a_trace_or_in_a_line(seconds, tmp_path):
    """Each 400th is read by the command itself, twice at least, however slow the machine is."""
    end, path = time.monotonic() + min(seconds, 20), tmp_path / "capture"
    for number, octets in enumerate(changed_captures(random.Random(20))):
        if time.monotonic() > end and number > 400:
            break
        try:
            lines, _ = lines_of(octets, follows_aliases=number % 2, by_servers=number % 3 == 0)
            for it in lines:
                line_of(it.encode())
        except NoCapture:
            pass
        if number % 400 == 0:
            path.write_bytes(octets)
            run = ran("bin/from-capture", "--mode=timer", path)
            assert run.returncode in (0, 1) and "Traceback" not in run.stderr
            assert not run.returncode or run.stderr.count("\n") == 1


# ---- what was made to harm


def asked(at, port):
    """A query of the resolver's to a server."""
    return NOW + at, made.udp(RESOLVER, SERVER, (port, 53), query(number=9, flags=0))


def exchange(at, octets):
    """A query of the resolver's, and the response over TCP."""
    port, streamed = 5_000 + at, struct.pack(">H", len(octets)) + octets
    yield asked(at, port)
    yield NOW + at, made.segment(SERVER, RESOLVER, (53, port), 9, made.SYN)
    for start in range(0, len(streamed), 1_400):
        yield NOW + at, made.segment(SERVER, RESOLVER, (53, port), 10 + start, made.ACK,
                                     streamed[start:start + 1_400])


def response(records, question=QUESTION):
    """A response with these records in its answer section."""
    return struct.pack(">6H", 9, 0x8400, 1, len(records), 0, 0) + question + b"".join(records)


def record(owner, rtype, data):
    return owner + struct.pack(">2HIH", rtype, 1, 60, len(data)) + data


def pointer(place):
    return struct.pack(">H", 0xC000 | place)


def behind_question(size):
    """Where the data of the first record begin, so many octets in."""
    return 12 + len(QUESTION) + 12 + size


def pointers(hops=8_000):
    """A chain of pointers, each to the one before it, and 2,900 names through all of it."""
    chain = b"\0" + pointer(behind_question(0))
    chain += b"".join(pointer(behind_question(1 + 2 * it)) for it in range(hops - 1))
    through = record(pointer(behind_question(2 * hops - 1)), 1, bytes(4))
    return response([record(FIRST_NAME, 16, chain), *[through] * 2_900])


def long_names(first):
    """3,000 names of 246 octets each, which are a label and a pointer."""
    names = (b"\4%04x" % (first + it) + pointer(behind_question(0)) for it in range(3_000))
    return response([record(FIRST_NAME, 16, b"\1a" * 120 + b"\0"),
                     *(record(it, 1, bytes(4)) for it in names)])


def many_servers(depth):
    """The NS RRset of a zone, so many labels deep, of 2,500 names."""
    zone = b"\1a" * depth + b"\0"
    names = (b"\4%04x" % it + FIRST_NAME for it in range(2_500))
    return response([record(FIRST_NAME, 2, it) for it in names], zone + b"\0\1\0\1")


def asked_below(depth):
    """A query for a name so many labels deep."""
    return struct.pack(">6H", 9, 0, 1, 0, 0, 0) + b"\1a" * depth + b"\0" + b"\0\1\0\1"


def of_many_servers():
    """60 zones, each below the one before, and then 3,000 queries below all of them."""
    for at in range(60):
        (time_of, _), *others = exchange(at, many_servers(at))
        up = made.udp(RESOLVER, SERVER, (5_000 + at, 53), asked_below(at))
        yield from [(time_of, up), *others]
    for it in range(3_000):
        octets = struct.pack(">H", it) + asked_below(100)[2:]
        yield NOW + 61, made.udp(RESOLVER, SERVER, (5_000, 53), octets)


def nested(count):
    """IPv4 packets within each other (RFC 2003), on Ethernet."""
    packet = b""
    for _ in range(count):
        packet = made.ip4(CLIENT, RESOLVER, 4, b"")[:2] + struct.pack(">H", len(packet) + 20) \
            + made.ip4(CLIENT, RESOLVER, 4, b"")[4:] + packet
    return bytes(12) + b"\x08\0" + packet


def tagged(count):
    """A query behind so many VLAN tags, on a cooked link."""
    tags = b"\x81\0" + b"\0\1\x81\0" * (count - 1) + b"\0\1\x08\0"
    return bytes(14) + tags + made.udp(CLIENT, RESOLVER, (4_000, 53), query())


def extended():
    """An IPv6 packet of 8,000 headers of options."""
    return bytes(12) + b"\x86\xdd" + struct.pack(">IH2B", 6 << 28, 64_000, 0, 64) + bytes(32) \
        + bytes(64_000)


def chunks(size):
    """An SCTP packet (protocol 132) of chunks that say that they have less than their headers."""
    return made.ip4(CLIENT, RESOLVER, 132, b"\0\1" * (size // 2))


def pcapng(*blocks):
    """A pcapng file of a section with these blocks, each a type and a body."""
    whole = [(0x0A0D0D0A, struct.pack(">IHHq", 0x1A2B3C4D, 1, 0, -1)), *blocks]
    return b"".join(struct.pack(">2I", kind, 12 + len(body)) + body
                    + struct.pack(">I", 12 + len(body)) for kind, body in whole)


def on_interface(octets):
    """The body of a block with a packet of the first interface."""
    return struct.pack(">5I", 0, 0, 0, len(octets), len(octets)) + octets + bytes(-len(octets) % 4)


def frame_of(body):
    return START + len(body).to_bytes(4, "big") + body


def fragment_again(count):
    """The last fragment of a datagram, so many times, and no other one."""
    return [(NOW, made.ip4(SERVER, RESOLVER, 17, bytes(8), start=8))] * count


def exchanged(made_of, count):
    return on_ethernet([it for at in range(count) for it in exchange(at, made_of(at))])


# Captures that were made to take long, with the number of lines that they give.
HARMFUL = {
    "pointers": (lambda: exchanged(lambda _: pointers(), 4), 4),
    "long names": (lambda: exchanged(lambda it: long_names(3_000 * it), 4), 4),
    "servers": (lambda: on_ethernet(of_many_servers()), 60),
    "nested": (lambda: made.pcap([(NOW, nested(3_000))] * 20), 0),
    "VLAN tags": (lambda: made.pcap([(NOW, tagged(64_000))] * 4, 113), 1),
    "headers": (lambda: made.pcap([(NOW, extended())] * 10), 0),
    "a fragment again": (lambda: made.pcap(fragment_again(100_000), RAW), 0),
    "a long number": (lambda: frame_of(b"\x08" + b"\xff" * 1_000_000), 0),
}


@pytest.mark.alone
@pytest.mark.parametrize("name", HARMFUL)
def test_no_capture_takes_long(name):
    capture, count = HARMFUL[name][0](), HARMFUL[name][1]
    lines, _ = read_in_time(capture, resolvers=RESOLVERS, by_servers=True)
    assert len(lines) == count


def test_memory_grows_as_the_capture_does():
    """Names that a few octets spell by a pointer take most: twice as many take twice as much."""
    taken = []
    for count in (2, 4):
        capture = exchanged(lambda it: long_names(3_000 * it), count)
        tracemalloc.start()
        lines_of(capture, resolvers=RESOLVERS)
        taken.append(tracemalloc.get_traced_memory()[1] / len(capture))
        tracemalloc.stop()
    assert taken[1] <= 1.2 * taken[0] and taken[0] <= 50


def memory_for(capture):
    """The most octets of memory that a capture takes at one time, and what was counted."""
    tracemalloc.start()
    _, counts = lines_of(capture, resolvers=RESOLVERS)
    taken = tracemalloc.get_traced_memory()[1]
    tracemalloc.stop()
    return taken, counts


@pytest.mark.parametrize("packet", [nested(300), nested(3_000)], ids=["300", "3,000"])
def test_packets_within_each_other_are_counted(packet):
    """What is in the first one is not read, however deep it is."""
    lines, counts = lines_of(made.pcap([(NOW, packet)]), resolvers=RESOLVERS)
    assert lines == [] and counts == {OTHER_PROTOCOL: 1}


def test_another_protocol_takes_no_memory():
    """dpkt makes of each chunk of SCTP a copy of what is behind it."""
    taken, counts = memory_for(made.pcap([(NOW, chunks(16_000))], RAW))
    assert counts == {OTHER_PROTOCOL: 1} and taken < 2**20


@pytest.mark.parametrize("kind", [0x0806, 0x2000, 0x88CC], ids=["ARP", "CDP", "LLDP"])
def test_what_is_not_ip_is_counted_on_each_link(kind):
    for link, head in ((1, bytes(12)), (113, bytes(14))):
        packet = head + struct.pack(">H", kind) + bytes(40)
        assert lines_of(made.pcap([(NOW, packet)], link)) == (
            [], {"packet: not of IP, or not whole": 1})


def test_a_packet_of_pcapng_has_a_bound():
    """That of pcap: a block may be longer, and what dpkt takes is not linear. The packet behind is
    the same message again."""
    question = made.udp(CLIENT, RESOLVER, (4_000, 53), query())
    for size, reason in ((262_144, "message: the same again within 10 milliseconds"),
                         (262_145, "packet: of more than 262,144 octets")):
        packets = [on_interface(question + bytes(size - len(question))), on_interface(question)]
        blocks = [(1, struct.pack(">HHI", RAW, 0, 0)), *((6, it) for it in packets)]
        lines, counts = lines_of(pcapng(*blocks), resolvers=RESOLVERS)
        assert len(lines) == 1 and counts == {reason: 1}


def test_interfaces_of_pcapng_have_a_bound():
    """65,536 of them are read, with what is behind them; of one more, nothing."""
    question = on_interface(made.udp(CLIENT, RESOLVER, (4_000, 53), query()))
    interface = 1, struct.pack(">HHI", RAW, 0, 0)
    for count, asks in ((65_536, 1), (65_537, 0)):
        lines, counts = lines_of(pcapng(*[interface] * count, (6, question)), resolvers=RESOLVERS)
        assert len(lines) == asks
        assert any(it.startswith("file: more than 65,536 interfaces") for it in counts) != asks


def test_a_message_of_dnstap_that_is_too_long_is_counted():
    """One of 65,535 octets is the longest (RFC 1035 section 4.2.2), and its line is one of a
    trace; a longer one would make a line that no trace may have."""
    whole = message(9, 0x8400, WWW, ["www.example. 60 A 192.0.2.1"])
    for size, words, reasons in ((65_535, ["response"], []), (65_536, [], [ODD_FRAME])):
        octets = whole + bytes(size - len(whole))
        capture = START + tapped(3, 0, query(number=9, flags=0)) + tapped(4, 1, octets)
        lines, counts = lines_of(capture)
        assert [it.split()[0] for it in lines] == words
        assert [it for it in counts if it.startswith("frame:")] == reasons
        assert all(line_of(it.encode()) for it in lines)


def test_a_number_of_dnstap_has_at_most_ten_octets():
    """The encoding of protocol buffers has 64 bits in ten octets."""
    for size, reason in ((9, "frame: neither a client's"), (10, ODD_FRAME)):
        number = b"\xff" * size + b"\1"
        body = b"\x72" + bytes([len(number) + 1]) + b"\x08" + number
        assert [it.startswith(reason) for it in lines_of(frame_of(body))[1]] == [True]


def test_octets_in_place_of_the_seconds_of_dnstap_take_no_memory():
    """A product of octets and a number is as many copies of them."""
    query_time = field(8, bytes(1_000)) + field(10, query())
    taken, counts = memory_for(frame_of(field(14, field(1, 5) + query_time)))
    assert counts == {ODD_FRAME: 1} and taken < 2**20


def test_the_command_ends_on_what_is_no_capture(tmp_path):
    """Nothing, a text, octets of a program, and each format cut off at its first octets."""
    ng = made.pcapng(made.ip_packets(PCAP)[:1], [made.LINKS["Ethernet"]])
    cut = [it[:end] for it in (PCAP.read_bytes(), DNSTAP.read_bytes(), ng)
           for end in (3, 4, 20, 30)]
    others = [b"", b"put 100 a. 1 4 60 01020304\n", b"\x7fELF" + bytes(200), b"\n\r\r\n",
              b"\n\r\r\n" + bytes(40), (TOP / "docs" / "what-if.svg").read_bytes()]
    for octets in cut + others:
        (tmp_path / "capture").write_bytes(octets)
        run = ran("bin/from-capture", tmp_path / "capture")
        assert run.returncode in (0, 1) and run.stdout == "" and "Traceback" not in run.stderr
        assert run.returncode == 0 or run.stderr.count("\n") == 1
