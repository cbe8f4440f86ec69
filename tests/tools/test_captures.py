# SPDX-License-Identifier: MIT
"""Tests of bin/from-capture, on the capture in tests/captures/ and on made and broken ones.

tshark wrote tests/captures/small.asks and small.responses, unbound the zones in
tests/captures/small.dnstap."""
import bz2
import gzip
import io
import json
import lzma
import os
import random
import re
import struct
import subprocess
import sys
import time
from collections import Counter

import pytest

from tests.tools import made_captures as made
from tests.tools.made_messages import message, query
from tests.tools.shared import (ENTRY, LONG_LIST, SEVERAL, SHARED, SHORT_LIST, TOP, counted,
                                interrupted, ran)
from tools.captures import dnstap
from tools.captures.packets import Capture, NoCapture
from tools.captures.seen import MICROSECONDS, Peer, Seen
from tools.captures.sides import Place
from tools.captures.traffic import WAIT_UNKNOWN, Traffic
from tools.captures.waits import HELD_MOST, Waits
from tools.model import Part
from tools.mutation import changed_octets
from tools.traces import Replay, line_of, report

CAPTURES = TOP / "tests" / "captures"
PCAP, DNSTAP = CAPTURES / "small.pcap", CAPTURES / "small.dnstap"
ANY = "255"
CLIENT, RESOLVER, SERVER, OTHER = (bytes([192, 0, 2, it]) for it in (1, 53, 201, 202))
RESOLVERS = [Place.of(it) for it in ("192.0.2.53", "2001:db8:53::53")]
NOW, HOUR = 1_000_000_000, 3_600


def lines_of(octets, ports=(53,), **options):
    """The lines of a capture, and what was counted."""
    counts = Counter()
    traffic, stream = Traffic(counts, ports=ports, **options), io.BufferedReader(io.BytesIO(octets))
    capture = Capture(counts, ports)
    is_frames = dnstap.is_dnstap(stream.peek(4))
    found = dnstap.messages(stream, counts) if is_frames else capture.messages(stream)
    lines = list(traffic.lines(found))
    capture.end()
    return lines, counts


def measured(octets, **how):
    """The processor seconds that a capture takes, and what it gives."""
    begun = time.process_time()
    found = lines_of(octets, **how)
    return time.process_time() - begun, found


def read_in_time(octets, **how):
    """What a capture gives. In one of three tries it takes at most ten times as long as PCAP does
    right before, octet for octet, and a shorter one than PCAP in all."""
    share = max(1, len(octets) / PCAP.stat().st_size)
    for _ in range(3):
        usual, _ = measured(PCAP.read_bytes())
        took, found = measured(octets, **how)
        if took <= 10 * share * usual:
            return found
    return pytest.fail(f"{took} seconds, of which PCAP takes {share * usual} for as many octets")


@pytest.fixture(scope="module")
def small():
    """The lines of the capture."""
    return lines_of(PCAP.read_bytes())[0]


def told_by_tshark(name):
    lines = (CAPTURES / name).read_text().splitlines()
    return [it.split() for it in lines if not it.startswith("#")]


def fields(lines, word):
    return [it.split() for it in lines if it.startswith(word)]


# ---- the capture


def test_asks_are_those_that_tshark_tells_of(small):
    assert [(it[1], it[2], it[3], it[5]) for it in fields(small, "ask")] == [
        (at, name + ".", rtype, "failed" if int(rd) else "none")
        for at, name, rtype, rd in told_by_tshark("small.asks") if rtype != ANY]


def test_responses_are_those_that_tshark_tells_of(small):
    """Those in fragments and over TCP among them."""
    assert [(it[1], int(it[3][:4], 16), int(it[3][7], 16)) for it in fields(small, "response")] == [
        (at, int(number, 16), int(rcode)) for at, number, rcode in
        told_by_tshark("small.responses")]


@pytest.mark.parametrize("by_servers", [False, True])
def test_zones_are_those_that_unbound_tells_of(by_servers):
    """By the NS sets alone a zone may lie below that, where servers above were asked again, never
    above."""
    zones = {it[3]: it[2] for it in fields(lines_of(DNSTAP.read_bytes())[0], "response")}
    got = fields(lines_of(PCAP.read_bytes(), by_servers=by_servers)[0], "response")
    there = [it for it in got if it[3] in zones]
    assert len(there) == len(zones) >= 50
    assert [it for it in there if it[2] != zones[it[3]]
            and (by_servers or not it[2].endswith(zones[it[3]]))] == []


def test_the_resolver_is_guessed(small):
    assert small == lines_of(PCAP.read_bytes(), resolvers=RESOLVERS)[0]


# ---- conversations


def on_ethernet(packets):
    return made.pcap([(at, made.ethernet(ip)) for at, ip in packets])


PORTS = {CLIENT: 4000, RESOLVER: 5000, SERVER: 6000}


def sent(at, source, target, octets):
    """The packet of a message, some seconds after the first."""
    is_response = octets[2] & 128
    ports = (53, PORTS[target]) if is_response else (PORTS[source], 53)
    return NOW + at, made.udp(source, target, ports, octets)


def talk(*said):
    """A capture of messages: the seconds, who to whom, and the octets."""
    return on_ethernet([sent(*it) for it in said])


def asks(at, asked="www.example. A"):
    """A client's query."""
    return at, CLIENT, RESOLVER, query(asked)


def exchange(at, asked, answer, server=SERVER):
    """A query of the resolver's, and the response to it at once."""
    return [(at, RESOLVER, server, asked), (at, server, RESOLVER, answer)]


def told(capture, **options):
    """The lines without messages, their moments counted from the first second, and what was
    counted."""
    lines, counts = lines_of(capture, **{"resolvers": [Place(RESOLVER)], **options})
    found = [it.split()[:3 if it.startswith("response") else 4] for it in lines]
    return [" ".join([word, str(int(at) - NOW), *rest]) for word, at, *rest in found], counts


def texts(capture, **options):
    return told(capture, **options)[0]


def replies(capture, **options):
    """The words of the replies to the asks, by the model."""
    lines, _ = lines_of(capture, **{"resolvers": [Place(RESOLVER)], **options})
    told = report(line_of(it.encode()) for it in lines)
    return [it.split()[2] for it in told if " ask " in it]


WWW, NS, ROOT_SOA = "www.example. A", "example. 60 NS ns.example.", ". 60 SOA . . 1 2 3 4 5"
UP = query(number=9, flags=0)
ANSWER = message(9, 0x8400, WWW, ["www.example. 60 A 0.0.0.0"])
ASKED, ASKED_UP, LATER = asks(0), (0, RESOLVER, SERVER, UP), asks(20, "later. A")
ASK, LATE = "ask 0 www.example. 1", "ask 20 later. 1"


@pytest.mark.parametrize("said, wanted", [
    ([ASKED], "ask"), (exchange(0, UP, ANSWER), "response")])
def test_the_resolver_is_guessed_from_one_side_alone(said, wanted):
    """From clients' queries, which wish for recursion, or the resolver's own, which do not."""
    assert [it.split()[0] for it in lines_of(talk(*said))[0]] == [wanted]


def test_a_server_that_is_a_client_too_is_no_resolver():
    """A server's own host asks the resolver for recursion; the server is asked without it."""
    lines, _ = lines_of(talk(ASKED, *exchange(0, UP, ANSWER),
                             (1, SERVER, RESOLVER, query("later. A"))))
    assert lines == [f"ask {NOW} www.example. 1 answer failed", f"response {NOW} . {ANSWER.hex()}",
                     f"ask {NOW + 1} later. 1 answer failed"]


# ---- a resolver and its servers at one address


HERE = bytes([127, 0, 0, 1])


def here(at, ports, octets):
    """The packet of a message from a port of the address to another."""
    return NOW + at, made.udp(HERE, HERE, ports, octets)


def talk_here(up=UP):
    """A client asks port 53, where the resolver is, and that asks port 5353."""
    return on_ethernet([here(0, (4000, 53), query()), here(0, (5000, 5353), up),
                        here(1, (5353, 5000), ANSWER),
                        here(1, (53, 4000), message(7, 0x8180, WWW))])


BOTH = (53, 5353)
# The resolver where its servers are asked with a wish for recursion too.
FORWARDED = query(number=9)


@pytest.mark.parametrize("up, options", [
    (UP, {"resolvers": [Place(HERE, 53)]}), (FORWARDED, {"resolvers": [Place(HERE, 53)]}),
    # guessed, by who wishes for recursion
    (UP, {"resolvers": []})])
def test_a_port_tells_a_resolver_from_servers_at_its_address(up, options):
    assert texts(talk_here(up), ports=BOTH, **options) == [ASK, "response 1 ."]


def run_here(tmp_path, capture, *words):
    """The words of the lines, and the warnings."""
    path = tmp_path / "capture"
    path.write_bytes(capture)
    run = ran("bin/from-capture", *words, path)
    assert run.returncode == 0
    return ([it.split()[0] for it in run.stdout.splitlines()],
            [it for it in run.stderr.splitlines() if "warning" in it])


@pytest.mark.parametrize("words, lines, said", [
    (["--resolver=127.0.0.1@53", "--port=5353"], ["ask", "response"], []),
    # the resolver's own queries are taken for a client's
    (["--resolver=127.0.0.1", "--port=53", "--port=5353"], ["ask", "ask"], [
        "no response", "to 127.0.0.1@53, 127.0.0.1@5353 count as queries of clients"]),
    (["--port=53", "--port=5353"], ["ask", "ask"], [
        "no response", "to 127.0.0.1@53, 127.0.0.1@5353 count as queries of clients"]),
    # what goes to the other port is left out
    (["--resolver=127.0.0.1@53"], ["ask"], ["no response"]),
    (["--resolver=127.0.0.1"], ["ask"], ["no response"])])
def test_the_command_warns_where_sides_are_not_told(tmp_path, words, lines, said):
    found, warned = run_here(tmp_path, talk_here(FORWARDED), *words)
    assert (found, len(warned)) == (lines, len(said))
    assert all(it in line and "pass --resolver ADDRESS@PORT" in line
               for it, line in zip(said, warned))


def test_a_client_on_the_resolver_s_own_host_is_one(tmp_path):
    capture = talk((0, CLIENT, RESOLVER, query()), (1, RESOLVER, RESOLVER, query("own. A")),
                   *exchange(1, UP, ANSWER))
    assert run_here(tmp_path, capture, "--resolver=192.0.2.53") == (["ask", "ask", "response"], [])


def test_a_server_that_is_named_as_the_resolver_is_told_of(tmp_path):
    words = ["--resolver=192.0.2.53", "--resolver=192.0.2.201"]
    found, warned = run_here(tmp_path, talk(ASKED, *exchange(0, UP, ANSWER)), *words)
    assert found == ["ask", "ask"] and "to 192.0.2.201@53 count as queries of clients" in warned[1]


@pytest.mark.parametrize("place", ["192.0.2.53@", "192.0.2.53@0", "::1@65536", "::1@+5", "a@53"])
def test_the_command_refuses_what_is_no_place(place):
    run = ran("bin/from-capture", f"--resolver={place}", PCAP)
    assert (run.returncode, run.stdout) == (2, "") and f"{place} is not ADDRESS" in run.stderr


# ---- the same messages on other ways


@pytest.mark.parametrize("name", made.LINKS)
def test_each_link_and_format_gives_the_same_lines(small, name):
    link, framed = made.LINKS[name]
    frames = [(at, framed(ip)) for at, ip in made.ip_packets(PCAP)]
    for octets in (made.pcap(frames, link), made.pcap(frames, link, ">", nano=True),
                   made.pcapng_by_dpkt(frames, link)):
        assert lines_of(octets)[0] == small


@pytest.mark.parametrize("order, power", [("<", 6), (">", 9)])
def test_interfaces_of_several_links_in_one_file(small, order, power):
    """A section before it has interfaces of its own."""
    links = list(made.LINKS.values())
    octets = made.pcapng([], links[::-1], "<")
    octets += made.pcapng(made.ip_packets(PCAP), links, order, power)
    assert lines_of(octets)[0] == small


@pytest.mark.parametrize("seed", [1, 2])
@pytest.mark.parametrize("cut", [made.fragments, made.segments])
def test_fragments_and_segments_are_put_together_in_any_order(small, cut, seed):
    assert lines_of(on_ethernet(made.in_pieces(made.ip_packets(PCAP), cut, seed)))[0] == small


def segment(number, flags, octets=b"", port=4000):
    """A client's segment to the resolver."""
    return NOW, made.segment(CLIENT, RESOLVER, (port, 53), number, flags, octets)


# A message as TCP has it.
STREAMED = struct.pack(">H", len(query())) + query()


@pytest.mark.parametrize("first", [9, 2**32 - 12])
@pytest.mark.parametrize("fin, rest", [(slice(0), slice(None)), (slice(8, None), slice(8))])
def test_octets_behind_a_FIN_are_read(first, fin, rest):
    """A FIN comes first, and then what stands before it, which was lost and sent again. With the
    last octet the stream is over; the numbers pass 2**32."""
    behind = first + 1 + len(STREAMED)
    packets = [segment(first, made.SYN),
               segment(behind - len(STREAMED[fin]), made.FIN | made.ACK, STREAMED[fin]),
               segment(first + 1, made.ACK, STREAMED[rest])]
    capture = Capture(counts := Counter())
    seen = list(capture.messages(io.BytesIO(on_ethernet(packets))))
    assert [it.octets for it in seen] == [query()] and not capture.streams.open and not counts


# ---- broken captures


@pytest.mark.parametrize("path", [PCAP, DNSTAP], ids=lambda it: it.name)
def test_a_capture_that_is_cut_off_gives_the_lines_before(path):
    octets = path.read_bytes()
    whole, _ = lines_of(octets, resolvers=RESOLVERS)
    for end in range(4, len(octets), len(octets) // 25):
        try:
            got, counts = lines_of(octets[:end], resolvers=RESOLVERS)
        except NoCapture:
            assert end <= 60
            continue
        assert got == whole[:len(got)]
        assert end <= 60 or any(it.startswith("file:") for it in counts)


def test_broken_captures_give_lines_of_a_trace_or_none():
    rng = random.Random(1)
    packets = made.ip_packets(PCAP)[:200]
    wholes = [on_ethernet(packets), DNSTAP.read_bytes()[:8000],
              on_ethernet(made.in_pieces(packets, made.segments)),
              made.pcapng(packets, list(made.LINKS.values())),
              on_ethernet(made.in_pieces(packets, made.fragments))]
    for number in range(200):
        octets = wholes[number % len(wholes)]
        for _ in range(rng.randint(1, 5)):
            octets = changed_octets(rng, octets)
        try:
            lines, _ = lines_of(octets)
        except NoCapture:
            continue
        for it in lines:
            line_of(it.encode())


def one(octets, link=1, size=None):
    """A pcap file of one packet, of which its header says another size."""
    whole = made.pcap([(NOW, octets)], link)
    return whole if size is None else whole[:32] + size.to_bytes(4, "little") + whole[36:]


def asked(octets, source=CLIENT, target=RESOLVER, ports=(4000, 53)):
    return made.ethernet(made.udp(source, target, ports, octets))


def query_of(name):
    """A query of a name that may be none, as octets."""
    return query("")[:5] + b"\1" + query("")[6:] + name + b"\0\1\0\1"


# A query with its question twice, which servers refuse (RFC 9619 section 4).
TWO = query()[:5] + b"\2" + query()[6:] + query()[12:]


def ip4(protocol, octets):
    return made.ethernet(made.ip4(CLIENT, RESOLVER, protocol, octets))


WHOLE, SECTION = asked(query()), bytes(made.dpkt.pcapng.SectionHeaderBlockLE())
HEADERS = "packet: headers that are not what they should be"
# A packet of each odd kind, and the reason that it is counted for.
ODD = [
    (one(WHOLE, 105), "packet: link type 105"),
    (one(WHOLE, size=2**32 - 1), "file: a packet of more than 262,144 octets"),
    (one(WHOLE, size=len(WHOLE) + 9), "file: it ends within a packet"),
    (one(bytes(12) + b"\x08\x06" + bytes(28)), "packet: not of IP"),
    (one(ip4(132, bytes(20))), "packet: neither UDP nor"),
    (one(WHOLE[:-3]), "packet: cut off"),
    (one(WHOLE[:20]), "packet: not of IP, or not whole"),
    (one(ip4(17, b"\0\1\0")), HEADERS),
    (one(asked(query(), ports=(4000, 80))), "packet: of other ports"),
    (one(asked(query(), ports=(4000, 853))), "packet: of encrypted DNS or other ports"),
    (one(asked(query()[:11])), "message: the message ends too early"),
    (one(asked(query()[:-1])), "message: the message ends too early"),
    (one(asked(query_of(b"\xc0\x0c"))), "message: a pointer in a name does not lead backwards"),
    (one(asked(query_of(b"\x40"))), "message: a label's length has reserved bits"),
    (one(asked(query_of((b"\x3f" + b"a" * 63) * 4 + b"\0"))), "message: a name has more than 255"),
    (one(asked(query(flags=0x2900))), "client's query: its opcode is not"),
    (one(asked(query(""))), "client's query: it has no question"),
    (one(asked(TWO)), "client's query: it has more than one question"),
    (one(asked(TWO, RESOLVER, SERVER)), "query to a server: not a standard one"),
    (one(asked(query("www.example. CH A"))), "client's query: of a class other than IN"),
    (one(asked(query("www.example. ANY"))), "client's query: of type ANY"),
    (one(asked(query("www.example. OPT"))), "client's query: of a type that the cache does not"),
    (one(asked(query(), SERVER, OTHER)), "message: neither from nor to the resolver"),
    (one(asked(query(), ports=(53, 4000))), "message: from or to a port"),
    (one(asked(message(7, 0x8000, "a. A"), SERVER, RESOLVER, (53, 4000))),
     "server's response: its query was not seen"),
    (on_ethernet([segment(9, made.ACK, b"\0\x0c")]), "segment: of a TCP connection whose"),
    (one(ip4(1, b"\3\3" + bytes(6))), HEADERS),
    (one(made.ethernet(made.ip6(bytes(16), bytes(16), 0, b"\x11\xff" + bytes(6)))), None),
    (made.pcap([(2**32 - 1, WHOLE)]), None),
    (SECTION + bytes.fromhex("06000000 ffffffff"), "file: a block of no lawful"),
    (SECTION + struct.pack("<2I20xI", 6, 32, 32), "file: a block that is not what"),
    (SECTION[:9], "file: it ends within a packet"),
]


@pytest.mark.parametrize("octets, reason", ODD, ids=[reason for _, reason in ODD])
def test_odd_packets_are_counted_by_their_reason(octets, reason):
    lines, counts = lines_of(octets, resolvers=[Place(RESOLVER)])
    if reason:
        assert lines == [] and any(it.startswith(reason) for it in counts)


SIZE = 8 + len(query())


@pytest.mark.parametrize("pieces", [
    # two that overlap, two that are the last, one without the rest, and as many octets as there are
    # with some of them twice and some missing
    [(0, 16, 1), (8, SIZE, 0)], [(0, 16, 0), (16, SIZE, 0)], [(0, 16, 1)],
    [(0, 16, 1), (8, 24, 1), (32, SIZE, 0)]])
def test_fragments_that_do_not_fit_are_given_up(pieces):
    payload = made.udp(CLIENT, RESOLVER, (4000, 53), query())[20:]
    packets = [(NOW + it, made.ip4(CLIENT, RESOLVER, 17, payload[start:end], 5, start, more))
               for it, (start, end, more) in enumerate(pieces)]
    packets.append((NOW + 40, made.ip4(CLIENT, RESOLVER, 17, payload[:8], 6, more=1)))
    lines, counts = lines_of(on_ethernet(packets), resolvers=[Place(RESOLVER)])
    assert lines == [] and any(it.startswith("packet: fragments") for it in counts)


def first_fragment(number):
    return NOW, made.ip4(CLIENT, RESOLVER, 17, bytes(8), number, more=1)


def test_fragments_and_connections_without_end_stay_few():
    capture = Capture(Counter())
    packets = [first_fragment(it) for it in range(3000)]
    packets += [segment(9, made.SYN, port=it) for it in range(1024, 14_000)]
    list(capture.messages(io.BytesIO(on_ethernet(packets))))
    assert len(capture.fragments.begun) <= 1_000 and len(capture.streams.open) <= 10_000


# ---- failures and zones


@pytest.mark.parametrize("said, wanted", [
    # a time-out, after five seconds
    ([ASKED, ASKED_UP, LATER], [ASK, "fail 5 www.example. 1", LATE]),
    # in its order among the lines
    ([ASKED_UP, asks(5, "later. A")], ["fail 5 www.example. 1", "ask 5 later. 1"]),
    # another server answered: asking did not fail
    ([ASKED, ASKED_UP, (2, RESOLVER, OTHER, UP), (3, OTHER, RESOLVER, ANSWER), LATER],
     [ASK, "response 3 .", LATE]),
    # another server did not answer either: it failed once, when the last was given up
    ([ASKED, ASKED_UP, (2, RESOLVER, OTHER, UP), LATER], [ASK, "fail 7 www.example. 1", LATE]),
    # the resolver's own word for it, and not again within 30 seconds
    ([ASKED, *((it, RESOLVER, CLIENT, message(7, 0x8182, WWW)) for it in (1, 2)), LATER],
     [ASK, "fail 1 www.example. 1", LATE]),
    # an answer to a client is no line
    ([ASKED, (1, RESOLVER, CLIENT, message(7, 0x8180, WWW)), LATER], [ASK, LATE]),
    # a response to another question is not believed
    ([ASKED_UP, (1, SERVER, RESOLVER, message(9, 0x8400, "a. A")), LATER],
     ["fail 5 www.example. 1", LATE])])
def test_failures_are_told_where_asking_failed(said, wanted):
    assert texts(talk(*said)) == wanted


@pytest.mark.parametrize("follows, middle", [
    (True, ["ask 1 www.example. 5", "ask 1 Web.example. 1"]), (False, ["ask 1 www.example. 1"])])
def test_aliases_are_followed_where_that_is_asked_for(follows, middle):
    """An alias is known from the response on, and no more once its name has an address."""
    alias = message(9, 0x8400, WWW, ["www.example. 60 CNAME Web.example.",
                                     "web.example. 60 A 192.0.2.201"])
    said = [ASKED, *exchange(0, UP, alias), asks(1), asks(2, "www.example. CNAME"),
            *exchange(3, UP, ANSWER), asks(4)]
    assert texts(talk(*said), follows_aliases=follows) == [
        ASK, "response 0 .", *middle, "ask 2 www.example. 5", "response 3 .",
        "ask 4 www.example. 1"]


def test_of_several_CNAME_records_the_first_one_counts():
    """As in the cache (docs/RULES.md, "What a response offers")."""
    several = [f"www.example. 60 CNAME {it}.example." for it in "bac"]
    answer = message(9, 0x8400, WWW, [*several, "b.example. 60 A 192.0.2.201"])
    said = talk(*exchange(0, UP, answer), asks(1))
    assert texts(said, follows_aliases=True)[1:] == ["ask 1 www.example. 5", "ask 1 b.example. 1"]
    assert replies(said, follows_aliases=True) == ["fresh", "fresh"]


NSEC = "www.example. NSEC"


@pytest.mark.parametrize("asked, answer", [
    (NSEC, ["www.example. 60 NSEC a.example. CNAME NSEC"]), ("www.example. RRSIG", [
        "www.example. 60 RRSIG NSEC 8 2 60 20300101000000 20200101000000 1 example. AAAA"])])
def test_an_alias_may_have_records_of_its_own(asked, answer):
    """A question for its NSEC records asks for no other name (docs/RULES.md, "The alias rule"), and
    the alias is known also after these records or their signature came (RFC 4035 section 2.5)."""
    own = message(9, 0x8400, asked, answer)
    said = [*exchange(0, UP, message(9, 0x8400, WWW, [ALIAS, "web.example. 60 A 192.0.2.201"])),
            *exchange(1, query(asked, 9, 0), own), asks(2), asks(3, NSEC)]
    assert texts(talk(*said), follows_aliases=True)[2:] == [
        "ask 2 www.example. 5", "ask 2 web.example. 1", "ask 3 www.example. 47"]
    wanted = ["fresh", "fresh", "fresh" if asked == NSEC else "miss"]
    assert replies(talk(*said), follows_aliases=True) == wanted


@pytest.mark.parametrize("rtype", ["IXFR", "AXFR"])
@pytest.mark.parametrize("asked", [[], ["example. {}", ""]])
def test_a_zone_transfer_is_left_out(rtype, asked):
    """Its response has two messages, of which the second has no question (RFC 5936 section 2.2.1).
    It is no failure either where no response comes."""
    parts = [(1, SERVER, RESOLVER, message(9, 0x8400, it.format(rtype), [
        "example. 60 SOA . . 1 2 3 4 5"])) for it in asked]
    lines, counts = told(talk((0, RESOLVER, SERVER, query(f"example. {rtype}", 9, 0)), *parts,
                              LATER))
    assert lines == [LATE]
    assert +counts == Counter({"query to a server: a zone transfer": 1,
                               "server's response: of a zone transfer": len(parts)})


CUT = "server's response: cut off, as by the capture's snap length"
CUT_PACKET = "packet: cut off, as by the capture's snap length"


@pytest.mark.parametrize("asked, size, wanted, reason", [
    ([SERVER, OTHER], 28 + 12, [], CUT), ([SERVER, OTHER], -1, [], CUT),
    ([SERVER, OTHER], 28 + 11, ["fail 5 www.example. 1"], CUT_PACKET), ([], -1, [], CUT_PACKET)])
def test_a_response_that_is_cut_off_is_no_failure(asked, size, wanted, reason):
    """It is one from the header on, of 12 octets (RFC 1035 section 4.1.1); nothing is offered."""
    at, packet = sent(1, SERVER, RESOLVER, ANSWER)
    packets = [*(sent(0, RESOLVER, it, UP) for it in asked), (at, packet[:size]), sent(*LATER)]
    assert told(on_ethernet(packets)) == ([*wanted, LATE], {reason: 1})


def test_what_is_not_whole_at_the_end_is_counted():
    """Two datagrams and one connection; that of which all octets are read does not count."""
    packets = [first_fragment(1), first_fragment(2)]
    for port, octets in ((4000, STREAMED), (4001, STREAMED[:-1])):
        packets += [segment(9, made.SYN, port=port), segment(10, made.ACK, octets, port)]
    assert told(on_ethernet(packets)) == ([ASK], {
        "packet: fragments of which the rest is not in the capture": 2,
        "segment: of a TCP message of which the rest is not in the capture": 1})


ALIAS = "www.example. 60 CNAME web.example."
KNOWN = ["ask 3 www.example. 5", "ask 3 web.example. 5", "ask 3 a. 1"]
UNKNOWN = ["ask 3 www.example. 1"]


@pytest.mark.parametrize("flags, asked, answer, authority, last", [
    (0x8403, WWW, [], [ROOT_SOA], UNKNOWN), (0x8003, WWW, [], [], UNKNOWN),
    (0x8400, WWW, [], [ROOT_SOA], UNKNOWN), (0x8400, WWW, [], [], UNKNOWN),
    (0x8400, WWW, [], [NS, ROOT_SOA], UNKNOWN), (0x8400, WWW, [], [NS], KNOWN),
    (0x8600, WWW, [], [ROOT_SOA], KNOWN), (0x8402, WWW, [], [ROOT_SOA], KNOWN),
    (0x8400, "www.example. CNAME", [], [ROOT_SOA], KNOWN),
    (0x8400, "www.example. ANY", [], [ROOT_SOA], KNOWN),
    (0x8400, "www.example. NSEC", [], [ROOT_SOA], KNOWN),
    (0x8400, "www.example. RRSIG", [], [ROOT_SOA], KNOWN),
    (0x8403, "www.example. NSEC", [], [ROOT_SOA], UNKNOWN),
    (0x8403, "www.example. CH A", [], [ROOT_SOA], KNOWN),
    # the alias is there still, and its target is none
    (0x8403, WWW, [ALIAS], [ROOT_SOA], ["ask 3 www.example. 5", "ask 3 web.example. 1"])])
def test_an_alias_ends_with_a_negative_answer(flags, asked, answer, authority, last):
    """NXDOMAIN, and NODATA with a SOA record or with no NS record (RFC 2308 section 2); neither a
    referral, nor what is truncated, failed, of another class, or about the CNAME record itself. An
    alias may have no NSEC and RRSIG records (RFC 4035 section 2.5)."""
    known = message(9, 0x8400, WWW, [ALIAS, "web.example. 60 CNAME a."])
    denied = message(9, flags, asked, answer, authority)
    said = [*exchange(0, UP, known), *exchange(1, query(asked, 9, 0), denied), asks(3)]
    assert texts(talk(*said), follows_aliases=True)[2:] == last


# What a cache takes no alias from (docs/RULES.md, "What a response offers"): what is truncated, has
# failed, or is of another opcode or class, and a record of another class.
NOT_TAKEN = [
    (0x8600, WWW, [ALIAS]), (0x8402, WWW, [ALIAS]), (0x8405, WWW, [ALIAS]), (0xA400, WWW, [ALIAS]),
    (0x8400, "www.example. CH TXT", ["www.example. 60 CH CNAME web.example."]),
    (0x8400, WWW, ["www.example. 60 CH CNAME web.example."])]


@pytest.mark.parametrize("flags, asked, answer", NOT_TAKEN)
def test_no_alias_is_learned_from_what_the_cache_does_not_take(flags, asked, answer):
    said = [*exchange(0, query(asked, 9, 0), message(9, flags, asked, answer)), asks(1)]
    assert texts(talk(*said), follows_aliases=True) == ["response 0 .", "ask 1 www.example. 1"]


@pytest.mark.parametrize("flags, zone", [(0x8000, "example."), (0x8200, "."), (0x8002, ".")])
def test_no_zone_is_learned_from_what_the_cache_does_not_take(flags, zone):
    """A referral, and the same truncated and as a failure; the next query has the same name."""
    said = [*exchange(0, UP, message(9, flags, WWW, [], [NS], ["ns.example. 60 A 192.0.2.201"])),
            *exchange(1, UP, ANSWER)]
    assert texts(talk(*said)) == ["response 0 .", f"response 1 {zone}"]


@pytest.mark.parametrize("flags, asked, wanted", [
    (0x8402, WWW, []), (0x8602, WWW, ["fail 2 www.example. 1"]),
    (0x8401, "", ["fail 2 www.example. 1"])])
def test_a_failure_that_the_cache_does_not_take_is_told_of_by_the_resolver(flags, asked, wanted):
    """The cache takes the failure of a response, but nothing of one that is truncated or has no
    question."""
    said = [ASKED, *exchange(1, UP, message(9, flags, asked)),
            (2, RESOLVER, CLIENT, message(7, 0x8182, WWW))]
    assert texts(talk(*said)) == [ASK, "response 1 .", *wanted]


def test_an_alias_outside_of_the_zone_of_a_negative_answer_stays():
    """The server of `example.` can't deny the target in another zone (RFC 2181 section 5.4.1)."""
    alias = ["www.example. 60 CNAME web.", "web. 60 CNAME a."]
    said = [*exchange(0, UP, message(9, 0x8000, WWW, alias, [NS])),
            *exchange(1, UP, message(9, 0x8403, WWW, alias[:1], [ROOT_SOA])), asks(3)]
    assert texts(talk(*said), follows_aliases=True) == [
        "response 0 .", "response 1 example.",
        "ask 3 www.example. 5", "ask 3 web. 5", "ask 3 a. 1"]


def led(ttl, middle=()):
    """An exchange at the first second: an alias with a TTL, and an address with a TTL of 60."""
    name = "x" if middle else "web"
    return exchange(0, UP, message(9, 0x8400, WWW, [
        f"www.example. {ttl} CNAME {name}.example.", *middle, "web.example. 60 A 192.0.2.201"]))


def unanswered(asked=WWW, at=100):
    """A query that no server answers, so it fails five seconds later."""
    return at, RESOLVER, SERVER, query(asked, 9, 0)


THROUGH = led(600, ["x.example. 60 CNAME web.example."])
REFERRAL = exchange(106, UP, message(9, 0x8000, WWW, [], [NS]))
AGAIN = exchange(110, query("www.example. MX", 9, 0), message(9, 0x8400, "www.example. MX", [
    "www.example. 600 CNAME web.example."], [ROOT_SOA]))
BOTH_MISS, BOTH_STALE = ["miss", "miss"], ["stale", "stale"]


@pytest.mark.parametrize("said, wanted", [
    # from 105 to 134 the failure counts for all names of the chain, and for this question only
    ([*led(600), unanswered(), asks(106), asks(106, "web.example. A"), asks(134), asks(135)],
     ["fresh", "stale", "miss", "fresh", "stale", "fresh", "miss"]),
    ([*led(600), unanswered(at=100.9), asks(134.5), asks(135.5)],
     ["fresh", "stale", "fresh", "miss"]),
    ([*led(60), unanswered(), asks(106)], BOTH_STALE),
    ([*led(60), unanswered(), asks(135)], BOTH_MISS),
    # no failure, one of another type, and a client that takes no stale answer
    ([*led(60), asks(106)], BOTH_MISS),
    ([*led(60), unanswered("www.example. AAAA"), asks(106)], BOTH_MISS),
    ([*led(60), unanswered(), (106, CLIENT, RESOLVER, query(flags=0))], BOTH_MISS),
    # the failure is what a server says, or the resolver
    ([*led(60), *exchange(105, UP, message(9, 0x8402, WWW)), asks(106)], BOTH_STALE),
    ([*led(60), (105, RESOLVER, CLIENT, message(7, 0x8182, WWW)), asks(106)], BOTH_STALE),
    # from a referral nothing is stored for the question, so the failure is still recent
    ([*led(60), unanswered(), *REFERRAL, asks(107)], BOTH_STALE),
    # the CNAME record came again later, so the failure says nothing about its target
    ([*led(60), unanswered(), *AGAIN, asks(111)], ["fresh", "miss"]),
    # an alias in the middle for which the query failed, which says nothing about its target either
    ([*THROUGH, unanswered("x.example. A"), asks(106)], ["fresh", "stale", "miss"]),
    ([*THROUGH, unanswered(), asks(106)], ["fresh", *BOTH_STALE])])
def test_a_failure_counts_for_aliases(said, wanted):
    """By docs/RULES.md, "The alias rule" and "Serving stale data"."""
    assert replies(talk(*said), follows_aliases=True) == wanted


def test_a_failure_is_told_of_again_after_a_response():
    """A server responded after the time-out, and then the resolver gives up all the same."""
    servfail = (108, RESOLVER, CLIENT, message(7, 0x8182, WWW))
    assert texts(talk(unanswered(), *REFERRAL, servfail)) == [
        "fail 105 www.example. 1", "response 106 .", "fail 108 www.example. 1"]


def refused(at, packet=sent(*ASKED_UP)[1]):
    """An ICMP message that a port is unreachable, of the first octets of a packet (RFC 792)."""
    return NOW + at, made.ip4(SERVER, RESOLVER, 1, b"\3\3" + bytes(6) + packet[:28])


@pytest.mark.parametrize("packets, wanted", [
    ([refused(1)], []), ([refused(1), refused(2)], []),
    ([refused(1), refused(2), sent(3, SERVER, RESOLVER, ANSWER)], ["response 3 ."])])
def test_ICMP_tells_of_a_failure(packets, wanted):
    """Of one: neither another message nor the time-out tells of it again. A response is offered."""
    assert texts(on_ethernet([sent(*ASKED_UP), *packets, sent(*LATER)])) == [
        "fail 1 www.example. 1", *wanted, LATE]


@pytest.mark.alone
@pytest.mark.parametrize("ports, unmatched", [
    (range(2_000, 12_000), 0), ([2_000] * 10_000, 9_999)], ids=["a port each", "one port"])
def test_many_ICMP_messages_take_no_longer_than_others(ports, unmatched):
    """Of queries from a port each, and from one port, of which the first message tells of all."""
    ups = [made.udp(RESOLVER, SERVER, (port, 53), query(f"h{number}. A", number, 0))
           for number, port in enumerate(ports)]
    octets = on_ethernet([(NOW, it) for it in ups] + [refused(1, it) for it in ups])
    lines, counts = read_in_time(octets, resolvers=[Place(RESOLVER)])
    assert lines == [f"fail {NOW + 1} h{it}. 1" for it in range(10_000)]
    assert counts["ICMP: of no query to a server"] == unmatched


def test_ICMP_for_IPv6_tells_of_a_failure():
    ours, theirs = bytes(15) + b"\1", bytes(15) + b"\2"
    up = made.udp(ours, theirs, (5000, 53), UP)
    packets = [(NOW, up), (NOW + 1, made.ip6(theirs, ours, 58, b"\1\4" + bytes(6) + up)),
               (NOW + 20, made.udp(theirs, ours, (4000, 53), query("later. A")))]
    lines, _ = lines_of(on_ethernet(packets), resolvers=[Place(ours)])
    assert [it.split()[0] for it in lines] == ["fail", "ask"]


@pytest.mark.parametrize("seconds, count", [(0.002, 1), (1.0, 2)])
def test_the_same_packet_on_two_interfaces_counts_once(seconds, count):
    assert len(texts(talk(ASKED, (seconds, *ASKED[1:])))) == count


@pytest.mark.parametrize("again, count", [
    ([5], 2), ([0.002], 1), ([-0.002], 1), ([5, 5.002], 2), ([5, 5.002, 10], 3)])
def test_the_same_packet_counts_again_later_also_behind_a_clock_set_back(again, count):
    """A stub sends its query again from the same port, with the same number."""
    said = talk((HOUR, *LATER[1:]), ASKED, *((it, *ASKED[1:]) for it in again))
    assert len(texts(said)) == 1 + count


@pytest.mark.parametrize("times, count", [((10, 5, 9, 8), 2), ((10, 9), 0), ((0, 5, 10), 0)])
def test_messages_that_go_backward_in_time_are_counted(times, count):
    """By more than a second, from the latest one of all before."""
    lines, counts = told(talk(*((it, CLIENT, RESOLVER, query(number=number))
                                for number, it in enumerate(times))))
    assert lines == [f"ask {it} www.example. 1" for it in times]
    assert [*counts.values()] == [count] * bool(count)
    assert all(it.endswith("are the files in order?") for it in counts)


def test_other_ports_are_of_the_DNS_where_that_is_said():
    octets = on_ethernet([(NOW, made.udp(CLIENT, RESOLVER, (4000, 5300), query()))])
    assert texts(octets, ports=(5300,)) == [ASK]


# ---- when a stale answer will do


# The timer of RFC 8767 section 5, in microseconds.
TIMER = 1_800_000


def timed(capture, limit=TIMER, **options):
    """The lines of a capture, and what was counted, with a client response timer or without."""
    counts, stream = Counter(), io.BufferedReader(io.BytesIO(capture))
    is_frames = dnstap.is_dnstap(stream.peek(4))
    found = dnstap.messages(stream, counts) if is_frames else Capture(counts).messages(stream)
    traffic = Traffic(counts, **options)
    return list(traffic.lines(Waits(limit).told(found) if limit else found)), counts


def modes_of(capture, **options):
    """The mode of each ask, and what was counted."""
    lines, counts = timed(capture, resolvers=[Place(RESOLVER)], **options)
    return [it.split()[-1] for it in lines if it.startswith("ask")], counts


def answered(at, number=7, flags=0x8180):
    """The resolver's answer to a client."""
    return at, RESOLVER, CLIENT, message(number, flags, WWW)


def unwished(at):
    """A client's query that wishes for no recursion."""
    return at, CLIENT, RESOLVER, query(number=5, flags=0)


@pytest.mark.parametrize("said, modes", [
    # the timer of RFC 8767 section 5 runs out at 1.8 seconds
    ([ASKED, answered(1.79), LATER, answered(20)], ["failed", "failed"]),
    ([ASKED, answered(1.8), LATER, answered(20)], ["now", "failed"]),
    ([ASKED, answered(9), LATER, answered(20)], ["now", "failed"]),
    # never answered; and a server failure at once is an answer
    ([ASKED, LATER, answered(20)], ["now", "failed"]),
    ([ASKED, answered(1, flags=0x8182), LATER, answered(20)], ["failed", "failed"]),
    # an answer to another query is none
    ([ASKED, answered(1, number=8), LATER, answered(20)], ["now", "failed"]),
    # sent again, by one query's number: each waits by itself
    ([ASKED, asks(1), answered(2), LATER, answered(20)], ["now", "failed", "failed"]),
    # without a wish for recursion no stale answer will do (docs/RULES.md)
    ([unwished(0), LATER, answered(20)], ["none", "failed"])])
def test_a_client_that_waited_has_a_stale_answer_at_once(said, modes):
    assert modes_of(talk(*said)) == (modes, {})


@pytest.mark.parametrize("limit", [TIMER, None])
def test_asks_are_stale_at_once_where_that_is_asked_for(limit):
    said = talk(ASKED, answered(1), unwished(2), answered(2, number=5), LATER, answered(20))
    assert modes_of(said, limit=limit, mode="now")[0] == ["now", "none", "now"]


def test_what_is_not_known_of_a_client_at_the_end_is_counted():
    assert modes_of(talk(ASKED, (1.5, RESOLVER, SERVER, UP))) == (["failed"], {
        WAIT_UNKNOWN: 1, "query: the capture ends before its response or time-out": 1})


def told_time(at):
    """A server's response, which tells nothing of a client but what time it is."""
    return at, SERVER, RESOLVER, ANSWER


@pytest.mark.parametrize("said, modes, unknown", [
    # a clock is set back: answered at once, and never answered
    ([told_time(HOUR), ASKED, answered(0.001), asks(1, "b. A"), answered(1.001)], ["failed"] * 2,
     0),
    ([told_time(HOUR), ASKED, LATER, answered(20)], ["now", "failed"], 0),
    # a query from before that, of which nobody can tell
    ([asks(HOUR, "b. A"), told_time(0), told_time(9)], ["failed"], 1),
    # but only out of order, by less than a minute
    ([asks(59, "b. A"), *map(told_time, (0, 9, 61, 62))], ["now"], 0),
    # one time is wrong, between a query and its answer
    ([ASKED, told_time(HOUR), answered(0.001), LATER, answered(20)], ["failed"] * 2, 0),
    ([ASKED, told_time(-HOUR), answered(0.001), LATER, answered(20)], ["failed"] * 2, 0),
    # an hour of silence, or a clock set forward
    ([ASKED, answered(0.001), asks(HOUR, "b. A"), answered(HOUR + 0.001)], ["failed"] * 2, 0),
    ([ASKED, told_time(HOUR)], ["now"], 0),
    ([ASKED, answered(2), told_time(1)], ["now"], 0),
    ([ASKED, told_time(HOUR), asks(HOUR, "b. A"), answered(HOUR + 1)], ["now", "failed"], 0)])
def test_a_client_waited_by_the_times_that_follow_its_query(said, modes, unknown):
    """RFC 8767 section 5: the timer begins with the query, and an answer within it ends it."""
    found, counts = modes_of(talk(*said))
    assert (found, counts[WAIT_UNKNOWN]) == (modes, unknown)


def client_asks(at, number=7):
    """A client's query, so many seconds after the first."""
    at = (NOW + at) * MICROSECONDS
    return Seen(at, Peer(CLIENT, 4000), Peer(RESOLVER, 53), query(number=number))


@pytest.mark.parametrize("odd", [2**60, -NOW - 1])
def test_a_time_that_is_no_moment_does_not_tell_who_waited(odd):
    """Two in a row have it, of which a trace has none; the queries behind are answered at once."""
    said = [client_asks(odd, 8), client_asks(odd, 9)]
    for at in (0, 1):
        one = client_asks(at)
        said += one, Seen(one.at + 1, one.target, one.source, message(7, 0x8180, WWW))
    assert list(Waits(TIMER).told(said)) == said


def test_a_query_from_before_a_clock_was_set_back_holds_nothing_up():
    said = [client_asks(HOUR, 8), *(client_asks(it, it + 10) for it in range(100))]
    waits, most, waited = Waits(TIMER), 0, []
    for it in waits.told(said):
        most = max(most, len(waits.held))
        waited.append(it.waited)
    assert waited == [None, *[True] * 98, None, None] and most < 5 and not waits.open


def test_a_timer_changes_modes_alone(small):
    """Neither which lines there are nor their order."""
    assert [re.sub(" now$", " failed", it) for it in timed(PCAP.read_bytes())[0]] == small


def test_what_is_held_back_stays_little():
    """Of 150,000 queries within the timer the first are let go before it is known."""
    one = Seen(NOW, Peer(CLIENT, 4000), Peer(RESOLVER, 53), query())
    waits, most, unknown = Waits(TIMER), 0, 0
    for it in waits.told(one for _ in range(HELD_MOST + 50_000)):
        most, unknown = max(most, len(waits.held)), unknown + (it.waited is None)
    assert most <= HELD_MOST and unknown == HELD_MOST + 50_000 and not waits.open


@pytest.mark.parametrize("limit, first", [
    (TIMER, "stale 30 www.example. 00000000"), (None, "miss")])
def test_a_stale_answer_comes_where_the_client_waited(limit, first):
    """An address with a TTL of 60 is asked for when it is 100 seconds old (RFC 8767 section 5), and
    again by a client that is answered at once."""
    lines, _ = timed(talk(*exchange(0, UP, ANSWER), asks(100), answered(102), asks(110),
                          answered(110)), limit, resolvers=[Place(RESOLVER)])
    told = report(line_of(it.encode()) for it in lines)
    assert [it.split(" ", 2)[2] for it in told if " ask " in it] == [first, "miss"]


@pytest.mark.parametrize("words, mode", [([], "failed"), (["--mode=now"], "now")])
def test_the_command_takes_a_mode(words, mode):
    run = ran("bin/from-capture", *words, PCAP)
    wished = [int(it[3]) for it in told_by_tshark("small.asks") if it[2] != ANY]
    assert (run.returncode, "warning" in run.stderr) == (0, False)
    assert [it[-1] for it in fields(run.stdout.splitlines(), "ask")] == [
        mode if it else "none" for it in wished]


def test_the_command_warns_where_a_capture_cannot_tell_how_long_clients_waited():
    """This one has no answers to clients but server failures."""
    run = ran("bin/from-capture", "--mode=timer", PCAP)
    assert run.returncode == 0 and run.stderr.count("warning: the capture has no answer") == 1


@pytest.mark.parametrize("seconds, mode", [("2.5", "failed"), ("1.5", "now"), (None, "now")])
def test_the_command_takes_a_client_timer(tmp_path, seconds, mode):
    (tmp_path / "capture").write_bytes(talk(ASKED, answered(2), LATER, answered(20)))
    words = [f"--client-timer={seconds}"] * bool(seconds)
    run = ran("bin/from-capture", "--resolver=192.0.2.53", "--mode=timer", *words,
              tmp_path / "capture")
    assert run.stdout.splitlines()[0].endswith(f" {mode}")


@pytest.mark.parametrize("word", ["--client-timer=0", "--client-timer=61", "--client-timer=nan",
                                  "--mode=none"])
def test_the_command_refuses_what_is_no_mode_and_no_timer(word):
    run = ran("bin/from-capture", word, PCAP)
    assert (run.returncode, run.stdout) == (2, "")


# ---- dnstap


def frame(body):
    return len(body).to_bytes(4, "big") + body


def field(number, value):
    """A field of a protobuf record: octets, or a number in seven bits an octet."""
    if isinstance(value, bytes):
        return varint(number << 3 | 2) + varint(len(value)) + value
    return varint(number << 3) + varint(value)


def varint(value):
    octets = bytearray()
    while value > 127:
        octets.append(value & 127 | 128)
        value >>= 7
    return bytes([*octets, value])


def tapped(kind, at, octets, zone=None):
    """A dnstap frame of a message of a kind; of even numbers it is a response."""
    seconds, place = (12, 14) if kind % 2 == 0 else (8, 10)
    ends = field(4, CLIENT) + field(5, SERVER) + field(6, 4000) + field(7, 53)
    body = field(1, kind) + ends + field(seconds, NOW + at) + field(place, octets)
    body += field(11, zone) if zone else b""
    return frame(field(1, b"name") + field(14, body) + field(15, 1))


START = bytes(4) + frame(b"\0\0\0\2\0\0\0\1" + frame(b"protobuf:dnstap.Dnstap"))
EXAMPLE = b"\7example\0"


@pytest.mark.parametrize("octets, reason", [
    ((2**31).to_bytes(4, "big"), "file: a frame of no lawful length"),
    (frame(b"\x72\x7f"), "frame: not what it should be"),
    (frame(b"\xff" * 40), "frame: not what it should be"),
    (frame(b"\x72\x02\x08\x01"), "frame: neither a client's nor"),
    (frame(b"\x72\x02\x08\x05"), "frame: not what it should be"),
    (tapped(4, 1, ANSWER, EXAMPLE[:6]), "frame: not what it should be"),
    (tapped(4, 1, ANSWER, b"\xc0\0"), "frame: not what it should be"),
    (frame(b"abc")[:-1], "file: it ends within a frame")])
def test_odd_dnstap_files_are_counted(octets, reason):
    lines, counts = lines_of(START + octets)
    assert lines == [] and any(it.startswith(reason) for it in counts)


def test_a_frame_stream_of_something_else_is_no_capture():
    with pytest.raises(NoCapture):
        lines_of(bytes(4) + frame(b"\0\0\0\2"))


def test_dnstap_tells_the_sides_and_the_zone():
    """The numbers of kinds and fields are those of dnstap.proto."""
    octets = START + b"".join((
        tapped(5, 0, query()), tapped(3, 0, UP), tapped(4, 1, ANSWER, EXAMPLE),
        tapped(6, 1, message(7, 0x8180, WWW)), tapped(7, 2, UP), tapped(8, 3, ANSWER),
        tapped(7, 3, UP), tapped(8, 4, ANSWER, EXAMPLE),
        tapped(5, 4, query(flags=0)), tapped(6, 5, message(7, 0x8182, WWW)), tapped(1, 6, UP)))
    assert texts(octets) == [
        ASK, "response 1 example.", "response 3 .", "response 4 example.",
        "ask 4 www.example. 1", "fail 5 www.example. 1"]


@pytest.mark.parametrize("kind, octets", [
    (5, message(7, 0x8182, WWW)), (3, ANSWER), (7, ANSWER), (6, query()), (4, UP), (8, UP)])
def test_a_message_of_dnstap_that_contradicts_its_kind_is_left_out(kind, octets):
    """Its sender chose the QR bit, but the resolver says whether it is a query or a response. So
    neither a client's query is a SERVFAIL to it, nor a server's response a query without one."""
    capture = START + tapped(kind, 0, octets) + tapped(5, 20, query("later. A"))
    assert told(capture) == ([LATE], {"frame: not what it should be": 1})


def test_a_message_of_dnstap_without_flags_contradicts_nothing():
    """It is the response to its query, though the cache refuses it."""
    assert texts(START + tapped(3, 0, UP) + tapped(4, 1, UP[:2])) == ["response 1 ."]


@pytest.mark.parametrize("at, mode", [(1, "failed"), (3, "now")])
def test_dnstap_tells_how_long_a_client_waited(at, mode):
    octets = START + tapped(5, 0, query()) + tapped(6, at, message(7, 0x8180, WWW))
    assert [it.split()[-1] for it in timed(octets)[0]] == [mode]


# ---- zones


@pytest.mark.parametrize("by_servers", [False, True])
def test_zones_follow_the_NS_sets_and_the_servers(by_servers):
    """A referral to example. and its server; then that server is asked, and one unknown. A referral
    is read for the zone above; a DS record stands above; RD asks a forwarder."""
    referral = message(9, 0x8000, WWW, [], [NS], ["ns.example. 60 A 192.0.2.201"])
    denied = message(9, 0x8400, "example. DS", [], [ROOT_SOA])
    said = [*exchange(0, UP, referral, OTHER), *exchange(1, UP, ANSWER),
            *exchange(2, query("example. DS", 9, 0), denied, OTHER),
            *exchange(3, query(number=9), ANSWER, OTHER)]
    assert texts(talk(*said), by_servers=by_servers) == [
        "response 0 .", "response 1 example.", "response 2 .", "response 3 ."]


@pytest.mark.parametrize("by_servers, zone", [(False, "a.example."), (True, "example.")])
def test_the_server_s_address_decides_where_the_NS_sets_do_not(by_servers, zone):
    """The server of `example.` is asked of a name below `a.example.`, whose NS set is known."""
    above = message(9, 0x8400, "example. NS", [NS], [], ["ns.example. 60 A 192.0.2.201"])
    below = message(9, 0x8000, "www.a.example. A", [], ["a.example. 60 NS ns.a.example."],
                    ["ns.a.example. 60 A 192.0.2.202"])
    asked = query("www.a.example. A", 9, 0)
    said = [*exchange(0, query("example. NS", 9, 0), above), *exchange(1, asked, below),
            *exchange(2, asked, below)]
    assert texts(talk(*said), by_servers=by_servers) == [
        "response 0 .", "response 1 example.", f"response 2 {zone}"]


# ---- the command


def test_the_command_writes_the_trace_and_counts_what_it_left():
    run = ran("bin/from-capture", PCAP)
    wanted, counts = lines_of(PCAP.read_bytes())
    assert (run.returncode, run.stdout.splitlines()) == (0, wanted)
    assert "guessed that the resolver is 192.0.2.53" in run.stderr
    assert [it for it in counts if it not in run.stderr] == []


def test_the_command_writes_as_many_lines_as_are_wanted():
    run = ran("bin/from-capture", "--lines", "3", "--zone-from-servers", "--resolver",
              "192.0.2.53", PCAP)
    assert len(run.stdout.splitlines()) == 3 and "the trace has 3" in run.stderr


@pytest.mark.parametrize("path", [PCAP, DNSTAP], ids=lambda it: it.name)
def test_the_command_reads_standard_input(path):
    """From a pipe, in which nothing can be sought."""
    run = subprocess.run([sys.executable, TOP / "bin" / "from-capture", "-"], timeout=60,
                         input=path.read_bytes(), capture_output=True)
    assert run.stdout.decode().splitlines() == lines_of(path.read_bytes())[0]


@pytest.mark.parametrize("size, is_read", [(30_000, True), (3_000, False)])
def test_the_command_ends_by_an_interrupt_without_a_traceback(size, is_read):
    """It waits for more. It ends with whole lines, and also where whoever read them is gone; what
    there is to write then is less than is written at once."""
    octets = PCAP.read_bytes()[:size]
    resolvers = [f"--resolver={it}" for it in RESOLVERS]
    status, out, said = interrupted("bin/from-capture", *resolvers, "-", octets=octets,
                                    is_read=is_read)
    assert (status, bool(out), said) == (130, is_read, "")
    whole, _ = lines_of(octets, resolvers=RESOLVERS)
    lines = out.splitlines(keepends=True)
    assert lines == [f"{it}\n" for it in whole[:len(lines)]]


@pytest.mark.parametrize("path, said", [
    (__file__, __file__), (os.devnull, os.devnull), ("-", "standard input is not a capture")])
def test_the_command_says_what_is_no_capture(path, said):
    run = ran("bin/from-capture", path, input="")
    assert (run.returncode, run.stdout, run.stderr.count("\n")) == (1, "", 1)
    assert said in run.stderr


@pytest.mark.parametrize("how, compressed", [
    ("gzip", gzip.compress), ("bzip2", bz2.compress), ("xz", lzma.compress)])
def test_the_command_says_that_a_file_is_compressed(tmp_path, how, compressed):
    (tmp_path / "capture").write_bytes(compressed(PCAP.read_bytes()))
    run = ran("bin/from-capture", tmp_path / "capture")
    assert (run.returncode, run.stdout, run.stderr.count("\n")) == (1, "", 1)
    assert f"it is compressed by {how}: decompress it first" in run.stderr


def test_the_command_says_what_to_install():
    code = ("import sys, runpy; from tools import debian; debian.has = lambda it: False;"
            "sys.argv = ['from-capture', *{}];"
            "runpy.run_path('bin/from-capture', run_name='__main__')")

    def without_dpkt(*words):
        return subprocess.run([sys.executable, "-c", code.format(words)], cwd=TOP, text=True,
                              capture_output=True, env={**os.environ, "RRCACHE_TOOL_AGAIN": "1"})
    run = without_dpkt(os.devnull)
    assert (run.returncode, run.stderr.count("\n")) == (1, 1)
    assert "apt-get install python3-dpkt" in run.stderr
    assert without_dpkt("--help").stdout.startswith("usage: from-capture")


# ---- what bin/what-if says of the capture


def memory_of(entry):
    """What a key takes: its lists of octets are its names and its data, of which the names are
    shared each, and the data together. A failure has the key's name alone."""
    key, body = entry.key, entry.body
    names = {key.name} if body.kind == "failure" else {key.name, body.owner}
    lists = [SHORT_LIST if len(it) <= 32 else LONG_LIST + len(it) for it in [*names, *body.items]]
    shared = SHARED * (len(names) + (body.kind != "failure"))
    return ENTRY + shared + SEVERAL * (len(body.items) > 1) + sum(lists)


class Counting(Part):
    """A part of the model's that remembers the most memory that it took behind any offer."""

    most = 0

    def offer(self, offer):
        outcome = super().offer(offer)
        self.most = max(self.most, sum(map(memory_of, self.held.values())))
        return outcome


@pytest.mark.parametrize("capacity", [16, 64])
def test_what_if_says_of_the_capture_what_its_report_says(what_if, trace_of, program, small,
                                                          capacity):
    """Counted in the program's report by its words, and in the model's part."""
    path = trace_of(small)
    result = json.loads(what_if(path, "--json", f"--capacity={capacity}"))[0]
    report = subprocess.run([program, f"--capacity={capacity}"], input=path.read_text(), text=True,
                            capture_output=True).stdout
    wanted = [len(re.findall(rf"(?m)^\d+ ask (?:{it})\b", report)) for it in
              ("fresh", "stale", "nodata|nxdomain", "miss")]
    replay = Replay()
    replay.parts = [Counting(capacity)]
    for it in small:
        replay.line(line_of(it.encode()))
    assert counted(result)[1] == (*wanted, report.count("kept-out:"), replay.parts[0].most)
