# SPDX-License-Identifier: MIT
"""examples/iterate.c on loopback, among authoritative name servers that are made here, under the
sanitizers of addresses and of undefined behaviour."""
import select
import socket
import struct
import subprocess
import threading
import time
from contextlib import ExitStack, suppress

import dns.name
import pytest
from dns.flags import AA, RA, TC
from dns.rcode import NOERROR, NXDOMAIN, REFUSED, SERVFAIL
from dns.rdatatype import A, CNAME, NS

from tests.c.builds import example
from tests.forwarder.harness import (
    MOST_SECONDS, SOA, bound, framed, octets_of, query, read, record, response, text_of, told, took,
    truncated)

ROOT, EXAMPLE, OF_A, OF_B, OTHER, LAME, BROKEN, DEAD = (f"127.0.53.{it}" for it in range(1, 9))
FORGED, STEPS = "192.0.2.66", 32
# The most octets over UDP without EDNS, and how a query is noted that comes over TCP.
PLAIN, BY_TCP = 512, "TCP"
MANY = [f"198.51.100.{it}" for it in range(1, 101)]


def cut(zone, *addresses):
    """A delegation, with a server and its glue for each address."""
    return [*(f"{zone} 60 NS ns{it}.{zone}" for it in range(len(addresses))),
            *(f"ns{it}.{zone} 60 A {address}" for it, address in enumerate(addresses))]


# The zones of each server. DEAD is no server, and ns1.other and n0.other .. have no address. The
# addresses of many.a.example and the referral to wide.example have no room in a packet. What BROKEN
# has, it never sends as a whole.
B_SERVERS = [f"b.example 60 NS ns{it}.other" for it in (1, 2)]
ZONES = {
    ROOT: {".": [*cut("example", EXAMPLE), *cut("other", OTHER)]},
    EXAMPLE: {"example": [
        *cut("a.example", OF_A), *cut("dead.example", DEAD, OF_A), *cut("lame.example", LAME, OF_A),
        *cut("broken.example", BROKEN, OF_A), *cut("wide.example", *[OF_A] * 20),
        *B_SERVERS, *(f"n.example 60 NS n{it}.other" for it in range(20)),
        "c.example 60 NS ns.d.example", "d.example 60 NS ns.c.example",
        "alias.example 60 CNAME www.b.example", "brief.example 0 CNAME www.b.example"]},
    OF_A: {"a.example": ["www.a.example 60 A 192.0.2.1", "www.a.example 60 A 192.0.2.2",
                         "brief.a.example 0 A 192.0.2.3",
                         *(f"many.a.example 60 A {it}" for it in MANY)],
           "broken.example": ["www.broken.example 60 A 192.0.2.8"],
           "wide.example": ["www.wide.example 60 A 192.0.2.9"],
           "dead.example": ["www.dead.example 60 A 192.0.2.4"],
           "lame.example": ["www.lame.example 60 A 192.0.2.5"]},
    OF_B: {"b.example": ["www.b.example 50 A 192.0.2.6"]},
    OTHER: {"other": [f"ns2.other 60 A {OF_B}", "www.other 60 A 192.0.2.7"]},
    LAME: {},
    BROKEN: {"broken.example": ["www.broken.example 60 A 192.0.2.10"]},
}
RECORDS = {server: {dns.name.from_text(zone): [*map(record, lines)]
                    for zone, lines in zones.items()} for server, zones in ZONES.items()}
TTLS = {it[0].address: it.ttl for zones in RECORDS.values() for records in zones.values()
        for it in records if it.rdtype == A}


def by_zones(server, asked, name):
    """What a server answers with its zones."""
    name = asked.question[0].name
    zone = max(filter(name.is_subdomain, RECORDS[server]), key=len, default=None)

    def found(owner, rtype):
        return [it for it in RECORDS[server][zone] if it.name == owner and it.rdtype == rtype]
    if zone is None:
        return [response(asked, rcode=REFUSED, flags=0)]
    below = [name.split(it)[1] for it in range(len(zone) + 1, len(name) + 1)]
    if servers := next(filter(None, (found(it, NS) for it in below)), None):
        glue = [it for one in servers for it in found(one[0].target, A)]
        return [response(asked, authority=servers, additional=glue, flags=0)]
    if answer := found(name, CNAME) + found(name, A):
        return [response(asked, *answer, flags=AA)]
    rcode = NOERROR if any(it.name.is_subdomain(name) for it in RECORDS[server][zone]) else NXDOMAIN
    soa = f"{zone} 60 SOA ns.example host.example 1 2 3 4 60"
    return [response(asked, authority=[soa], rcode=rcode, flags=AA)]


def with_tc(octets):
    return octets[:2] + bytes([octets[2] | TC >> 8]) + octets[3:]


# What may be left of a message that has no room in a packet.
CUTS = {
    "no records": lambda asked, it: octets_of(truncated(asked)),
    "some records": lambda asked, it: octets_of(response(asked, *it.answer[:9], flags=AA | TC)),
    "part of a record": lambda asked, it: with_tc(octets_of(it))[:PLAIN - 9],
}


def stay(sock, octets):
    """Sends octets, and then nothing until the client closes."""
    sock.sendall(octets)
    sock.recv(1)


def close(sock, octets):
    """Sends octets, and closes the connection."""
    sock.sendall(octets)


def reset(sock, octets):
    """Sends octets, and resets the connection."""
    sock.setsockopt(socket.SOL_SOCKET, socket.SO_LINGER, struct.pack("ii", 1, 0))
    sock.sendall(octets)


def by_octets(seconds):
    """Sends so many seconds before each octet."""
    def send(sock, octets):
        sock.setsockopt(socket.IPPROTO_TCP, socket.TCP_NODELAY, 1)
        for it in octets:
            time.sleep(seconds)
            sock.sendall(bytes([it]))
        sock.recv(1)
    return send


def bound_all():
    """Sockets of all servers, for datagrams and listening, with one port: no other process has it
    at the first address, and so at none of them. LAME does not listen."""
    sockets = bound(True, ROOT)
    for host in [it for it in ZONES if it != ROOT]:
        address = host, sockets[0].getsockname()[1]
        sockets.append(socket.socket(socket.AF_INET, socket.SOCK_DGRAM))
        sockets[-1].bind(address)
        sockets += [socket.create_server(address)] if host != LAME else []
    return sockets


class Servers(threading.Thread):
    """The servers. `answers` has functions for servers, or names there, that do not answer
    `by_zones`. What has no room over UDP is truncated by `cut`, and so is all of the servers for
    which `streams` has functions that send over TCP in another way."""

    def __init__(self):
        super().__init__(daemon=True)
        self.asked, self.answers, self.is_over = [], {}, False
        self.cut, self.streams = CUTS["no records"], {}
        self.sockets = bound_all()
        self.port = self.sockets[0].getsockname()[1]
        self.start()

    def run(self):
        while not self.is_over:
            for it in select.select(self.sockets, [], [], 0.1)[0]:
                if it.type == socket.SOCK_DGRAM:
                    self.take_datagram(it)
                else:
                    self.take_stream(it.accept()[0])

    def take_datagram(self, sock):
        octets, client = sock.recvfrom(4096)
        server = sock.getsockname()[0]
        for it in self.answers_to(octets, server):
            has_room = server not in self.streams and len(octets_of(it)) <= PLAIN
            sock.sendto(octets_of(it) if has_room else self.cut(read(octets), it), client)

    def take_stream(self, sock):
        sock.settimeout(MOST_SECONDS)
        octets, server = sock.recv(4096), sock.getsockname()[0]
        assert int.from_bytes(octets[:2], "big") == len(octets) - 2
        sent = b"".join(map(framed, self.answers_to(octets[2:], server, BY_TCP)))

        def send():
            with suppress(OSError), sock:  # the client may close before
                self.streams.get(server, stay)(sock, sent)
        threading.Thread(target=send, daemon=True).start()

    def answers_to(self, octets, server, *how):
        """What a server answers to a query, which is noted."""
        asked = read(octets)
        name = text_of(asked.question[0].name)
        self.asked.append((server, name, *how))
        assert asked.flags == 0 and len(asked.question) == 1
        answer = self.answers.get((server, name)) or self.answers.get(server) or by_zones
        return answer(server, asked, name)


@pytest.fixture(scope="module")
def program(library, tmp_path_factory):
    return example("iterate", library, tmp_path_factory.mktemp("example"))


@pytest.fixture
def servers():
    made = Servers()
    yield made
    assert made.is_alive()
    made.is_over = True
    made.join()
    for it in made.sockets:
        it.close()


@pytest.fixture
def iterate(program, servers):
    """Resolves names, and returns the status, the addresses that are printed, and who was asked."""
    def iterate(*names, roots=(ROOT,)):
        ran = subprocess.run([program, str(servers.port), *roots, *names], text=True,
                             capture_output=True, timeout=60)
        words = [line.split(" TTL ") for line in ran.stdout.splitlines()]
        assert ran.stderr == "" and all(0 <= TTLS[it] - int(ttl) < 30 for it, ttl in words)
        return ran.returncode, [it for it, _ in words], servers.asked
    return iterate


WWW, OF_WWW = "www.a.example", ["192.0.2.1", "192.0.2.2"]
B_ASKED = [(EXAMPLE, "www.b.example"), (ROOT, "ns1.other"), (OTHER, "ns1.other"),
           (OTHER, "ns2.other"), (OF_B, "www.b.example")]


def by_referral(name, *servers):
    """Who is asked for a name: the servers of the root and of example., and these."""
    return [(it, name) for it in (ROOT, EXAMPLE, *servers)]


@pytest.mark.parametrize("names, addresses, asked", [
    pytest.param([WWW, WWW.upper(), "brief.a.example"], [*OF_WWW, *OF_WWW, "192.0.2.3"],
                 [*by_referral(WWW, OF_A), (OF_A, "brief.a.example")], id="glue"),
    pytest.param(["www.b.example", "www.other"], ["192.0.2.6", "192.0.2.7"],
                 [(ROOT, "www.b.example"), *B_ASKED, (OTHER, "www.other")], id="no glue"),
    *(pytest.param([it], ["192.0.2.6"], [*by_referral(it), *B_ASKED], id=it)
      for it in ("alias.example", "brief.example")),
    *(pytest.param([it, it], [], by_referral(it, OF_A), id=it)
      for it in ("none.a.example", "a.example")),
    pytest.param(["www.lame.example"], ["192.0.2.5"], by_referral("www.lame.example", LAME, OF_A),
                 id="lame")])
def test_names(names, addresses, asked, iterate):
    """What was asked for is in the cache, but for data of TTL 0, and so is each delegation."""
    assert iterate(*names) == (0, addresses, asked)


def test_dead_servers(iterate):
    name = "www.dead.example"
    assert iterate(name, roots=(DEAD, ROOT)) == (0, ["192.0.2.4"], by_referral(name, OF_A))


@pytest.mark.parametrize("name", ["www.c.example", "www.n.example", "www.b.example"])
def test_names_that_are_given_up(name, iterate, servers):
    """Servers wait for each other, or the names of servers cannot be resolved."""
    servers.answers[OTHER] = told(rcode=SERVFAIL)
    status, addresses, asked = iterate(name, WWW)
    assert (status, addresses) == (1, []) and len(set(asked)) == len(asked) <= STEPS
    assert (OTHER, "n19.other") not in asked


@pytest.mark.parametrize("lines", [
    pytest.param({"": (f"{{}} 60 A {FORGED}",)}, id="with an answer"),
    pytest.param({"": (f"{{}} 60 CNAME {WWW}",)}, id="with an alias"),
    pytest.param({"authority": cut("example", EXAMPLE)[:1]}, id="with a referral upwards"),
    pytest.param({"authority": [SOA], "rcode": NXDOMAIN}, id="with a denial"),
    pytest.param({}, id="with nothing")])
def test_a_lame_server_that_is_a_resolver(lines, iterate, servers):
    """It sets RA and not AA, so what it has is from a cache, and the next server is asked."""
    name, others = "www.lame.example", {key: it for key, it in lines.items() if key}
    servers.answers[LAME] = told(*lines.get("", ()), **others, flags=RA)
    assert iterate(name, name) == (0, ["192.0.2.5"] * 2, by_referral(name, LAME, OF_A))


def test_a_denial_that_is_not_stored_ends_the_question(iterate, servers):
    servers.answers[OF_A] = told(rcode=NXDOMAIN, flags=AA)
    assert iterate(WWW) == (1, [], by_referral(WWW, OF_A))


def test_glue_that_was_missing_is_asked_for_above(iterate, servers):
    servers.answers[EXAMPLE, WWW] = told(authority=cut("a.example", OF_A)[:1], flags=0)
    assert iterate(WWW) == (0, OF_WWW, [*by_referral(WWW), (EXAMPLE, "ns0.a.example"), (OF_A, WWW)])


def test_a_zone_whose_name_was_denied_before(iterate, servers):
    servers.answers[EXAMPLE, "a.example"] = told(authority=[SOA], rcode=NXDOMAIN, flags=AA)
    assert iterate("a.example", WWW) == (
        0, OF_WWW, [*by_referral("a.example"), (EXAMPLE, WWW), (OF_A, WWW)])


def test_data_of_other_zones_are_not_used(iterate, servers):
    more = [f"www.b.example 60 A {FORGED}", *(f"ns{it}.other 60 A {LAME}" for it in (1, 2))]
    servers.answers[OF_A] = told("{} 60 CNAME www.b.example", *more, additional=more, flags=AA)
    servers.answers[EXAMPLE, "www.b.example"] = told(authority=B_SERVERS, additional=more, flags=0)
    assert iterate(WWW) == (0, ["192.0.2.6"], [*by_referral(WWW, OF_A), *B_ASKED])


def test_a_response_to_another_query_is_dropped(iterate, servers):
    def answer(server, asked, name):
        others = query(name, id=asked.id ^ 1), query("b.example", id=asked.id)
        return [b"", *(response(it, f"{name} 60 A {FORGED}", flags=AA) for it in others),
                *by_zones(server, asked, name)]
    servers.answers[OF_A] = answer
    assert iterate(WWW) == (0, OF_WWW, by_referral(WWW, OF_A))


@pytest.mark.parametrize("words", [[], ["a..example"], ["a" * 64]])
def test_words_that_are_no_names(words, iterate):
    assert iterate(*words) == (2, [], [])


# ---- TCP (RFC 7766).

@pytest.mark.parametrize("how", CUTS)
def test_an_answer_that_is_truncated(how, iterate, servers):
    """It is whole over TCP, and in the cache."""
    servers.cut, name = CUTS[how], "many.a.example"
    assert iterate(name, name) == (0, MANY * 2, [*by_referral(name, OF_A), (OF_A, name, BY_TCP)])


def test_a_referral_that_is_truncated(iterate):
    name = "www.wide.example"
    asked = [*by_referral(name), (EXAMPLE, name, BY_TCP), (OF_A, name)]
    assert iterate(name) == (0, ["192.0.2.9"], asked)


def test_an_answer_over_tcp_in_pieces_of_an_octet(iterate, servers):
    servers.streams[OF_A] = by_octets(0.001)
    assert iterate(WWW) == (0, OF_WWW, [*by_referral(WWW, OF_A), (OF_A, WWW, BY_TCP)])


@pytest.fixture
def full(servers):
    """LAME listens, but with a full queue, so that the system drops packets of other clients."""
    address = LAME, servers.port
    with socket.create_server(address, backlog=0), ExitStack() as clients:
        with pytest.raises(socket.timeout):
            for _ in range(9):
                clients.enter_context(socket.create_connection(address, timeout=0.2))
        yield


@pytest.mark.parametrize("state", ["closed", "full"])
def test_a_server_that_takes_no_connection(state, iterate, servers, request):
    if state == "full":
        request.getfixturevalue(state)
    servers.streams[LAME], name = None, "www.lame.example"
    found, seconds = took(iterate, name)
    assert found == (0, ["192.0.2.5"], by_referral(name, LAME, OF_A))
    assert seconds < 6


def of_size(more):
    """Has the length before a message be so much more than its size."""
    return lambda it: (len(it) - 2 + more).to_bytes(2, "big") + it[2:]


@pytest.mark.parametrize("change, send", [
    *(pytest.param(lambda it, end=end: it[:end], send, id=f"{end} octets, {send.__name__}")
      for send in (stay, close, reset) for end in (0, 1, 2, 20, -1)),
    *(pytest.param(of_size(1), send, id=f"length too large, {send.__name__}")
      for send in (stay, close)),
    pytest.param(lambda it: b"\xff\xff" + it[2:], stay, id="largest length"),
    pytest.param(of_size(-1), stay, id="length too small"),
    pytest.param(lambda it: b"\0\0", stay, id="length 0"),
    pytest.param(lambda it: b"\0\0" * 20, stay, id="length 0 again and again"),
    pytest.param(lambda it: it[:2] + with_tc(it[2:]), stay, id="truncated"),
    pytest.param(lambda it: it[:2] + bytes([it[2] ^ 1]) + it[3:], stay, id="another id"),
    pytest.param(lambda it: it.replace(b"www", b"wwx"), stay, id="another question"),
    pytest.param(lambda it: it, by_octets(0.2), id="slow")])
def test_a_server_whose_tcp_is_broken(change, send, iterate, servers):
    """The next server is asked, soon: a message has more than 40 octets, so the slow server would
    take more than 8 seconds."""
    servers.streams[BROKEN] = lambda sock, octets: send(sock, change(octets))
    name = "www.broken.example"
    found, seconds = took(iterate, name)
    assert found == (0, ["192.0.2.8"],
                     [*by_referral(name, BROKEN), (BROKEN, name, BY_TCP), (OF_A, name)])
    assert seconds < 6
