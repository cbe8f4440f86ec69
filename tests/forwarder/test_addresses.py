# SPDX-License-Identifier: MIT
"""IPv4 and IPv6, of clients and of upstreams, and several addresses that are listened on."""
import contextlib
import itertools
import os
import socket
import subprocess
import threading
from pathlib import Path

import pytest
from dns.rcode import SERVFAIL

from tests.forwarder.harness import (BUILD, MOST_SECONDS, Server, Stream, address, addresses,
                                     behind, bound, data, datagrams, octets_of, plain, query, read,
                                     silent, told, took, truncated, under, with_id)

FOUR, SIX = "127.0.0.1", "::1"
# Of /proc/net/if_inet6: what the scope of an address is that others reach too, and of one that only
# those of its link reach.
GLOBAL, LINK = "00", "20"


def own_addresses(scope=GLOBAL):
    """The addresses of IPv6 of this host that are not a link's, or those of another scope. That of
    a link has its interface."""
    file = Path("/proc/net/if_inet6")
    lines = [it.split() for it in file.read_text().splitlines()] if file.exists() else []
    return [socket.inet_ntop(socket.AF_INET6, bytes.fromhex(it[0]))
            + (f"%{it[5]}" if scope == LINK else "") for it in lines if it[3] == scope]


def has_six():
    try:
        with socket.socket(socket.AF_INET6) as sock:
            sock.bind((SIX, 0))
    except OSError:
        return False
    return True


pytestmark = pytest.mark.skipif(not has_six(), reason="this host has no address ::1")


def ask(port, host, name):
    """Asks by UDP: the reply's addresses."""
    with datagrams(port, host=host) as client:
        client.send(octets_of(query(name)))
        return data(read(client.recv(4096)))


def many_or_one(server, asked, name):
    """Answers n200.example with 200 addresses, which come over TCP, and others with one."""
    if name != "n200.example":
        return plain()(server, asked, name)
    return [with_id(asked, addresses(name, 200)) if server.is_tcp else truncated(asked)]


@pytest.mark.parametrize("upstream", [FOUR, SIX])
@pytest.mark.parametrize("host", [FOUR, SIX])
def test_each_family(forwarder, host, upstream):
    """By UDP and over TCP."""
    it = forwarder(server := Server(many_or_one, host=upstream), host=host)
    for _ in range(2):
        assert ask(it.port, host, "a1.example") == [address(1)]
        with Stream(it.port, host=host) as stream:
            assert len(data(stream.ask("n200.example"))) == 200
    assert len(server.asked) == 3
    assert it.counted("sent", "upgraded") == [3, 1]


@pytest.mark.parametrize("hosts", [(FOUR, SIX), (SIX, FOUR), (SIX, SIX)])
def test_upstreams_of_both_families(forwarder, hosts):
    """One is silent and the other one answers; then that one's port is closed, which is told."""
    one, two = Server(silent, host=hosts[0]), Server(host=hosts[1])
    it = forwarder(one, two)
    assert data(it.ask("a1.example")) == [address(1)]
    assert (len(one.asked), len(two.asked)) == (1, 1)
    one.answer = plain()
    two.stop()
    reply, seconds = took(it.ask, "a2.example")
    assert data(reply) == [address(2)] and seconds < 0.7


def on_a_host(**setting):
    """The environment of a program on a host that is set up so (families.c)."""
    return {**os.environ, **setting, "LD_PRELOAD": str(BUILD / "families.so")}


@under("forwarder")
@pytest.mark.parametrize("hosts", [(SIX, FOUR), (FOUR, SIX), (SIX, SIX, FOUR)])
def test_upstreams_of_both_families_where_ipv6_is_turned_off(forwarder, hosts):
    """Those of IPv4 are asked, at once, and also after one of IPv6 when an answer is late."""
    servers = [Server(host=it, delay=1.1) for it in hosts]
    it = forwarder(*servers, environment=on_a_host(NO_SIX="1"))
    reply, seconds = took(it.ask, "a1.example")
    assert data(reply) == [address(1)] and seconds < 2
    assert [bool(server.asked) for server in servers] == [host == FOUR for host in hosts]


@under("forwarder")
@pytest.mark.parametrize("hosts", [(SIX, FOUR), (FOUR, SIX)])
def test_failure_is_remembered_beside_an_upstream_without_an_address(forwarder, hosts):
    """What the one says that can be asked counts (RFC 9520 section 3.2)."""
    servers = [Server(told(rcode=SERVFAIL), host=it) for it in hosts]
    it = forwarder(*servers, environment=on_a_host(NO_SIX="1"))
    for _ in range(2):
        assert it.ask("a1.example").rcode() == SERVFAIL
    assert sum(len(server.asked) for server in servers) == 1
    assert it.counted("failures") == [1]


@under("forwarder")
@pytest.mark.parametrize("hosts", [(SIX, FOUR), (FOUR, SIX)])
def test_upstreams_of_both_families_where_there_are_no_sockets_of_ipv6(forwarder, hosts):
    """That of IPv4 is asked, by UDP and over TCP."""
    it = forwarder(*(Server(many_or_one, host=it) for it in hosts),
                   environment=on_a_host(NO_SIX_SOCKETS="1"))
    assert data(it.ask("a1.example")) == [address(1)]
    with it.stream() as stream:
        assert len(data(stream.ask("n200.example"))) == 200
    assert it.counted("sent", "upgraded") == [3, 1]


@under("forwarder")
@pytest.mark.parametrize("lacks", [{}, {"NO_ROUTE": "1"}], ids=["address", "route"])
def test_no_address_is_no_failure_that_is_remembered(forwarder, lacks):
    """Where there is only an upstream of IPv6, and no such address to ask from, or no route."""
    it = forwarder(server := Server(host=SIX), environment=on_a_host(NO_SIX="1", **lacks))
    for _ in range(2):
        assert it.ask("a1.example").rcode() == SERVFAIL
    assert (it.counted("sent", "failures"), server.asked) == ([2, 0], [])


@under("forwarder")
def test_tcp_upstreams_of_both_families_where_sockets_speak_one(forwarder):
    """A host may have each socket of IPv6 speak only that, unless it is told otherwise."""
    it = forwarder(Server(silent, host=SIX), Server(many_or_one),
                   environment=on_a_host(SIX_ALONE="1"))
    assert ask(it.port, FOUR, "a1.example") == [address(1)]
    with Stream(it.port) as stream:
        assert len(data(stream.ask("n200.example"))) == 200
    assert it.counted("upgraded") == [1]


def test_several_addresses(forwarder):
    options = ("-q", "--listen", "::1@0", "--listen", "127.0.0.2@0")
    it = forwarder(server := Server(), options=options)
    assert len(set(it.ports)) == 3
    for port, host in zip(it.ports, (FOUR, SIX, "127.0.0.2")):
        assert ask(port, host, "a1.example") == [address(1)]
        with Stream(port, host=host) as stream:
            assert data(stream.ask("a2.example")) == [address(2)]
    assert len(server.asked) == 2
    # Each is one address alone.
    for port in it.ports[1:]:
        with pytest.raises(OSError):
            Stream(port)


@pytest.mark.parametrize("tcp", [False, True], ids=["udp", "tcp"])
def test_port_that_is_taken(programs, tcp):
    """Of UDP or of TCP, also where it is that of the second address."""
    with contextlib.closing(socket.create_server((FOUR, 0)) if tcp else bound(False)[0]) as taken:
        words = ["--listen", f"{FOUR}@{taken.getsockname()[1]}", SIX, "0", FOUR, "53"]
        run = subprocess.run([BUILD / "forwarder", *words], capture_output=True, text=True)
    assert (run.returncode, run.stdout) == (1, "")
    assert run.stderr == "forwarder: Address already in use\n"


def test_replies_come_from_the_address_of_ipv6_that_was_asked(forwarder):
    """Where it listens on all addresses; what is fetched, and what is cached. The client is at ::1,
    from where an answer to it would come else."""
    it = forwarder(Server(), host="::")
    for n, host in enumerate([SIX, *own_addresses()]):
        for _ in range(2):
            with datagrams(it.port, host=host, source=SIX) as client:
                client.send(octets_of(query(f"a{n}.example")))
                assert data(read(client.recv(4096))) == [address(n)]


def place(host, port):
    """An address, which may have an interface, as sockets take it."""
    return socket.getaddrinfo(host, port, type=socket.SOCK_DGRAM)[0][4]


def test_replies_come_from_the_address_of_a_link_that_was_asked(forwarder):
    """Also to a client that asks from an address that is not of its link, as far as this host has
    such addresses."""
    hosts, sources = own_addresses(LINK)[:1], own_addresses(GLOBAL)[:1]
    it = forwarder(Server(), host="::")
    for host, source in itertools.product(hosts, hosts + sources):
        for n in range(2):
            with socket.socket(socket.AF_INET6, socket.SOCK_DGRAM) as client:
                client.settimeout(MOST_SECONDS)
                client.bind(place(source, 0))
                client.connect(place(host, it.port))
                client.send(octets_of(query(f"a{n}.example")))
                assert data(read(client.recv(4096))) == [address(n)]


def test_networks_share(forwarder):
    """Of the addresses of a /64, which are one client's, 64 wait for a question (a fourth of all
    that may), and a client of IPv4 does too."""
    it = forwarder(Server(behind(gate := threading.Event())),
                   options=("-q", "-t", "1", "--listen", "127.0.0.1@0"), host=SIX)
    with datagrams(it.port, host=SIX) as one, datagrams(it.ports[1]) as other:
        for n in range(300):
            one.send(octets_of(query("a1.example", id=n)))
            if n % 30 == 29:
                it.wait_for("queries", n + 1)
        other.send(octets_of(query("a1.example")))
        it.wait_for("queries", 301)
        gate.set()
        assert data(read(other.recv(4096))) == [address(1)]
        assert len([one.recv(4096) for _ in range(64)]) == 64
        one.settimeout(0.3)
        with pytest.raises(socket.timeout):
            one.recv(4096)
