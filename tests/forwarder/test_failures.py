# SPDX-License-Identifier: MIT
"""Stale answers (RFC 8767), and failures that are remembered (RFC 2308 section 7)."""
import errno
import os
import time

import pytest
from dns.flags import AA, RA
from dns.rcode import NOERROR, NXDOMAIN, REFUSED, SERVFAIL

from tests.forwarder.harness import (BUILD, MOST_SECONDS, Server, address, aliases, data, plain,
                                     silent, told, took, truncated, under)

# In less than these seconds there is an answer that is not waited for: it is late after 1.8, and
# the tries end after 3.8.
SOON = 1.7
SHORT_SOA = "example 1 SOA ns.example host.example 1 2 3 4 1"
# The authority sections of negative answers. A resolver may send none, as dnsmasq does.
DENIALS = pytest.mark.parametrize("authority", [[SHORT_SOA], []], ids=["soa", "nothing"])


def with_refusals(**setting):
    """The environment of a program that is refused what it says (refusals.c)."""
    words = {name: str(it) for name, it in setting.items()}
    return {**os.environ, **words, "LD_PRELOAD": str(BUILD / "refusals.so")}


def test_stale_while_no_upstream_answers(forwarder):
    it = forwarder(server := Server(plain(1)))
    it.ask("a5.example")
    server.answer = silent
    time.sleep(2.2)
    reply, seconds = took(it.ask, "a5.example")
    assert (data(reply), reply.answer[0].ttl) == ([address(5)], 30)
    assert 1.7 < seconds < 3.7  # when it is late, and not at the end of the tries
    reply, seconds = took(it.ask, "a5.example")
    assert data(reply) == [address(5)] and seconds < SOON
    time.sleep(2.5)
    asked = server.times("a5.example")
    reply, seconds = took(it.ask, "a5.example")
    assert (data(reply), server.times("a5.example")) == ([address(5)], asked)
    assert seconds < SOON
    # Nothing stale where RD is clear.
    assert it.ask("a5.example", flags=0).rcode() == REFUSED


def test_stale_after_the_server_stops(forwarder):
    it = forwarder(server := Server(plain(1)))
    it.ask("a6.example")
    server.stop()
    time.sleep(2.2)
    for _ in range(3):
        reply = it.ask("a6.example")
        assert (reply.rcode(), data(reply), reply.answer[0].ttl) == (NOERROR, [address(6)], 30)
    assert it.counted("stale", "failures") == [3, 1]


def test_stale_aliases(forwarder):
    it = forwarder(server := Server(told("{} 1 CNAME b.example", f"b.example 1 A {address(1)}")))
    it.ask("c.example")
    server.stop()
    time.sleep(2.2)
    for _ in range(2):
        reply = it.ask("c.example")
        assert (data(reply, "CNAME"), data(reply)) == (["b.example."], [address(1)])
        assert [it.ttl for it in reply.answer] == [30, 30]


@DENIALS
@pytest.mark.parametrize("names, rcode", [
    (["c.example"], NXDOMAIN), (["c.example", "b.example"], NXDOMAIN), (["c.example"], NOERROR)])
def test_what_was_denied_is_not_stale(forwarder, names, rcode, authority):
    """A resolver says that a name is gone which had an address, or was an alias that leads to it,
    or that it has no address any more, and then it fails. The address is older than that, so no
    client gets it."""
    lines = aliases(names, 1)
    it = forwarder(server := Server(told(*lines, f"{names[-1]} 1 A {address(1)}")))
    assert data(it.ask("c.example")) == [address(1)]
    time.sleep(2.2)
    server.answer = told(*lines, authority=authority, rcode=rcode)
    assert it.ask("c.example").rcode() == rcode
    time.sleep(2.2)
    server.answer = told(rcode=SERVFAIL)
    for name in names * 2:
        reply = it.ask(name)
        assert (reply.rcode(), data(reply)) == (SERVFAIL, [])


@DENIALS
@pytest.mark.parametrize("flags", [AA | RA, RA])
def test_alias_that_was_denied_is_not_stale(forwarder, flags, authority):
    """A name was an alias, and then has no address, so it is no alias. That it has no CNAME record
    is kept, if it was asked for."""
    lines = [*aliases(["c.example", "b.example"], 1), f"b.example 1 A {address(1)}"]
    it = forwarder(server := Server(told(*lines, flags=flags)))
    assert data(it.ask("c.example")) == [address(1)]
    time.sleep(2.2)
    server.answer = told(authority=authority, flags=flags)
    assert it.ask("c.example").rcode() == NOERROR
    time.sleep(2.2)
    server.answer = told(rcode=SERVFAIL)
    for _ in range(2):
        reply = it.ask("c.example")
        assert (reply.rcode(), reply.answer) == (SERVFAIL, [])
    server.answer = plain()
    for _ in range(2):
        assert it.ask("nothing.example", "CNAME").rcode() == NOERROR
    assert server.times("nothing.example", "CNAME") == 1


def test_failure_is_remembered(forwarder):
    it = forwarder(server := Server(silent))
    reply, seconds = took(it.ask, "a8.example")
    assert reply.rcode() == SERVFAIL and 2 < seconds < MOST_SECONDS
    assert server.times("a8.example") == 4
    began = time.monotonic()
    while time.monotonic() - began < 26:
        reply, seconds = took(it.ask, "a8.example")
        assert (reply.rcode(), server.times("a8.example")) == (SERVFAIL, 4)
        assert seconds < SOON
        time.sleep(2)
    server.answer = plain()
    time.sleep(max(0, began + 31.2 - time.monotonic()))
    assert data(it.ask("a8.example")) == [address(8)]


@under("forwarder")
def test_no_port_is_no_failure_that_is_remembered(forwarder):
    """The first 32 ports are refused, 8 for a question: that is no failure of the names'
    servers."""
    it = forwarder(server := Server(), environment=with_refusals(REFUSED_PORTS=32))
    for rcode in [SERVFAIL] * 4 + [NOERROR]:
        assert it.ask("a1.example").rcode() == rcode
    assert (it.counted("failed", "failures"), len(server.asked)) == ([4, 0], 1)


# The errors of a datagram that this host does not send: a firewall drops it, no route leads to its
# address, or a route that is unreachable, prohibit or blackhole (ip-route(8)).
LACKS = [errno.EPERM, errno.ENETUNREACH, errno.EHOSTUNREACH, errno.EACCES, errno.EINVAL]


@under("forwarder")
@pytest.mark.parametrize("lack", LACKS, ids=errno.errorcode.get)
def test_what_cannot_be_sent_is_no_failure_that_is_remembered(forwarder, lack):
    it = forwarder(server := Server(), environment=with_refusals(UNSENT=lack))
    for _ in range(2):
        assert it.ask("a1.example").rcode() == SERVFAIL
    assert (it.counted("sent", "failures"), server.asked) == ([2, 0], [])


@under("forwarder")
@pytest.mark.parametrize("count", [1, 2])
def test_route_that_is_lost_is_no_failure_that_is_remembered(forwarder, count):
    """The first query is sent, and its answer is lost. Then this host has no route, not even to the
    upstream that it asked."""
    environment = with_refusals(UNSENT=errno.ENETUNREACH, SENT=1)
    it = forwarder(*(Server(silent) for _ in range(count)), environment=environment)
    for _ in range(2):
        reply, seconds = took(it.ask, "a1.example")
        assert reply.rcode() == SERVFAIL and seconds < SOON
    assert it.counted("sent", "failures") == [1 + 2 * count, 0]


@under("forwarder")
def test_connection_that_cannot_be_made_is_no_failure_that_is_remembered(forwarder):
    """The answer of each upstream is cut, and this host makes no connection to get the rest. Each
    is asked, as the next one's answer may be whole."""
    servers = [Server(lambda _, asked, name: [truncated(asked)]) for _ in range(2)]
    it = forwarder(*servers, environment=with_refusals(UNCONNECTED=errno.EACCES))
    for _ in range(2):
        assert it.ask("a1.example").rcode() == SERVFAIL
    assert it.counted("sent", "failures") == [4, 0]


def test_upstream_that_refuses_is_asked_once(forwarder):
    it = forwarder(server := Server(told(rcode=SERVFAIL)))
    for _ in range(2):
        assert it.ask("a1.example").rcode() == SERVFAIL
    assert server.times("a1.example") == 1
