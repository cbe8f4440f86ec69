# SPDX-License-Identifier: MIT
"""The forwarder under valgrind, which reports reads of octets that nobody wrote, reads and writes
outside of memory that is allocated, and memory that is lost. With a report it does not end with
status 0."""
import concurrent.futures
import shutil
import signal

import pytest
from dns.rcode import FORMERR, NOERROR, NXDOMAIN, SERVFAIL

from tests.forwarder.harness import (MOST_SECONDS, Server, Stream, address, datagrams, dead,
                                     exchange, framed, octets_of, plain, query, read, under,
                                     with_id)
from tests.forwarder.test_addresses import FOUR, SIX, ask, has_six
from tests.forwarder.test_clients import BROKEN_EDNS, NO_QUERIES
from tests.forwarder.test_hostile import ask_for, real_messages
from tests.forwarder.test_refusals import ask_all, is_right, served

# How many names of each kind are asked for, how many responses are changed, and by how many
# clients at once.
NAMES, CHANGED, CLIENTS = 40, 100, 8
HOSTS = (FOUR, SIX) if has_six() else (FOUR,)


def upstream(changed):
    """Answers as `served` does. Names with "dead" in them get no answer. The first answer to some
    names is a message with octets changed, and over TCP the only one."""
    def answer(server, asked, name):
        if name not in changed:
            return dead(server, asked, name) if "dead" in name else served(server, asked, name)
        by_udp, by_tcp = (with_id(asked, it)[:65535] for it in changed[name])
        return [by_tcp] if server.is_tcp else [by_udp, *plain()(server, asked, name)]
    return answer


def at_once(call, count):
    with concurrent.futures.ThreadPoolExecutor(CLIENTS) as pool:
        return list(pool.map(call, range(count)))


def send_malformed_queries(port):
    """By UDP and over TCP, where some end the connection."""
    for asked, rcode in [*NO_QUERIES.values(), *((it, FORMERR) for it in BROKEN_EDNS.values())]:
        reply = exchange(port, asked, 0.3 if rcode is None else MOST_SECONDS)
        with Stream(port) as stream:
            stream.sendall(framed(asked))
            by_tcp = stream.read()
        assert (reply and reply.rcode()) == (by_tcp and by_tcp.rcode()) == rcode


@pytest.mark.skipif(shutil.which("valgrind") is None, reason="valgrind is not installed")
@under("valgrind forwarder")
@pytest.mark.parametrize("threads", [1, 4])
def test_valgrind_reports_nothing(forwarder, threads):
    """Hits, misses, NXDOMAIN, aliases, refusals and TCP; malformed queries and responses; IPv4 and
    IPv6, of clients and of upstreams; an upstream whose port is closed, and names whose servers are
    dead; a client that leaves; and SIGTERM while queries wait."""
    changed = {}
    closed, *servers = [Server(), *(Server(upstream(changed), host=it) for it in HOSTS)]
    closed.stop()
    listens = [word for it in HOSTS[1:] for word in ("--listen", f"{it}@0")]
    it = forwarder(closed, *servers, options=("-q", "-t", str(threads), *listens))
    with datagrams(it.port) as client, Stream(it.port) as leaves:
        client.send(octets_of(query("dead.example")))
        leaves.put(query("dead.example"))
        it.wait_for("joined", 1)
    send_malformed_queries(it.port)
    replies = sum(at_once(lambda n: list(ask_all(it.port, n)), NAMES), [])
    assert [name for name, right, reply in replies if not is_right(reply, right)] == []
    for port, host in zip(it.ports, HOSTS):
        assert ask(port, host, "a1.example") == [address(1)]
    messages = real_messages()
    rcodes = at_once(lambda n: ask_for(it.port, changed, messages[n % len(messages)], n), CHANGED)
    assert {NOERROR, NXDOMAIN, SERVFAIL} == set(rcodes)
    assert it.ask("dead.example").rcode() == SERVFAIL
    queries = it.counters()["queries"]
    with datagrams(it.port) as client, Stream(it.port) as stream:
        client.send(octets_of(query("dead2.example")))
        stream.put(query("dead3.example"))
        it.wait_for("queries", queries + 2)
        it.process.send_signal(signal.SIGTERM)  # and the fixture wants its status
        assert read(client.recv(512)).rcode() == stream.read().rcode() == SERVFAIL
