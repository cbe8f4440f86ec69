# SPDX-License-Identifier: MIT
"""Names whose servers are dead, beside names that are answered: who gets a place for a fetch.

These tests go by steps and not by the clock. The test is the upstream and all clients, in one
thread, and takes a step once it has seen what the forwarder did at the one before. So a machine
that stalls makes them slower, and fails nothing; and where a share is missing, they fail at any
speed. Only a failure in a round in which the forwarder's tries may have ended counts for nothing.
"""
import itertools
import select
import socket
import struct
import time

import pytest

from tests.forwarder.harness import datagrams, octets_of, query, under

# A forwarder of one thread has fewer places for fetches than it may have descriptors.
DESCRIPTORS, OPTIONS = 64, ("-q", "-t", "1")
# So many rounds count. In each of them so many names are asked for that are answered. Few dead
# names are as many as have places for long enough, though all of them are alike.
ROUNDS, ANSWERED, FEW = 12, 5, 5
# More seconds than a fetch has in which it gives way to none that weighs as much.
GRACE = 0.25
# Where it took longer to answer a name, a failure does not count: all tries end after 3.8 seconds.
TRIES_END = 3
# The seconds in which the forwarder has to do something at all.
MOST_SECONDS = 60
ATTACKER, OTHERS = "127.0.0.2", "127.0.0.3"
# How names are spelled in each zone. Addresses that are turned round end in a /24 that is one
# network's, or are of as many networks as there are names.
ZONES = {
    "one /24": "{}{}.2.0.192.in-addr.arpa",
    "one /8": "{}{n}.{n}.10.in-addr.arpa",
    "co.uk": "www.{}{}.co.uk",
    "one domain": "{}{}.example.org",
}


def name_in(octets):
    """The name of a message's question, in lower case."""
    return octets[12:octets.index(0, 12) + 1].lower()


def answer(octets):
    """A response to a query for type TXT: a record of two octets."""
    end = octets.index(0, 12) + 5
    head = octets[:2] + struct.pack(">5H", 0x8180, 1, 1, 0, 0)
    return head + octets[12:end] + b"\xc0\x0c" + octets[end - 4:end] + b"\0\0\0\x3c\0\2\1a"


def is_answer(reply):
    return reply[3] & 15 == 0 and reply[7] == 1


class Upstream:
    """A name server that answers when it is told to."""

    def __init__(self):
        self.socket = socket.socket(socket.AF_INET, socket.SOCK_DGRAM)
        self.socket.bind(("127.0.0.1", 0))
        self.port, self.is_over = self.socket.getsockname()[1], False


class Stage:
    """A forwarder's upstream and clients. Of each name it has the query that came upstream last,
    and the reply that a client got."""

    def __init__(self, upstream, port):
        self.upstream, self.port = upstream.socket, port
        self.clients, self.asked, self.replies = {}, {}, {}
        self.numbers = itertools.count()

    def names(self, pattern, kind, count):
        return [pattern.format(kind, n, n=n) for n in itertools.islice(self.numbers, count)]

    def ask(self, source, names):
        """Asks for names, and waits until the forwarder asked for each, or answered."""
        if source not in self.clients:
            self.clients[source] = datagrams(self.port, source=source)
        sent = [octets_of(query(it, "TXT")) for it in names]
        for octets in sent:
            self.clients[source].send(octets)
        return self.wait(set(map(name_in, sent)), lambda it: it in self.asked or it in self.replies)

    def wait(self, names, is_done):
        """Takes what comes until something is done of all names, and answers these."""
        end = time.monotonic() + MOST_SECONDS
        while not all(map(is_done, names)):
            assert time.monotonic() < end, "the forwarder does nothing"
            for sock in select.select([self.upstream, *self.clients.values()], [], [], 1)[0]:
                octets, sender = sock.recvfrom(4096)
                if sock is self.upstream:
                    self.asked[name_in(octets)] = octets, sender
                else:
                    self.replies[name_in(octets)] = octets
        return names

    def answer(self, names):
        """Answers what was asked upstream of names: how many of them a client got no answer to."""
        for name in names & set(self.asked):
            octets, client = self.asked[name]
            self.upstream.sendto(answer(octets), client)
        self.wait(names, self.replies.__contains__)
        return sum(not is_answer(self.replies[it]) for it in names)


def failed(stage, attacker, dead, others, count):
    """Goes through the rounds: how many names were not answered. In each round the attacker asks
    for so many dead names, the others for names that the upstream answers later, and the attacker
    for dead ones again, when each fetch has had the time in which it gives way to none like it."""
    counted, missed = 0, 0
    while counted < ROUNDS:
        stage.ask(attacker, stage.names(dead, "dead", count))
        began = time.monotonic()
        names = stage.ask(OTHERS, stage.names(others, "a", ANSWERED))
        time.sleep(GRACE)
        stage.ask(attacker, stage.names(dead, "dead", count))
        unanswered = stage.answer(names)
        if unanswered == 0 or time.monotonic() - began < TRIES_END:
            counted, missed = counted + 1, missed + unanswered
    return missed


def fails_none(forwarder, attacker, dead, others, count):
    upstream = Upstream()
    it = forwarder(upstream, options=OPTIONS, descriptors=DESCRIPTORS)
    assert failed(Stage(upstream, it.port), attacker, dead, others, count) == 0
    assert it.counters()["displaced"] > ROUNDS


@under("forwarder")
@pytest.mark.parametrize("attacker, count", [(ATTACKER, DESCRIPTORS), (OTHERS, FEW)],
                         ids=["two clients", "one client"])
@pytest.mark.parametrize("pattern", ZONES.values(), ids=ZONES)
def test_dead_names_beside_others_of_the_zone(forwarder, pattern, attacker, count):
    """A client that takes all places with dead names has none of another client's fail; and one
    client that asks for few of both has none of its own fail."""
    fails_none(forwarder, attacker, pattern, pattern, count)


@under("forwarder")
@pytest.mark.parametrize("dead, count", [
    ("{}{}.dead.example", DESCRIPTORS), ("{}{n}.dead{n}", FEW)], ids=["one", "many"])
def test_dead_domains_starve_no_others(forwarder, dead, count):
    """One client asks for names of a domain whose servers are dead, more than there are places, or
    for few names of many such domains, and has none of its other names fail."""
    fails_none(forwarder, OTHERS, dead, "{}{}.example", count)
