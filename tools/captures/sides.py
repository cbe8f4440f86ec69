# SPDX-License-Identifier: MIT
"""On which side of a resolver a message is: between it and a `client`, or a `server`.

A resolver is known by its addresses, and also by a port if its servers have the same address: then
it is asked at that port alone, and what goes to another port is its own query to a server.
"""
from collections import Counter, defaultdict
from ipaddress import ip_address
from typing import NamedTuple

QR, RD = 0x8000, 0x0100


class Place(NamedTuple):
    """An address at which a resolver is asked, and the port there, or None for any port."""

    address: bytes
    port: int | None = None

    @classmethod
    def of(cls, text):
        """The place of a text: ADDRESS or ADDRESS@PORT."""
        address, at, port = text.partition("@")
        if at and not (port.isdecimal() and port.isascii() and 0 < int(port) < 65_536):
            raise ValueError("no port")
        return cls(ip_address(address).packed, int(port) if at else None)

    def __str__(self):
        address = str(ip_address(self.address))
        return address if self.port is None else f"{address}@{self.port}"


def flags_of(octets):
    return int.from_bytes(octets[2:4], "big")


def guess(messages, ports):
    """The places of the resolver. If an address is asked at several ports, it is the one at which
    most queries have RD set."""
    asks, recursive = Counter(), Counter()
    for it in messages:
        if it.kind == "message" and it.target.port in ports and not flags_of(it.octets) & QR:
            pair = it.source.address, it.target
            asks[pair] += 1
            recursive[pair] += bool(flags_of(it.octets) & RD)
    wishes = defaultdict(Counter)
    for (source, target), count in asks.items():
        wishes[target.address][target.port] += 2 * recursive[source, target] - count
    return {place for address in guessed_addresses(asks, recursive)
            for place in places_at(address, wishes[address])}


def places_at(address, wishes):
    """The places of an address, by how many more queries to a port have RD set than not."""
    ports = [port for port, more in wishes.items() if more > 0]
    if not ports or len(ports) == len(wishes):
        return [Place(address)]
    return [Place(address, it) for it in ports]


def guessed_addresses(asks, recursive):
    """The addresses of the resolver: those that are asked with RD set and ask others, and those
    that ask others with RD clear."""
    found = ({source for source, _ in asks}
             & {target.address for (_, target), count in recursive.items() if count})
    for (source, target), count in asks.items():
        if source not in found and target.address not in found:
            found.add(target.address if recursive[source, target] * 2 > count else source)
    return found


class Sides:
    """Where the resolver is, and signs that its places were not given correctly."""

    def __init__(self, places):
        self.places, self.addresses = frozenset(places), {it.address for it in places}
        # The ports at which an address given without a port was asked, and which of the resolver's
        # own addresses asked it.
        self.asked, self.own = {}, set()

    def is_resolver(self, peer):
        """Whether a query to there is one to the resolver."""
        return (peer.address, peer.port) in self.places or (peer.address, None) in self.places

    def of(self, it, is_response):
        """The side of the resolver on which a message is, or None."""
        asked, asking = (it.source, it.target) if is_response else (it.target, it.source)
        if self.is_resolver(asked):
            self.note(asked, asking)
            return "client"
        return "server" if asking.address in self.addresses else None

    def note(self, asked, asking):
        if (asked.address, None) in self.places:
            self.asked.setdefault(asked.address, set()).add(asked.port)
            if asking.address in self.addresses:
                self.own.add((asking.address, asked.address))

    def mistaken(self):
        """The places to which the resolver's own queries seem to have gone that count as a
        client's: at another of its addresses, or at one that was asked at several ports."""
        found = {Place(address, port) for asking, address in self.own
                 for port in self.asked[address]
                 if asking != address or len(self.asked[address]) > 1}
        return sorted(map(str, found))
