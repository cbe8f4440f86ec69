# SPDX-License-Identifier: MIT
"""DNS messages in captures of packets: pcap and pcapng, over UDP and TCP, IPv4 and IPv6.

dpkt reads the headers of links, IP, UDP and TCP. The files are read here, with a bound on each
length, since dpkt believes what a file says. IP fragments and TCP segments are put together here as
well, since dpkt does neither. A file is read as it comes, in bounded memory: if there are too many
fragments or connections, the oldest are given up.

Times are whole microseconds since 1970. What is not used is counted by reason in a `Counter`.
"""
import struct
from collections import OrderedDict
from typing import NamedTuple

import dpkt

from tools.captures.seen import CUT, MICROSECONDS, NoCapture, Peer, Seen

PACKET_MOST = 262_144
BLOCK_MOST, INTERFACES_MOST = 16 * 2**20, 65_536
FRAGMENTED_MOST, FRAGMENTED_SECONDS, PIECES_MOST = 1_000, 30, 64
STREAMS_MOST, STREAM_SECONDS, AHEAD_MOST, OCTETS_MOST = 10_000, 120, 64, 64 * 2**20
# What dpkt raises on malformed octets, RecursionError of many headers within each other.
ODD = (dpkt.UnpackError, struct.error, ValueError, IndexError, KeyError, TypeError, AttributeError,
       RecursionError)
UDP, TCP, ICMP, ICMP6 = 17, 6, 1, 58


def restrict(readers, kinds):
    """Has dpkt read these kinds of what is in a packet, and leave all else as octets."""
    for it in readers.keys() - kinds:
        del readers[it]


# dpkt would also read what is not needed here, and takes memory and time by the square of its size,
# as for the chunks of SCTP. So of IP it reads UDP and TCP, and of Ethernet what may have IP in it,
# and IPX, without which it fails.
restrict(dpkt.ip.IP._protosw, {UDP, TCP})
restrict(dpkt.ethernet.Ethernet._typesw,
         {0x0800, 0x86DD, 0x880B, 0x8864, 0x6558, dpkt.ethernet.ETH_TYPE_IPX})


# ---- files


def exactly(stream, size, may_end=False):
    """So many octets, or none if the file may end before the first."""
    octets = stream.read(size)
    if len(octets) < size and (octets or not may_end):
        raise EOFError
    return octets


PCAP = {
    b"\xd4\xc3\xb2\xa1": ("<", 1), b"\xa1\xb2\xc3\xd4": (">", 1),
    b"\x4d\x3c\xb2\xa1": ("<", 1000), b"\xa1\xb2\x3c\x4d": (">", 1000),
}
# How compressed files begin, by what compressed them.
COMPRESSED = {b"\x1f\x8b": "gzip", b"BZh": "bzip2", b"\xfd7zX": "xz", b"\x28\xb5\x2f\xfd": "zstd"}
SECTION, INTERFACE, OLD_PACKET, SIMPLE_PACKET, PACKET = 0x0A0D0D0A, 1, 2, 3, 6


def pcap_packets(stream, magic, counts):
    """The packets of a pcap file behind its first four octets: time, link type, octets."""
    order, per_microsecond = PCAP[magic]
    link = struct.unpack(order + "16xI", exactly(stream, 20))[0] & 0xFFFF
    while fields := exactly(stream, 16, may_end=True):
        seconds, fraction, size, _ = struct.unpack(order + "4I", fields)
        if size > PACKET_MOST:
            counts["file: a packet of more than 262,144 octets; the rest was not read"] += 1
            return
        at = seconds * MICROSECONDS + fraction // per_microsecond
        yield at, link, exactly(stream, size)


def options_of(octets, order):
    """The options of a pcapng block."""
    at = 0
    while at + 4 <= len(octets):
        code, size = struct.unpack_from(order + "2H", octets, at)
        yield code, octets[at + 4:at + 4 + size]
        at += 4 + (size + 3 & ~3)


class Interface(NamedTuple):
    """An interface of a pcapng section: its link type, units of time in a second, an offset."""

    link: int
    units: int
    offset: int

    @classmethod
    def of(cls, body, order):
        units, offset = 10**6, 0
        for code, value in options_of(body[8:], order):
            if code == 9 and value:
                units = 2 ** (value[0] & 127) if value[0] & 128 else 10 ** value[0]
            elif code == 14 and len(value) == 8:
                offset = struct.unpack(order + "q", value)[0]
        return cls(struct.unpack_from(order + "H", body)[0], units, offset)

    def time(self, high, low):
        return (high << 32 | low) * MICROSECONDS // self.units + self.offset * MICROSECONDS


def pcapng_blocks(stream, counts):
    """The blocks of a pcapng file behind its first four octets: octet order, type, body."""
    order, octets = None, b"\n\r\r\n"
    while octets:
        kind = SECTION if octets == b"\n\r\r\n" else struct.unpack(order + "I", octets)[0]
        first = exactly(stream, 8 if kind == SECTION else 4)
        if kind == SECTION:
            order = {b"\x1a\x2b\x3c\x4d": ">", b"\x4d\x3c\x2b\x1a": "<"}.get(first[4:])
            if order is None:
                raise NoCapture("a pcapng section has no byte-order magic")
        size = struct.unpack(order + "I", first[:4])[0]
        if size < 4 + len(first) + 4 or size % 4 or size > BLOCK_MOST:
            counts["file: a block of no lawful length; the rest was not read"] += 1
            return
        yield order, kind, exactly(stream, size - 4 - len(first))[:-4]
        octets = exactly(stream, 4, may_end=True)


def pcapng_packets(stream, counts):
    """The packets of a pcapng file: time, link type, octets."""
    interfaces, last = [], 0
    for order, kind, body in pcapng_blocks(stream, counts):
        try:
            if kind == SECTION:
                interfaces = []
            elif kind == INTERFACE:
                if len(interfaces) == INTERFACES_MOST:
                    counts["file: more than 65,536 interfaces; the rest was not read"] += 1
                    return
                interfaces.append(Interface.of(body, order))
            elif kind in (PACKET, OLD_PACKET):
                form = order + ("5I" if kind == PACKET else "2H4I")
                fields = struct.unpack_from(form, body)
                interface, (high, low, size) = interfaces[fields[0]], fields[-4:-1]
                last = interface.time(high, low)
                yield last, interface.link, body[20:20 + size]
            elif kind == SIMPLE_PACKET:
                # it has no time: that of the packet before it
                yield last, interfaces[0].link, body[4:]
        except (struct.error, IndexError):
            counts["file: a block that is not what its type says"] += 1


def packets_of(stream, counts):
    """The packets of a capture: time, link type, octets."""
    magic = stream.read(4)
    for begins, how in COMPRESSED.items():
        if magic.startswith(begins):
            raise NoCapture(f"it is compressed by {how}: decompress it first")
    if magic not in PCAP and magic != b"\n\r\r\n":
        raise NoCapture("it is neither pcap nor pcapng nor dnstap")
    try:
        if magic in PCAP:
            yield from pcap_packets(stream, magic, counts)
        else:
            yield from pcapng_packets(stream, counts)
    except (EOFError, struct.error):
        counts["file: it ends within a packet"] += 1


# ---- links


def raw(octets):
    return (dpkt.ip.IP if octets[:1] and octets[0] >> 4 == 4 else dpkt.ip6.IP6)(octets)


LINKS = {
    0: dpkt.loopback.Loopback, 108: dpkt.loopback.Loopback,
    1: dpkt.ethernet.Ethernet,
    12: raw, 14: raw, 101: raw, 228: raw, 229: raw,
    113: dpkt.sll.SLL, 276: dpkt.sll2.SLL2,
}


def ip_of(link, octets, counts):
    """The IP packet in a packet of a link, or None."""
    if link not in LINKS:
        counts[f"packet: link type {link}"] += 1
        return None
    packet = LINKS[link](octets)
    while not isinstance(packet, (dpkt.ip.IP, dpkt.ip6.IP6)):
        is_cooked = isinstance(packet, (dpkt.sll.SLL, dpkt.sll2.SLL2))
        is_tagged = is_cooked and isinstance(packet.data, bytes)
        packet = vlan(packet) if is_tagged else packet.data
        if isinstance(packet, bytes):
            counts["packet: not of IP, or not whole"] += 1
            return None
    return packet


def vlan(packet):
    """What is in a cooked packet behind VLAN tags, which dpkt reads on Ethernet alone; octets if
    that is not IP."""
    kind, at = packet.ethtype, 0
    while kind in (0x8100, 0x88A8):
        kind, at = struct.unpack_from(">H", packet.data, at + 2)[0], at + 4
    return {0x0800: dpkt.ip.IP, 0x86DD: dpkt.ip6.IP6}.get(kind, bytes)(packet.data[at:])


# ---- IP: fragments put together (RFC 791 section 3.2, RFC 8200 section 4.5)


class Fragments:
    """Datagrams of which some fragments have been seen."""

    def __init__(self, counts):
        self.counts, self.begun = counts, OrderedDict()

    def add(self, at, key, start, is_last, octets):
        """The whole payload, if this fragment completes it, or None."""
        self.forget(at)
        _, pieces, ends = self.begun.setdefault(key, (at, {}, set()))
        end = start + len(octets)
        if is_last:
            ends.add(end)
        overlaps = any(it < end and start < it + len(pieces[it]) for it in pieces
                       if (it, pieces[it]) != (start, octets))
        is_odd = len(pieces) == PIECES_MOST or len(ends) > 1 or end > 65_535
        if overlaps or is_odd:
            del self.begun[key]
            self.counts["packet: fragments that do not fit together"] += 1
            return None
        pieces[start] = octets
        if ends != {sum(map(len, pieces.values()))}:
            return None
        del self.begun[key]
        return b"".join(pieces[it] for it in sorted(pieces))

    def forget(self, at):
        """Gives up what is too old or too many."""
        while self.begun:
            oldest = next(iter(self.begun.values()))[0]
            is_young = at - oldest < FRAGMENTED_SECONDS * MICROSECONDS
            if is_young and len(self.begun) < FRAGMENTED_MOST:
                return
            self.begun.popitem(last=False)
            self.counts["packet: fragments of which the rest did not come"] += 1

    def whole(self, at, ip):
        """The protocol and the payload of a packet, or of a datagram that its fragment completes,
        or None."""
        if isinstance(ip, dpkt.ip.IP):
            header, protocol, start, more = ip, ip.p, ip.offset * 8, ip.mf
        else:
            header = next((it for it in ip.all_extension_headers
                           if isinstance(it, dpkt.ip6.IP6FragmentHeader)), None)
            if header is None:
                return ip.p, ip.data
            protocol, start, more = header.nxt, header.frag_off * 8, header.m_flag
        if not start and not more:
            return protocol, ip.data
        key = (ip.src, ip.dst, protocol, header.id)
        whole = self.add(at, key, start, not more, bytes(ip.data))
        return None if whole is None else (protocol, whole)


# ---- TCP: a connection's octets by their sequence numbers (RFC 9293 section 3.4)


class Stream:
    """One direction of a connection: the next sequence number, octets of a message, segments ahead
    of it, and the number behind the last octet, once a FIN was seen."""

    def __init__(self, at, next_number):
        self.at, self.next, self.octets, self.ahead = at, next_number, bytearray(), {}
        self.end = None

    def add(self, number, octets):
        """Takes a segment in, and those that can follow it now. Returns False if too many are
        ahead."""
        if self.behind(number + len(octets)) > 0:
            self.ahead[number] = max(octets, self.ahead.get(number, b""), key=len)
        while ready := [it for it in self.ahead if self.behind(it) <= 0]:
            for it in ready:
                segment = self.ahead.pop(it)
                if self.behind(it + len(segment)) > 0:
                    self.octets += segment[-self.behind(it):]
                    self.next = it + len(segment) & 0xFFFFFFFF
        return len(self.ahead) <= AHEAD_MOST

    @property
    def is_over(self):
        return self.end is not None and self.behind(self.end) <= 0

    @property
    def size(self):
        return len(self.octets) + sum(map(len, self.ahead.values()))

    def behind(self, number):
        """How far a number is behind the next one, or before it if that is below 0."""
        return (number - self.next + 2**31 & 0xFFFFFFFF) - 2**31

    def messages(self):
        """The messages that are complete, each behind its length (RFC 1035 section 4.2.2)."""
        while len(self.octets) >= 2:
            end = 2 + int.from_bytes(self.octets[:2], "big")
            if len(self.octets) < end:
                return
            yield bytes(self.octets[2:end])
            del self.octets[:end]


class Streams:
    """The connections of which the SYN was seen."""

    def __init__(self, counts):
        self.counts, self.open, self.size = counts, OrderedDict(), 0

    def messages(self, at, source, target, tcp):
        """The messages that a segment completes."""
        key, payload = (source, target), tcp.data
        if tcp.flags & dpkt.tcp.TH_SYN:
            self.close(key)
            self.forget(at)
            self.open[key] = Stream(at, tcp.seq + 1 & 0xFFFFFFFF)
        stream = self.open.get(key)
        if stream is None:
            if payload:
                self.counts["segment: of a TCP connection whose beginning or part is missing"] += 1
            return
        stream.at, before = at, stream.size
        self.open.move_to_end(key)
        number = tcp.seq + (1 if tcp.flags & dpkt.tcp.TH_SYN else 0) & 0xFFFFFFFF
        is_kept = not payload or stream.add(number, payload)
        yield from list(stream.messages())
        self.size += stream.size - before
        if tcp.flags & dpkt.tcp.TH_FIN:
            stream.end = number + len(payload) & 0xFFFFFFFF
        if not is_kept or stream.is_over or tcp.flags & dpkt.tcp.TH_RST:
            self.close(key)
        self.forget(at)

    def close(self, key):
        stream = self.open.pop(key, None)
        if stream and stream.size:
            self.size -= stream.size
            self.counts["segment: of a TCP message that is not whole"] += 1

    def forget(self, at):
        """Gives up what is too old or too many."""
        while self.open:
            key, oldest = next(iter(self.open.items()))
            is_young = at - oldest.at < STREAM_SECONDS * MICROSECONDS
            if is_young and len(self.open) < STREAMS_MOST and self.size < OCTETS_MOST:
                return
            self.close(key)


# ---- messages


class Capture:
    """The DNS messages in captures, one file after another."""

    def __init__(self, counts, ports=(53,)):
        self.counts, self.ports = counts, frozenset(ports)
        self.fragments, self.streams = Fragments(counts), Streams(counts)

    def messages(self, stream):
        """What was seen in a file, in its order."""
        for at, link, octets in packets_of(stream, self.counts):
            if len(octets) > PACKET_MOST:
                # a block of pcapng may be longer
                self.counts["packet: of more than 262,144 octets"] += 1
                continue
            try:
                ip = ip_of(link, octets, self.counts)
                if ip is not None:
                    yield from self.seen(at, ip)
            except ODD:
                self.counts["packet: headers that are not what they should be"] += 1

    def end(self):
        """Counts what is incomplete at the end of the last file."""
        left = {"packet: fragments of which the rest is not in the capture":
                len(self.fragments.begun),
                "segment: of a TCP message of which the rest is not in the capture":
                sum(1 for it in self.streams.open.values() if it.size)}
        self.counts.update({reason: count for reason, count in left.items() if count})

    def seen(self, at, ip):
        """What was seen in a packet."""
        whole = self.fragments.whole(at, ip)
        if whole is None:
            return
        protocol, payload = whole
        if protocol in TAKEN:
            form, take = TAKEN[protocol]
            header = payload if isinstance(payload, form) else form(payload)
            if not self.is_elsewhere(header):
                ends = Peer(ip.src, header.sport), Peer(ip.dst, header.dport)
                yield from take(self, at, *ends, header)
        elif protocol in (ICMP, ICMP6):
            yield from self.unreachable(at, protocol, bytes(payload))
        else:
            self.counts["packet: neither UDP nor TCP"] += 1

    def is_elsewhere(self, header):
        """Whether neither port is one of the DNS."""
        if header.sport in self.ports or header.dport in self.ports:
            return False
        encrypted = {header.sport, header.dport} & {853, 443}
        self.counts["packet: of encrypted DNS or other ports" if encrypted else
                    "packet: of other ports"] += 1
        return True

    def datagram(self, at, source, target, udp):
        size, octets = udp.ulen - 8, udp.data
        if 0 <= size <= len(octets):
            yield Seen(at, source, target, octets[:size])
        elif 12 <= len(octets) < size and octets[2] & 128:
            yield Seen(at, source, target, octets, kind="cut")
        else:
            self.counts[CUT] += 1

    def segment(self, at, source, target, tcp):
        for octets in self.streams.messages(at, source, target, tcp):
            yield Seen(at, source, target, octets)

    def unreachable(self, at, protocol, octets):
        """The datagram that an ICMP message says was not delivered."""
        if octets[:1] != (b"\3" if protocol == ICMP else b"\1"):
            return
        inner = raw(octets[8:])
        header = bytes(inner.data)
        if inner.p == UDP and len(header) >= 8:
            source, target = struct.unpack_from(">2H", header)
            yield Seen(at, Peer(inner.src, source), Peer(inner.dst, target), b"",
                       kind="unreachable")


# What reads the header of a protocol, and what takes its payload.
TAKEN = {UDP: (dpkt.udp.UDP, Capture.datagram), TCP: (dpkt.tcp.TCP, Capture.segment)}
