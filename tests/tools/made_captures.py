# SPDX-License-Identifier: MIT
"""Captures for the tests, made with dpkt: the same messages over other links, formats and paths."""
import io
import random
import struct

import pytest

dpkt = pytest.importorskip("dpkt")

UDP, TCP = dpkt.ip.IP_PROTO_UDP, dpkt.ip.IP_PROTO_TCP
SYN, FIN, ACK = dpkt.tcp.TH_SYN, dpkt.tcp.TH_FIN, dpkt.tcp.TH_ACK


def ip_packets(path):
    """The IP packets of an Ethernet capture with their times, as octets."""
    with open(path, "rb") as stream:
        return [(at, octets[14:]) for at, octets in dpkt.pcap.Reader(stream)]


# ---- links


def is_ip4(ip):
    return ip[0] >> 4 == 4


def ethertype(ip):
    return 0x0800 if is_ip4(ip) else 0x86DD


def vlan(ip, number=7):
    return dpkt.ethernet.VLANtag8021Q(id=number, type=ethertype(ip))


def ethernet(ip, *tags):
    return bytes(dpkt.ethernet.Ethernet(type=ethertype(ip), vlan_tags=tags, data=ip))


def cooked(ip, version=dpkt.sll.SLL):
    return bytes(version(ethtype=ethertype(ip), data=ip))


# Each link's type, and what makes its frame of an IP packet. Short frames have octets behind the
# packet on the wire.
LINKS = {
    "Ethernet": (1, ethernet), "padded Ethernet": (1, lambda ip: ethernet(ip) + b"\x5a" * 20),
    "VLAN": (1, lambda ip: ethernet(ip, vlan(ip))),
    "two VLANs": (1, lambda ip: ethernet(ip, vlan(ip, 9), vlan(ip))),
    "Linux cooked": (113, cooked), "Linux cooked v2": (276, lambda ip: cooked(ip, dpkt.sll2.SLL2)),
    "Linux cooked, VLAN": (113, lambda ip: bytes(
        dpkt.sll.SLL(ethtype=0x8100, data=vlan(ip).pack_hdr() + ip))),
    "raw": (101, bytes), "BSD raw": (12, bytes),
    "null": (0, lambda ip: struct.pack("<I", 2 if is_ip4(ip) else 30) + ip),
    "loop": (108, lambda ip: struct.pack(">I", 2 if is_ip4(ip) else 24) + ip),
}


# ---- files


def of_order(module, order, *names):
    """dpkt's classes of these names, for files whose octets are in that order."""
    form = {dpkt.pcap: "LE{}", dpkt.pcapng: "{}LE"}[module] if order == "<" else "{}"
    return [getattr(module, form.format(it)) for it in names]


def pcap(packets, link=1, order="<", nano=False):
    """A pcap file of packets of a link."""
    file_header, header = of_order(dpkt.pcap, order, "FileHdr", "PktHdr")
    magic, scale = (dpkt.pcap.TCPDUMP_MAGIC_NANO, 1000) if nano else (dpkt.pcap.TCPDUMP_MAGIC, 1)
    made = [bytes(file_header(magic=magic, snaplen=262_144, linktype=link))]
    for at, octets in packets:
        size, fraction = len(octets), round(at % 1 * 10**6) * scale
        made += bytes(header(tv_sec=int(at), tv_usec=fraction, caplen=size, len=size)), octets
    return b"".join(made)


def pcapng_by_dpkt(packets, link):
    """A pcapng file as dpkt's own writer makes it."""
    stream = io.BytesIO()
    dpkt.pcapng.Writer(stream, linktype=link).writepkts(packets)
    return stream.getvalue()


def pcapng(packets, links, order=">", power=9):
    """A pcapng file of several interfaces, in turn, whose units of time are powers of ten. A block
    of names stands among them, which is read over."""
    section, interface, option, packet = of_order(
        dpkt.pcapng, order, "SectionHeaderBlock", "InterfaceDescriptionBlock", "PcapngOption",
        "EnhancedPacketBlock")
    resolution = [option(code=dpkt.pcapng.PCAPNG_OPT_IF_TSRESOL, data=bytes([power])), option()]
    made = bytes(section())
    made += b"".join(bytes(interface(linktype=it, opts=resolution)) for it, _ in links)
    made += struct.pack(order + "2I8sI", 4, 20, b"a name", 20)
    for number, (at, ip) in enumerate(packets):
        time, which = round(at * 10**6) * 10**(power - 6), number % len(links)
        made += bytes(packet(iface_id=which, ts_high=time >> 32, ts_low=time & 0xFFFFFFFF,
                             pkt_data=links[which][1](ip)))
    return made


# ---- packets


def ip4(source, target, protocol, payload, number=1, start=0, more=0):
    """An IPv4 packet, or the fragment of one that begins at such a place and has more behind it."""
    return bytes(dpkt.ip.IP(src=source, dst=target, p=protocol, id=number, offset=start // 8,
                            mf=more, data=payload))


def ip6(source, target, protocol, payload):
    return bytes(dpkt.ip6.IP6(src=source, dst=target, nxt=protocol, plen=len(payload), hlim=64,
                              data=payload))


def ip(source, target, protocol, payload):
    return (ip4 if len(source) == 4 else ip6)(source, target, protocol, bytes(payload))


def udp(source, target, ports, payload):
    """A packet with a datagram."""
    return ip(source, target, UDP, dpkt.udp.UDP(
        sport=ports[0], dport=ports[1], ulen=8 + len(payload), data=payload))


def segment(source, target, ports, number, flags, payload=b""):
    return ip(source, target, TCP, dpkt.tcp.TCP(
        sport=ports[0], dport=ports[1], seq=number % 2**32, flags=flags, data=payload))


# ---- paths: fragments, and TCP in place of UDP


def fragments(packet, number, rng):
    """The fragments of a packet, in an order drawn at random."""
    payload, ends = bytes(packet.data), (packet.src, packet.dst)
    size = 8 * rng.randint(1, max(1, len(payload) // 16))
    made = []
    for at in range(0, len(payload), size):
        piece, more = payload[at:at + size], at + size < len(payload)
        if len(packet.src) == 4:
            made.append(ip4(*ends, UDP, piece, number & 0xFFFF, at, more))
        else:
            header = dpkt.ip6.IP6FragmentHeader(nxt=UDP, frag_off=at // 8, m_flag=more, id=number)
            made.append(ip6(*ends, dpkt.ip.IP_PROTO_FRAGMENT, bytes(header) + piece))
    rng.shuffle(made)
    return made


def segments(packet, number, rng):
    """The segments of a connection's one direction with one message: some twice, some early, some
    that begin within the one before."""
    ends = packet.src, packet.dst, (packet.data.sport, packet.data.dport)
    first = rng.choice([rng.randrange(2**32), 2**32 - 5])
    octets = struct.pack(">H", len(packet.data.data)) + packet.data.data
    size = rng.randint(1 + len(octets) // 40, len(octets))
    starts = [*range(0, len(octets), size)]
    starts += rng.choices(starts, k=2)
    starts += [max(0, at - rng.randint(1, 9)) for at in rng.choices(starts, k=2)]
    rng.shuffle(starts)
    yield segment(*ends, first, SYN)
    for at in starts:
        yield segment(*ends, first + 1 + at, ACK, octets[at:at + size])
    yield segment(*ends, first + 1 + len(octets), FIN | ACK)


def in_pieces(packets, cut, seed=1):
    """The packets, each whole datagram cut into packets."""
    rng = random.Random(seed)
    for number, (at, octets) in enumerate(packets):
        packet = (dpkt.ip.IP if is_ip4(octets) else dpkt.ip6.IP6)(octets)
        is_fragment = packet.mf or packet.offset if is_ip4(octets) else packet.nxt != UDP
        if is_fragment or not isinstance(packet.data, dpkt.udp.UDP):
            yield at, octets
        else:
            yield from ((at, it) for it in cut(packet, number + 70_000, rng))
