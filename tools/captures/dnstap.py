# SPDX-License-Identifier: MIT
"""Messages in dnstap files: protobuf records in frame streams, as resolvers write them.

Of the formats, fstrm's frame streams, protocol buffers and dnstap.proto of dnstap.info, Debian's
Python has protobuf alone, which needs a compiled schema. So the few fields that are needed are read
here.
"""
from operator import index

from tools.captures.seen import MICROSECONDS, NoCapture, Peer, Seen
from tools.messages import MESSAGE_MOST, name_at

ESCAPE, FRAME_MOST = b"\0\0\0\0", 2**20
CONTROL_STOP = 3
CONTENT_TYPE = b"protobuf:dnstap.Dnstap"
DNSTAP_MESSAGE = 14
# The fields of a message. A query and a response have seconds, nanoseconds and octets each.
TYPE, QUERY_ADDRESS, RESPONSE_ADDRESS, QUERY_PORT, RESPONSE_PORT, ZONE = 1, 4, 5, 6, 7, 11
QUERY, RESPONSE = (8, 9, 10), (12, 13, 14)
# The QR bit, in the third octet of a DNS message (RFC 1035 section 4.1.1).
QR_OCTET, QR_BIT = 2, 128
# What a message is, by its type: the side, and whether it is a query or a response.
ROLES = {
    3: ("server", QUERY), 4: ("server", RESPONSE), 5: ("client", QUERY), 6: ("client", RESPONSE),
    7: ("server", QUERY), 8: ("server", RESPONSE),
}
FORWARDER = (7, 8)


def is_dnstap(beginning):
    """Whether a file with these first octets is a frame stream."""
    return beginning[:4] == ESCAPE


def frames(stream, counts):
    """The data frames of a stream; a control frame stands behind an empty one."""
    is_first = True
    while size := stream.read(4):
        is_control = size == ESCAPE
        size = stream.read(4) if is_control else size
        length = int.from_bytes(size, "big")
        if len(size) < 4 or length > FRAME_MOST:
            counts["file: a frame of no lawful length; the rest was not read"] += 1
            return
        frame = stream.read(length)
        if len(frame) < length:
            counts["file: it ends within a frame"] += 1
            return
        if is_first and CONTENT_TYPE not in frame:
            raise NoCapture("its frame stream is not dnstap")
        is_first = False
        if not is_control:
            yield frame
        elif frame[:4] == CONTROL_STOP.to_bytes(4, "big"):
            return


def varint(octets, at):
    """The number at a place, seven bits in each of at most ten octets, and the place behind it."""
    value = 0
    for place in range(10):
        value |= (octets[at + place] & 127) << 7 * place
        if not octets[at + place] & 128:
            return value, at + place + 1
    raise ValueError("a number of more than ten octets")


def fields(octets):
    """The fields of a protobuf record by number; the last, if several have one number."""
    found, at = {}, 0
    while at < len(octets):
        tag, at = varint(octets, at)
        kind = tag & 7
        if kind == 0:
            found[tag >> 3], at = varint(octets, at)
            continue
        size, at = varint(octets, at) if kind == 2 else ({1: 8, 5: 4}[kind], at)
        if at + size > len(octets):
            raise IndexError
        value = octets[at:at + size]
        found[tag >> 3] = value if kind == 2 else int.from_bytes(value, "little")
        at += size
    return found


def zone_of(message):
    """The zone that a message names, in wire form; the root, if a forwarder names none."""
    zone = message.get(ZONE, b"\0" if message[TYPE] in FORWARDER else None)
    if zone is not None and name_at(zone, 0, len(zone)) != (zone, len(zone)):
        raise ValueError("no name in wire form")
    return zone


def contradicts(kind, octets):
    """Whether octets have the QR bit of the other kind. Their sender chose the bit: a query of a
    client could pass for a SERVFAIL to it, and a response of a server for a query to a server."""
    return len(octets) > QR_OCTET and bool(octets[QR_OCTET] & QR_BIT) != (kind == RESPONSE)


def seen(message):
    """What was seen, by a dnstap message."""
    side, kind = ROLES[message[TYPE]]
    # unbound 1.17 names another port of its own in a response than in the query
    port = message.get(QUERY_PORT, 0) if side == "client" else 0
    asker = Peer(message.get(QUERY_ADDRESS, b""), port)
    server = Peer(message.get(RESPONSE_ADDRESS, b""), message.get(RESPONSE_PORT, 0))
    ends = (asker, server) if kind == QUERY else (server, asker)
    seconds, nanoseconds, octets = kind
    # octets in place of the seconds would be repeated a million times
    at = index(message[seconds]) * MICROSECONDS + message.get(nanoseconds, 0) // 1000
    if len(message[octets]) > MESSAGE_MOST:
        raise ValueError("more octets than a message has")
    if contradicts(kind, message[octets]):
        raise ValueError("a query in place of a response, or a response in place of a query")
    return Seen(at, *ends, message[octets], side, zone_of(message))


def messages(stream, counts):
    """What was seen, by a resolver's dnstap messages, in the order of the file."""
    for frame in frames(stream, counts):
        try:
            message = fields(fields(frame)[DNSTAP_MESSAGE])
            if message[TYPE] in ROLES:
                yield seen(message)
            else:
                counts["frame: neither a client's nor an upstream message"] += 1
        except (KeyError, IndexError, TypeError, ValueError):
            counts["frame: not what it should be"] += 1
