# SPDX-License-Identifier: MIT
"""Responses that a resolver parsed itself: once they are written as messages, what is read of these
is what is read of the octets that were parsed. They are parsed by dnspython and by the reader of
tools/messages.py, and written by the package and by the header's own function."""
import contextlib
import random
import re
import shutil
import subprocess
from collections import Counter
from ctypes import (CDLL, POINTER, Structure, byref, c_bool, c_char_p, c_size_t, c_uint, c_uint8,
                    c_uint16, c_uint32, create_string_buffer)

import dns.exception
import dns.message
import dns.rdatatype
import pytest
from dns.flags import AA, TC

import rrcache
from rrcache import Kind, ParsedSet, Query, compose_response
from rrcache.shelf import with_lengths
from tests.forwarder.harness import BUILD, ID, answered, wire_name
from tests.python.test_relevant import RELEVANT
from tools import messages, traces
from tools.grammar import Drawn
from tools.rows import content, rows

PARTS = rrcache.Parts(16, bytes(range(16)))
NAME, OTHER, ADDRESSES = "www.example.", "other.example.", [bytes([192, 0, 2, it]) for it in (1, 2)]
QUERY, ONE = Query(NAME, 1, ID), ParsedSet(NAME, 1, 60, ADDRESSES[:1])
MOST = 65_535


# ---- Where responses come from, each with the zone whose server sent it.

def of_rows():
    """Those of all rows, and those of test_relevant.py."""
    texts = b"".join(content(it, "trace") for it in rows().values())
    for line in sorted(set(re.findall(rb"^response (\d+) (\S+) (\w+)$", texts, re.M))):
        with contextlib.suppress(traces.BadLine):
            yield traces.response(*line).rest
    for octets, _ in RELEVANT.values():
        yield wire_name("example"), octets


NAMES = ["example", "a.example", "A.Example", "b.a.example", "ns.example", "mx.b.a.example",
         "c.b.a.example", "ns.other"]
DATA = {"A": "192.0.2.{1}", "AAAA": "2001:db8::{1}", "NS": "{0}", "CNAME": "{0}", "DNAME": "{0}",
        "MX": "{1} {0}", "SRV": "1 {1} 53 {0}", "SOA": "{0} {0} {1} 2 3 4 60", "PTR": "{0}",
        "DS": "{1} 8 2 " + 32 * "ab", "TXT": "{1}", "NSEC": "{0} A NS"}


def drawn_records(rng, rtypes, most):
    """Records of few owners and types, most of which have one TTL."""
    for _ in range(rng.randrange(most)):
        owner, rtype = rng.choice(NAMES), rng.choice(rtypes)
        data = DATA[rtype].format(rng.choice(NAMES), rng.randrange(4))
        yield f"{owner} {rng.choice([60, 60, 60, 60, 0, 604_801])} {rtype} {data}"


def drawn():
    """Those that are drawn at random, of few names that lead to one another."""
    rng = random.Random(1)
    for _ in range(1500):
        asked = rng.choice(["A", "A", "A", "NS", "MX", "CNAME", "DS", "TXT", "ANY"])
        often = [asked if asked in DATA else "A", "A", "A", "CNAME", "CNAME", "NS", "MX", *DATA]
        octets = answered(
            rng.choice(NAMES), asked, *drawn_records(rng, often, 6),
            authority=drawn_records(rng, ["NS", "NS", "SOA", *DATA], 4),
            additional=drawn_records(rng, ["A", "AAAA", *DATA], 6),
            rcode=rng.choice([0, 0, 0, 0, 3, 2]), flags=rng.choice([AA, AA, 0, 0, 0, AA | TC]))
        yield wire_name(rng.choice(["example", "example", "a.example", "."])), octets


def of_grammar():
    """Those that bin/fuzz draws, lawful ones and odd ones, of all types and classes."""
    rng = random.Random(2)
    for _ in range(1500):
        maker = Drawn(rng)
        yield traces.name_of(maker.zone().encode()), maker.message()


# ---- What they are parsed to: a query, the RRsets of three sections, and the header's flags. None
# where octets cannot be parsed.

def by_model(octets):
    """Each record that is kept, as a set of its own."""
    try:
        told = messages.read(octets)
    except messages.MessageFault:
        return None
    sections = [[ParsedSet(it.owner, it.rtype, it.ttl, [it.data], it.rclass) for it in section]
                for section in told.sections]
    query = Query(told.name, told.rtype, int.from_bytes(octets[:2], "big"), told.rclass)
    return query, sections, told.flags


def by_dnspython(octets, **others):
    """Each RRset, but for what has a type or a class of 0."""
    try:
        told = dns.message.from_wire(octets, **others)
        question, = told.question
    except (dns.exception.DNSException, ValueError):
        return None
    sections = [[ParsedSet(it.name.to_wire(), it.rdtype, it.ttl, [data.to_wire() for data in it],
                           it.rdclass) for it in section if it.rdtype and it.rdclass and len(it)]
                for section in told.sections[1:]]
    query = Query(question.name.to_wire(), question.rdtype, told.id, question.rdclass)
    return query, sections, told.flags


def by_records(octets):
    """Each record, as a set of its own. dnspython reads some octets otherwise than we do: a TTL
    above 2^31 - 1 as 0 (RFC 2181 section 8), and names where data should have none compressed."""
    told = by_dnspython(octets, one_rr_per_rrset=True)
    kept = told and [[it for it in section if messages.is_kept(it.rtype, it.rclass)]
                     for section in told[1]]
    wanted = by_model(octets)
    return told if told and wanted and kept == wanted[1] else None


def by_sets(octets):
    """Each RRset, where all of them have one TTL each, and dnspython keeps all of their records."""
    told = by_records(octets)
    for section in told[1] if told else []:
        ttls = {(it.owner.lower(), it.rtype, it.rclass): it.ttl for it in section}
        if any(it.ttl != ttls[it.owner.lower(), it.rtype, it.rclass] for it in section):
            return None
        alone = [it.owner.lower() for it in section if dns.rdatatype.is_singleton(it.rtype)]
        if len(alone) != len(set(alone)):
            return None
    return told and by_dnspython(octets)


def composed(parsed):
    query, sections, flags = parsed
    return compose_response(query, *sections, rcode=flags & 15, aa=bool(flags & 0x400),
                            tc=bool(flags & 0x200), ra=bool(flags & 0x80))


# ---- The header's own function.

class CQuery(Structure):
    _fields_ = [("name", c_char_p), ("name_size", c_size_t), ("id", c_uint16), ("rtype", c_uint16),
                ("rclass", c_uint16), ("with_case", c_bool)]


class CParsedSet(Structure):
    _fields_ = [("owner", c_char_p), ("owner_size", c_size_t), ("rtype", c_uint16),
                ("rclass", c_uint16), ("ttl", c_uint32), ("section", c_uint), ("data", c_char_p),
                ("data_size", c_size_t)]


class CParsedResponse(Structure):
    _fields_ = [("rcode", c_uint8), ("aa", c_bool), ("tc", c_bool), ("ra", c_bool),
                ("sets", POINTER(CParsedSet)), ("count", c_size_t)]


CALL = """#include "rrcache.h"
uint32_t composed(const struct rrcache_query *query, const struct rrcache_parsed_response *parsed,
                  uint8_t *buffer, size_t room, size_t *size)
{
    return rrcache_compose_response(query, parsed, buffer, room, size);
}
"""


@pytest.fixture(scope="module")
def by_c(tmp_path_factory):
    """What the header's function writes of what was parsed. It calls nothing of the library."""
    if shutil.which("cc") is None:
        pytest.skip("there is no compiler of C here")
    made = tmp_path_factory.mktemp("composed") / "composed.so"
    subprocess.run(["cc", "-std=c99", "-O1", "-shared", "-fPIC", f"-I{BUILD.parent / 'include'}",
                    "-xc", "-", "-o", made], input=CALL, text=True, check=True)
    call, buffer, size = CDLL(str(made)).composed, create_string_buffer(MOST), c_size_t()

    def written(parsed):
        query, sections, flags = parsed
        sets = [CParsedSet(it.owner, len(it.owner), it.rtype, it.rclass, it.ttl, number, data,
                           len(data))
                for number, section in enumerate(sections, 1) for it in section
                for data in [with_lengths(it.data)]]
        asked = CQuery(query.name, len(query.name), query.id, query.rtype, query.rclass)
        told = CParsedResponse(flags & 15, flags & 0x400, flags & 0x200, flags & 0x80,
                               (CParsedSet * len(sets))(*sets), len(sets))
        status = call(byref(asked), byref(told), buffer, c_size_t(MOST), byref(size))
        assert status == rrcache.Status.DONE
        return buffer.raw[:size.value]
    return written


# ---- What is read of both.

def read(octets, query, zone):
    """All that is told of the offers of a response, or None where it answers another query."""
    try:
        with rrcache.read_response(octets, zone, query, PARTS, 100) as offers:
            return [(name.octets, name.part, it, it.entry) for name, it in offers]
    except rrcache.OtherQuery:
        return None


def read_of(responses, parse):
    """Of each response that can be parsed what was, and what is read of it. Those of another opcode
    and those whose question has a pointer, or a type or a class of 0, are no response of ours."""
    for zone, octets in responses:
        parsed = parse(octets)
        if parsed and not parsed[2] & 0x7800 and parsed[0].rtype and parsed[0].rclass:
            found = read(octets, parsed[0], zone)
            if found is not None:
                yield zone, parsed, found


@pytest.mark.parametrize("parse, responses, least", [
    (by_model, of_rows, 150), (by_records, of_rows, 135), (by_sets, of_rows, 120),
    (by_model, drawn, 1500), (by_records, drawn, 1500), (by_sets, drawn, 1000),
    (by_model, of_grammar, 1200), (by_records, of_grammar, 300)])
def test_what_was_parsed_is_read(parse, responses, least, by_c):
    compared, kinds = 0, Counter()
    for zone, parsed, found in read_of(responses(), parse):
        message = composed(parsed)
        assert read(message, parsed[0], zone) == found
        assert by_c(parsed) == message
        compared += 1
        kinds.update(reply.kind for _, _, reply, _ in found)
    assert compared >= least
    assert set(kinds) == {Kind.FRESH, Kind.NODATA, Kind.NXDOMAIN, Kind.FAILED}


def with_text(size):
    """A response to QUERY with a text of so many octets before two addresses of other.example, as
    `by_c` takes it."""
    data = [bytes(min(1000, size - at)) for at in range(0, size, 1000)]
    return QUERY._replace(name=wire_name(NAME)), [
        [ParsedSet(wire_name(NAME), 16, 60, data), ParsedSet(wire_name(OTHER), 1, 60, ADDRESSES)],
        [], []], 0x8400


def test_far_owners(by_c):
    """No pointer leads to a place from 0x4000 on (RFC 1035 section 4.1.4)."""
    sizes = []
    for size in range(16_100, 16_200):
        message = composed(with_text(size))
        assert message == by_c(with_text(size)) and not rrcache.fault(message)
        assert len(dns.message.from_wire(message, one_rr_per_rrset=True).answer) == 17 + 2
        sizes.append(len(message))
    # One that stands at 0x4000 is written whole again, with 15 octets in place of 2.
    assert [other - one for one, other in zip(sizes, sizes[1:])].count(14) == 1


def test_long_messages(by_c):
    # A text of so many octets has one more record than one of 64,000, of 12 octets and its data.
    size = 64_000 + MOST - len(composed(with_text(64_000))) - 12
    message = composed(with_text(size))
    assert len(message) == MOST and by_c(with_text(size)) == message
    with pytest.raises(ValueError, match="65,535"):
        composed(with_text(size + 1))


@pytest.mark.parametrize("status, query, one, rcode", [
    (11, QUERY, ONE, 16), (11, QUERY, ONE, -1),
    (12, QUERY, ONE._replace(rtype=0), 0), (12, QUERY, ONE._replace(rclass=0), 0),
    (12, QUERY._replace(rtype=0), ONE, 0), (12, QUERY._replace(rclass=0), ONE, 0),
    (9, QUERY._replace(name=b"\3ww"), ONE, 0), (9, QUERY, ONE._replace(owner=b"\xc0\x0c"), 0),
    (9, QUERY, ONE._replace(owner=b""), 0), (9, QUERY, ONE._replace(owner=b"\0\0"), 0),
    (9, QUERY, ONE._replace(owner=128 * b"\1a" + b"\0"), 0), (14, QUERY, ONE._replace(data=[]), 0)])
def test_what_is_refused(status, query, one, rcode):
    with pytest.raises(rrcache.Refused) as refused:
        compose_response(query, [ONE], [], [one], rcode=rcode)
    assert refused.value.status == status


@pytest.mark.parametrize("query, one", [
    (QUERY._replace(id=65_536), ONE), (QUERY, ONE._replace(ttl=2**32)),
    (QUERY, ONE._replace(rtype=65_536)), (QUERY, ONE._replace(data=[bytes(65_536)]))])
def test_numbers_without_room(query, one):
    with pytest.raises(ValueError):
        compose_response(query, [one])


def test_flags_that_are_numbers():
    """A flag may be a number, of which no bit gets into the opcode or RD."""
    for flags in ({"aa": 2}, {"tc": 4}, {"ra": 0x80}):
        truth = dict.fromkeys(flags, True)
        assert compose_response(QUERY, [ONE], **flags) == compose_response(QUERY, [ONE], **truth)
