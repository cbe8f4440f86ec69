# SPDX-License-Identifier: MIT
"""What a response comes to for its question, and what a caller chooses of how it is read."""
import pytest
from dns.flags import AA, RA, TC
from dns.rcode import NOERROR, NXDOMAIN, REFUSED, SERVFAIL, YXDOMAIN
from dns.rdatatype import A, AAAA, ANY, CNAME, MX, RRSIG, TXT

import rrcache
from rrcache import Kind, ResponseKind
from tests.forwarder.harness import ID, SOA, aliases, answered, hosts, wire_name

NAME, SEED = "a.example", bytes(range(16))
PARTS = rrcache.Parts(16, SEED)
NS = ["a.example 60 NS ns.a.example"]  # servers of a zone below the one that was asked
UNEQUAL = ["a.example 60 A 192.0.2.1", "a.example 30 A 192.0.2.2"]


def read(octets, name=NAME, rtype=A, zone="example", **choices):
    query = rrcache.Query(name, rtype, ID)
    return rrcache.read_response(octets, zone, query, PARTS, 100, **choices)


def to_a(*answer, **others):
    return answered(NAME, A, *answer, **others)


def ring(number):
    """Aliases that come back to the first one."""
    names = [NAME, *(f"x{it}.example" for it in range(number))]
    return aliases([*names, NAME])


def chain(number):
    """So many aliases, and an address at their end."""
    names = [NAME, *(f"x{it}.example" for it in range(number))]
    return [*aliases(names), *hosts(names[-1])]


# Responses of a server of example. to a question about a.example., and what they come to: RFC 1034
# sections 4.3.2 and 5.3.3, RFC 2308 section 2, RFC 2181 section 5.2.
KINDS = {
    "data": (to_a(*hosts(NAME)), ResponseKind.ANSWER),
    "data in another case": (to_a(*hosts("A.Example")), ResponseKind.ANSWER),
    "data behind aliases": (to_a(*chain(16)), ResponseKind.ANSWER),
    "data behind more aliases than are followed": (to_a(*chain(17)), ResponseKind.UNUSABLE),
    "data of another name": (to_a(*hosts("b.example"), flags=0), ResponseKind.UNUSABLE),
    "data with unequal TTLs, AA": (to_a(*UNEQUAL), ResponseKind.ANSWER),
    "data with unequal TTLs": (to_a(*UNEQUAL, flags=0), ResponseKind.UNEQUAL_TTLS),
    "data, and RCODE NXDOMAIN": (to_a(*hosts(NAME), rcode=NXDOMAIN), ResponseKind.ANSWER),
    "no data, by a SOA record": (to_a(authority=[SOA], flags=0), ResponseKind.NODATA),
    "no data behind an alias": (to_a(*aliases([NAME, "b.example"]), authority=[SOA]),
                                ResponseKind.NODATA),
    "no data, by a SOA record beside NS": (to_a(authority=[*NS, SOA], flags=0),
                                           ResponseKind.NODATA),
    "no data, by AA": (to_a(), ResponseKind.NODATA),
    "no data, by RA": (to_a(flags=RA), ResponseKind.NODATA),
    "no data, by no one": (to_a(flags=0), ResponseKind.UNUSABLE),
    "no data, by the SOA record of another zone": (
        to_a(authority=[SOA.replace("example", "b.example", 1)], flags=0), ResponseKind.UNUSABLE),
    "no such name": (to_a(authority=[SOA], rcode=NXDOMAIN), ResponseKind.NXDOMAIN),
    "no such name, with no SOA record": (to_a(rcode=NXDOMAIN, flags=0), ResponseKind.NXDOMAIN),
    "no such name behind an alias": (to_a(*aliases([NAME, "b.example"]), rcode=NXDOMAIN),
                                     ResponseKind.NXDOMAIN),
    "no such name, and a record of it": (to_a("a.example 60 TXT A", rcode=NXDOMAIN),
                                         ResponseKind.UNUSABLE),
    "a referral with AA": (to_a(authority=NS), ResponseKind.UNUSABLE),
    "servers of the zone itself": (to_a(authority=["example 60 NS ns.example"], flags=0),
                                   ResponseKind.UNUSABLE),
    "servers of the root": (to_a(authority=[". 60 NS ns.example"], flags=0),
                            ResponseKind.UNUSABLE),
    "servers of another zone below": (to_a(authority=["b.example 60 NS ns.example"], flags=0),
                                      ResponseKind.UNUSABLE),
    "aliases in a ring": (to_a(*ring(3)), ResponseKind.UNUSABLE),
    "SERVFAIL": (to_a(rcode=SERVFAIL), ResponseKind.FAILURE),
    "REFUSED": (to_a(rcode=REFUSED, flags=0), ResponseKind.FAILURE),
    "YXDOMAIN, with data": (to_a(*hosts(NAME), rcode=YXDOMAIN), ResponseKind.FAILURE),
    "a truncated response": (to_a(*hosts(NAME), flags=AA | TC), ResponseKind.UNUSABLE),
}


@pytest.mark.parametrize("octets, kind", KINDS.values(), ids=KINDS)
def test_kinds(octets, kind):
    with read(octets) as offers:
        summary = offers.summary
    assert (summary.kind, summary.name) == (kind, None)
    assert (summary.rcode, summary.aa, summary.tc) == (
        octets[3] & 15, octets[2] & 4 != 0, octets[2] & 2 != 0)


OUT = "www.other.test"
# The same, and the name that each leads to.
LEADS = {
    "a referral": (to_a(authority=NS, flags=0), ResponseKind.REFERRAL, NAME),
    "a referral of two, by the first that the name is in": (
        to_a(authority=["b.example 60 NS ns.example", *NS], flags=0), ResponseKind.REFERRAL, NAME),
    "an alias": (to_a(*aliases([NAME, "B.example"])), ResponseKind.ALIAS, "b.example"),
    "an alias of a name below a referral": (
        to_a(*aliases([NAME, "x.b.example"]), authority=["b.example 60 NS ns.b.example"]),
        ResponseKind.ALIAS, "x.b.example"),
    "an alias of a name outside the zone, with its data": (
        to_a(*aliases([NAME, OUT]), *hosts(OUT)), ResponseKind.ALIAS, OUT),
    "an alias of a name outside the zone, that does not exist": (
        to_a(*aliases([NAME, OUT]), rcode=NXDOMAIN), ResponseKind.ALIAS, OUT),
    "aliases that lead out of the zone and back": (
        to_a(*aliases([NAME, OUT, "b.example"]), *hosts("b.example")), ResponseKind.ALIAS, OUT),
}


@pytest.mark.parametrize("octets, kind, name", LEADS.values(), ids=LEADS)
def test_kinds_that_lead_to_a_name(octets, kind, name):
    """The name is made as `make_name` makes it."""
    with read(octets) as offers:
        summary = offers.summary
    made = rrcache.make_name(name, PARTS)
    assert summary.kind == kind and summary.name is not None
    assert (summary.name.octets, summary.name.part) == (wire_name(name), made.part)
    with rrcache.Shelf(seed=SEED) as shelf:
        assert shelf.peek(summary.name, A, 100).kind == Kind.MISS


def test_names_that_are_equal():
    """A resolver that notes the names to which responses lead finds each of them again."""
    made = [rrcache.make_name(name, rrcache.Parts(count, seed)) for name in (OUT, OUT.upper())
            for count, seed in ((1, SEED), (16, SEED[::-1]))]
    octets = to_a(*aliases([NAME, OUT]))
    with read(octets) as one, read(octets) as other:
        assert one.summary == other.summary and {one.summary.name, *made} == {made[0]}
    assert made[0] not in (rrcache.make_name(NAME, PARTS), OUT, made[0].octets)


@pytest.mark.parametrize("name, rtype, answer, rcode, kind", [
    (NAME, CNAME, aliases([NAME, OUT]), NOERROR, ResponseKind.ANSWER),
    (NAME, CNAME, [], NOERROR, ResponseKind.NODATA),
    (NAME, ANY, ["a.example 60 TXT A", *aliases([NAME, OUT])], NOERROR, ResponseKind.ANSWER),
    (NAME, ANY, [], NOERROR, ResponseKind.NODATA),
    # Records of a type that is not kept are read over.
    (NAME, RRSIG, [], NOERROR, ResponseKind.UNUSABLE),
    (NAME, RRSIG, aliases([NAME, "b.example"]), NOERROR, ResponseKind.ALIAS),
    (NAME, RRSIG, [], NXDOMAIN, ResponseKind.NXDOMAIN),
    ("a.test", A, hosts("a.test"), NOERROR, ResponseKind.UNUSABLE),
])
def test_kinds_by_questions(name, rtype, answer, rcode, kind):
    with read(answered(name, rtype, *answer, rcode=rcode), name, rtype) as offers:
        assert offers.summary.kind == kind


@pytest.mark.parametrize("flags, kind", [
    (0, ResponseKind.REFERRAL), (RA, ResponseKind.UNUSABLE), (AA, ResponseKind.UNUSABLE)])
def test_referrals_where_data_are_read_over(flags, kind):
    """Who recurses may have added them to data."""
    octets = answered(NAME, RRSIG, authority=NS, flags=flags)
    with read(octets, rtype=RRSIG) as offers:
        assert offers.summary.kind == kind


def test_kind_of_a_message_that_is_not_compared():
    with rrcache.read_message_unchecked(to_a(*UNEQUAL, flags=0), "example", PARTS, 1) as offers:
        assert offers.summary == (ResponseKind.UNEQUAL_TTLS, 0, False, False, None)
    with pytest.raises(rrcache.NoOffers):
        offers.summary


def test_unequal_ttls():
    """The lowest of them counts where AA is set, and else where that is chosen (RFC 2181 section
    5.2)."""
    for flags, lowest, kind, ttls in [
            (AA, False, ResponseKind.ANSWER, [30]), (AA, True, ResponseKind.ANSWER, [30]),
            (0, False, ResponseKind.UNEQUAL_TTLS, []), (0, True, ResponseKind.ANSWER, [30])]:
        with read(to_a(*UNEQUAL, flags=flags), lowest_ttl=lowest) as offers:
            assert offers.summary.kind == kind
            assert [reply.left for _, reply in offers] == ttls


HELD = {A: "192.0.2.1", AAAA: "2001:db8::1", MX: "10 mx.example", TXT: "A"}


def shelf_with(*lines):
    """A shelf that holds each of these records, all under one part."""
    shelf = rrcache.Shelf(seed=SEED)
    for line in lines:
        octets = answered(NAME, line.split()[2], line)
        with rrcache.read_message_unchecked(octets, "example", rrcache.Parts(1, SEED), 0) as offers:
            assert shelf.offer_read(offers, 0).kept == 1
    return shelf


@pytest.mark.parametrize("flags, rtype, chosen, stay", [
    (AA, MX, False, {A, AAAA, MX, TXT}), (0, MX, True, {A, AAAA, MX, TXT}), (AA, MX, True, {TXT}),
    (AA, A, True, {MX, TXT}), (AA, AAAA, True, {MX, TXT}), (AA, TXT, True, {MX})])
def test_what_a_denial_clears(flags, rtype, chosen, stay):
    """The types that answer once the denial, which lives for 60 seconds, is over. A denial that is
    not authoritative is trusted less than what is held."""
    names = {A: "A", AAAA: "AAAA", MX: "MX", TXT: "TXT"}
    lines = [f"{NAME} 1000 {names[it]} {data}" for it, data in HELD.items()]
    denial = answered(NAME, rtype, authority=[SOA], rcode=NXDOMAIN, flags=flags)
    query = rrcache.Query(NAME, rtype, ID)
    with (shelf_with(*lines) as shelf,
          rrcache.read_response(denial, "example", query, rrcache.Parts(1, SEED), 10,
                                clears_denied=chosen) as offers):
        shelf.offer_read(offers, 0)
        assert (shelf.peek(NAME, rtype, 11).kind == Kind.NXDOMAIN) == (flags == AA)
        shelf.sweep(100)
        assert {it for it in HELD if shelf.peek(NAME, it, 100).kind == Kind.FRESH} == stay


def test_what_a_denial_clears_is_told():
    """That the name has no data of these types, for no time: last of all that is offered."""
    for rtype, types in [(A, [A, AAAA, CNAME]), (CNAME, [A, AAAA, CNAME]),
                         (MX, [A, AAAA, CNAME, MX]), (RRSIG, [A, AAAA, CNAME])]:
        octets = answered(NAME, rtype, authority=[SOA], rcode=NXDOMAIN)
        with read(octets, rtype=rtype, clears_denied=True) as offers:
            soa, denial, *cleared = [reply for _, reply in offers]
        assert (soa.kind, denial.kind) == (Kind.FRESH, Kind.NXDOMAIN)
        assert [(it.kind, it.rtype, it.left, it.data) for it in cleared] == [
            (Kind.NODATA, of, 0, denial.data) for of in types]


@pytest.mark.parametrize("octets", [
    to_a(rcode=NXDOMAIN), to_a(authority=[SOA]),
    to_a("a.example 60 TXT A", authority=[SOA], rcode=NXDOMAIN)],
    ids=["no SOA record", "NOERROR", "a record of the name"])
def test_what_clears_nothing(octets):
    with read(octets, clears_denied=True) as offers:
        chosen = [(name.octets, reply) for name, reply in offers]
    with read(octets) as offers:
        assert chosen == [(name.octets, reply) for name, reply in offers]


def test_a_cache_hands_on_what_is_chosen():
    query = rrcache.Query(NAME, A, ID)
    with rrcache.Cache(4) as cache:
        octets = to_a(*UNEQUAL, flags=0)
        assert cache.offer_response(octets, "example", query, 100) == (0, 0, 0)
        assert cache.offer_response(octets, "example", query, 100, lowest_ttl=True) == (1, 0, 0)
        octets = to_a(authority=[SOA], rcode=NXDOMAIN)
        counts = cache.offer_response(octets, "example", query, 101, clears_denied=True)
        assert counts == (2, 3, 0)
