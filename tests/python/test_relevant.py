# SPDX-License-Identifier: MIT
"""What of a response is read and relevant: names in data, and what belongs to the question."""
import pytest
from dns.flags import AA, TC
from dns.rcode import NXDOMAIN, SERVFAIL
from dns.rdatatype import A, ANY, CNAME, DNAME, DS, MX, NS, SOA, TXT

import rrcache
from tests.forwarder.harness import (ID, SOA as SOA_RECORD, aliases, answered, hosts, record_of,
                                     wire_name)
from tools.messages import BAD_DATA, LAYOUTS, SHORT

NAME, SEED = "a.example.", bytes(range(16))
PARTS = rrcache.Parts(1, SEED)
POINTER = b"\xc0\x0e"  # to the last label but one of the question's name
FRESH, NO_NAME, FAILED = rrcache.Kind.FRESH, rrcache.Kind.NXDOMAIN, rrcache.Kind.FAILED
DIGEST = "1 8 2 " + 32 * "ab"  # of a key, in a DS record


def with_data(rtype, *data):
    """A response with a record of a.example."""
    return answered(NAME, A, record_of(NAME, rtype, *data))


def data_of(rtype, name):
    """Data of a type, with each of their names in these octets."""
    before, names, after = LAYOUTS[rtype]
    return b"\7" * before + name * names + b"\t" * after


@pytest.mark.parametrize("rtype", LAYOUTS)
def test_names_in_data_are_read(rtype):
    """Of each type whose data have names these are expanded."""
    octets = with_data(rtype, data_of(rtype, b"\1b" + POINTER))
    with rrcache.Shelf(seed=SEED) as shelf:
        shelf.offer_message_unchecked(octets, ".", 100)
        assert shelf.peek(NAME, rtype, 100).data == (data_of(rtype, wire_name("b.example")),)


@pytest.mark.parametrize("rtype", LAYOUTS)
def test_names_in_data_fill_them(rtype):
    data = data_of(rtype, b"\1b" + POINTER)
    for size in range(len(data)):
        assert rrcache.fault(with_data(rtype, data[:size]) + data[size:]) == BAD_DATA
    longer = with_data(rtype, data + b"\0")
    assert (rrcache.fault(longer), rrcache.fault(longer[:-1])) == (BAD_DATA, SHORT)
    # A pointer to the TTL, whose first octet begins a label that the message's end cuts.
    assert rrcache.fault(with_data(rtype, data_of(rtype, b"\xc0\x21"), 63 << 24)) == SHORT


def test_what_is_relevant_is_kept():
    octets = answered("www.example", A, *hosts("www.example", "bank.example"))
    query = rrcache.Query("WWW.example", A, ID)
    with rrcache.Cache(4) as cache:
        assert cache.offer_response(octets, ".", query, 100) == (1, 0, 0)
        assert cache.ask("bank.example", A, 100).kind == rrcache.Kind.MISS
        assert cache.offer_message_unchecked(octets, ".", 100) == (2, 0, 0)
        for other in (query._replace(id=ID + 1), query._replace(name="bank.example")):
            with pytest.raises(rrcache.OtherQuery):
                cache.offer_response(octets, ".", other, 100)


def to_a(*answer, **others):
    """A response to the question about the addresses of a.example."""
    return answered(NAME, A, *answer, **others)


# Responses of a server of example. to that question, and what of them is relevant: the name, the
# type and the reply of each.
RELEVANT = {
    "no such name": (to_a(authority=[SOA_RECORD], rcode=NXDOMAIN),
                     [("example", SOA, FRESH), (NAME, A, NO_NAME)]),
    "a failure": (to_a(rcode=SERVFAIL), [(NAME, A, FAILED)]),
    "a truncated response": (to_a(*hosts(NAME), flags=AA | TC), []),
    "an alias, and the address of another name": (
        to_a(*aliases([NAME, "b.example"]), *hosts("b.example", "c.example")),
        [(NAME, CNAME, FRESH), ("b.example", A, FRESH)]),
    "another type": (to_a(*hosts(NAME), "a.example 60 TXT A"), [(NAME, A, FRESH)]),
    "a redirected tree, and one below the question": (
        to_a("example 60 DNAME x", *aliases([NAME, "a.x"]), "a.example 60 DNAME y"),
        [("example", DNAME, FRESH), (NAME, CNAME, FRESH)]),
    "a referral, with the address of its server and of another host": (
        to_a(flags=0, authority=["a.example 60 NS ns.example"],
             additional=hosts("ns.example", "b.example")),
        [("a.example", NS, FRESH), ("ns.example", A, FRESH)]),
    "servers of another name": (to_a(flags=0, authority=["b.example 60 NS example"]), []),
    "servers of the zone itself and of one below it": (
        to_a(flags=0, authority=["example 60 NS a.example", "a.example 60 NS example"]),
        [("a.example", NS, FRESH)]),
    "servers of the zone itself, with the address of one": (
        to_a(flags=0, authority=["example 60 NS ns.example"], additional=hosts("ns.example")), []),
    "an authoritative answer, with servers and the address of one": (
        to_a(*hosts(NAME), authority=["a.example 60 NS ns.example"],
             additional=hosts("ns.example")),
        [(NAME, A, FRESH)]),
    "two zones that the question is in": (
        to_a(*hosts(NAME), authority=[SOA_RECORD, SOA_RECORD.replace("example", NAME, 1)]),
        [(NAME, A, FRESH), ("example", SOA, FRESH)]),
    "a referral to a zone that is signed": (
        to_a(flags=0, authority=["a.example 60 NS b.example", f"a.example 60 DS {DIGEST}"]),
        [("a.example", NS, FRESH), ("a.example", DS, FRESH)]),
    "keys of the zone itself and of one below it": (
        to_a(*hosts(NAME), authority=[f"example 60 DS {DIGEST}", f"a.example 60 DS {DIGEST}"]),
        [(NAME, A, FRESH), ("a.example", DS, FRESH)]),
    "an address of three octets": (with_data(A, b"\xc0\0\2"), []),
}


def test_hosts_are_in_the_order_of_rrsets():
    """Records of two RRsets alternate. The first has 12 names, and then 8 of the second count."""
    exchanges, targets = ([f"{letter}{it}.example" for it in range(12)] for letter in "ms")
    records = [line for it in zip(exchanges, targets) for line in (
        f"{NAME} 60 MX 1 {it[0]}", f"{NAME} 60 SRV 1 1 53 {it[1]}")]
    octets = answered(NAME, ANY, *records, additional=hosts(*targets, *exchanges))
    with rrcache.read_response(octets, "example", rrcache.Query(NAME, ANY, ID), PARTS, 100) as it:
        found = [reply.owner_text for _, reply in it if reply.rtype == A]
    assert found == [f"{it}." for it in targets[:8] + exchanges]


def offered_as_relevant(shelf, octets, query):
    """How many offers of a response are relevant to a query, all of which the shelf keeps."""
    with rrcache.read_response(octets, "example", query, PARTS, 100) as offers:
        counts = shelf.offer_read(offers, 0)
    assert counts[1:] == (0, 0)
    return counts.kept


@pytest.mark.parametrize("octets, relevant", RELEVANT.values(), ids=RELEVANT)
def test_what_is_relevant_in_responses(octets, relevant):
    with rrcache.Shelf(seed=SEED) as shelf:
        kept = offered_as_relevant(shelf, octets, rrcache.Query("A.example", A, ID))
        assert kept == len(relevant)
        for owner, rtype, kind in relevant:
            assert shelf.peek(owner, rtype, 100, rrcache.Purpose.ANYTHING).kind == kind


@pytest.mark.parametrize("name, rtype, sections, kept", [
    ("example", NS, [["example 60 NS b.example"], []], 2),
    ("example", NS, [[], ["example 60 NS b.example"]], 2),
    ("EXAMPLE", NS, [[], ["example 60 NS b.example"]], 2),
    ("c.example", NS, [[], ["example 60 NS b.example"]], 0),
    ("example", DS, [[f"example 60 DS {DIGEST}"], []], 0),
    ("a.example", DS, [[f"a.example 60 DS {DIGEST}"], []], 1)])
@pytest.mark.parametrize("flags", [AA, 0])
def test_what_is_relevant_to_questions_about_a_zone(name, rtype, sections, kept, flags):
    """Its servers with the address of one, in either section, and the keys of one below."""
    answer, authority = sections
    octets = answered(name, rtype, *answer, authority=authority, additional=hosts("b.example"),
                      flags=flags)
    with rrcache.Shelf(seed=SEED) as shelf:
        assert offered_as_relevant(shelf, octets, rrcache.Query(name, rtype, ID)) == kept


def chain(number):
    names = [f"x{it}.example" for it in range(number + 1)]
    return answered(names[0], A, *aliases(names), *hosts(names[-1]))


def servers(number):
    names = [f"ns{it}.example" for it in range(number)]
    return answered("x0.example", A, authority=[f"x0.example 60 NS {it}" for it in names],
                    additional=hosts(*names), flags=0)


def mail(number):
    """Hosts that two records name each, with another preference and in other case."""
    names = [f"mx{it}.example" for it in range(number)]
    data = [bytes([0, 1]) + wire_name(it) for it in names]
    data += [bytes([0, 2]) + wire_name(it.upper()) for it in names]
    return answered("x0.example", MX, *(record_of("x0.example.", MX, it) for it in data),
                    additional=hosts(*names))


def text_of(size):
    return answered("x0.example", TXT, record_of("x0.example.", TXT, bytes(size)))


@pytest.mark.parametrize("octets_of, number, rtype, kept", [
    (chain, 11, A, 12), (chain, 12, A, 12), (servers, 20, A, 21), (servers, 21, A, 21),
    (mail, 20, MX, 21), (mail, 21, MX, 21),
    (text_of, 16_384, TXT, 1), (text_of, 16_385, TXT, 0)])
def test_how_much_is_relevant(octets_of, number, rtype, kept):
    """At most 11 aliases behind the question's name, 20 hosts, and 16,384 octets of an RRset."""
    query = rrcache.Query("x0.example", rtype, ID)
    with rrcache.Shelf(seed=SEED) as shelf:
        assert offered_as_relevant(shelf, octets_of(number), query) == kept


def test_hosts_of_servers_come_first():
    """Ten mail hosts and 13 servers: the addresses of all servers, and of seven mail hosts."""
    exchanges = [f"mx{it}.example" for it in range(10)]
    names = [f"ns{it}.example" for it in range(13)]
    octets = answered("x0.example", MX, *(f"x0.example 60 MX 10 {it}" for it in exchanges),
                      authority=[f"x0.example 60 NS {it}" for it in names],
                      additional=hosts(*exchanges, *names), flags=0)
    with rrcache.Shelf(seed=SEED) as shelf:
        assert offered_as_relevant(shelf, octets, rrcache.Query("x0.example", MX, ID)) == 22
        kinds = [shelf.peek(it, A, 100, rrcache.Purpose.ANYTHING).kind for it in names + exchanges]
    assert kinds == 20 * [FRESH] + 3 * [rrcache.Kind.MISS]


# A name of z.example, as the servers of that zone answer, which add its NS RRset, and as those of
# its parent do, which refer to them.
OF_Z = rrcache.Query("www.z.example", A, ID)
SERVERS = ["z.example 100 NS ns.z.example"]
ANSWER = answered("www.z.example", A, *hosts("www.z.example"), authority=SERVERS)
REFERRAL = answered("www.z.example", A, authority=SERVERS, flags=0)


def is_delegated(shelf, moment):
    return shelf.peek("z.example", NS, moment, rrcache.Purpose.ANYTHING).kind == FRESH


def offer_relevant(shelf, octets, zone, moment):
    with rrcache.read_response(octets, zone, OF_Z, PARTS, moment) as offers:
        shelf.offer_read(offers, 0)


def offer_all(shelf, octets, zone, moment):
    shelf.offer_message_unchecked(octets, zone, moment)


def offer_unless_delegated(shelf, octets, zone, moment):
    if not is_delegated(shelf, moment):
        offer_relevant(shelf, octets, zone, moment)


def end_of_delegation(offer):
    """While the delegation is held its servers are asked each 20 seconds, for 1,000 at most."""
    moment = 0
    with rrcache.Shelf(seed=SEED) as shelf:
        offer_relevant(shelf, REFERRAL, "example", moment)
        while is_delegated(shelf, moment) and moment < 1000:
            offer(shelf, moment)
            moment += 20
    return moment


@pytest.mark.parametrize("octets, zone, offer, ends", [
    (ANSWER, "z.example", offer_relevant, 100), (ANSWER, "z.example", offer_all, 1000),
    (REFERRAL, "example", offer_unless_delegated, 100), (REFERRAL, "example", offer_relevant, 1000),
])
def test_when_a_delegation_ends(octets, zone, offer, ends):
    """It came with a TTL of 100, and its parent took it back at once."""
    assert end_of_delegation(lambda shelf, moment: offer(shelf, octets, zone, moment)) == ends


@pytest.mark.parametrize("rtype", [A, NS])
def test_what_a_minimized_query_renews(rtype):
    """The servers of the zone deny that a name below it has data of the type, and add their NS
    RRset, which was not asked for."""
    query = rrcache.Query("x.z.example", rtype, ID)
    octets = answered("x.z.example", rtype, authority=["z." + SOA_RECORD, *SERVERS])

    def offer(shelf, moment):
        with rrcache.read_response(octets, "z.example", query, PARTS, moment) as offers:
            assert offers.summary.kind is rrcache.ResponseKind.NODATA
            shelf.offer_read(offers, 0)
    assert end_of_delegation(offer) == 100


@pytest.mark.parametrize("rtype", [NS, ANY])
def test_what_a_question_for_its_name_servers_renews(rtype):
    """The servers of the zone answer a question for their NS RRset."""
    query = rrcache.Query("z.example", rtype, ID)
    octets = answered("z.example", rtype, *SERVERS)

    def offer(shelf, moment):
        with rrcache.read_response(octets, "z.example", query, PARTS, moment) as offers:
            assert offers.summary.kind is rrcache.ResponseKind.ANSWER
            shelf.offer_read(offers, 0)
    assert end_of_delegation(offer) == 1000


def told(octets, query=None, zone="example"):
    """What is told of the offers of a response: of those that are relevant to a query, or of all of
    them; and the same names by `make_name`."""
    parts = rrcache.Parts(16, SEED)
    with (rrcache.read_response(octets, zone, query, parts, 100) if query else
          rrcache.read_message_unchecked(octets, zone, parts, 100)) as offers:
        found = list(offers)
        assert sorted({name.part for name, _ in found}) == offers.concerned
    made = [rrcache.make_name(name.octets, parts) for name, _ in found]
    assert [name.part for name, _ in found] == [it.part for it in made]
    return [(name.octets, reply) for name, reply in found]


def test_what_was_read_is_told():
    """In the order of the message, also what no shelf keeps."""
    octets = answered("www.example", A, "www.example 0 CNAME a.example", "a.example 7 A 192.0.2.9",
                      "a.example 7 A 192.0.2.8", flags=0)
    query = rrcache.Query("www.example", A, ID)
    (alias, first), (name, second) = told(octets, query)
    assert (alias, name) == (wire_name("www.example"), wire_name("a.example"))
    assert (first.kind, first.rtype, first.left, first.owner) == (
        FRESH, CNAME, 0, wire_name("www.example"))
    assert first.data == (wire_name("a.example"),)
    low = rrcache.Trust.NON_AUTHORITATIVE_ANSWER
    assert (first.entry.trust, first.entry.ttl, first.entry.moment) == (low, 0, 100)
    assert (first.entry.number, first.entry.age, first.retry_from) == (0, 0, 0)
    assert (second.kind, second.rtype, second.left) == (FRESH, A, 7)
    assert second.owner == wire_name("a.example")
    assert second.data == (bytes([192, 0, 2, 9]), bytes([192, 0, 2, 8]))


def test_negative_answers_and_failures_that_were_read_are_told():
    (_, soa), (name, missing) = told(to_a(authority=[SOA_RECORD], rcode=NXDOMAIN))
    assert (name, missing.kind, missing.rtype) == (wire_name(NAME), NO_NAME, 0)
    assert (missing.owner, missing.data) == (soa.owner, soa.data)
    _, (name, missing) = told(to_a(authority=[SOA_RECORD]))
    assert (name, missing.kind, missing.rtype) == (wire_name(NAME), rrcache.Kind.NODATA, A)
    assert (missing.owner, missing.data) == (soa.owner, soa.data)
    ((name, failed),) = told(to_a(rcode=SERVFAIL))
    assert (name, failed.kind, failed.rtype, failed.left) == (wire_name(NAME), FAILED, A, 0)
    assert (failed.retry_from, failed.owner, failed.data) == (130, b"", ())
    assert (failed.entry.kind, failed.entry.trust, failed.entry.ttl) == (FAILED, None, 30)


@pytest.mark.parametrize("octets, relevant", RELEVANT.values(), ids=RELEVANT)
def test_what_is_relevant_is_told(octets, relevant):
    """What is told of each response's offers is what is kept of it."""
    query = rrcache.Query("A.example", A, ID)
    assert [(name, reply.rtype or A, reply.kind) for name, reply in told(octets, query)] == [
        (wire_name(owner), rtype, kind) for owner, rtype, kind in relevant]


def test_offers_are_picked():
    """A caller takes what it judged to be right, and leaves the rest."""
    octets = to_a(*aliases([NAME, "b.example"]), *hosts("b.example"))
    query = rrcache.Query(NAME, A, ID)
    with (rrcache.read_response(octets, "example", query, PARTS, 100) as offers,
          rrcache.Shelf(seed=SEED) as shelf, rrcache.Shelf(seed=bytes(range(1, 17))) as other):
        assert [reply.rtype for _, reply in offers] == [CNAME, A]
        assert shelf.offer_one(offers, 1) == rrcache.Outcome.KEPT
        assert shelf.sizes().keys == 1 and shelf.peek("b.example", A, 100).kind == FRESH
        with pytest.raises(rrcache.NoOffers):
            shelf.offer_one(offers, 2)
        with pytest.raises(rrcache.OtherSeed):
            other.offer_one(offers, 1)
        assert (shelf.sizes().keys, other.sizes().keys) == (1, 0)
