# SPDX-License-Identifier: MIT
"""What is answered, and for how long: sets, negative answers, aliases, times to live."""
import time

import pytest
from dns.flags import AA, RA, RD, TC
from dns.rcode import NOERROR, NXDOMAIN, SERVFAIL

from tests.forwarder.harness import (SOA, Server, address, aliases, counts, data, octets_of, plain,
                                     query, record, response, told, truncated, under, with_id)

WEEK = 604800
SIGNATURE = "A 8 2 60 20300101000000 20200101000000 7 example AAAA"


def test_fresh(forwarder):
    it = forwarder(server := Server())
    for name in ("a7.example", "A7.eXample", "a7.Example"):
        reply = it.ask(name)
        assert (reply.rcode(), data(reply)) == (NOERROR, [address(7)])
        assert reply.flags & (RD | RA | AA | TC) == RD | RA
        assert 0 < reply.answer[0].ttl <= 60
    assert server.times("a7.example") == 1
    assert it.counted("queries", "fresh", "fetched", "sent") == [3, 2, 1, 1]
    # A key takes 160 octets, its name 32 and 48, and the address as much (docs/RULES.md).
    assert it.counted("keys", "held") == [1, 160 + 80 + 80]


def test_ttl_goes_down(forwarder):
    it = forwarder(server := Server(plain(3)))
    it.ask("a1.example")
    time.sleep(1.1)
    assert it.ask("a1.example").answer[0].ttl in (1, 2)  # moments are whole seconds
    time.sleep(2.2)
    assert data(it.ask("a1.example")) == [address(1)]
    assert server.times("a1.example") == 2


@pytest.mark.parametrize("rtype, text", [("A", address(1)), ("RRSIG", SIGNATURE)])
@pytest.mark.parametrize("ttl", [WEEK + 1, 0xffffffff])
def test_ttl_is_capped_from_the_first_answer_on(forwarder, ttl, rtype, text):
    """RFC 8767 section 4: at most a week, also where the top bit is set."""
    it = forwarder(Server(told(f"{{}} {ttl} {rtype} {text}")))
    for _ in range(2):
        assert WEEK - 9 <= it.ask("a1.example", rtype).answer[0].ttl <= WEEK


def test_lowest_ttl_of_a_set(forwarder):
    """TTLs that differ with AA clear. Who sends all queries to certain servers takes the lowest TTL
    for each record (RFC 2181 section 5.2), from the first answer on."""
    def answer(server, asked, name):
        ttls = 300, int(name.split(".")[0][1:]), 600
        return [response(asked, *(f"{name} {ttl} A {address(n)}" for n, ttl in enumerate(ttls)))]
    it = forwarder(server := Server(answer))
    for _ in range(2):
        reply = it.ask("t30.example")
        assert sorted(data(reply)) == [address(n) for n in range(3)]
        assert {it.ttl for it in reply.answer} in ({30}, {29})
    it.ask("t1.example")
    time.sleep(1.1)
    assert len(data(it.ask("t1.example"))) == 3
    assert (server.times("t30.example"), server.times("t1.example")) == (1, 2)


def test_negative(forwarder):
    it = forwarder(server := Server())
    for name, rcode in (("nothing.example", NOERROR), ("gone.example", NXDOMAIN)):
        for _ in range(2):
            reply = it.ask(name)
            assert (reply.rcode(), counts(reply)) == (rcode, [0, 1, 0])
            assert reply.authority[0].to_text().startswith("example. ")
            assert reply.authority == [record(SOA)]
        assert server.times(name) == 1
    assert it.ask("gone.example", "TXT").rcode() == NXDOMAIN
    assert server.times("gone.example", "TXT") == 0
    assert it.counters()["negative"] == 3


@pytest.mark.parametrize("authority", [["example 1 SOA ns.example host.example 1 2 3 4 1"], []],
                         ids=["soa", "nothing"])
@pytest.mark.parametrize("flags", [AA | RA, RA])
def test_what_was_denied_does_not_come_back(forwarder, flags, authority):
    """An NXDOMAIN denies the name, for all types (RFC 2308 section 5), also where it has AA clear,
    as those of resolvers, or no SOA record. Once it is over the upstream is asked, though the old
    address had more time left."""
    it = forwarder(server := Server(told(f"{{}} 300 A {address(1)}", flags=flags)))
    assert data(it.ask("a1.example")) == [address(1)]
    server.answer = told(authority=authority, rcode=NXDOMAIN, flags=flags)
    for rtype in ("TXT", "A"):
        assert it.ask("a1.example", rtype).rcode() == NXDOMAIN
    server.answer = told(f"{{}} 300 A {address(2)}", flags=flags)
    time.sleep(1.1)
    it.counters()  # it sweeps
    assert data(it.ask("a1.example")) == [address(2)]


def test_fully_expired_keys_are_swept(forwarder):
    soa = SOA.replace("60", "2", 1)
    it = forwarder(server := Server(told(authority=[soa], rcode=NXDOMAIN)))
    it.ask("gone.example")
    assert it.ask("gone.example").rcode() == NXDOMAIN
    time.sleep(4.2)
    # What is held is the SOA record, which may yet be stale.
    assert it.counted("swept", "keys") == [1, 1]
    it.ask("gone.example")
    assert server.times("gone.example") == 2


@pytest.mark.parametrize("rtype, line", [
    ("A", f"a3.example 0 A {address(3)}"), ("MX", "a3.example 0 MX 5 mx.a3.example"),
    ("RRSIG", f"a3.example 60 RRSIG {SIGNATURE}"),
    ("NAPTR", 'a3.example 60 NAPTR 1 2 "u" "" "!x!y!" rest.a3.example')])
def test_what_is_not_kept_is_passed_on(forwarder, rtype, line):
    """A set with a TTL of 0, and a type that is not kept. The messages have pointers in their
    data."""
    it = forwarder(server := Server(told(line)))
    for _ in range(2):
        assert it.ask("a3.example", rtype).answer == [record(line)]
    assert server.times("a3.example", rtype) == 2


def test_too_large_a_set_is_passed_on(forwarder):
    """1,500 addresses of 16 octets are more than are kept of a name."""
    octets = octets_of(response(query("a1.example", "AAAA"),
                                *(f"a1.example 60 AAAA 2001:db8::{n:x}" for n in range(1500))))
    it = forwarder(server := Server(lambda server, asked, name: [
        with_id(asked, octets[2:]) if server.is_tcp else truncated(asked)]))
    with it.stream() as stream:
        for _ in range(2):
            assert len(data(stream.ask("a1.example", "AAAA"), "AAAA")) == 1500
    assert server.times("a1.example", "AAAA") == 4


@pytest.mark.parametrize("rtype, text", [("A", address(1)), ("RRSIG", SIGNATURE)])
def test_nothing_else_is_passed_on(forwarder, rtype, text):
    """Of what is not kept go out the aliases, with the DNAME record that made one, and what was
    asked for; not what else the upstream sends, of these names and of others."""
    wanted = [*aliases(["a1.example", "w.old.example"], 0), "old.example 0 DNAME new.example",
              *aliases(["w.old.example", "w.new.example"], 0), f"w.new.example 0 {rtype} {text}"]
    others = [f"a1.example 0 A {address(66)}", f"bank.example 0 {rtype} {text}",
              "w.new.example 0 TXT other", "other.example 0 DNAME new.example",
              *aliases(["x.other.example", "x.new.example"], 0)]
    it = forwarder(Server(told(*others, *reversed(wanted), flags=AA | RA, authority=[
        "example 0 NS ns.example", SOA], additional=[f"w.new.example 0 A {address(66)}"])))
    reply = it.ask("a1.example", rtype)
    assert (reply.answer, counts(reply)[1:]) == ([record(it) for it in wanted], [0, 0])


@pytest.mark.parametrize("rcode", [NOERROR, NXDOMAIN])
@pytest.mark.parametrize("rtype, ttl", [("A", 0), ("NAPTR", 60)])
def test_nothing_else_is_passed_on_beside_a_denial(forwarder, rtype, ttl, rcode):
    soa = SOA.replace("60", str(ttl), 1)
    it = forwarder(server := Server(told(
        f"bank.example 0 A {address(66)}", *aliases(["a1.example", "a2.example"], ttl),
        authority=["example 60 NS ns.example", soa, SOA.replace("example", "other.example", 1)],
        additional=[f"a1.example 60 A {address(66)}"], rcode=rcode)))
    reply = it.ask("a1.example", rtype)
    assert (reply.rcode(), counts(reply)) == (rcode, [1, 1, 0])
    assert (data(reply, "CNAME"), reply.authority) == (["a2.example."], [record(soa)])
    assert len(server.asked) == 1


@pytest.mark.parametrize("ttls", [(0, 60), (60, 0)])
def test_lowest_ttl_of_a_set_is_0(forwarder, ttls):
    it = forwarder(Server(told(*(f"{{}} {ttl} A {address(ttl)}" for ttl in ttls))))
    reply = it.ask("a1.example")
    assert sorted(data(reply)) == [address(0), address(60)]
    assert {it.ttl for it in reply.answer} == {0}


def test_any_is_passed_on(forwarder):
    """All types of the name, kept ones and others, and no alias is followed."""
    lines = ["a1.example 60 CNAME a2.example", f"a1.example 0 A {address(1)}",
             "a1.example 60 MX 5 mail.example", f"a1.example 60 RRSIG {SIGNATURE}"]
    it = forwarder(server := Server(told(*lines, f"a2.example 60 A {address(2)}")))
    for _ in range(2):
        answer = it.ask("a1.example", "ANY").answer
        assert sorted(answer, key=str) == sorted(map(record, lines), key=str)
    assert server.times("a1.example", "ANY") == 2


def test_first_answer_is_that_of_the_cache(forwarder):
    """The first answer has no other sections than the next ones, and no datum twice."""
    it = forwarder(Server(told(*(f"{{}} 60 A {address(n)}" for n in (1, 2, 1)),
                               authority=["example 60 NS ns.example"],
                               additional=[f"ns.example 60 A {address(9)}"])))
    for _ in range(2):
        reply = it.ask("a1.example")
        assert (counts(reply), data(reply)) == ([2, 0, 0], [address(1), address(2)])


@pytest.mark.parametrize("authority", [[], [SOA]])
def test_data_of_a_name_that_is_denied_too(forwarder, authority):
    """Data beside NXDOMAIN are data, from the first answer on."""
    it = forwarder(server := Server(told(f"{{}} 60 A {address(1)}", authority=authority,
                                         rcode=NXDOMAIN)))
    for _ in range(2):
        reply = it.ask("a1.example")
        assert (reply.rcode(), data(reply)) == (NOERROR, [address(1)])
    assert len(server.asked) == 1


# ---- Aliases.

def test_aliases(forwarder):
    names = [f"x{n}.example" for n in range(6)]
    targets = [f"{it}." for it in names[1:]]

    def answer(server, asked, name):
        if name == "gone.example":
            return [response(asked, *aliases([name, "lost.example"]), authority=[SOA],
                             rcode=NXDOMAIN)]
        return [response(asked, *aliases(names), f"x5.example 60 A {address(9)}")]
    it = forwarder(server := Server(answer))
    for _ in range(2):
        reply = it.ask("x0.example")
        assert data(reply, "CNAME") == targets
        assert [str(it.name) for it in reply.answer] == ["x0.example.", *targets]
        assert data(reply) == [address(9)]
        reply = it.ask("gone.example")
        assert (reply.rcode(), counts(reply)) == (NXDOMAIN, [1, 1, 0])
        assert data(reply, "CNAME") == ["lost.example."]
    assert (server.times("x0.example"), server.times("gone.example")) == (1, 1)
    for n in (5, 3, 1):  # each from its own shelf
        assert data(it.ask(names[n])) == [address(9)]
        assert data(it.ask(names[n - 1], "CNAME"), "CNAME") == [f"{names[n]}."]
    assert it.ask("lost.example").rcode() == NXDOMAIN
    asked = [(name, rtype) for name in names[1:] for rtype in ("A", "CNAME")]
    assert not any(server.times(*it) for it in [*asked, ("lost.example", "A")])
    # Six of the chain, the other alias, that its target does not exist, and the SOA record.
    assert it.counters()["keys"] == 9
    assert data(it.ask("gone.example", "CNAME"), "CNAME") == ["lost.example."]


@pytest.mark.parametrize("target, rcode", [
    ("a1.example", NOERROR), ("nothing.example", NOERROR), ("gone.example", NXDOMAIN)])
@pytest.mark.parametrize("ttl", [0, 60])
def test_alias_whose_rest_is_in_the_cache(forwarder, ttl, target, rcode):
    """The upstream sends the alias alone, which may have a TTL of 0."""
    it = forwarder(server := Server())
    rest = it.ask(target)
    server.answer = told(*aliases(["b.example", target], ttl))
    reply = it.ask("b.example")
    assert (reply.rcode(), data(reply, "CNAME")) == (rcode, [f"{target}."])
    assert (data(reply), counts(reply)[1]) == (data(rest), counts(rest)[1])
    assert server.times(target) == 1


def test_alias_whose_end_is_denied_with_no_soa_record(forwarder):
    """The address that the cache has is older than the denial, so it is not added to the alias."""
    it = forwarder(server := Server())
    assert data(it.ask("a1.example")) == [address(1)]
    server.answer = told(*aliases(["b.example", "a1.example"]), rcode=NXDOMAIN)
    for _ in range(2):
        reply = it.ask("b.example")
        assert (reply.rcode(), data(reply, "CNAME")) == (NXDOMAIN, ["a1.example."])
        assert data(reply) == []


@pytest.mark.parametrize("rcode, lines", [
    (NXDOMAIN, []), (NOERROR, [f"w.example 60 A {address(1)}"])])
def test_an_alias_newer_than_what_its_name_had(forwarder, rcode, lines):
    """That the name does not exist, or its address, is as trusted as the alias, so the later one
    counts (RFC 2181 section 5.4.1), also while the time of both is not over."""
    def answer(server, asked, name):
        if name == "w.example":
            return [response(asked, *lines, authority=[SOA], rcode=rcode)]
        return [response(asked, *aliases(["v.example", "w.example", "t.example"]),
                         f"t.example 60 A {address(9)}")]
    it = forwarder(server := Server(answer))
    reply = it.ask("w.example")
    assert (reply.rcode(), data(reply)) == (rcode, [address(1)] * len(lines))
    for name in ("v.example", "v.example", "w.example"):
        reply = it.ask(name)
        assert (reply.rcode(), data(reply)) == (NOERROR, [address(9)])
    assert (server.times("v.example"), server.times("w.example")) == (1, 1)


def test_aliases_in_a_ring(forwarder):
    """A ring is SERVFAIL, from the first answer on, also where it is not kept."""
    def answer(server, asked, name):
        ring = [f"{name[0]}{n}.example" for n in (0, 1, 0)]
        return [response(asked, *aliases(ring, 60 * (name[0] == "r")))]
    it = forwarder(server := Server(answer))
    for name in ("r0.example", "z0.example") * 2:
        reply = it.ask(name)
        assert (reply.rcode(), counts(reply)) == (SERVFAIL, [0, 0, 0])
    assert (server.times("r0.example"), server.times("z0.example")) == (1, 2)
    assert data(it.ask("r0.example", "CNAME"), "CNAME") == ["r1.example."]


def test_aliases_many_of_them(forwarder):
    """16 aliases are followed, and no more; what is at the end of 16 may be fetched again."""
    def answer(server, asked, name):
        count = int(name.split("-")[1].split(".")[0])
        names = [name] + [f"{name[0]}{n}x{count}.example" for n in range(count)]
        return [response(asked, *aliases(names, 60 * (name[0] == "k")),
                         f"{names[-1]} 1 A {address(count)}")]
    it = forwarder(server := Server(answer))
    for first in "kz":
        assert it.ask(f"{first}-17.example").rcode() == SERVFAIL
        reply = it.stream().ask(f"{first}-16.example")
        assert (len(data(reply, "CNAME")), data(reply)) == (16, [address(16)])
    time.sleep(2.2)
    assert data(it.stream().ask("k-16.example")) == [address(16)]
    assert server.times("k-16.example") == 2


def test_aliases_more_than_a_message_has(forwarder):
    """A name has one alias. A set of thousands fits in no message once its names are written out,
    and has too many octets to be kept."""
    longest = ".".join(["x" * 63] * 3 + ["x" * 57])
    lines = (rf"{longest} 60 CNAME \{1 + n // 250:03}\{1 + n % 250:03}.{longest}"
             for n in range(3700))
    octets = octets_of(response(query(longest), *lines))[2:]

    def answer(server, asked, name):
        return [with_id(asked, octets) if server.is_tcp else truncated(asked)]
    it = forwarder(Server(answer))
    with it.stream() as stream:
        for rtype in ("A", "CNAME"):
            reply = stream.ask(longest, rtype)
            assert (reply.rcode(), counts(reply)) == (SERVFAIL, [0, 0, 0])
    assert it.counted("fetched", "failed") == [0, 2]


def test_dname_stays_beside_its_alias(forwarder):
    """RFC 6672 section 3.1. The alias that no DNAME record made stands alone."""
    made = ["old.example 60 DNAME new.example", *aliases(["w.x.old.example", "w.x.new.example"]),
            f"w.x.new.example 60 A {address(4)}"]
    answers = {
        "w.x.old.example": made,
        "far.example": [*aliases(["far.example", "w.x.old.example"]), *made],
        "v.old.example": [*aliases(["v.old.example", "v.other.example"]),
                          f"v.other.example 60 A {address(5)}"]}
    it = forwarder(server := Server(lambda _, asked, name: [response(asked, *answers[name])]))
    for name, lines in answers.items():
        for _ in range(2):
            assert it.ask(name).answer == [record(it) for it in lines]
    assert server.times("w.x.old.example") == 1


@pytest.mark.parametrize("ttl", [0, 60])
def test_dname_stays_beside_the_alias_that_was_asked_for(forwarder, ttl):
    made = [f"old.example {ttl} DNAME new.example",
            *aliases(["w.x.old.example", "w.x.new.example"], ttl)]
    it = forwarder(server := Server(told(*made)))
    for _ in range(2):
        assert it.ask("w.x.old.example", "CNAME").answer == [record(it) for it in made]
    assert server.times("w.x.old.example", "CNAME") == (1 if ttl else 2)


@under("forwarder")
def test_aliases_of_many_labels(forwarder):
    """11 aliases of 118 labels, of which all but the last may stand in front of a DNAME record's
    owner, cost no more than five addresses, with a tenth of a second for what else goes on."""
    names = [f"{'a.' * 117}e{n}" for n in range(12)]

    def answer(server, asked, name):
        if name == names[0]:
            return [response(asked, *aliases(names), f"{names[-1]} 60 A {address(1)}")]
        return plain()(server, asked, name)
    it = forwarder(Server(answer))

    def spent(name):
        before = it.processor_seconds()
        for _ in range(1000):
            it.ask(name)
        return it.processor_seconds() - before
    assert len(it.stream().ask(names[0]).answer) == 12
    assert spent(names[0]) < 5 * spent("a1.example") + 0.1
