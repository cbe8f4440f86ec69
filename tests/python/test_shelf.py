# SPDX-License-Identifier: MIT
"""What a shelf keeps and answers, and what it tells of it."""
import copy
import dataclasses
import pickle

import pytest
from dns.rdatatype import A, AAAA, ANY, CNAME, OPT, TXT

import rrcache
from rrcache import Class, Kind, Mode, Purpose, StoredEntry, Trust, to_wire
from tests.forwarder.harness import SOA, record, wire_name
from tools.audits import first_fault

ADDRESS = b"\xc0\0\2\1"
LOW, HIGH = Trust.NON_AUTHORITATIVE_ANSWER, Trust.AUTHORITATIVE_ANSWER
SEED = bytes(range(16))
ROOT_SOA = (".", bytes(22))
# What octets take that have room in a value, and those that have a block too, beside as many as
# they are; and a key with its name.
SHARED, SHORT = rrcache.SHARED_OCTETS, rrcache.VALUE_OCTETS
LONG = rrcache.VALUE_OCTETS + rrcache.BLOCK_OCTETS
KEY, LONG_KEY = (rrcache.ENTRY_OCTETS + SHARED + it for it in (SHORT, LONG))


def test_classes():
    with rrcache.Shelf() as shelf:
        shelf.offer_set("version.bind.", TXT, HIGH, 60, [b"\1A"], 100, rclass=Class.CH)
        assert shelf.ask("version.bind.", TXT, 110).kind == Kind.MISS
        reply = shelf.ask("VERSION.bind.", TXT, 110, rclass=Class.CH)
        assert (reply.kind, reply.left, reply.data) == (Kind.FRESH, 50, (b"\1A",))
        with pytest.raises(rrcache.BadType) as refused:
            shelf.offer_failure("a.", A, 30, 100, rclass=Class.CH)
        assert refused.value.status == rrcache.Status.BAD_TYPE


@pytest.mark.parametrize("call", [
    lambda shelf, rtype, rclass: shelf.ask("a", rtype, 1, rclass=rclass),
    lambda shelf, rtype, rclass: shelf.ask_alias("a", rtype, 1, rclass=rclass),
    lambda shelf, rtype, rclass: shelf.peek("a", rtype, 1, rclass=rclass),
    lambda shelf, rtype, rclass: shelf.peek_alias("a", rtype, 1, rclass=rclass),
    lambda shelf, rtype, rclass: shelf.stored("a", rtype, rclass)],
    ids=["ask", "ask_alias", "peek", "peek_alias", "stored"])
def test_questions_of_which_nothing_is_ever_known(call):
    """Those of type 0, and of classes other than IN, CH and HS: 2, NONE, ANY and 0 among them."""
    with rrcache.Shelf(record=True) as shelf:
        for rtype, rclass in ((0, 1), (0, 3), (A, 0), (A, 2), (A, 5), (A, 254), (ANY, 255)):
            with pytest.raises(rrcache.BadType):
                call(shelf, rtype, rclass)
        assert shelf.sizes().events == 0
        for rtype, rclass in ((A, 1), (A, 3), (A, 4), (OPT, 1), (ANY, 1), (65_535, 4)):
            call(shelf, rtype, rclass)


def test_replies_are_what_their_classes_make():
    """They are made in another way, with each field; none can be set."""
    with rrcache.Shelf() as shelf:
        shelf.offer_set("a", A, HIGH, 60, [ADDRESS], 100)
        found = shelf.ask("a", A, 110), shelf.ask("b", A, 110), shelf.ask("a", A, 110).entry
    for it in found:
        values = {field.name: getattr(it, field.name) for field in dataclasses.fields(it)}
        made = type(it)(**values)
        assert [*vars(it).items()] == [*values.items()] and pickle.loads(pickle.dumps(it)) == it
        assert it == made == copy.copy(it) and hash(it) == hash(made) and repr(it) == repr(made)
        with pytest.raises(dataclasses.FrozenInstanceError):
            it.kind = Kind.STALE


def test_questions_of_types_that_are_not_kept():
    """A miss, or that the name does not exist; of ANY also where an RRset is trusted more."""
    with rrcache.Shelf() as shelf:
        shelf.offer_set("a", A, HIGH, 60, [ADDRESS], 100)
        for rtype, rclass in ((OPT, Class.IN), (ANY, Class.IN), (A, Class.CH)):
            assert shelf.ask("a", rtype, 110, rclass=rclass).kind == Kind.MISS
        shelf.offer_negative("a", 0, Kind.NXDOMAIN, LOW, 60, *ROOT_SOA, 100)
        for rtype in OPT, ANY:
            assert shelf.ask("a", rtype, 110).kind == Kind.NXDOMAIN
        assert shelf.ask("a", A, 110).kind == Kind.FRESH


def test_negative_and_large_data():
    soa = record(SOA)[0].to_wire()
    with rrcache.Shelf(record=True) as shelf:
        assert shelf.offer_negative("a.example", A, Kind.NXDOMAIN, 4, 60, "example", soa,
                                    100) == rrcache.Outcome.KEPT
        reply = shelf.ask("A.example", TXT, 110)
        assert (reply.kind, reply.left) == (Kind.NXDOMAIN, 50)
        assert (reply.owner, reply.data) == (wire_name("example"), (soa,))
        large = bytes(60000)
        assert shelf.offer_set("b.example", TXT, 4, 60, [large], 100) == rrcache.Outcome.KEPT
        assert shelf.ask("b.example", TXT, 110).data == (large,)
        # The names of the two keys and that of the SOA record's owner are short; of its data there
        # are 12, 14 and 20 octets.
        octets = 2 * KEY + SHARED + SHORT + SHARED + LONG + 46 + SHARED + LONG + 60000
        assert shelf.sizes() == (2, 4, 0, octets)


def told_octets(name, kind, owner, data):
    """What is told that an offer takes, before it is made."""
    made = rrcache.make_name(name, rrcache.Parts(1, SEED))
    return rrcache.octets_of(made, rrcache.Reply(kind, 60, to_wire(owner), tuple(data)))


@pytest.mark.parametrize("owner, data, octets", [
    ("a.", [ADDRESS], KEY + SHARED + SHORT),
    ("a.", [ADDRESS, SEED[:4]], KEY + SHARED + LONG + 2 * SHORT),
    ("A.", [ADDRESS], KEY + SHARED + SHORT + SHARED + SHORT),
    ("a.", [bytes(32)], KEY + SHARED + SHORT),
    ("a.", [bytes(33)], KEY + SHARED + LONG + 33),
    ("a.", [bytes(33), ADDRESS, bytes(34)],
     KEY + SHARED + LONG + (LONG + 33) + SHORT + (LONG + 34)),
    # Names of 32 and 33 octets: a label has its length before it, and the root has an octet.
    (30 * "a", [ADDRESS], KEY + SHARED + SHORT),
    (31 * "a", [ADDRESS], LONG_KEY + 33 + SHARED + SHORT),
    (31 * "A", [ADDRESS], LONG_KEY + 33 + SHARED + LONG + 33 + SHARED + SHORT)])
def test_octets_of_a_set(owner, data, octets):
    """The key's name is in lower case, whatever the owner is. Several records have a block too."""
    with rrcache.Shelf() as shelf:
        shelf.offer_set(owner, TXT, HIGH, 60, data, 100)
        assert shelf.sizes() == (1, 0, 0, octets)
    assert told_octets(owner, Kind.FRESH, owner, data) == octets


@pytest.mark.parametrize("name, owner, soa, octets", [
    ("a.", ".", bytes(22), KEY + SHARED + SHORT + SHARED + SHORT),
    (31 * "a", ".", bytes(22), LONG_KEY + 33 + SHARED + SHORT + SHARED + SHORT),
    ("a.", ".", bytes([1, 97, 0, 10, *10 * b"a", 0]) + bytes(20),
     KEY + SHARED + SHORT + SHARED + LONG + 35),
    ("a." + 31 * "b", 31 * "b", bytes(22), LONG_KEY + 35 + SHARED + LONG + 33 + SHARED + SHORT),
    (31 * "b", 31 * "b", bytes(22), LONG_KEY + 33 + SHARED + SHORT),
    (31 * "b", 31 * "B", bytes(22), LONG_KEY + 33 + SHARED + LONG + 33 + SHARED + SHORT)])
def test_octets_of_a_denial(name, owner, soa, octets):
    """An owner that is spelled as the key's name is that."""
    with rrcache.Shelf() as shelf:
        for kind in Kind.NODATA, Kind.NXDOMAIN:
            shelf.offer_negative(name, A, kind, HIGH, 60, owner, soa, 100)
        assert shelf.sizes() == (2, 0, 0, 2 * octets)
    assert told_octets(name, Kind.NODATA, owner, [soa]) == octets


def test_octets_of_a_failure():
    with rrcache.Shelf() as shelf:
        shelf.offer_failure("A.", A, 30, 100)
        assert shelf.sizes().octets == KEY
        shelf.offer_failure(31 * "A", A, 30, 100)
        assert shelf.sizes() == (2, 0, 0, KEY + LONG_KEY + 33)
    assert told_octets(31 * "A", Kind.FAILED, ".", []) == LONG_KEY + 33


def test_outcomes():
    with rrcache.Shelf() as shelf:
        def offered(trust, ttl):
            return shelf.offer_set("a", A, trust, ttl, [ADDRESS], 100)
        assert offered(Trust.AUTHORITY, 60) == rrcache.Outcome.KEPT
        assert offered(LOW, 60) == rrcache.Outcome.OUTRANKED
        assert offered(HIGH, 0) == rrcache.Outcome.CLEARED


# ---- Sweeps and records.


def filled_for_sweeps():
    """Two keys are fully expired at 160, and one at 190."""
    shelf = rrcache.Shelf(capacity=8, chapter=64, max_stale=0)
    for name, ttl in (("a", 60), ("b", 60), ("c", 90)):
        shelf.offer_set(name, A, 4, ttl, [ADDRESS], 100)
    return shelf


def test_sweeps_in_steps():
    with rrcache.Shelf() as shelf:
        assert shelf.next_expiry() is None
        assert shelf.sweep_some(2 ** 40, 1) == (0, True)
    with filled_for_sweeps() as shelf:
        assert shelf.next_expiry() == 160
        assert shelf.sweep_some(159, 9) == (0, True)
        assert shelf.sweep_some(200, 1) == (2, False)
        assert shelf.sweep_some(200, 9) == (1, True)
    with filled_for_sweeps() as shelf:
        assert shelf.sweep_some(189, 9) == (2, True)
        assert shelf.sweep_some(190, 9) == (1, True)
        assert shelf.sizes().keys == 0


def test_sweeps_in_steps_that_are_refused():
    with filled_for_sweeps() as shelf:
        for moment, most, refusal in ((200, 0, rrcache.BadRules),
                                      (2 ** 40 + 1, 0, rrcache.BadRules),
                                      (2 ** 40 + 1, 1, rrcache.MomentTooLarge)):
            with pytest.raises(refusal) as refused:
                shelf.sweep_some(moment, most)
            assert refused.value.swept == (0, False) and refused.value.counts is None
        assert shelf.sizes().keys == 3


def test_steps_are_events():
    with filled_for_sweeps() as shelf:
        shelf.record()
        shelf.sweep_some(200, 9, line=7)
        [chapter] = shelf.stop_recording()
        # A step may remove no key.
        steps = [(it.line, it.moment, len(it.removed)) for it in chapter.events if it.removed]
        assert steps == [(7, 160, 2), (7, 190, 1)]


# By hand, of names and data of up to 32 octets: a key takes 160 and its name 32 + 48, a set of one
# record 32 + 48 more, and that a name does not exist another name's 80 beside that.
OF_A_FAILURE, OF_A_SET, OF_A_DENIAL = 240, 320, 400


def filled_for_trims(**rules):
    """A set, that a name does not exist, a failure and a set, the last one touched last."""
    shelf = rrcache.Shelf(capacity=8, max_stale=0, **rules)
    shelf.offer_set("a", A, Trust.AUTHORITY, 60, [ADDRESS], 100)
    shelf.offer_negative("b", 0, Kind.NXDOMAIN, LOW, 60, *ROOT_SOA, 100)
    shelf.offer_failure("c", A, 30, 100)
    shelf.offer_set("d", A, HIGH, 60, [ADDRESS], 100)
    return shelf


def test_trims():
    whole = OF_A_SET + OF_A_DENIAL + OF_A_FAILURE + OF_A_SET
    with filled_for_trims() as shelf:
        assert shelf.trim(200, whole) == (0, whole)
        assert shelf.ask("a", A, 110).left == 50
        assert shelf.trim(200, whole - 1) == (1, whole - OF_A_DENIAL)
        assert shelf.trim(200, OF_A_SET, 1) == (1, OF_A_SET * 2)
        assert [shelf.peek(it, A, 110).kind for it in "abcd"] == [
            Kind.FRESH, Kind.MISS, Kind.MISS, Kind.FRESH]
        assert shelf.trim(200, OF_A_SET) == (1, OF_A_SET)
        assert shelf.peek("a", A, 110).left == 50 and shelf.sizes().keys == 1
        assert shelf.trim(200, 1) == (1, 0) and shelf.trim(2 ** 40, 1) == (0, 0)


def test_failures_of_no_time_are_not_counted():
    with filled_for_trims() as shelf:
        shelf.offer_failure("d", A, 0, 100)
        assert shelf.trim(200, 1, 1) == (1, OF_A_DENIAL + OF_A_FAILURE + OF_A_SET)


@pytest.mark.parametrize("chapter", [1, 2, 3, 64])
def test_trims_are_events(chapter):
    """What they write is legal by the model of the rules, wherever chapters end."""
    with filled_for_trims(chapter=chapter, record=True) as shelf:
        assert shelf.trim(200, OF_A_SET, line=7) == (3, OF_A_SET)
        chapters = shelf.stop_recording()
    assert not first_fault(chapters)
    *offers, swept = [event for it in chapters for event in it.events][4:]
    assert [(it.line, it.moment, it.key.name, it.outcome.name, it.body.ttl) for it in offers] == [
        (7, 200, "a.", "CLEARED", 0), (7, 200, "b.", "CLEARED", 0), (7, 200, "c.", "KEPT", 0)]
    assert [it.body.trust for it in offers[:2]] == [HIGH, HIGH]
    assert (swept.line, swept.moment, [it.name for it in swept.removed]) == (7, 0, ["c."])


def test_records_begin_and_end():
    with rrcache.Shelf(capacity=8, chapter=2) as shelf:
        shelf.offer_set("a", A, 4, 60, [ADDRESS], 100)
        for call, sizes in ((None, (0, 0)), (shelf.record, (1, 1)), (shelf.record, (2, 2)),
                            (shelf.stop_and_drop, (0, 0)), (shelf.stop_and_drop, (0, 0)),
                            (shelf.record, (1, 1))):
            if call:
                call()
            for moment in (110, 120, 130):
                assert shelf.ask("A", A, moment).left == 160 - moment
            assert shelf.sizes()[:3] == (1, *sizes)


# ---- Entries. Events have numbers from 0 on, recorded or not, and asks have numbers too.


def test_the_entry_of_a_fresh_and_of_a_stale_reply():
    """Of both the kind of the entry is FRESH, and the TTL is that with which it was stored."""
    entry = StoredEntry(Kind.FRESH, Trust.AUTHORITY, 60, 100, 0, 0)
    with rrcache.Shelf(max_stale=100) as shelf:
        shelf.offer_set("a", A, Trust.AUTHORITY, 60, [ADDRESS], 100)
        fresh = shelf.ask("A", A, 110)
        assert (fresh.kind, fresh.left, fresh.rtype, fresh.entry) == (Kind.FRESH, 50, A, entry)
        stale = shelf.peek("a", A, 160, mode=Mode.STALE_NOW)
        assert (stale.kind, stale.left, stale.rtype, stale.entry) == (Kind.STALE, 30, A, entry)
        # The third event takes its place.
        shelf.offer_set("a", A, HIGH, 90, [ADDRESS], 170)
        assert shelf.peek("a", A, 170).entry == StoredEntry(Kind.FRESH, HIGH, 90, 170, 2, 0)


def test_the_entry_of_a_negative_reply():
    with rrcache.Shelf() as shelf:
        shelf.offer_negative("a", AAAA, Kind.NODATA, LOW, 60, *ROOT_SOA, 100)
        shelf.offer_negative("b", 0, Kind.NXDOMAIN, HIGH, 70, *ROOT_SOA, 110)
        nodata, nxdomain = shelf.peek("a", AAAA, 120), shelf.peek("b", TXT, 120)
        assert (nodata.kind, nodata.left, nodata.rtype) == (Kind.NODATA, 40, AAAA)
        assert nodata.entry == StoredEntry(Kind.NODATA, LOW, 60, 100, 0, 1)
        assert (nxdomain.kind, nxdomain.left, nxdomain.rtype) == (Kind.NXDOMAIN, 60, TXT)
        assert nxdomain.entry == StoredEntry(Kind.NXDOMAIN, HIGH, 70, 110, 1, 0)


def test_misses_have_no_entry():
    with rrcache.Shelf() as shelf:
        shelf.offer_set("a", A, Trust.ADDITIONAL, 60, [ADDRESS], 100)
        for name, purpose in (("b", Purpose.ANYTHING), ("a", Purpose.QUESTION)):
            reply = shelf.ask(name, A, 110, purpose)
            assert (reply.kind, reply.left, reply.rtype, reply.entry) == (Kind.MISS, 0, A, None)
        shelf.offer_failure("b", A, 30, 120)
        reply = shelf.ask("b", A, 130)
        assert (reply.kind, reply.retry_from, reply.entry) == (Kind.FAILED, 150, None)


def test_the_age_of_entries():
    """How many touches came after its last one: of offers that are kept and of asks that hit."""
    with rrcache.Shelf() as shelf:
        def ages():
            return [shelf.peek(it, A, 110).entry.age for it in "ab"]
        for name in "ab":
            shelf.offer_set(name, A, HIGH, 60, [ADDRESS], 100)
        assert ages() == ages() == [1, 0]
        for _ in range(2):  # the second ask is no touch
            shelf.ask("a", A, 110)
            assert ages() == [0, 1]
        shelf.ask("c", A, 110)
        shelf.stored("b", A)
        assert ages() == [0, 1]


def test_replies_are_compared_but_for_their_entries():
    with rrcache.Shelf() as shelf:
        for name in "ab":
            shelf.offer_set(name, A, HIGH, 60, [ADDRESS], 100)
        peeked, asked = shelf.peek("a", A, 110), shelf.ask("a", A, 110)
        assert peeked == asked == rrcache.Reply(Kind.FRESH, 50, wire_name("a"), (ADDRESS,), rtype=A)


def test_what_is_stored_is_told():
    """Of each slot, whatever answers a question, and past its time."""
    with rrcache.Shelf(capacity=8, chapter=64, max_stale=0) as shelf:
        assert shelf.stored("a", A) == (None, None, None)
        shelf.offer_set("a", A, Trust.AUTHORITY, 60, [ADDRESS], 100)
        shelf.offer_negative("a", 0, Kind.NXDOMAIN, HIGH, 70, *ROOT_SOA, 110)
        shelf.offer_failure("a", A, 30, 120)
        shelf.offer_negative("a", TXT, Kind.NODATA, LOW, 80, *ROOT_SOA, 130)
        nxdomain = StoredEntry(Kind.NXDOMAIN, HIGH, 70, 110, 1, 2)
        assert shelf.stored("A", A) == (
            StoredEntry(Kind.FRESH, Trust.AUTHORITY, 60, 100, 0, 3), nxdomain,
            StoredEntry(Kind.FAILED, None, 30, 120, 2, 1))
        nodata = StoredEntry(Kind.NODATA, LOW, 80, 130, 3, 0)
        assert shelf.stored("a", TXT) == (nodata, nxdomain, None)
        assert shelf.stored("a", AAAA) == (None, nxdomain, None)
        assert shelf.stored("b", A) == shelf.stored("a", A, Class.CH) == (None, None, None)
        shelf.offer_set("a", A, HIGH, 0, [ADDRESS], 140)
        assert shelf.stored("a", A).set is None
        shelf.sweep(1000)
        assert shelf.stored("a", A) == (None, None, None)


# ---- Names.


def test_names_that_were_made():
    with rrcache.Shelf(seed=SEED) as shelf:
        shelf.offer_set("www.Example.", A, HIGH, 60, [ADDRESS], 100)
        for count in 1, 64:
            name = rrcache.make_name("WWW.example.", rrcache.Parts(count, SEED))
            assert name.octets == wire_name("www.example.") and 0 <= name.part < count
            for call in shelf.ask, shelf.ask_alias, shelf.peek, shelf.peek_alias:
                assert call(name, A, 110).owner_text == "www.Example."
            assert shelf.stored(name, A).set.ttl == 60


def test_offers_by_names_that_were_made():
    """Of any seed: an offer takes the octets of the name, which are in lower case."""
    name, zone, seed = (rrcache.make_name(it, rrcache.Parts(64, SEED[::-1]))
                        for it in ("WWW.example.", "Example.", "example."))
    response = rrcache.compose_response(rrcache.Query("www.example.", TXT, id=0),
                                        [rrcache.ParsedSet("www.example.", TXT, 60, [b"\1x"])])
    with rrcache.Shelf(seed=SEED) as shelf:
        assert shelf.offer_set(name, A, HIGH, 60, [ADDRESS], 100).name == "KEPT"
        assert shelf.offer_negative(name, AAAA, Kind.NODATA, HIGH, 60, zone, bytes(22),
                                    100).name == "KEPT"
        assert shelf.offer_failure(name, CNAME, 60, 100).name == "KEPT"
        assert shelf.offer_message_unchecked(response, seed, 100).kept == 1
        assert shelf.peek("www.example.", A, 110).owner_text == "www.example."
        assert shelf.peek("www.example.", AAAA, 110).owner_text == "example."
        assert shelf.peek("www.example.", CNAME, 110).retry_from == 160
        assert shelf.peek("www.example.", TXT, 110).data == (b"\1x",)


@pytest.mark.parametrize("call", [
    lambda shelf, name: shelf.ask(name, A, 1), lambda shelf, name: shelf.ask_alias(name, A, 1),
    lambda shelf, name: shelf.peek(name, A, 1), lambda shelf, name: shelf.peek_alias(name, A, 1),
    lambda shelf, name: shelf.stored(name, A)],
    ids=["ask", "ask_alias", "peek", "peek_alias", "stored"])
def test_names_of_another_seed(call):
    name = rrcache.make_name("www.example.", rrcache.Parts(1, SEED[::-1]))
    with rrcache.Shelf(seed=SEED, record=True) as shelf:
        with pytest.raises(rrcache.OtherSeed) as refused:
            call(shelf, name)
        assert refused.value.status == rrcache.Status.OTHER_SEED == 26
        assert shelf.sizes().events == 0


def test_names_are_remembered():
    """As many as are remembered, and one more, are asked for in turn."""
    names = [f"n{it}." for it in range(rrcache.parts.NAMES_MOST + 1)]
    with rrcache.Shelf() as shelf:
        for name in names[::1000]:
            shelf.offer_set(name, A, HIGH, 60, [ADDRESS], 100)
        for _ in range(2):
            found = [name for name in names if shelf.peek(name, A, 110).kind == Kind.FRESH]
            assert found == names[::1000]


# ---- Aliases.


def aliased(*offers):
    """A shelf that was offered addresses and aliases of w, in this order: the type, the trust, the
    TTL and the moment of each."""
    shelf = rrcache.Shelf()
    for rtype, trust, ttl, moment in offers:
        shelf.offer_set("w", rtype, trust, ttl, [wire_name("t") if rtype == CNAME else ADDRESS],
                        moment)
    return shelf


def told_of(shelf, moment, rtype=A, mode=Mode.NO_STALE):
    """The kind and the type of the reply, which a peek and an ask have in common."""
    reply = shelf.peek_alias("w", rtype, moment, mode=mode)
    assert shelf.ask_alias("W", rtype, moment, mode=mode) == reply
    assert reply.is_miss or reply.data == ((wire_name("t"),) if reply.rtype == CNAME
                                           else (ADDRESS,))
    return reply.kind, reply.rtype


def test_an_older_address_beside_a_newer_alias():
    """RFC 8767 section 7: the address is told neither as fresh nor, once both expired, as stale."""
    with aliased((A, LOW, 60, 100), (CNAME, LOW, 60, 110)) as shelf:
        assert told_of(shelf, 115) == (Kind.FRESH, CNAME)
        assert told_of(shelf, 165) == (Kind.FRESH, CNAME)
        assert told_of(shelf, 165, mode=Mode.STALE_NOW) == (Kind.FRESH, CNAME)
        assert told_of(shelf, 170) == (Kind.MISS, A)
        assert told_of(shelf, 170, mode=Mode.STALE_NOW) == (Kind.STALE, CNAME)
        assert shelf.ask("w", A, 115).rtype == A


def test_an_older_address_that_is_trusted_more_than_a_newer_alias():
    """It is told for as long as it is not past its time."""
    with aliased((A, HIGH, 60, 100), (CNAME, LOW, 60, 110)) as shelf:
        assert told_of(shelf, 159) == (Kind.FRESH, A)
        assert told_of(shelf, 160) == (Kind.FRESH, CNAME)
        assert told_of(shelf, 170, mode=Mode.STALE_NOW) == (Kind.STALE, CNAME)


def test_an_older_alias_beside_a_newer_address():
    """The alias is told while it is not past its time and trusted more."""
    with aliased((CNAME, LOW, 60, 100), (A, LOW, 30, 110)) as shelf:
        assert told_of(shelf, 139) == (Kind.FRESH, A)
        assert told_of(shelf, 140) == (Kind.FRESH, CNAME)
        assert told_of(shelf, 140, mode=Mode.STALE_NOW) == (Kind.STALE, A)
    with aliased((CNAME, HIGH, 60, 100), (A, LOW, 600, 110)) as shelf:
        assert told_of(shelf, 159) == (Kind.FRESH, CNAME)
        assert told_of(shelf, 160) == (Kind.FRESH, A)


def test_types_for_which_no_alias_is_told():
    with aliased((CNAME, HIGH, 60, 100)) as shelf:
        assert told_of(shelf, 110, CNAME) == (Kind.FRESH, CNAME)
        assert told_of(shelf, 110, ANY) == (Kind.MISS, ANY)
        assert told_of(shelf, 110, TXT) == (Kind.FRESH, CNAME)


def test_an_alias_where_asking_for_the_type_failed():
    with aliased((CNAME, HIGH, 60, 100)) as shelf:
        assert told_of(shelf, 170, mode=Mode.STALE_IF_FAILED) == (Kind.MISS, A)
        shelf.offer_failure("w", A, 30, 170)
        assert told_of(shelf, 180) == (Kind.FAILED, A)
        assert told_of(shelf, 180, mode=Mode.STALE_IF_FAILED) == (Kind.STALE, CNAME)
        assert told_of(shelf, 200, mode=Mode.STALE_IF_FAILED) == (Kind.MISS, A)


@pytest.mark.parametrize("kind", [Kind.NODATA, Kind.NXDOMAIN])
def test_an_alias_newer_than_a_negative_answer(kind):
    with rrcache.Shelf() as shelf:
        shelf.offer_negative("w", A, kind, LOW, 600, *ROOT_SOA, 100)
        assert shelf.ask_alias("w", A, 101).kind == kind
        shelf.offer_set("w", CNAME, LOW, 60, [wire_name("t")], 102)
        reply = shelf.ask_alias("w", A, 103)
        assert (reply.kind, reply.left, reply.rtype) == (Kind.FRESH, 59, CNAME)
        assert reply.entry == StoredEntry(Kind.FRESH, LOW, 60, 102, 2, 0)
        after = shelf.ask_alias("w", A, 163)
        assert (after.kind, after.rtype) == (kind, A)
