# SPDX-License-Identifier: MIT
"""What the package refuses: texts that are no names, and arguments that are out of their ranges."""
import copy
import pickle

import pytest
from dns.rdatatype import A, CNAME, OPT, TXT

import rrcache
from rrcache import library, refusals
from tests.forwarder.harness import ID, answered

SEED = bytes(range(16))


@pytest.mark.parametrize("text, octets", [
    (".", b"\0"), ("", b"\0"), ("a.b", b"\1a\1b\0"), ("a\\.b.", b"\3a.b\0"),
    ("\\032x.", b"\2 x\0"), ("\\\\.", b"\1\\\0")])
def test_names(text, octets):
    assert rrcache.to_wire(text) == octets == rrcache.to_wire(rrcache.to_text(octets))


@pytest.mark.parametrize("text", [
    "a..b", ".a", "a\\", "\\999", "\\1", "a\\12.b", "a" * 64, ".".join(["a" * 63] * 4),
    "\u00fc\u0100"])
def test_texts_that_are_no_names(text):
    with pytest.raises(rrcache.NameFault):
        rrcache.to_wire(text)


def parts(count, seed=SEED):
    return rrcache.Parts(count, seed)


def offer_part(shelf, message, division, part):
    return shelf.offer_part_unchecked(message, b"\0", division, part, 1)


def read(message, division, zone=".", limits=rrcache.Limits()):
    return rrcache.read_message_unchecked(message, zone, division, 100, limits)


def negative(shelf, kind, trust=4):
    return shelf.offer_negative(".", A, kind, trust, 60, ".", bytes(22), 1)


RESPONSE = answered("a.example", A)
QUERY = rrcache.Query("a.example", A, ID)
# A header without a question, whose RCODE is REFUSED.
REFUSED_ALONE = ID.to_bytes(2, "big") + bytes([0x80, 5, *bytes(8)])


@pytest.mark.parametrize("status, call", [
    (5, lambda it: it.sweep(2 ** 40 + 1)),
    (5, lambda it: it.sweep_some(2 ** 40 + 1, 1)),
    (5, lambda it: it.trim(2 ** 40 + 1, 1)),
    (5, lambda it: it.ask(".", A, 2 ** 40 + 1)),
    (6, lambda it: it.sweep_some(1, 0)),
    (6, lambda it: it.trim(1, 0)),
    (6, lambda it: it.trim(1, 1, 0)),
    (6, lambda it: rrcache.Cache(4).trim(1, 3)),
    (9, lambda it: it.ask(b"\1", A, 1)),
    (9, lambda it: it.stored(b"\1", A)),
    (10, lambda it: it.offer_message_unchecked(b"x", b"\0", 1)),
    (11, lambda it: it.ask(b"\0", A, 1, 0)),
    (11, lambda it: it.ask(b"\0", A, 1, 3)),
    (11, lambda it: it.peek(b"\0", A, 1, mode=0)),
    (11, lambda it: it.ask_alias(b"\0", A, 1, mode=4)),
    (11, lambda it: negative(it, 0)),
    (11, lambda it: negative(it, rrcache.Kind.FRESH)),
    (11, lambda it: negative(it, rrcache.Kind.NODATA, 0)),
    (11, lambda it: it.offer_set(b"\0", A, 5, 1, [b"1234"], 1)),
    (12, lambda it: it.ask(b"\0", 0, 1)),
    (12, lambda it: it.ask(b"\0", A, 1, rclass=2)),
    (12, lambda it: it.offer_set(b"\0", OPT, 4, 1, [b""], 1)),
    (13, lambda it: it.offer_set(b"\0", CNAME, 4, 1, [b"\1"], 1)),
    (14, lambda it: it.offer_set(b"\0", A, 4, 1, [], 1)),
    (14, lambda it: it.offer_set(b"\0", A, 4, 2 ** 31, [b"1234"], 1)),
    (8, lambda it: it.offer_message_unchecked(b"x", b"\0", 1, rrcache.Limits(recheck=0))),
    (6, lambda it: rrcache.Shelf(capacity=0)),
    (6, lambda it: rrcache.Shelf(max_stale=604_801)),
    (7, lambda it: rrcache.Shelf(seed=b"x")),
    (7, lambda it: rrcache.Shelf(seed=bytes(16))),
    (6, lambda it: rrcache.Cache(0)),
    (6, lambda it: rrcache.Cache(65, seed=SEED)),
    (7, lambda it: rrcache.Cache(seed=SEED[:15])),
    (7, lambda it: rrcache.Cache(seed=bytes(16))),
    (6, lambda it: rrcache.make_name(".", parts(65))),
    (6, lambda it: rrcache.make_name(".", parts(0))),
    (7, lambda it: rrcache.make_name(".", parts(64, SEED[:15]))),
    (7, lambda it: rrcache.make_name(".", parts(64, bytes(16)))),
    (9, lambda it: rrcache.make_name(b"", parts(64))),
    (26, lambda it: it.ask(rrcache.make_name(".", parts(1)), A, 1)),
    (6, lambda it: offer_part(it, b"x", parts(4), 4)),
    (7, lambda it: offer_part(it, b"x", parts(4, b""), 3)),
    (7, lambda it: offer_part(it, b"x", parts(4, bytes(16)), 3)),
    (10, lambda it: offer_part(it, b"x", parts(4), 3)),
    (6, lambda it: read(RESPONSE, parts(65))),
    (7, lambda it: read(RESPONSE, parts(64, SEED + b"x"))),
    (7, lambda it: read(RESPONSE, parts(64, bytes(16)))),
    (10, lambda it: read(b"x", parts(4))),
    (9, lambda it: read(RESPONSE, parts(4), b"\1")),
    (20, lambda it: rrcache.read_response(RESPONSE, ".", QUERY._replace(rtype=CNAME), parts(4), 1)),
    (20, lambda it: rrcache.read_response(RESPONSE, ".", QUERY._replace(id=ID + 1), parts(4), 1)),
    (20, lambda it: rrcache.read_response(b"x", ".", QUERY, parts(4), 1)),
    (27, lambda it: rrcache.read_response(REFUSED_ALONE, ".", QUERY, parts(4), 1))])
def test_refusals(status, call):
    with rrcache.Shelf(record=True) as shelf:
        with pytest.raises(rrcache.Refused) as refused:
            call(shelf)
        assert refused.value.status == status
        assert shelf.sizes() == (0, 0, 0, 0)


@pytest.mark.parametrize("call", [
    lambda it: it.ask(".", 65_536, 1), lambda it: it.ask(".", -1, 1),
    lambda it: it.peek(".", A, 2 ** 64), lambda it: it.ask(".", A, -1),
    lambda it: it.ask(".", A, 1.5), lambda it: it.ask(".", A, 1, rclass=65_537),
    lambda it: it.stored(".", 65_537), lambda it: it.sweep(2 ** 64),
    lambda it: it.trim(1, 2 ** 64), lambda it: it.trim(1, 1, -1), lambda it: it.trim(1, 1.5),
    lambda it: it.offer_set(".", A, 4, 2 ** 32 + 1, [b"1234"], 1),
    lambda it: it.offer_set(".", TXT, 4, 1, [bytes(65_536)], 1),
    lambda it: it.offer_failure(".", A, 1, 1, line=2 ** 64),
    lambda it: it.offer_message_unchecked(b"x", ".", 1, rrcache.Limits(recheck=2 ** 32 + 1)),
    lambda it: rrcache.Shelf(capacity=2 ** 64 + 1)])
def test_numbers_that_their_fields_have_no_room_for(call):
    """None is cut to what there is room for."""
    with rrcache.Shelf(record=True) as shelf:
        with pytest.raises(ValueError):
            call(shelf)
        assert shelf.sizes() == (0, 0, 0, 0)


@pytest.mark.parametrize("call", [
    rrcache.Shelf.sizes, rrcache.Shelf.record, rrcache.Shelf.stop_and_drop,
    rrcache.Shelf.take_chapters, rrcache.Shelf.stop_recording, rrcache.Shelf.next_expiry,
    lambda it: it.ask(".", A, 1), lambda it: it.peek_alias(".", A, 1),
    lambda it: it.stored(".", A), lambda it: it.sweep_some(1, 1), lambda it: it.trim(1, 1)])
def test_a_shelf_that_was_closed(call):
    with rrcache.Shelf() as shelf:
        pass
    with pytest.raises(rrcache.NoShelf) as refused:
        call(shelf)
    assert refused.value.status == 1


def test_offers_that_were_closed():
    with read(RESPONSE, parts(4)) as offers:
        pass
    with rrcache.Shelf() as shelf, pytest.raises(rrcache.Refused) as refused:
        shelf.offer_read(offers, 0)
    assert refused.value.status == 18
    with pytest.raises(rrcache.NoOffers):
        list(offers)


def test_offers_that_are_closed_while_they_are_told():
    with read(answered("a.example", A, "a.example 60 A 192.0.2.9"), parts(4)) as offers:
        told = iter(offers)
        next(told)
    with pytest.raises(rrcache.NoOffers):
        next(told)


def test_parts_that_offers_were_not_read_for():
    with read(RESPONSE, parts(4)) as offers, rrcache.Shelf() as shelf:
        with pytest.raises(rrcache.BadRules):
            shelf.offer_read(offers, 4)


@pytest.mark.parametrize("name, number", [("MAJOR", 1), ("MAJOR", 3), ("MINOR", 255)])
def test_libraries_that_the_package_is_not_for(name, number, monkeypatch):
    """Those of another major version, and of an older minor one."""
    major, minor, _ = rrcache.library_version()
    monkeypatch.setattr(f"rrcache.library.{name}", number)
    with pytest.raises(ImportError, match=f"has version {major}.{minor}, and this package is for"):
        library.loaded_from(library.path())


@pytest.mark.parametrize("place", ["/nowhere/none.so", "libc.so.6"])
def test_a_library_that_is_not_there_or_another_one(place):
    with pytest.raises(ImportError, match="cannot be loaded"):
        library.loaded_from(place)


def test_a_status_of_a_newer_library():
    fault = refusals.refusal(200, rrcache.Counts(1, 0, 0))
    assert (type(fault), fault.status, str(fault)) == (rrcache.Refused, 200, "no such status")
    assert fault.counts.kept == 1


@pytest.mark.parametrize("copied", [copy.copy, copy.deepcopy, pickle.dumps])
def test_what_has_a_handle_is_not_copied(copied):
    """The end of a copy would close it: another thread may be in a call then."""
    with rrcache.Shelf() as shelf, read(RESPONSE, parts(4)) as offers:
        for it in shelf, offers:
            with pytest.raises(TypeError, match=f"cannot copy or pickle a {type(it).__name__}"):
                copied(it)
        assert shelf.sizes().keys == 0 and offers.summary


@pytest.mark.parametrize("numbers", [(1, 1, 1), (604_800, 604_800, 300)])
def test_limits_of_offers(numbers):
    read(RESPONSE, parts(1), limits=rrcache.Limits(*numbers)).close()


@pytest.mark.parametrize("numbers", [(0, 1, 1), (604_801, 1, 1), (1, 0, 1), (1, 604_801, 1),
                                     (1, 1, 0), (1, 1, 301)])
def test_limits_of_offers_out_of_their_ranges(numbers):
    with pytest.raises(rrcache.BadLimits):
        read(RESPONSE, parts(1), limits=rrcache.Limits(*numbers))
