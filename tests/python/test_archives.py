# SPDX-License-Identifier: MIT
"""Archives: how the package reads them, and the chapters that leave a shelf."""
import copy
import pickle

import pytest
from dns.rdatatype import A, AAAA, TXT

import rrcache
from tests.forwarder.harness import wire_name
from tests.tools.shared import ARCHIVE
from tests.tools.shared import SOA as SOA_DATA

ADDRESSES = (b"\xc0\0\2\1", b"\xc0\0\2\2")
A_KEY = rrcache.Key("a.example.", rrcache.Slot.SET, 1)
B_KEY = rrcache.Key("b.", rrcache.Slot.FAILED, 28)
BODY = rrcache.RRset(rrcache.Trust.AUTHORITATIVE_ANSWER, 60, "a.Example.", ADDRESSES)


def test_chapters_are_read():
    """Those of the archive by hand that the tests of the model have."""
    chapters = rrcache.read_archive(ARCHIVE)
    assert "".join(it.text for it in chapters) == ARCHIVE
    assert [(it.number, it.first, it.capacity, it.chapter, it.max_stale) for it in chapters] == [
        (1, 0, 2, 4, 100), (2, 4, 2, 4, 100), (3, 8, 2, 4, 100), (4, 12, 2, 4, 100)]
    assert rrcache.read_archive("") == []


def test_events_are_read():
    """Each in the order of its fields: offers, asks, an entry, a sweep, a negative answer."""
    first, second, third, _ = rrcache.read_archive(ARCHIVE)
    fresh = rrcache.Reply(rrcache.Kind.FRESH, 10, wire_name("a.Example"), ADDRESSES, rtype=A)
    assert first.events[:2] == (
        rrcache.Offer(0, 0, 100, A_KEY, BODY, rrcache.Outcome.KEPT),
        rrcache.Ask(1, 0, 150, "a.example.", 1, 1, rrcache.Purpose.QUESTION, rrcache.Mode.NO_STALE,
                    fresh))
    cleared = first.events[3]
    assert cleared.key == rrcache.Key("a\\.b\\000.", rrcache.Slot.SET, 16, rrcache.Class.CH)
    assert (cleared.body.data, cleared.outcome) == ((b"",), rrcache.Outcome.CLEARED)
    assert second.entries == (rrcache.Entry(0, 100, A_KEY, BODY),)
    assert second.events[0] == rrcache.Offer(4, 0, 160, B_KEY, rrcache.Failure(30),
                                             rrcache.Outcome.KEPT)
    assert second.events[1].reply == rrcache.Reply(rrcache.Kind.FAILED, retry_from=190, rtype=AAAA)
    assert second.events[2].evicted == A_KEY
    assert second.events[3].reply == rrcache.Reply(rrcache.Kind.STALE, 30, wire_name("c"),
                                                   (b"\0", b""), rtype=TXT)
    c_key = rrcache.Key("c.", rrcache.Slot.SET, 16, rrcache.Class.HS)
    assert third.events[0] == rrcache.Sweep(8, 0, 300, (B_KEY, c_key))
    data = bytes.fromhex(SOA_DATA)
    assert third.events[2].key == rrcache.Key("a.example.", rrcache.Slot.NX)
    assert third.events[2].body == rrcache.Negative(4, 300, "example.", data)
    assert third.events[3].reply == rrcache.Reply(rrcache.Kind.NXDOMAIN, 200, wire_name("example"),
                                                  (data,), rtype=A)


@pytest.mark.parametrize("copied", [copy.copy, lambda it: pickle.loads(pickle.dumps(it))],
                         ids=["copied", "pickled"])
def test_a_copy_of_a_fault_says_the_same(copied):
    fault = copied(rrcache.ArchiveFault(3))
    assert (str(fault), fault.line) == ("line 3 is not a line of an archive", 3)


HEAD = "chapter 1 0 1024 4096 86400\n"
OFFER = HEAD + "offer 0 0 100 {} kept\n"
# Texts that are no archive, and their first line that is none.
NO_ARCHIVES = [
    ("chapter 1 0 1024 4096 86400", 0), ("chapter 1 0 1024 4096\n", 0),
    ("chapter 01 0 1 1 0\n", 0), ("chapter 1 0 0 4096 0\n", 0), ("chapter 1 0 1 1048577 0\n", 0),
    ("chapter 1 0 1 1 604801\n", 0), (f"chapter {2 ** 64} 0 1 1 0\n", 0),
    ("chapter 1 0 1 1 0 0\n", 0), ("chapter  1 0 1 1 0\n", 0), ("sweep 0 0 0\n", 0), ("\n", 0),
    (HEAD + "\n", 1), (HEAD + "sweep 0 0 0 \n", 1), (HEAD + "sweep 0 0 0 a.\n", 1),
    (HEAD + "sweep 0 0 0 a 1\n", 1), (HEAD + "sweep 0 0 0 A. 1\n", 1),
    (HEAD + "sweep 0 0 0 a. 1/1\n", 1), (HEAD + "sweep 0 0 0 a. failed\n", 1),
    (HEAD + "sweep 0 0 0 a. 65536\n", 1), (HEAD + "sweep 0 0 0 \\097. 1\n", 1),
    (HEAD + "sweep 0 0 0\r\n", 1), (HEAD + "sweep 0 0 0\nentry 0 0 a. 1 failure 1\n", 2),
    (OFFER.format("a. 1 set 4 60 a. C0"), 1), (OFFER.format("a. 1 set 4 60 a. c"), 1),
    (OFFER.format("a. 1 set 4 60 a. "), 1), (OFFER.format("a. 1 set 5 60 a. c0"), 1),
    (OFFER.format("a. 1 set 4 2147483648 a. c0"), 1), (OFFER.format("a. 1 set 4 60 b. c0"), 1),
    (OFFER.format("a. failed1 set 4 60 a. c0"), 1), (OFFER.format("a. 1 failure 30"), 1),
    (OFFER.format("a. failed1 negative 4 60 a. c0"), 1),
    (OFFER.format("a. 1 negative 4 60 a. c0,c0"), 1),
    (HEAD + "ask 0 0 0 a. nx any none miss\n", 1), (HEAD + "ask 0 0 0 a. 1 all none miss\n", 1),
    (HEAD + "ask 0 0 0 a. 1 any none hit\n", 1),
    (HEAD + "ask 0 0 0 a. 1 any none fresh 9 a.\n", 1),
    (HEAD + "ask 0 0 0 a. 1 any none miss 9 9\n", 1), (HEAD + HEAD + "sweep 0 0 -1\n", 2)]


@pytest.mark.parametrize("text, line", NO_ARCHIVES)
def test_texts_that_are_no_archives(text, line):
    with pytest.raises(rrcache.ArchiveFault) as fault:
        rrcache.read_archive(text)
    assert fault.value.line == line


def test_chapters_leave_a_shelf():
    """By hand: two chapters of two events are closed, and the last one is open. The chapter before
    them is the one that was not recorded."""
    long = bytes(range(256)) * 16
    with rrcache.Shelf(capacity=1, chapter=2, max_stale=0, record=True) as shelf:
        shelf.offer_set("WWW.example.", TXT, 4, 60, [long], 100, line=7)
        shelf.ask("www.Example.", TXT, 110, line=8)
        shelf.offer_failure("a.", A, 30, 120, line=9)
        shelf.sweep(150)
        shelf.sweep(150, line=2 ** 64 - 1)
        stored = f"set 4 60 WWW.example. {long.hex()}"
        texts = [
            "chapter 2 0 1 2 0\n"
            f"offer 7 0 100 www.example. 16 {stored} kept\n"
            f"ask 8 0 110 www.example. 16 answer none fresh 50 WWW.example. {long.hex()}\n",
            "chapter 3 2 1 2 0\n"
            f"entry 0 100 www.example. 16 {stored}\n"
            "offer 9 0 120 a. failed1 failure 30 kept www.example. 16\n"
            "sweep 0 0 150 a. failed1\n",
            f"chapter 4 4 1 2 0\nsweep {2 ** 64 - 1} 0 150\n"]
        assert [it.text for it in shelf.take_chapters()] == texts[:2]
        assert shelf.take_chapters() == []
        assert [it.text for it in shelf.stop_recording()] == texts[2:]
        assert shelf.stop_recording() == shelf.take_chapters() == []
        assert shelf.sizes()[1:3] == (0, 0)
