# SPDX-License-Identifier: MIT
"""Hostile messages, names, traces and archives cost no more than a bar, in octets of memory and in
processor time, and traces without end are refused.

Bars of time are ratios of two times, each the least of some runs in turn: of what is hostile to
what is not and has the same size, or of four times as much to once as much, which is 4 where time
goes with the size, and 16 where it goes with its square: the bar is 8. So they hold on any machine.
What stays of a message is what the C library's allocator has given out more than before (mallinfo2,
of glibc).
"""
import contextlib
import subprocess

import pytest
import rrcache

from tests.hostile.attacks import (ENDS, LONG, MESSAGES, MOST_OCTETS, ROOT, behind_pointers,
                                   filled, label, many_keys, one_key, openings, puts_and_asks)
from tests.hostile.costs import memory, timed, used_by
from tests.hostile.rooms import KINDS, ratios
from tools.traces import QUESTIONS_MOST
from tools.trials import Answer, by_model, by_program, run
from tools.wire import A, name_at, question, record

MOST_KEYS = 65_536
# The bars: how many times as long, or as many octets.
BEHIND_POINTERS, FOUR_TIMES, PICKED_NAMES, FULL_PART = 2, 8, 1.5, 6
# A square takes 16 times as long. The fewer keys fit into a processor's cache, and the more do not.
SWEPT_FOUR_TIMES = 12
STAYS, EVENT_STAYS, PROGRAM_HOLDS = 100, 40, 20
# What is held of keys, to the octets that are told of them.
LEAST_HELD, MOST_HELD = 0.8, 1.25
# How many times the octets of a response are told of each key that it makes.
OF_A_KEY, URI = 4, 256
CLASHES = 10_000
# Octets that answer another query cost at most so many times what their first 12 cost.
DROPPED = 2
PARTS = rrcache.Parts(1, bytes(range(16)))
QUERY = rrcache.Query("a.example", A, 0x1234)
# How long a run may take that has to end.
SECONDS = 60
# The octets of messages that the model reads, which is slow.
FOR_THE_MODEL = 8_191

pytestmark = pytest.mark.usefixtures("library")
of_each_message = pytest.mark.parametrize("make", MESSAGES, ids=lambda it: it.__name__)
of_names = pytest.mark.parametrize("end", ENDS.values(), ids=ENDS)


def is_within(bar, once, most, runs=7):
    """Whether one call takes at most so many times as long as another, by the least of some runs in
    turn, and of more if it does not by these. A call answers the milliseconds that it takes."""
    took = []
    for _ in range(3):
        took += [(once(), most()) for _ in range(runs)]
        if min(it for _, it in took) <= bar * min(it for it, _ in took):
            return True
    return False


def read(message):
    """The milliseconds of reading a message, which has to be one."""
    took, fault = timed(rrcache.fault, message)
    assert not fault
    return took


def offered(message):
    """The milliseconds of an offer of a message to an empty shelf."""
    with rrcache.Shelf(MOST_KEYS, MOST_KEYS) as shelf:
        return timed(shelf.offer_message_unchecked, message, ROOT, 0)[0]


def dropped(message):
    """The milliseconds of 100 readings of octets that answer another query."""
    def read_all():
        for _ in range(100):
            with contextlib.suppress(rrcache.OtherQuery):
                rrcache.read_response(message, ROOT, QUERY, PARTS, 0)
    return timed(read_all)[0]


def names_of(keys, end, step=1):
    """The names of so many keys, in no order, or some of them that lie apart."""
    # A factor with no divisor of 36, so that no name comes twice.
    return [label(number * 40_507 % 36**4, 4) + end for number in range(0, keys, step)]


def filled_shelf(keys, end, record=False):
    """A shelf of so many keys, all of which are held."""
    shelf = rrcache.Shelf(keys, keys, 0, record=record)
    for name in names_of(keys, end):
        shelf.offer_set(name, A, 4, 60, [bytes(4)], 0)
    return shelf


# ---- Traces.


@pytest.mark.parametrize("text", [
    b"response 0 . %s\n" % many_keys(MOST_OCTETS).hex().encode() * 20,
    b"response 0 . %s\n" % one_key(MOST_OCTETS).hex().encode()
    + b"ask 1 %s 14 any none\n" % LONG.encode() * 50,
], ids=["20 responses of many_keys", "one_key and 50 asks"])
def test_octets_that_the_program_holds(program, text):
    """To the octets of its trace and of its report."""
    used = used_by([program], text)
    assert used.memory / (len(text) + used.written) <= PROGRAM_HOLDS


def refused(fault):
    """The answer to a trace that is refused for this fault."""
    return Answer(1, b"", f"rrcache: {fault}\n".encode())


@pytest.mark.parametrize("words, fault", [
    (["cat", "/dev/zero"], "line 0 is not a line of a trace"),
    (["yes", "checkpoint"], "the trace has more than 1000000 lines"),
], ids=["a line", "lines"])
def test_traces_without_end(program, words, fault):
    """Reading ends, in a line that has no end and among lines of which there is no end."""
    with subprocess.Popen(words, stdout=subprocess.PIPE) as endless:
        assert run([program], None, SECONDS, stdin=endless.stdout) == refused(fault)


def test_one_question_too_many(program):
    """A repeat in other letters is no new question. The first fault is told, and a line that is
    none asks nothing."""
    most = "".join(f"fetch 1 n{number} 1 . -\n" for number in range(QUESTIONS_MOST))
    most += f"fetch 1 N{QUESTIONS_MOST - 1} 1 a 00\n"
    assert by_program(program, {}, most.encode()).status == 0
    for behind, fault in (
            ("fetch 1 n0 28 . -\n?\n", f"line {QUESTIONS_MOST + 1} asks one question too many"),
            ("fetch 1 n0 28 . ?\n", f"line {QUESTIONS_MOST + 1} is not a line of a trace")):
        assert by_program(program, {}, (most + behind).encode()) == refused(fault)


# ---- Messages.


@of_each_message
def test_messages_as_the_model_reads_them(program, make):
    """The program's report on each is that of the model of the rules."""
    text = b"response 0 . %s\n" % make(FOR_THE_MODEL).hex().encode()
    assert by_program(program, {}, text) == by_model({}, text)


@pytest.mark.alone
def test_names_behind_the_longest_chain_of_pointers():
    """3,000 records whose names all go through 8,177 pointers, and the same where they go through
    one."""
    through, past = behind_pointers(MOST_OCTETS), behind_pointers(MOST_OCTETS, is_direct=True)
    assert is_within(BEHIND_POINTERS, lambda: read(past), lambda: read(through))


@pytest.mark.alone
@pytest.mark.parametrize("call", [read, offered])
@of_each_message
def test_messages_of_four_times_the_size(make, call):
    small, large = make(MOST_OCTETS // 4), make(MOST_OCTETS)
    assert is_within(FOUR_TIMES, lambda: call(small), lambda: call(large))


@pytest.mark.alone
@of_each_message
def test_messages_under_a_wrong_identifier(make):
    """However many octets stand behind a wrong identifier, they cost what a header alone costs."""
    message = b"\x43\x21" + make(MOST_OCTETS)[2:]
    assert is_within(DROPPED, lambda: dropped(message[:12]), lambda: dropped(message))


@of_each_message
def test_octets_that_stay_of_a_message(make):
    message = make(MOST_OCTETS)
    with rrcache.Shelf(MOST_KEYS, MOST_KEYS) as shelf:
        before = memory()
        shelf.offer_message_unchecked(message, ROOT, 0)
        assert (memory() - before) / len(message) <= STAYS


def octets_of_relevant(message):
    """What a shelf tells that was offered what is relevant of a response to its question."""
    name, at = name_at(message, 12)
    query = rrcache.Query(name + ".", int.from_bytes(message[at:at + 2], "big"), 0x1234)
    with (rrcache.Shelf(MOST_KEYS, MOST_KEYS, seed=PARTS.seed) as shelf,
          rrcache.read_response(message, ROOT, query, PARTS, 0) as offers):
        shelf.offer_read(offers, 0)
        return shelf.sizes()


@of_each_message
def test_octets_of_the_keys_that_a_response_makes(make):
    message = make(MOST_OCTETS)
    told = octets_of_relevant(message)
    assert told.octets <= OF_A_KEY * len(message) * told.keys


def test_octets_of_the_most_records_that_a_response_makes():
    """The most records fit where each has the root for its owner and two octets of data: 13 octets
    of the message for each. They make one key, whose name is the root too."""
    small = (record(ROOT, URI, 600, it.to_bytes(2, "big")) for it in range(65_536))
    told = octets_of_relevant(filled(MOST_OCTETS, question(ROOT, URI), small))
    # The name and the list of the records are values with owners, and each record is a value.
    values = 2 + (MOST_OCTETS - 17) // 13
    assert told.octets == (rrcache.ENTRY_OCTETS + 2 * rrcache.SHARED_OCTETS + rrcache.BLOCK_OCTETS
                           + values * rrcache.VALUE_OCTETS) and told.keys == 1
    assert OF_A_KEY * MOST_OCTETS / told.octets <= 1.25


@pytest.mark.parametrize("is_swept", [False, True], ids=["never swept", "swept"])
@pytest.mark.parametrize("offer", KINDS.values(), ids=KINDS)
def test_octets_that_keys_hold(offer, is_swept):
    """To those that are told, whether a table just doubled or is about to. What the interpreter
    asks for meanwhile is counted too: so it is measured again where that comes in between."""
    measured = (ratios(offer, memory, 4700, is_swept) for _ in range(3))
    assert any(LEAST_HELD <= least and most <= MOST_HELD for least, most in measured)


@pytest.mark.parametrize("is_recording, is_swept, bar", [
    (False, False, MOST_HELD), (False, True, 2.5), (True, True, 3)])
def test_octets_that_stay_beside_those_told(is_recording, is_swept, bar):
    """Of keys that evict each other, of which each has a name of 255 octets. A shelf that was swept
    keeps the times at which they expire, with names of keys that are gone. One that records is
    looked at right after a chapter was closed and dropped: what the next one began with stays."""
    keys, most = 1024, 0
    with rrcache.Shelf(keys, keys // 4, record=is_recording) as shelf:
        before = memory()
        if is_swept:
            shelf.sweep(0)
        for number in range(9 * keys):
            name = label(number, 4) + ENDS["names of 255 octets"]
            shelf.offer_set(name, A, 4, 600, [bytes(4)], number // 1000)
            if number % (keys // 4) == 0:
                shelf.drop_chapters()
                told = shelf.sizes()
                if told.keys == keys:
                    most = max(most, (memory() - before) / told.octets)
    assert most <= bar


@pytest.mark.parametrize("is_recording", [False, True])
def test_octets_that_stay_of_what_is_not_kept(is_recording):
    """Of offers with a TTL of 0 the open chapter has their rdata, and closed chapters are dropped
    with theirs. Where nothing is recorded nothing of them stays."""
    message = one_key(MOST_OCTETS, 0)
    with rrcache.Shelf(16, 20, record=is_recording) as shelf:
        shelf.peek("a.", A, 1)  # the package keeps a buffer for replies, and the name
        before = memory()
        for _ in range(20):
            shelf.offer_message_unchecked(message, ROOT, 0)
        if is_recording:
            assert (memory() - before) / (20 * len(message)) <= EVENT_STAYS
            shelf.ask("a.", A, 1)
            shelf.drop_chapters()
        assert (memory() - before) / len(message) <= 1


# ---- Names.


@pytest.mark.alone
def test_names_of_one_hash(program):
    """Names that collide under a fast hasher with a known number, and others as long."""
    words = [program, "--capacity", str(CLASHES), "--chapter", str(4 * CLASHES)]
    others, picked = (puts_and_asks(CLASHES, it).encode() for it in (False, True))

    def replayed(text):
        used = used_by(words, text)
        assert not used.status
        return used.seconds
    assert is_within(PICKED_NAMES, lambda: replayed(others), lambda: replayed(picked), runs=3)


# ---- Full parts.


@pytest.mark.alone
@of_names
def test_asks_of_a_full_part(end):
    """2,048 asks that lie apart, of 65,536 keys and of 4,096."""
    def asked(shelf, keys):
        names = names_of(keys, end, keys // 2048)
        return timed(lambda: [shelf.ask(name, A, 1) for name in names])[0]
    with filled_shelf(4096, end) as few, filled_shelf(MOST_KEYS, end) as many:
        assert is_within(FULL_PART, lambda: asked(few, 4096), lambda: asked(many, MOST_KEYS))


@pytest.mark.alone
@of_names
def test_sweeps_of_four_times_the_keys(end):
    """Of sweeps that remove all keys, of a shelf that records: its history keeps what they held, so
    that the time is the sweep's own, and none is that of malloc's free, which takes several times
    as long where the processor's cache has too little room."""
    def swept(keys):
        with filled_shelf(keys, end, record=True) as shelf:
            took, removed = timed(shelf.sweep, 100)
        assert removed == keys
        return took
    assert is_within(SWEPT_FOUR_TIMES, lambda: swept(MOST_KEYS // 4), lambda: swept(MOST_KEYS), 5)


# ---- Archives.


@pytest.mark.alone
@of_names
def test_archives_of_four_times_the_entries(program, end):
    """Two chapters, of which the second begins with other entries than the first led to. Each time
    has to be that of a whole audit, which tells of that at its end."""
    audit = [program, "--audit-history"]
    few, many = (openings(keys, end).encode() for keys in (MOST_KEYS // 16, MOST_KEYS // 4))
    for it in few, many:
        assert run(audit, it, SECONDS).report == (
            b"not legal: chapter 1 does not begin with what the one before it ends with\n")
    once, most = (lambda it=it: used_by(audit, it).seconds for it in (few, many))
    assert is_within(FOUR_TIMES, once, most, runs=3)
