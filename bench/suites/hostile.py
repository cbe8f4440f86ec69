# SPDX-License-Identifier: MIT
"""Tells what hostile messages, names and traces cost: octets of memory, and time.

RRCACHE_LIBRARY may name another C library, and RRCACHE_PROGRAM another program, which traces
are for. Each message has no more than SIZE octets and is offered to an empty shelf. A shelf records
its history where events or chapters are measured, and nowhere else. What stays is what the C
library's allocator has given out more than before (mallinfo2, of glibc). Times are milliseconds of
the thread's processor time: of a message the least of RUNS, of a full part those of one call each.
A caller spends them under the lock of the shelf, but for what only reads a message. All runs in a
thread whose stack has STACK KB, since no proof says how deep the stack gets.
"""
import concurrent.futures
import os
import threading
from itertools import product
from pathlib import Path

from bench.setup import BUILD, REPLAY
from tests.hostile.attacks import (ASKED, ENDS, LONG, MESSAGES, ROOT, label, many_keys, many_types,
                                   one_key)
from tests.hostile.costs import memory, timed, used_by
from tools.wire import A, MINFO, TXT, question, record, response, wire

try:
    import rrcache
except ImportError:
    # `bench/run` tells of what is needed, and has to tell of the options without it.
    rrcache = None

MOST_KEYS, SEED, ADDRESS = 65_536, bytes(range(16)), bytes(4)
LONG_NAMES = "names of 255 octets"
NEEDS = (Path(os.environ.get("RRCACHE_LIBRARY", BUILD / "librrcache.so")),)
PROGRAM = Path(os.environ.get("RRCACHE_PROGRAM", REPLAY))
OPTIONS = {
    "size": (65_535, "octets of a message"), "keys": (MOST_KEYS, "keys of a part"),
    "runs": (5, "runs of each message"), "stack": (64, "KB of the thread's stack"),
}


def tell_message(make, size, runs):
    message = make(size)
    read = min(timed(rrcache.fault, message)[0] for _ in range(runs))
    offer, kept, told = [], 0, None
    for _ in range(runs):
        with rrcache.Shelf(MOST_KEYS, MOST_KEYS) as shelf:
            before = memory()
            offer.append(timed(shelf.offer_message_unchecked, message, ROOT, 0)[0])
            kept, told = memory() - before, shelf.sizes()
    print(f"{make.__name__:12}{len(message):8,} octets: {told.keys:5,} keys, {kept:10,} octets stay"
          f" ({kept / len(message):4.1f} times; {told.octets:10,} are told),"
          f" read {read:5.1f} ms, offered {min(offer):5.1f} ms")


# ---- Offers of a key for each number.


def name(number, kind="short names"):
    # A factor with no divisor of 36, so that names come in no order and none twice.
    return label(number * 40_507 % 36**4, 4) + ENDS[kind]


def capitals(number, kind=LONG_NAMES):
    return name(number, kind).upper()


def sets_of(data, owner=name, rtype=TXT):
    return lambda shelf, it, moment: shelf.offer_set(owner(it), rtype, 4, 600, data, moment)


def repeated(owner):
    """Sets of a record that came 15 times."""
    records = 15 * [record(ASKED, A, 600, ADDRESS)]
    return lambda shelf, it, moment: shelf.offer_message_unchecked(
        response(question(owner(it), A), records), ROOT, moment)


def denied(shelf, it, moment):
    soa = name(it, LONG_NAMES) + name(it + 7, LONG_NAMES) + bytes(20)
    shelf.offer_negative(capitals(it), A, rrcache.Kind.NXDOMAIN, 3, 600, capitals(it), soa, moment)


def failed(shelf, it, moment):
    shelf.offer_failure(name(it), A, 300, moment)


def fill(shelf, kind, keys):
    for number in range(keys):
        shelf.offer_set(name(number, kind), A, 4, 60, [ADDRESS], 0)


# ---- What full parts take.


def room(keys, offer, times, is_recording):
    """What a shelf tells once so many times as many keys came as it has room for, and what it holds
    with the events of their offers, and without them."""
    before = memory()
    with rrcache.Shelf(keys, keys, record=is_recording) as shelf:
        for number in range(times * keys):
            offer(shelf, number, 0)
            if number % keys == 0:
                shelf.drop_chapters()
        first = memory() - before
        # Where it records the chapter is full, so that one more call closes it.
        shelf.ask(ROOT, A, 0)
        shelf.drop_chapters()
        return shelf.sizes(), first, memory() - before


def tell_room(what, keys, offer, times=1):
    """What is held of keys beside the octets that are told of them, of a shelf that records nothing
    and of one that records. Of several times as many the last ones stay."""
    told, _, held = room(keys, offer, times, False)
    _, first, stay = room(keys, offer, times, True)
    one, *held = (f"{it / told.keys:,.0f}" for it in (told.octets, held, first, stay))
    print(f"{told.keys:,} {what}: of a key {one} octets told, {held[0]} held; where it records"
          f" {held[1]} with the events and {held[2]} without", flush=True)


def most_held(keys, offer, is_recording, is_swept):
    """The most that is held of keys that evict each other, to what is told: looked at right after a
    chapter was closed and dropped."""
    before, most = memory(), 0
    with rrcache.Shelf(keys, keys // 4, record=is_recording) as shelf:
        if is_swept:
            shelf.sweep(0)
        for number in range(9 * keys):
            # The timestamps go up, so that there are expiries of many times.
            offer(shelf, number, number // 1000)
            if number % (keys // 4) == 0:
                shelf.drop_chapters()
                told = shelf.sizes()
                if told.keys == keys:
                    most = max(most, (memory() - before) / told.octets)
    return most


def tell_evicting(what, keys, offer):
    most = [f"{most_held(keys, offer, *how):.2f}" for how in product((False, True), repeat=2)]
    print(f"{keys:,} {what} that evict each other: at most {most[0]} times the octets told are"
          f" held, {most[1]} of a shelf that was swept; where it records {most[2]} and {most[3]}",
          flush=True)


def tell_rooms(keys, size):
    small, data = sets_of([ADDRESS], name, A), data_of(size)
    long = sets_of([bytes(33)], capitals)
    tell_evicting("small sets", keys // 16, small)
    tell_evicting("small sets, whose owner has 255 octets", keys // 16,
                  sets_of([ADDRESS], lambda it: name(it, LONG_NAMES), A))
    tell_evicting("negative answers of names of 255 octets in capitals", keys // 16, denied)
    tell_evicting("failures of names", keys // 16, failed)
    tell_room("small sets", keys, small)
    tell_room("small sets whose owner is in capitals", keys,
              sets_of([ADDRESS], lambda it: capitals(it, "short names"), A))
    tell_room("sets of names of 255 octets in capitals, with one rdata of 33 octets", keys // 16,
              long)
    tell_room("such sets after four times as many", keys // 16, long, 4)
    tell_room("sets of a record that came 15 times", keys // 4, repeated(name))
    tell_room("failures of names", keys, failed)
    tell_room(f"sets of {len(data):,} rdata of 2 octets", 16, sets_of(data))
    tell_room("sets of 255 rdata of 33 octets", 256,
              sets_of([bytes([number]) + bytes(32) for number in range(255)]))


def tell_history(size):
    """What stays of 20 offers with a TTL of 0, which store nothing, and what it takes to drop a
    chapter of 64 that are stored."""
    with rrcache.Shelf(16, 4096, record=True) as shelf:
        before = memory()
        for _ in range(20):
            shelf.offer_message_unchecked(one_key(size, 0), ROOT, 0)
        print(f"20 offers with a TTL of 0: {shelf.sizes().keys} keys,"
              f" {memory() - before:,} octets stay in the open chapter")
    with rrcache.Shelf(16, 64, record=True) as shelf:
        for _ in range(65):
            shelf.offer_message_unchecked(one_key(size), ROOT, 0)
        print(f"a chapter of 64 events of one_key dropped {timed(shelf.drop_chapters)[0]:.1f} ms")


def tell_full(size, chapter):
    """What one message does to a full part of 4,096 keys, with chapters of so many events."""
    with rrcache.Shelf(4096, chapter, record=True) as shelf:
        fill(shelf, "short names", 4096)
        shelf.drop_chapters()
        before = memory()
        took, _ = timed(shelf.offer_message_unchecked, many_types(size), ROOT, 1)
        stay, closed = memory() - before, shelf.sizes().chapters
        left = sum(shelf.peek(name(it), A, 1).kind == rrcache.Kind.FRESH for it in range(4096))
        print(f"one message of many_types leaves {left} of 4,096 keys, in {took:.0f} ms; it closes"
              f" {closed:,} chapters of {chapter:,} events, and {stay:,} octets stay")


def tell_sweep(kind, keys):
    """What a full chapter, its drop and a sweep of a full part take."""
    with rrcache.Shelf(keys, keys, 0, record=True) as shelf:
        fill(shelf, kind, keys)
        closing, _ = timed(shelf.ask, name(keys - 1, kind), A, 1)
        drop, _ = timed(shelf.drop_chapters)
        sweep, removed = timed(shelf.sweep, 100)
        print(f"{removed:,} keys, {kind}: a chapter closed {closing:.1f} ms, dropped {drop:.1f} ms,"
              f" all keys swept {sweep:.0f} ms", flush=True)


def tell_trace(name, text, *options):
    """What the program makes of a trace: the report's octets, and the most memory that it held."""
    used = used_by([PROGRAM, *options], text)
    print(f"{name}: {len(text):,} octets, report {used.written:,} octets,"
          f" {used.memory / 2**20:,.0f} MB, {used.seconds:.1f} s, status {used.status}", flush=True)


def tell_traces(size):
    if not PROGRAM.exists():
        print("the program is not built, so no trace is replayed")
        return
    response_line = "response 0 . {}\n".format
    many, one = response_line(many_keys(size).hex()), response_line(one_key(size).hex())
    puts = "".join(f"put 0 n{it}.example. 1 4 600 c0000201\n" for it in range(1024))
    tell_trace("20 responses of many_keys", (20 * many).encode())
    tell_trace("one_key and 50 asks", (one + 50 * f"ask 1 {LONG} 14 any none\n").encode())
    tell_trace("1,024 puts and 10,000 checkpoints", (puts + 10_000 * "checkpoint\n").encode())
    tell_trace("10,000 sweeps of 64 parts", 10_000 * b"sweep 0\n", "--parts", "64")
    names = (wire(".".join(["x" * 63, "x" * 63, "x" * 60, str(it)])) for it in range(256))
    alike = f"put 0 . 2 4 600 {','.join(it.hex() for it in names)}\n"
    tell_trace("100 puts of 256 rdata that begin alike", 100 * alike.encode())


def data_of(size):
    """Data of as many rdata of two octets as fit in so many octets, the greatest first."""
    return [number.to_bytes(2, "big") for number in range(min(size // 4, 65_536) - 1, -1, -1)]


def offer_apart(message, parts):
    """Offers a message to as many shelves, each its part."""
    for part in range(parts):
        with rrcache.Shelf(MOST_KEYS // parts, MOST_KEYS // parts, seed=SEED) as shelf:
            shelf.offer_part_unchecked(message, ROOT, rrcache.Parts(parts, SEED), part, 0)


def worst(inputs, call, runs, before=lambda shelf, it: None):
    """The milliseconds of the input for which a call takes longest, and its name. Each call has a
    shelf of its own, on which another call may be made before it."""
    def took(it):
        with rrcache.Shelf(MOST_KEYS, MOST_KEYS) as shelf:
            before(shelf, it)
            return timed(call, shelf, it)[0]

    return max((min(took(it) for _ in range(runs)), name) for name, it in inputs.items())


def tell_calls(size, runs):
    """For each call of the library: which of some inputs of a size takes it longest, and how
    long."""
    messages = {it.__name__: it(size) for it in MESSAGES}
    sets = {"one RRset of rdata of two octets": data_of(size), "one rdata": [bytes(size - 2)]}

    def offered(shelf, message):
        shelf.offer_message_unchecked(message, ROOT, 0)

    calls = {
        "fault": (messages, lambda _, it: rrcache.fault(it), runs),
        "offer_message_unchecked": (messages, offered, runs),
        "offer_part_unchecked, 16 shelves": (messages, lambda _, it: offer_apart(it, 16), 1),
        "offer_set": (sets, lambda shelf, it: shelf.offer_set("a.", TXT, 4, 60, it, 0), runs),
        "ask": ({"one_key": messages["one_key"]}, lambda shelf, _: shelf.ask(LONG, MINFO, 1), runs,
                offered),
        "make_name": ({it: name(0, it) for it in ENDS},
                      lambda _, it: rrcache.make_name(it, rrcache.Parts(16, SEED)).part, runs),
        "sweep, 4,096 keys": ({it: it for it in ENDS}, lambda shelf, _: shelf.sweep(10**6), runs,
                              lambda shelf, it: fill(shelf, it, 4096)),
        "free": (messages, lambda shelf, _: shelf.close(), runs, offered),
    }
    print(f"the input that each call took longest for, of {size:,} octets where it is a message:")
    for what, given in calls.items():
        took, longest = worst(*given)
        print(f"  {'rrcache_' + what:42}{longest:36}{took:8.3f} ms", flush=True)


def tell_all(size, keys, runs):
    # First, since what this process held is counted for those that it starts.
    tell_traces(size)
    for make in MESSAGES:
        tell_message(make, size, runs)
    for octets in (1232, size):
        tell_calls(octets, runs)
    tell_history(size)
    tell_rooms(keys, size)
    tell_full(size, 4096)
    tell_full(size, 1)
    for kind in ENDS:
        tell_sweep(kind, keys)


def main(args):
    threading.stack_size(1024 * args.stack)
    with concurrent.futures.ThreadPoolExecutor(1) as pool:
        pool.submit(tell_all, args.size, args.keys, args.runs).result()
