# SPDX-License-Identifier: MIT
"""Tells what it takes to offer a message to 16 shelves, by one reading and by 16.

Beside both stands what it takes to offer it to one shelf. It fails where one reading for 16 takes
more than 1.5 times that. It also tells the longest share of a shelf, for which that shelf's lock is
held. Times are of a processor, the least of RUNS: of a usual response, which names four servers
with their addresses, and of the hostile ones of tests/hostile/attacks.py.
"""
from bench.page import table, write_section
from bench.setup import ARCHIVE, SOURCES, compiled, files, ran
from tests.hostile.attacks import many_keys, many_labels, many_types, one_key
from tools.wire import A, NS, question, record, response, wire

NEEDS, TITLE = (ARCHIVE,), "One message for 16 shelves"
OPTIONS = {"runs": (7, "runs of each")}
SIZE, MOST = 65_535, 1.5
HEAD = ["Message", "octets", "one shelf", "16 shelves, one reading", "a reading for each",
        "longest share"]


def usual(_size):
    """An answer of two addresses, with the names and the addresses of four servers of the zone."""
    servers = [f"ns{number}.example.net." for number in range(4)]
    return response(
        question("www.example.com.", A),
        [record("www.example.com.", A, 300, bytes([192, 0, 2, it])) for it in (1, 2)],
        [record("example.com.", NS, 86_400, wire(it)) for it in servers],
        [record(it, A, 86_400, bytes([192, 0, 2, 9])) for it in servers])


def times(program, message, count, runs):
    """Microseconds of one shelf, of 16 by one reading, of 16 by a reading for each, and of the
    longest share."""
    with files(message=message) as paths:
        return [int(it) / 1000 for it in ran(program, paths["message"], count, runs).stdout.split()]


def main(args):
    program = compiled("one_reading", SOURCES / "one_reading.c", ARCHIVE)
    slow, rows = [], []
    for make in (usual, one_key, many_keys, many_types, many_labels):
        message, name = make(SIZE), make.__name__
        took = times(program, message, 500 if make is usual else 1, args.runs)
        whole, read, each, share = took
        print(f"{name:12} one shelf {whole:9,.1f} us, 16 by one reading {read:9,.1f} us"
              f" ({read / whole:4.2f}), by a reading for each {each:9,.1f} us"
              f" ({each / whole:5.2f}), the longest share {share:9,.1f} us", flush=True)
        rows.append([f"`{name}`", f"{len(message):,}", *(f"{it:,.1f}" for it in took)])
        slow += [name] if read > MOST * whole else []
    write_section(
        args, TITLE,
        f". Each time is the shortest of {args.runs} runs, in microseconds of processor time. Each "
        "message is offered in three ways: to one shelf; to 16 shelves, with one reading for all "
        "shelves (`rrcache_read_message_unchecked` and `rrcache_offer_read`); and to 16 shelves, "
        "with a new reading for each shelf (`rrcache_offer_part_unchecked`). A keyed hash of each "
        "name determines the shelf of the name. A share consists of the offers for one shelf. The "
        "last column is the time to make the offers of the share that takes longest; the lock of "
        "that share's shelf is held for this time. The message `usual` is an answer with the name "
        "servers of the zone and their addresses. The other messages are hostile "
        "(`tests/hostile/attacks.py`).",
        table(HEAD, rows))
    if slow:
        return f"one reading for 16 shelves takes over {MOST} times as long: {', '.join(slow)}"
