# SPDX-License-Identifier: MIT
"""Times what a message offers: usual messages, and hostile ones of growing size.

The sets and data of hostile ones are made to be sought for long. Each number is the least of RUNS
runs, since all else that runs only adds to it, in microseconds of processor time for the offers of
one message, which is read beforehand. Behind each time of a hostile message stands how many times
that of half its size it is, and last how many times on the mean; the exit status is 1 where one
such mean is more than MOST.
"""
from itertools import count

from bench.setup import BENCH, files, over, ran
from tests.hostile.attacks import ASKED, filled
from tools.wire import (A, CNAME, MINFO, NS, PTR, SOA, pointer, question, record, response,
                        soa_data, wire)

NEEDS = (BENCH,)
OPTIONS = {
    "runs": (9, "runs of each"), "seconds": (0.05, "seconds of a run, about"),
    "most": (2.6, "the most that a time may grow by for twice the octets, on the mean"),
    "sizes": ([8192, 16384, 32768, 65535], "octets of the hostile messages, two sizes at least and "
              "each twice the one before"),
}
# The question for ASKED, and the name of its zone as a pointer.
QUESTION, ZONE = question("a.example.", A), pointer(14)
# The question for a name of 251 octets, so that one more label of three letters makes one of 255.
LONG = question(".".join("x" * size for size in (63, 63, 63, 57)), A)
LETTERS = "abcdefghijklmnopqrstuvwxyz0123456789"


def numbered(number, end=ZONE):
    """A name for each number, of a label of three letters and digits before a pointer."""
    return wire("".join(LETTERS[number // place % 36] for place in (1296, 36, 1)), end)


def address(owner, number):
    return record(owner, A, 60, (0x0A000000 + number).to_bytes(4, "big"))


def spelled(number):
    """A name that differs from others in the case of its letters alone."""
    return wire("".join(letter.upper() if number >> place & 1 else letter
                        for place, letter in enumerate("abcdefghijklmnop")), ZONE)


SERVERS = [wire(f"ns{number}", ZONE) for number in (1, 2)]
USUAL = {
    "one": response(QUESTION, [address(ASKED, 1)]),
    "ten": response(QUESTION, [address(ASKED, it) for it in range(10)]),
    # Two name servers, with two addresses each.
    "referral": response(QUESTION, [], [record(ZONE, NS, 60, server) for server in SERVERS],
                         [address(server, it) for server in SERVERS for it in (1, 2)]),
    # That there is no such name, with the SOA record.
    "nxdomain": response(QUESTION, [], [record(ZONE, SOA, 60, soa_data(
        ZONE, ZONE, 1, 3600, 600, 604800, 300))], rcode=3),
}
# Hostile messages have as many records as they hold: their question, and a record by its number.
HOSTILE = {
    # One set of many addresses.
    "addresses": (QUESTION, lambda it: address(ASKED, it)),
    # A set of one address for each of many names.
    "owners": (QUESTION, lambda it: address(numbered(it), 1)),
    # The same, with names of 255 octets that differ in their first label alone.
    "long_owners": (LONG, lambda it: address(numbered(it, ASKED), 1)),
    # A set of no octets for each of many types of one name.
    "types": (QUESTION, lambda it: record(ASKED, 256 + it, 60, b"")),
    # Name servers whose data differ in the case of letters alone: one set with one datum.
    "spellings": (QUESTION, lambda it: record(ASKED, NS, 60, spelled(it))),
    # Names that one name points to: one set of many data of a name each.
    "pointers": (QUESTION, lambda it: record(ASKED, PTR, 60, numbered(it))),
    # The same of two names each, with 506 octets or so: the first name is one for all of them.
    "mailboxes": (LONG, lambda it: record(ASKED, MINFO, 60, ASKED + numbered(it, ASKED))),
    # A chain of aliases, each to the next one.
    "chain": (QUESTION, lambda it: record(numbered(it), CNAME, 60, numbered(it + 1))),
    # Aliases of one name, each to another one.
    "aliases": (QUESTION, lambda it: record(ASKED, CNAME, 60, numbered(it))),
}


def microseconds(octets, args):
    """The least of some runs, each of as many passes as take long enough."""
    def nanoseconds(passes):
        return int(ran(BENCH, "sets", "offer", passes, paths["message"]).stderr) / passes
    with files(message=octets.hex() + "\n") as paths:
        passes = max(1, int(args.seconds * 1e9 / max(nanoseconds(1), 100)))
        return min(nanoseconds(passes) for _ in range(args.runs)) / 1000


def tell_growth(name, args):
    """How many times as long twice the octets of a hostile message take, on the mean."""
    line, times, (asked, make) = f"{name:12}", [], HOSTILE[name]
    for size in args.sizes:
        times.append(microseconds(filled(size, asked, map(make, count())), args))
        line += f"{times[-1]:10,.0f}"
        line += (f" ({times[-1] / times[-2]:4.2f})" if times[1:] else "").ljust(8)
    grown = (times[-1] / times[0]) ** (1 / (len(times) - 1))
    print(f"{line}{grown:6.2f}", flush=True)
    return grown


def main(args):
    for name, message in USUAL.items():
        print(f"{name:12}{microseconds(message, args):10.2f}")
    print(" " * 12 + "".join(f"{size:>10,}{'':8}" for size in args.sizes) + "  mean")
    worst = max(tell_growth(name, args) for name in HOSTILE)
    print(f"for twice the octets {worst:.2f} times as long, at most")
    return over(worst, args.most)
