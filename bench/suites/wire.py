# SPDX-License-Identifier: MIT
"""Times the reader of messages on small, usual, crowded and hostile ones.

They are responses of 43 and of 512 octets, a message of many small records, a chain of pointers, a
message whose names all go through a chain, and one whose names expand most; last comes how much
longer the last but one takes than the last, and it fails above 3 times. Each line is the median of
RUNS runs, less a run of no pass.
"""
import sys
from itertools import repeat

from bench.setup import BENCH, files, median_seconds, over, ran
from bench.suites.sets import QUESTION, ZONE
from tests.hostile.attacks import (ASKED, MOST_OCTETS, behind_pointers, chained, expanding,
                                   filled)
from tools.wire import A, CNAME, NS, question, record, response, wire

NEEDS, MOST = (BENCH,), 3
OPTIONS = {"octets": (200_000_000, "octets read in each run"), "runs": (5, "runs of each")}
ADDRESS = record(ASKED, A, 60, bytes([192, 0, 2, 1]))
ALIAS = record(ASKED, CNAME, 60, wire("www", ZONE))
SERVER = record(ZONE, NS, 3600, wire("ns1", ZONE))
FIRST, LAST = chained(7999)
MESSAGES = {
    # One address of a.example., 43 octets.
    "small": response(QUESTION, [ADDRESS]),
    # An alias, addresses and name servers of 512 octets in all.
    "usual": response(QUESTION, [ALIAS] + [SERVER] * 9 + [ADDRESS] * 19).ljust(512, b"\0"),
    # As many small records as 65,535 octets hold.
    "crowded": filled(MOST_OCTETS, QUESTION, repeat(ADDRESS)),
    # An owner behind 7,999 pointers.
    "chain": response(question(".", A), [FIRST, LAST + ADDRESS[2:]]),
    # As many records as fit with three names each, behind a chain of 8,178 pointers or of 255
    # octets.
    "chains": behind_pointers(MOST_OCTETS),
    "expanding": expanding(MOST_OCTETS),
}


def tell(name, message, args):
    """The seconds that a message takes."""
    with files(message=message.hex() + "\n") as paths:
        path = paths["message"]
        said = ran(BENCH, "sets", "read", 1, path).stdout
        if not said.startswith("1 messages read, 0 refused"):
            sys.exit(f"{name}: {said}")
        passes = max(1, args.octets // len(message))
        idle, took = (median_seconds(args.runs, ran, BENCH, "sets", "read", it, path)
                      for it in (0, passes))
    took = (took - idle) / passes
    print(f"{name}, {len(message)} octets: {1 / took:,.0f} messages and"
          f" {len(message) / took / 1e6:,.1f} million octets a second")
    return took


def main(args):
    each = {name: tell(name, message, args) for name, message in MESSAGES.items()}
    ratio = each["chains"] / each["expanding"]
    print(f"chains take {ratio:.2f} times as long as expanding")
    return over(ratio, MOST)
