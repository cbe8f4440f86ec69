# SPDX-License-Identifier: MIT
"""Counts the instructions of calls of `struct rrcache`, which a busy machine does not change.

valgrind counts those of bench/c/calls.c with FEW calls and with ten times as many. What is told of
each call is their difference, so it includes those of its loop and its request.
"""
import re

from bench.setup import ARCHIVE, SOURCES, compiled, ran

NEEDS = (ARCHIVE,)
OPTIONS = {"few": (500, "calls of the short run"), "kind": ((), "some of the kinds (default all)")}
KINDS = {
    "address": "look-ups of an address", "alias": "of an address behind an alias",
    "denial": "of NODATA", "nothing": "that find nothing",
    "set": "stores of an RRset", "response": "of a response with an address",
    "chain": "of one with an alias and an address", "forget": "forgetting of all types of a name",
}


def instructions(program, kind, count):
    """How many the whole program takes."""
    run = ran("valgrind", "--tool=callgrind", "--callgrind-out-file=/dev/null", program, kind,
              count)
    return int(re.search(r"Collected : (\d+)", run.stderr)[1])


def main(args):
    program = compiled("calls", SOURCES / "calls.c", ARCHIVE)
    for kind in args.kind or KINDS:
        few = 1 if kind == "forget" else args.few
        more = instructions(program, kind, 10 * few) - instructions(program, kind, few)
        print(f"{KINDS[kind]}: {more / (9 * few):,.0f}")
