# SPDX-License-Identifier: MIT
"""Times the program on lines that put addresses, and on responses that bring them.

Each number is the least of RUNS runs, in seconds of processor time of the whole program, for LINES
lines over a few names, each of which brings so many addresses, and last one, two, four and ten by
turns. A response is one as servers send it for the name: its question, the A records, whose owners
are pointers to it, and an OPT record.
"""
from functools import partial

from bench.setup import REPLAY, answered, files, in_turn
from tools.wire import A, opt, pointer, question, record, response

NEEDS, NAMES, TTL = (REPLAY,), 4, 300
OPTIONS = {"lines": (100_000, "lines of each trace"), "runs": (5, "runs of each")}


def addresses_of(line, counts):
    """The addresses of a line, no two the same."""
    return [bytes([192, 0, line % 200, host]) for host in range(counts[line % len(counts)])]


def put_line(line, counts):
    items = ",".join(address.hex() for address in addresses_of(line, counts))
    return f"put {line} www{line % NAMES}.example. 1 4 {TTL} {items}\n"


def response_line(line, counts):
    asked = question(f"www{line % NAMES}.example.", A)
    answer = [record(pointer(12), A, TTL, it) for it in addresses_of(line, counts)]
    return f"response {line} example. {response(asked, answer, additional=[opt(4096)]).hex()}\n"


def main(args):
    for counts in ((1,), (2,), (4,), (10,), (1, 2, 4, 10)):
        traces = {make.__name__: "".join(make(it, counts) for it in range(args.lines))
                  for make in (put_line, response_line)}
        with files(**traces) as paths:
            took = in_turn(args.runs, {
                name: partial(answered, path, args.lines, b" kept\n", chapter=1 << 20)
                for name, path in paths.items()})
        put, brought = (min(it).seconds for it in took.values())
        print(f"{args.lines} lines with {', '.join(map(str, counts))} addresses: put {put:.3f} s,"
              f" response {brought:.3f} s, {brought / put:.2f} times as long")
