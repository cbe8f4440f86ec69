# SPDX-License-Identifier: MIT
"""Times a trace in one chapter and in short ones, and weighs a shelf that lets them go.

Short chapters have 4,096 events. The trace puts one address under each of KEYS names, and then asks
for them in an order that does not show, LINES lines in all, in one part that holds them all. Each
time is the least of RUNS runs, of processor time, and memory is the most that a run held. It fails
where a shelf whose closed chapters are let go grows with what is asked of it.
"""
import random
from functools import partial

from bench.setup import BENCH, REPLAY, files, in_turn, replayed, used_by

NEEDS = REPLAY, BENCH
OPTIONS = {
    "keys": (50_000, "keys of the part"), "lines": (1_000_000, "lines of the trace"),
    "asks": (10_000_000, "asks of the shelf"), "runs": (3, "runs of each"),
}
ONE_CHAPTER, SHORT_CHAPTERS = 1 << 20, 4096
# What the program itself holds at first makes no difference below this many octets.
SMALL = 1 << 22


def trace(keys, lines):
    """Puts of each name, and then asks."""
    order = random.Random(1)
    held = [f"www{i % 7}.zone{i}.example." for i in range(keys)]
    puts = [f"put 0 {name} 1 4 86400 c0000201\n" for name in held]
    asks = [f"ask 1 {held[order.randrange(keys)]} 1 answer none\n" for _ in range(lines - keys)]
    return "".join(puts + asks)


def shelf(asks):
    """The octets of so many asks of a shelf of 1,000 keys that lets its chapters go."""
    used = used_by(BENCH, "cache", "shelf", 1000, asks)
    print(f"{asks:,} asks of a shelf of 1,000 keys: {used.seconds:.2f} s,"
          f" {used.octets / 1e6:,.1f} MB")
    return used.octets


def main(args):
    with files(trace=trace(args.keys, args.lines)) as paths:
        took = in_turn(args.runs, {
            it: partial(replayed, paths["trace"], capacity=args.keys, chapter=it)
            for it in (ONE_CHAPTER, SHORT_CHAPTERS)})
    one, short = least = [min(it) for it in took.values()]
    for chapter, it in zip(took, least):
        print(f"chapters of {chapter:,} events: {it.seconds:.2f} s, {it.octets / 1e6:,.0f} MB")
    print(f"chapters of {SHORT_CHAPTERS:,} events take {short.seconds / one.seconds:.2f} times as"
          " long as one")
    if shelf(args.asks) > shelf(args.asks // 100) + SMALL:
        return "the shelf grows with what was asked of it"
