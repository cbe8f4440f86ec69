# SPDX-License-Identifier: MIT
"""Times the C library: asks and puts by threads of C, and asks through Python.

It takes the library as bin/build-c made it and compiles bench/c/c_threads.c. The threads have
shelves of their own, and shared ones under locks. Each number is the best of RUNS runs of CALLS
calls on 16 shelves with 16,384 names, of which no history is recorded. Asks all hit; of `both` one
half are puts, which replace. Rates are calls a second by the clock, of all threads together.
"""
import sys
import time
from functools import partial
from itertools import product

from bench.page import filled, of_threads, table, write_section
from bench.setup import ARCHIVE, SOURCES, compiled, ran, undisturbed

NEEDS, TITLE = (ARCHIVE,), "The C library"
OPTIONS = {
    "calls": (1_000_000, "calls of each run"), "threads": ([1, 2, 4], "threads"),
    "runs": (3, "runs of each"),
}
KINDS = {"ask": "asks that hit", "put": "puts that replace", "both": "one ask to one put"}
SHELVES = {"own": "owned by each thread", "shared": "shared, under locks"}


def rate(*command):
    count, _, took, _ = ran(*command).stdout.split()
    return int(count) / int(took) * 1e9


def python_rate(calls):
    """Asks a second through the package python/rrcache, on one shelf."""
    import rrcache
    names = [b"\6n%05d\7example\0" % number for number in range(4096)]
    with rrcache.Shelf(capacity=4096, chapter=65536) as shelf:
        for name in names:
            shelf.offer_set(name, 1, 4, 3600, [b"\xc0\0\2\1", b"\xc0\0\2\2"], 100)
        began = time.perf_counter()
        for call in range(calls):
            if shelf.ask(names[call % 4096], 1, 100).kind != rrcache.Kind.FRESH:
                sys.exit("an ask found nothing fresh")
        return calls / (time.perf_counter() - began)


def best(what, runs, call):
    """The best of some runs, in calls a second."""
    found = max(undisturbed(call) for _ in range(runs))
    print(f"{what}: {found:,.0f} a second", flush=True)
    return found


def main(args):
    rows, program = [], compiled("c_threads", SOURCES / "c_threads.c", ARCHIVE)
    for (what, title), (whose, kind) in product(KINDS.items(), SHELVES.items()):
        by = [best(f"{what}, {whose} shelves, {threads} threads", args.runs,
                   partial(rate, program, threads, args.calls, whose, what)) / 1e6
              for threads in args.threads]
        rows.append([title, kind, *(f"{it:.2f}" for it in by), f"{by[-1] / by[0]:.2f}"])
    by_python = best("ask, through Python", args.runs, partial(python_rate, args.calls // 20))
    write_section(
        args, TITLE,
        ". The rates are in millions of calls per second, made by threads in C "
        f"(`bench/c/c_threads.c`). Each rate is the best of {args.runs} runs of {args.calls:,} "
        f"calls on 16 shelves with 16,384 names. In the rows \"{SHELVES['own']}\", each thread "
        "has 16 shelves of its own. "
        f"The last column is the rate of {of_threads(args.threads[-1])} divided by the rate of "
        f"{of_threads(args.threads[0])}.",
        table(["What", "Shelves", *map(of_threads, args.threads),
               f"{args.threads[-1]} to {args.threads[0]}"], rows),
        filled(f"Through Python (`python/rrcache`), one thread makes {by_python:,.0f} asks per "
               "second, on one shelf with 4,096 names."))
