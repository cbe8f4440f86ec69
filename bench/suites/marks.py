# SPDX-License-Identifier: MIT
"""Times calls on the table of marks: draws, begin and finish, split and join.

Each thread draws COUNT numbers of one table, begins and finishes a mark of its own COUNT times, or
gives a turn away and takes it back COUNT times; the whole run is timed, thread starts and all.
Prints the median of RUNS runs, as what is done a second on 1, 2 and 4 threads.
"""
from itertools import product

from bench.setup import BENCH, counted, median_seconds

NEEDS = (BENCH,)
OPTIONS = {"count": (2_000_000, "what each thread does"), "runs": (5, "runs of each")}


def main(args):
    for what, threads in product(("draws", "pairs", "shares"), (1, 2, 4)):
        count = threads * args.count
        took = median_seconds(args.runs, counted, f"{what}: {count} by {threads} threads",
                              "marks", what, threads, args.count)
        print(f"{what} on {threads} threads: {count / took / 1e6:.1f} million a second")
