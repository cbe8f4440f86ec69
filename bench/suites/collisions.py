# SPDX-License-Identifier: MIT
"""Times the program on names that were picked to have hashes alike, beside others.

Hashes are those of the kit's fast hasher; tests/hostile/attacks.py tells how names are picked, and
the others are as long. Each trace puts an address under NAMES such names, and asks for each. Each
time is the least of RUNS runs in turn, of processor time. It fails where the picked names take more
than 1.5 times as long as the others.
"""
from functools import partial

from bench.setup import REPLAY, files, in_turn, over, replayed
from tests.hostile.attacks import puts_and_asks

NEEDS, MOST = (REPLAY,), 1.5
OPTIONS = {"names": (20_000, "names of each trace"), "runs": (5, "runs of each")}


def main(args):
    names = args.names
    with files(picked=puts_and_asks(names, True), others=puts_and_asks(names, False)) as paths:
        took = in_turn(args.runs, {
            name: partial(replayed, path, capacity=names, chapter=4 * names)
            for name, path in paths.items()})
    picked, others = (min(it).seconds for it in took.values())
    print(f"{names:,} picked names: {picked:.2f} s, others: {others:.2f} s,"
          f" {picked / others:.2f} times as long")
    return over(picked / others, MOST)
