# SPDX-License-Identifier: MIT
"""Times the program on put and ask lines over 500 names, up to 1,000,000 of them.

The traces have 10,000, 100,000 and 1,000,000 lines. Prints for each trace the seconds, the lines a
second and the peak memory, and then how much longer the trace of 1,000,000 lines took than that of
100,000. Ends with status 1 where that is more than 12 times, or a run failed.
"""
import random

from bench.setup import REPLAY, answered, files

NEEDS, OPTIONS = (REPLAY,), {}
SIZES = [10_000, 100_000, 1_000_000]
NAMES, MOST_GROWTH, SEED = 500, 12, 20


def trace(lines):
    """Puts and asks in turn by chance, of A, TXT and AAAA records, at moments that rise."""
    chance = random.Random(SEED)
    for moment in range(lines):
        name = f"host{chance.randrange(NAMES)}.example.net."
        rtype, size = chance.choice(((1, 4), (16, 20), (28, 16)))
        if chance.random() < 0.5:
            items = ",".join(chance.randbytes(size).hex() for _ in range(chance.randint(1, 3)))
            yield (f"put {moment} {name} {rtype} {chance.randint(1, 4)} {chance.randint(0, 600)}"
                   f" {items}\n")
        else:
            yield (f"ask {moment} {name} {rtype} {chance.choice(('any', 'answer'))}"
                   f" {chance.choice(('none', 'failed', 'now'))}\n")


def main(_):
    clocks = []
    for size in SIZES:
        with files(trace="".join(trace(size))) as paths:
            used = answered(paths["trace"], size, capacity=65_536, chapter=1 << 20)
        clocks.append(used.clock)
        print(f"{size:>9} lines: {used.clock:8.2f} s, {size / used.clock:>9.0f} lines a second,"
              f" {used.octets / 2**20:7.0f} MiB")
    growth = clocks[2] / clocks[1]
    print(f"ten times the lines took {growth:.1f} times as long; at most {MOST_GROWTH} times is"
          " wanted")
    return growth > MOST_GROWTH
