# SPDX-License-Identifier: MIT
"""Counts how often calls ask for memory, those that are to take none and others.

Each task is run twice, and the second run makes MORE calls more than the first; what these ask for
beyond the first run, MORE calls ask for. Of the cache, whose tasks read their thread's clock right
before the calls and right behind them, what is asked for between is counted; of marks, whose tasks
make their calls and nothing else, all. A C compiler makes the library that counts. The exit status
is 1 where a call asks for memory that is to take none.
"""
from bench.setup import BENCH, SOURCES, compiled, ran

NEEDS, OPTIONS = (BENCH,), {"compiler": ("cc", "the C compiler")}
# Both runs need lists of as many places, since these grow by doubling.
FIRST, MORE = 600, 400
# The words before the number of calls, what is called, and whether it is to take no memory.
CALLS = (
    ("cache would 16", "would_answer", True),
    ("cache room 16", "has_room", True),
    ("cache hit 16", "an ask that hits", False),
    ("cache miss 16", "an ask that misses", False),
    ("cache replace 16", "a put that replaces", False),
    ("cache evict 16", "a put that evicts", False),
    ("cache sweep 10", "a sweep that removes a key", False),
    ("marks draws 1", "draw", True),
    ("marks pairs 1", "begin and finish", True),
    ("marks shares 1", "split and join", True),
)
# Which of the two counts is that of the calls.
COUNTED = {"marks": -2, "cache": -1}


def main(args):
    is_right = True
    counter = str(compiled("counter.so", "-shared", "-fPIC", SOURCES / "counter.c",
                           compiler=args.compiler))
    for task, what, takes_none in CALLS:
        words = task.split()
        many, few = (int(ran(BENCH, *words, calls, LD_PRELOAD=counter).stderr
                         .split()[COUNTED[words[0]]]) for calls in (FIRST + MORE, FIRST))
        more = many - few
        print(f"{what}: {more / MORE:g} a call{', which must be 0' if takes_none else ''}")
        is_right = is_right and not (takes_none and more)
    return not is_right
