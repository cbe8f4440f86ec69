# SPDX-License-Identifier: MIT
"""Times the calls of parts of the cache: asks, puts and sweeps.

Asks hit or miss or tell what would be answered, puts replace or evict, and sweeps remove a tenth of
the keys. Each number is the median of RUNS runs, in nanoseconds of processor time a call (of a
sweep, a key that it removes), each run of CALLS calls on PARTS parts that each hold KEYS keys and
have room for no other, in random order. Beside it stands how many loads from random places of 8 MiB
take as long, measured in the same runs. `--beside PROGRAM` runs another cache in turn with each of
these runs and gives the ratio to it: PROGRAM takes `--keys N --rounds N --parts N`, where the keys
are those of all parts, and prints lines `ask_hit NS ..`. Last comes how much more memory asks that
hit hold at most than so many that write no event, for each of them: its event in the history.

With `--lean` the parts record nothing, and PROGRAM is given `--no-history` too. Then a hit is an
ask in two halves, which lends its reply, and `ask` one whose reply the caller owns.
"""
from functools import partial
from statistics import median

from bench.setup import BENCH, counted, in_turn, ran, used_by

NEEDS = (BENCH,)
OPTIONS = {
    "keys": ([16, 1000, 65536], "keys of a part, 10 to 65,536"), "parts": (1, "parts"),
    "calls": (100_000, "calls of each run"), "runs": (5, "runs of each"),
    "lean": (False, "parts that record nothing"),
    "beside": (None, "another cache, to which the ratio is given"),
}
COUNTS = ("hits", "misses", "kept", "evicted", "swept")
# Each task: what is counted of so many calls, and the name that another program has for it.
TASKS = {
    "hit": ("hits", "ask_hit"),
    "ask": ("hits", "ask_hit"),
    "miss": ("misses", "ask_miss"),
    "would": ("hits", None),
    "replace": ("kept", "put_replaces"),
    "evict": ("kept evicted", "put_evicts"),
    "sweep": ("swept", None),
    "load": ("hits", None),
}


def nanoseconds(task, keys, args):
    """Runs the program once, checks what it counted, and answers how long a call took, or a key
    that was swept."""
    rounds = max(1, args.calls // keys) if task == "sweep" else args.calls
    count = rounds * (keys // 10) if task == "sweep" else args.calls
    # A lean part does not tell what it evicted.
    told = [it for it in TASKS[task][0].split() if not (args.lean and it == "evicted")]
    wanted = ", ".join(f"{count if it in told else 0} {it}" for it in COUNTS)
    return counted(f"{task}: {wanted}", "cache", *["lean"] * args.lean, task, keys, rounds,
                   args.parts) / count


def beside(keys, args):
    """Runs the other program once, and answers the nanoseconds of a call by its names."""
    done = ran(args.beside, "--keys", keys * args.parts, "--rounds", 1, "--parts", args.parts,
               *["--no-history"] * args.lean)
    return {line.split()[0]: float(line.split()[1]) for line in done.stdout.splitlines()}


def tell(keys, args):
    calls = {task: partial(nanoseconds, task, keys, args) for task in TASKS}
    if args.beside:
        calls["beside"] = partial(beside, keys, args)
    took = in_turn(args.runs, calls)
    for task, (_, theirs) in TASKS.items():
        ours, ratio = median(took[task]), ""
        if args.beside and theirs:
            ratio = f", {ours / median(it[theirs] for it in took['beside']):.2f} of the other's"
        print(f"{task}, {keys:,} keys: {ours:,.0f} ns,"
              f" {ours / median(took['load']):.1f} loads{ratio}")


def main(args):
    # What a process held at most is told to be no less than what this script holds, so there are to
    # be enough events.
    kept = max(args.calls, 100_000)
    if max(args.keys) + kept > 1 << 20:
        return "keys and calls are more than the 1,048,576 events of a chapter"
    for keys in args.keys:
        tell(keys, args)
        if not args.lean:
            hits, asks = (used_by(BENCH, "cache", task, keys, kept, 1).octets
                          for task in ("hit", "would"))
            print(f"memory, {keys:,} keys: {(hits - asks) / kept:,.0f} octets an ask that hits")
