# SPDX-License-Identifier: MIT
"""Times a shared cache by several threads, and replays by several workers.

Each number is the median of RUNS runs, in millions of calls or of lines a second of passed time.
`--write` writes also docs/performance.svg; without it the table is only printed.
"""
from functools import partial
from statistics import median

from bench.page import filled, of_threads, table, write_section
from bench.picture import key, rect, svg, text
from bench.setup import (BENCH, REPLAY, TOP, counted, files, in_turn, median_of, replayed,
                         undisturbed)

NEEDS = REPLAY, BENCH
OPTIONS = {
    "runs": (3, "runs of each"), "calls": (1_000_000, "calls of each run, over all threads"),
    "lines": (1_000_000, "lines of the trace"),
}
TASKS = {
    "hit": "asks that hit, random names",
    "put": "puts that replace",
    "mix": "nine asks to one put",
    "hot": "asks of one hot name",
    "replay": "lines of a replay, nine asks to one put",
}
THREADS, PARTS = (1, 2, 4), (1, 4, 64)
NAMES, TITLE = 65_536, "A shared cache, and replays"
# How tall the bars of a task are in the picture.
HEIGHT = 120


def seconds_of_calls(task, threads, parts, calls):
    return counted(f"{task}: {threads * calls} served",
                   "cache", "shared", task, threads, parts, calls) / 1e9


def trace(lines):
    """Puts of all names first, and then nine asks to one put, in no order that shows."""
    state = 1
    for line in range(lines):
        state = (state * 6_364_136_223_846_793_005 + 1_442_695_040_888_963_407) % 2**64
        number = (state >> 33) % NAMES
        name = f"www{number % 7}.zone{number}.example."
        yield (f"ask 120 {name} 1 answer none\n" if line % 10 else
               f"put 100 {name} 1 4 600 c0000201\n")


def rate(task, parts, threads, args, path):
    """Millions a second."""
    calls = args.calls // threads
    count, call = calls * threads, partial(seconds_of_calls, task, threads, parts, calls)
    if task == "replay":
        count, call = args.lines, lambda: replayed(path, workers=threads, parts=parts,
                                                   capacity=65_536, chapter=1 << 20).clock
    found = count / median_of(args.runs, undisturbed, call) / 1e6
    print(f"{task}, {parts} parts, {threads} threads: {found:.2f} millions a second", flush=True)
    return found


def lock_costs(calls=100_000):
    """Nanoseconds that a call of one thread takes, on lent parts and on a shared cache: the medians
    of short runs in turn."""
    took = in_turn(16, {it: partial(undisturbed, seconds_of_calls, it, 1, 64, calls)
                        for it in ("lent", "hit")})
    return [median(it) / calls * 1e9 for it in took.values()]


def bars(rates, task, top):
    """The bars of a task: over 1, 4 and 64 parts by 1, 2 and 4 threads."""
    most = max(rates[task, parts, threads] for parts in PARTS for threads in THREADS)
    yield text(10, top + 5, f"{TASKS[task]}, millions a second", 'font-weight="bold"')
    for group, parts in enumerate(PARTS):
        left = 60 + group * 230
        for bar, threads in enumerate(THREADS):
            found = rates[task, parts, threads]
            tall = found / most * (HEIGHT - 30)
            x, y = left + bar * 62, top + HEIGHT - tall
            yield from (rect(x, y, 54, tall, bar), text(x + 27, y - 4, f"{found:.2f}"))
        yield text(left + 89, top + HEIGHT + 15, f"{parts} {'part' if parts == 1 else 'parts'}")


def picture(rates):
    """The bars of all tasks, one below the other."""
    rows = [it for row, task in enumerate(TASKS)
            for it in bars(rates, task, 20 + row * (HEIGHT + 50))]
    tall = 20 + len(TASKS) * (HEIGHT + 50) + 20
    return svg([*rows, *key(map(of_threads, THREADS), tall - 24)], tall)


def main(args):
    rates, rows = {}, []
    with files(trace="".join(trace(args.lines))) as paths:
        for task, title in TASKS.items():
            for parts in PARTS:
                by = [rate(task, parts, it, args, paths["trace"]) for it in THREADS]
                rates |= {(task, parts, it): found for it, found in zip(THREADS, by)}
                rows.append([title, parts, *(f"{it:.2f}" for it in by), f"{by[-1] / by[0]:.2f}"])
    lent, shared = lock_costs()
    print(f"an ask that hits: {lent:.0f} ns on lent parts, {shared:.0f} ns on a shared cache")
    if args.write:
        (TOP / "docs" / "performance.svg").write_text(picture(rates))
    write_section(
        args, TITLE,
        f". Each rate is the median of {args.runs} runs, in millions of calls or lines per "
        "second of elapsed time. In a run of asks or puts, all threads together make "
        f"{args.calls:,} calls on a shared cache with {NAMES:,} names (`bench cache shared`). In a "
        f"replay, the program `rrcache` reads and replays a trace of {args.lines:,} lines, "
        "collates the results, and writes the report. The last column is the rate of "
        f"{of_threads(THREADS[-1])} divided by the rate of {of_threads(THREADS[0])}.",
        "![Millions per second](performance.svg)",
        table(["What", "Parts", *map(of_threads, THREADS), f"{THREADS[-1]} to {THREADS[0]}"], rows),
        filled(
            f"With one thread, an ask that hits takes {lent:.0f} ns on parts without locks, and "
            f"{shared:.0f} ns on a shared cache. These numbers are medians of 16 short runs of "
            "each kind; the runs of the two kinds alternated. Before rounding, the medians differ "
            f"by {shared - lent:.0f} ns: the time to take the lock and to find the part."))
