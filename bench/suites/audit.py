# SPDX-License-Identifier: MIT
"""Times how long it takes to find that a history is legal: audits and rechecks.

Audits look up what was written, and rechecks make each call again. Each number is the median of
RUNS runs, in nanoseconds of processor time an event. A third of the events are puts and the others
asks, of a part that may hold KEYS keys, for names that are half as many again. Beside each number
but the first stands how many times as long the whole took as that of the line before.
"""
from bench.setup import BENCH, counted, median_of

NEEDS = (BENCH,)
OPTIONS = {"keys": (1000, "keys that the part may hold, 1 to 65,536"), "runs": (5, "runs of each")}
EVENTS = {"audit": (64, 256, 1024), "recheck": (1_000, 10_000, 100_000, 1_000_000)}


def main(args):
    for task, counts in EVENTS.items():
        before = None
        for events in counts:
            took = median_of(args.runs, counted, f"{task}: {events} events, all right",
                             "cache", task, args.keys, events)
            growth = f", {took / before:.1f} times as long as the one before" if before else ""
            print(f"{task}, {events:,} events: {took / events:,.0f} ns an event{growth}")
            before = took
