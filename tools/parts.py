# SPDX-License-Identifier: MIT
"""The parts of the tests, as bin/test runs them: what each prints, its counts and its time."""
import os
import re
import shlex
import tempfile
import threading
import time
from collections import Counter
from concurrent.futures import ThreadPoolExecutor
from pathlib import Path

from tools.debian import DEBIAN

TOP = Path(__file__).resolve().parent.parent
PYTEST = [DEBIAN, "-m", "pytest", "-rsfE"]
FAILURE = re.compile(r"(FAIL|FAILED|ERROR)\b|rt: FAILED|.*: its tests FAILED"
                     r"|.*\b(NOT PROVED|NOT REFUSED|BAD EDIT|NOT TRIED)\b")
# An edit that shows nothing, which fails nothing in `rt ci`.
BAD_EDIT = re.compile(r"rt: .*: BAD EDIT: ")
# The last line of pytest, and of other commands.
LAST = re.compile(r".*\d+ (passed|failed|skipped|errors?)\b.* in [\d.]+s\b.*"
                  r"|\d+ passed, \d+ failed")
COUNTED = re.compile(r"(\d+) (passed|failed|skipped|error)")
# How many tests that failed beside others are run once more, alone.
MOST_AGAIN = 5
# Held by whoever prints lines that stand together.
PRINTING = threading.Lock()


class Part:
    """What a part of the tests came to, and the seconds that it took, by the clock and of the
    processors. Its commands run one after another, also where one failed; one that begins with a
    folder of tests is for pytest, and `failures` are the tests that failed there. `begin` is
    called before them, with what writes a line of the part, and answers what was taken of the
    processors for it; `hear` is called with each line."""

    def __init__(self, name, commands, is_beside=False, nice=0):
        self.name, self.commands, self.is_beside, self.lines = name, commands, is_beside, []
        self.first = ["nice", "-n", str(nice)] if nice else []
        self.counts, self.told, self.wall, self.processor = Counter(), [], 0.0, 0.0
        self.failures = []
        self.begin, self.hear = (lambda _: 0.0), (lambda _: None)

    def write(self, line):
        """Prints a line; where other parts are beside this one, with all of its lines at its end.
        """
        if self.is_beside:
            self.lines.append(line)
        else:
            print(line, flush=True)

    def say(self, line):
        """Writes a line, and keeps it where it tells of a failure or of what was skipped."""
        self.write(line)
        if FAILURE.match(line):
            self.told.append(f"failed in {self.name}: {line}")
        elif line.startswith("SKIPPED"):
            self.told.append(f"in {self.name}: {line}")
        self.counts["failed"] += bool(BAD_EDIT.match(line))

    def take(self, test, again):
        """Takes it that a test which failed in this part has passed in another."""
        self.counts += Counter(passed=1)
        self.counts["failed"] -= 1
        failed = f"failed in {self.name}: FAILED {test}"
        self.told = [it for it in self.told if it.split(" - ")[0] != failed]
        self.told.append(f"UNSTEADY in {self.name}: {test} failed, and passed when it ran alone")
        self.wall, self.processor = self.wall + again.wall, self.processor + again.processor

    def run(self, running):
        """Runs its commands among others that are running."""
        begun = time.monotonic()
        self.write(f"== {self.name}")
        try:
            self.processor += self.begin(self.write)
            for command in self.commands:
                self.counts += self.tried(command, running)
            self.wall = time.monotonic() - begun
            self.write(f"{self.name}: {self.counts['passed']} passed,"
                       f" {self.counts['failed']} failed")
        finally:
            with PRINTING:
                print("".join(f"{it}\n" for it in self.lines), end="", flush=True)

    def tried(self, command, running):
        """Runs a command, and answers what its last line says that passed, failed and was
        skipped. One that says nothing of it, or that ended badly for another reason, failed."""
        words, last, counts = shlex.split(command), "", Counter()
        is_pytest = words[0].startswith("tests/")

        def heard(line):
            nonlocal last
            last = line
            self.say(line)
            self.hear(line)
        with (tempfile.TemporaryFile("w+", errors="replace") as told,
              tempfile.NamedTemporaryFile("r") as failures):
            first = [*self.first, *[*PYTEST, f"--failures={failures.name}"] * is_pytest]
            status, used = running.run([*first, *words], heard, cwd=TOP,
                                       stderr=told if self.is_beside else None)
            told.seek(0)
            for line in told:
                self.write(line.rstrip("\n"))
            self.failures += failures.read().splitlines()
        self.processor += used
        for number, kind in COUNTED.findall(last) if LAST.fullmatch(last) else ():
            counts["failed" if kind == "error" else kind] += int(number)
        if not counts or status and not counts["failed"]:
            self.say(f"FAIL {command}: it ended with status {status}, and its last line"
                     f" was: {last[:100]}")
            counts["failed"] = 1
        return counts


def run_again(parts, running):
    """Runs the tests of pytest that failed in these parts once more, alone, if they are few. What
    passes then counts as passed and is told as UNSTEADY: it failed for lack of time, or by a fault
    that comes and goes."""
    if sum(len(it.failures) for it in parts) > MOST_AGAIN:
        return
    for part in parts:
        for test in part.failures:
            again = Part(f"{part.name}, again", [shlex.join([test])])
            again.run(running)
            if again.counts == Counter(passed=1):
                part.take(test, again)


def run_lanes(lanes, running):
    """Runs lanes side by side, as many as there are processors; the parts of a lane run one after
    another."""
    def run(lane):
        for part in lane:
            part.run(running)
    with ThreadPoolExecutor(min(len(lanes), len(os.sched_getaffinity(0)))) as pool:
        try:
            for it in [pool.submit(run, lane) for lane in lanes]:
                it.result()
        except BaseException:
            running.end()
            raise
