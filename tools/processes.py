# SPDX-License-Identifier: MIT
"""How much processor time the prover's processes use, by the crate that they check."""
import os
import re
import threading
from collections import defaultdict
from pathlib import Path

TICKS = os.sysconf("SC_CLK_TCK")
# How often the processes are looked at: what one does behind the last look counts for nothing.
SECONDS = 1.0
CRATE = re.compile(rb"/rattle\0(check|build)\0.*--crate-name\0([^\0]+)\0", re.DOTALL)


def kind_of(command):
    """Whether the words of a check are those of a crate's proof, of its tests or of an edit."""
    if b"\0--test\0" in command:
        return "tests"
    return "edits" if b"/rt-edits-" in command else "proof"


class Aside(threading.Thread):
    """A thread that runs from when it is entered until it is left, which `is_over` tells it."""

    def __init__(self):
        super().__init__(daemon=True)
        self.is_over = threading.Event()

    def __enter__(self):
        self.start()
        return self

    def __exit__(self, *_):
        self.is_over.set()
        self.join()


class Watch(Aside):
    """Looks at the prover's processes until it is left. `crates` is the processor seconds of each
    crate by kind."""

    def __init__(self):
        super().__init__()
        self.seen = {}

    def look(self):
        for process in Path("/proc").glob("[0-9]*"):
            try:
                command = (process / "cmdline").read_bytes()
                if found := CRATE.search(command):
                    # In proc(5) from field 3 on: the times of the process and of the children that
                    # it waited for are fields 14 to 17, and when it began is 22.
                    fields = (process / "stat").read_bytes().rpartition(b")")[2].split()
                    used = sum(map(int, fields[11:15])) / TICKS
                    self.seen[process.name, fields[19]] = found[2].decode(), kind_of(command), used
            except OSError:
                # it has ended meanwhile
                continue

    @property
    def crates(self):
        found = defaultdict(lambda: defaultdict(float))
        for name, kind, used in self.seen.values():
            found[name][kind] += used
        return found

    def run(self):
        while not self.is_over.wait(SECONDS):
            self.look()
