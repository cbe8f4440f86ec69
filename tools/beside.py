# SPDX-License-Identifier: MIT
"""The archive of a static library, built beside the gate.

`rt ci` checks a static library and keeps no archive of it, so bin/build has to prove it once more.
As soon as the gate has proved it, or says that an earlier run did, all that was made of the crates
below is there, and bin/build can work on a copy: in the tree itself the gate locks the crates until
it ends. The archive is then put into the tree, and bin/build accepts it by its stamp.
"""
import os
import shutil
import subprocess
import sys
import tempfile
import threading
from pathlib import Path

from tools import kit
from tools.dist import modules
from tools.running import NoMore

TOP = Path(__file__).resolve().parent.parent
# What bin/build reads of each crate, and what it needs beside them.
SOURCES, ALSO = ("src", "specs", "proofs"), ("bin", "tools", "crates.txt", "HANDLES", "VERSION")
# The build gets what the gate leaves of the processors, and is the first to go where memory is
# short.
LOW = ["nice", "-n", "10", "choom", "-n", "1000", "--"]
# The status of a build that does not begin, as where memory is short, and in how many seconds it is
# tried again, as long as the gate goes on.
SHORT, LATER = 2, 60
# The first words of the gate behind which it puts what earlier runs left in place of what it made,
# and how long it may be, in seconds, until they are heard.
LAST_WORDS, HEARD = ("rt: ok", "rt: FAILED"), 1


class NotMade(Exception):
    """The archive was not built."""


def put(path, to):
    """Copies a file or a folder, where it is there, with the times by which bin/build goes."""
    if path.is_dir():
        shutil.copytree(path, to, ignore=shutil.ignore_patterns("__pycache__"))
    elif path.exists():
        to.parent.mkdir(parents=True, exist_ok=True)
        shutil.copy2(path, to)


class Archive:
    """The archive of a crate of the repository at `top`. It is built where the gate, whose lines
    are heard, says that it proved the crate."""

    def __init__(self, name, commands, top=TOP):
        self.name, self.commands, self.top, self.lines = name, commands, top, []
        self.thread, self.is_gate_over, self.processor = None, threading.Event(), 0.0
        archive = Path("crates", name, "out", f"lib{name}.a")
        self.made = dict.fromkeys([archive, archive.with_suffix(".a.stamp"),
                                   modules.assembler(crate=name)])

    def hear(self, line):
        proved, kept = f"rt: {self.name} proved", f"rt: {self.name} is kept"
        is_there = line == proved or line.startswith(kept)
        if is_there and self.thread is None:
            self.thread = threading.Thread(target=self.build)
            self.thread.start()
        elif line.startswith(LAST_WORDS):
            self.is_gate_over.set()

    def build(self):
        try:
            with tempfile.TemporaryDirectory(prefix="rrcache-beside-") as folder:
                self.copy(Path(folder))
                self.build_in(Path(folder))
        except (NotMade, NoMore, kit.NoKit, OSError, SystemExit) as fault:
            self.lines.append(f"{self.name} was not built beside the gate: {fault}")

    def copy(self, folder):
        """Copies what the archive is made of, which the gate lets stand until it ends."""
        crates = {it.name: it for it in kit.load().rtlib.crates_below(str(self.top))}
        places = [*ALSO, *(f"crates/{name}/{part}" for name in crates for part in SOURCES)]
        for below in crates[self.name].below():
            if not kit.made_by_ci(below):
                raise NotMade(f"the gate left no library of {below.name}")
            places.append(f"crates/{below.name}/out/rlib")
        for place in places:
            put(self.top / place, folder / place)
        if self.is_gate_over.wait(HEARD):
            raise NotMade("the gate ended first")

    def build_in(self, folder):
        words = [*LOW, sys.executable, folder / "bin" / "build", self.name]
        while True:
            self.lines.clear()
            status, used = self.commands.run(
                words, self.lines.append, cwd=folder, stderr=subprocess.STDOUT,
                env={**os.environ, "RT_JOBS": "1"})
            self.processor += used
            if status != SHORT or self.is_gate_over.wait(LATER):
                break
        if status:
            raise NotMade(f"status {status}")
        self.made = {it: (folder / it).read_bytes() for it in self.made}

    def take(self, write):
        """Once the gate has ended, puts the archive into the tree, or writes why it was not built.
        Answers the seconds that it took of the processors."""
        self.is_gate_over.set()
        if self.thread is None:
            return 0.0
        self.thread.join()
        if all(self.made.values()):
            for path, octets in self.made.items():
                (self.top / path).parent.mkdir(exist_ok=True)
                (self.top / path).write_bytes(octets)
        else:
            for line in self.lines:
                write(line)
        return self.processor
