# SPDX-License-Identifier: MIT
"""Commands that run side by side, and end together if they are interrupted."""
import os
import signal
import subprocess
import threading
import time
from contextlib import suppress

# How long commands get to end by themselves, and behind each of these signals, in seconds. Ctrl-C
# came to them too; `rt ci` would go on with the checks that it began.
PATIENCE, SIGNALS = 3, (signal.SIGINT, signal.SIGTERM, signal.SIGKILL)


class NoMore(Exception):
    """No more commands are started."""


def has_ended(running):
    """Whether a process has ended, which is left to whoever waits for it."""
    try:
        return os.waitid(os.P_PID, running.pid, os.WEXITED | os.WNOHANG | os.WNOWAIT) is not None
    except ChildProcessError:
        return True


class Commands:
    """The commands that run. Those that still do when it is left are ended."""

    def __init__(self):
        self.running, self.turn, self.is_over = [], threading.Lock(), False

    def __enter__(self):
        return self

    def __exit__(self, *_):
        self.end()

    def start(self, words, **how):
        with self.turn:
            if self.is_over:
                raise NoMore
            self.running.append(subprocess.Popen(words, stdout=subprocess.PIPE, text=True,
                                                 errors="replace", **how))
            return self.running[-1]

    def run(self, words, hear, **how):
        """Runs a command, and hears each line that it prints. Answers its status, and the seconds
        that it took of the processors with all that it started and waited for."""
        running = self.start(words, **how)
        for line in running.stdout:
            hear(line.rstrip("\n"))
        _, status, used = os.wait4(running.pid, 0)
        with self.turn:
            self.running.remove(running)
        running.stdout.close()
        running.returncode = os.waitstatus_to_exitcode(status)
        return running.returncode, used.ru_utime + used.ru_stime

    def left(self):
        with self.turn:
            return [it for it in self.running if not has_ended(it)]

    def end(self):
        """Starts no more commands, and ends those that run."""
        with self.turn:
            self.is_over = True
        for sent in (None, *SIGNALS):
            for it in self.left() if sent else ():
                with suppress(ProcessLookupError):
                    os.kill(it.pid, sent)
            end = time.monotonic() + PATIENCE
            while self.left() and time.monotonic() < end:
                time.sleep(0.05)
