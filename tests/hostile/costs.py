# SPDX-License-Identifier: MIT
"""What calls and programs take: octets of memory, and time of the processors."""
import ctypes
import os
import subprocess
import tempfile
import time
from typing import NamedTuple


class Memory(ctypes.Structure):
    """What mallinfo2 of glibc answers."""

    _fields_ = [("numbers", ctypes.c_size_t * 10)]


MALLINFO = ctypes.CDLL(None).mallinfo2
MALLINFO.restype = Memory


def memory():
    """How many octets the allocator has given out, of its own (uordblks) and mapped (hblkhd)."""
    numbers = MALLINFO().numbers
    return numbers[7] + numbers[4]


def timed(call, *arguments):
    """The milliseconds of processor time of a call, and what it answered."""
    start = time.thread_time()
    answer = call(*arguments)
    return 1000 * (time.thread_time() - start), answer


class Used(NamedTuple):
    """What a run of a program took: its exit status, the octets that it wrote, the most octets that
    it had in memory, and its seconds of the processors."""

    status: int
    written: int
    memory: int
    seconds: float


def used_by(words, text):
    """Runs a program with these octets for its standard input."""
    with tempfile.TemporaryFile() as source, tempfile.TemporaryFile() as report:
        source.write(text)
        source.seek(0)
        child = subprocess.Popen(words, stdin=source, stdout=report)
        _, status, used = os.wait4(child.pid, 0)
        child.returncode = os.waitstatus_to_exitcode(status)
        return Used(child.returncode, report.seek(0, os.SEEK_END), 1024 * used.ru_maxrss,
                    used.ru_utime + used.ru_stime)
